/* Calls of the C library, so many times: library_calls validate|by|kept CALL SCHEMA ROOM TIMES. `by` opens the schema once and then makes
 * each call by the handle; `kept` fetches an answer that did not fit; `validate` makes such a call again. */
#include <cedar.h>
#include <stdio.h>
#include <stdlib.h>
#include <string.h>

static uint8_t text[1 << 24], schema_text[1 << 24], room[1 << 24];

static size_t read_file(const char *name, uint8_t *into) {
    FILE *file = fopen(name, "rb");
    if (!file) exit(2);
    size_t size = fread(into, 1, 1 << 24, file);
    fclose(file);
    return size;
}

int main(int count, char **words) {
    if (count != 6) return 2;
    size_t size = read_file(words[2], text), schema_size = read_file(words[3], schema_text), needed;
    size_t given = (size_t)atol(words[4]);
    int is_by = strcmp(words[1], "validate") != 0;
#if CEDAR_ABI > 1
    cedar_schema schema = {0};
    if (is_by && cedar_schema_open(&schema, schema_text, schema_size, room, sizeof room, &needed) != CEDAR_OPENED) return 3;
#else
    if (is_by) return 3;
    (void)schema_size;
#endif
    for (int i = atoi(words[5]); i > 0; i--) {
        uint32_t status;
#if CEDAR_ABI > 1
        if (is_by) {
            status = cedar_schema_validate(&schema, text, size, room, given, &needed);
            if (status == CEDAR_TOO_SMALL) status = cedar_schema_answer(&schema, room, sizeof room, &needed);
        } else
#endif
        {
            status = cedar_validate(text, size, room, given, &needed);
            if (status == CEDAR_TOO_SMALL) status = cedar_validate(text, size, room, sizeof room, &needed);
        }
        if (status) return 4;
    }
#if CEDAR_ABI > 1
    cedar_schema_close(&schema);
#endif
    return 0;
}
