/* Calls of which the first growth of memory is refused, then the second, and so on: refused CALL FILE [SCHEMA], where CALL is `validate`,
 * `check-data`, `typed-conditions` or `schema-open`. With a file SCHEMA, an open handle makes the call, whose answer does not fit, and is
 * kept. Each refusal has to be a status that leaves the answer as it was and gives all memory back. */
#include "../cedar.h"
#include <malloc.h>
#include <stdio.h>
#include <stdlib.h>
#include <string.h>

extern void *__libc_malloc(size_t);
extern void *__libc_realloc(void *, size_t);
static long at, seen;

static int is_refused(void) { return at && ++seen == at; }
void *malloc(size_t size) { return is_refused() ? 0 : __libc_malloc(size); }
void *realloc(void *block, size_t size) {
    size_t had = block ? malloc_usable_size(block) : 0;
    return size > had && is_refused() ? 0 : __libc_realloc(block, size);
}

typedef uint32_t Call(const uint8_t *, size_t, uint8_t *, size_t, size_t *);
typedef uint32_t CallBy(cedar_schema *, const uint8_t *, size_t, uint8_t *, size_t, size_t *);
static uint8_t text[1 << 20], schema_text[1 << 20], room[1 << 20];
static size_t size;
static cedar_schema schema;
static const struct { const char *name; Call *call; CallBy *by; } calls[] = {{"validate", cedar_validate, cedar_schema_validate},
    {"check-data", cedar_check_data, cedar_schema_check_data}, {"typed-conditions", cedar_typed_conditions, cedar_schema_typed_conditions}};

static size_t read_file(const char *name, uint8_t *into) {
    FILE *file = fopen(name, "rb");
    if (!file) exit(2);
    size_t read = fread(into, 1, sizeof text, file);
    fclose(file);
    return read;
}

static uint32_t call(const char *name, int is_by, size_t *needed) {
    for (size_t i = 0; i < sizeof calls / sizeof *calls; i++) {
        if (strcmp(name, calls[i].name)) continue;
        return is_by ? calls[i].by(&schema, text, size, room, 1, needed) : calls[i].call(text, size, room, sizeof room, needed);
    }
    return cedar_schema_open(&schema, text, size, room, sizeof room, needed);
}

int main(int count, char **words) {
    if (count != 3 && count != 4) return 2;
    size_t needed;
    size = read_file(words[2], text);
    if (count == 4 && cedar_schema_open(&schema, schema_text, read_file(words[3], schema_text), room, sizeof room, &needed) != CEDAR_OPENED) return 2;
    uint32_t wanted = count == 4 ? CEDAR_TOO_SMALL : strcmp(words[1], "schema-open") ? CEDAR_ANSWERED : CEDAR_OPENED;
    memset(room, 9, sizeof room);
    for (long number = 1;; number++) {
        size_t before = mallinfo2().uordblks;
        at = number, seen = 0;
        uint32_t status = call(words[1], count == 4, &needed);
        at = 0;
        if (status == wanted) cedar_schema_close(&schema);
        if (status == wanted) return printf("%ld growths refused: ok\n", number - 1), 0;
        if (mallinfo2().uordblks != before) return printf("growth %ld: memory is not given back\n", number), 1;
        if (status != CEDAR_NO_MEMORY || needed || room[0] != 9) return printf("growth %ld: status %u\n", number, status), 1;
    }
}
