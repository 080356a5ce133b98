/* Whether calls fit a thread of so many KiB of stack: stack KIB CALL FILE.., each in a process of its own. CALL is `validate`,
 * `check-data`, `typed-conditions`, `schema-open`, which closes the schema too, or `schema-validate`, whose first file has the schema. */
#include "../cedar.h"
#include <pthread.h>
#include <stdio.h>
#include <stdlib.h>
#include <string.h>
#include <sys/wait.h>
#include <unistd.h>

static uint8_t text[1 << 22], schema_text[1 << 22], room[1 << 22];
static size_t size, schema_size;
static uint32_t (*call)(const uint8_t *, size_t, uint8_t *, size_t, size_t *);

static uint32_t open_and_close(const uint8_t *given, size_t length, uint8_t *said, size_t most, size_t *needed) {
    cedar_schema schema = {0};
    uint32_t status = cedar_schema_open(&schema, given, length, said, most, needed);
    cedar_schema_close(&schema);
    return status == CEDAR_OPENED ? CEDAR_ANSWERED : status;
}

static uint32_t validate_by(const uint8_t *given, size_t length, uint8_t *said, size_t most, size_t *needed) {
    cedar_schema schema = {0};
    if (cedar_schema_open(&schema, schema_text, schema_size, said, most, needed) != CEDAR_OPENED) return CEDAR_CLOSED;
    uint32_t status = cedar_schema_validate(&schema, given, length, said, most, needed);
    cedar_schema_close(&schema);
    return status;
}

static size_t read_file(const char *name, uint8_t *into) {
    FILE *file = fopen(name, "rb");
    if (!file) exit(2);
    size_t read = fread(into, 1, sizeof text, file);
    fclose(file);
    return read;
}

static void *answer(void *status) {
    size_t needed;
    *(uint32_t *)status = call(text, size, room, sizeof room, &needed);
    return 0;
}

static int in_thread(size_t kib) {
    pthread_t thread;
    pthread_attr_t attributes;
    uint32_t status = 9;
    pthread_attr_init(&attributes);
    if (pthread_attr_setstacksize(&attributes, kib << 10) || pthread_create(&thread, &attributes, answer, &status)) return 9;
    pthread_join(thread, 0);
    return (int)status;
}

int main(int count, char **words) {
    int failed = 0;
    if (count < 3) return 2;
    call = !strcmp(words[2], "validate") ? cedar_validate : !strcmp(words[2], "check-data") ? cedar_check_data : cedar_typed_conditions;
    if (!strcmp(words[2], "schema-open")) call = open_and_close;
    int is_by = !strcmp(words[2], "schema-validate");
    if (is_by && count > 3) call = validate_by, schema_size = read_file(words[3], schema_text);
    for (int i = 3 + is_by; i < count; i++) {
        size = read_file(words[i], text);
        int status;
        pid_t child = fork();
        if (child == 0) _exit(in_thread((size_t)atol(words[1])));
        waitpid(child, &status, 0);
        if (!WIFEXITED(status) || WEXITSTATUS(status) != CEDAR_ANSWERED) {
            printf("%s: does not fit\n", words[i]);
            failed = 1;
        }
    }
    return failed;
}
