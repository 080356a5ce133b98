/* Schemas that are read once. A handle is a value of Node that is freed at the latest when nothing refers to it. */
#include "schema.h"
#include "../cedar.h"
#include <stdlib.h>

typedef uint32_t CallBy(cedar_schema *, const uint8_t *, size_t, uint8_t *, size_t, size_t *);

static void end(napi_env env, void *schema, void *none) {
    (void)env, (void)none;
    cedar_schema_close(schema);
    free(schema);
}

static napi_value refused(napi_env env, uint32_t status) {
    if (status == CEDAR_CLOSED) return fail(env, "the schema is closed");
    return fail(env, status == CEDAR_NO_MEMORY ? "memory was refused" : "the call is no text in UTF-8");
}

static bool is_text(napi_env env, napi_value given, void **text, size_t *size) {
    bool is_buffer = false;
    if (napi_is_buffer(env, given, &is_buffer) != napi_ok || !is_buffer || napi_get_buffer_info(env, given, text, size) != napi_ok) return false;
    if (!*size) *text = "";
    return true;
}

/* Takes a Buffer, and answers a handle, or a Buffer if the schema cannot be read: a `failure`. */
static napi_value open_schema(napi_env env, napi_callback_info info) {
    size_t count = 1, size = 0, needed = 4096;
    void *text = 0;
    napi_value given, result = 0;
    uint32_t status = CEDAR_TOO_SMALL;
    if (napi_get_cb_info(env, info, &count, &given, 0, 0) != napi_ok || count != 1 || !is_text(env, given, &text, &size)) return fail(env, "a Buffer is wanted");
    cedar_schema *schema = calloc(1, sizeof *schema);
    if (!schema) return fail(env, "memory was refused");
    while (status == CEDAR_TOO_SMALL) {
        size_t room = needed;
        uint8_t *said = malloc(room);
        status = said ? cedar_schema_open(schema, text, size, said, room, &needed) : CEDAR_NO_MEMORY;
        if (status == CEDAR_ANSWERED) napi_create_buffer_copy(env, needed, said, 0, &result);
        free(said);
    }
    if (status == CEDAR_OPENED && napi_create_external(env, schema, end, 0, &result) == napi_ok) return result;
    end(env, schema, 0);
    if (status == CEDAR_OPENED) return fail(env, "the addon failed");
    return status == CEDAR_ANSWERED ? result : refused(env, status);
}

/* Takes a handle and a Buffer, and answers a Buffer. The call that it makes is its data. */
static napi_value answer_by(napi_env env, napi_callback_info info) {
    size_t count = 2, size = 0, needed;
    void *text = 0, *call = 0, *schema = 0;
    napi_value given[2], result = 0;
    if (napi_get_cb_info(env, info, &count, given, 0, &call) != napi_ok || count != 2 || napi_get_value_external(env, given[0], &schema) != napi_ok)
        return fail(env, "a schema is wanted");
    if (!is_text(env, given[1], &text, &size)) return fail(env, "a Buffer is wanted");
    size_t room = 4 * size + 4096;
    uint8_t *said = malloc(room);
    uint32_t status = said ? ((CallBy *)call)(schema, text, size, said, room, &needed) : CEDAR_NO_MEMORY;
    if (status == CEDAR_TOO_SMALL) {
        free(said);
        said = malloc(room = needed);
        status = said ? cedar_schema_answer(schema, said, room, &needed) : CEDAR_NO_MEMORY;
    }
    if (status == CEDAR_ANSWERED) napi_create_buffer_copy(env, needed, said, 0, &result);
    free(said);
    return status == CEDAR_ANSWERED ? result : refused(env, status);
}

static napi_value close_schema(napi_env env, napi_callback_info info) {
    size_t count = 1;
    napi_value given;
    void *schema = 0;
    if (napi_get_cb_info(env, info, &count, &given, 0, 0) != napi_ok || count != 1 || napi_get_value_external(env, given, &schema) != napi_ok)
        return fail(env, "a schema is wanted");
    cedar_schema_close(schema);
    return 0;
}

bool add_schema_calls(napi_env env, napi_value exports) {
    static const struct { const char *name; napi_callback body; CallBy *call; } calls[] = {{"open", open_schema, 0},
        {"validateBy", answer_by, cedar_schema_validate}, {"checkDataBy", answer_by, cedar_schema_check_data},
        {"typedConditionsBy", answer_by, cedar_schema_typed_conditions}, {"close", close_schema, 0}};
    for (size_t i = 0; i < sizeof calls / sizeof *calls; i++) {
        napi_value it;
        if (napi_create_function(env, calls[i].name, NAPI_AUTO_LENGTH, calls[i].body, (void *)calls[i].call, &it) != napi_ok
            || napi_set_named_property(env, exports, calls[i].name, it) != napi_ok) return false;
    }
    return true;
}
