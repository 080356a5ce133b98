/* The addon: cc -shared -fPIC -I/usr/include/node cedar.c later.c schema.c -o cedar.node -lcedar */
#include "later.h"
#include "schema.h"
#include <stdlib.h>

napi_value fail(napi_env env, const char *why) {
    napi_throw_error(env, 0, why);
    return 0;
}

/* Each function takes a Buffer and answers one. The call that it makes is its data. */
static napi_value answer(napi_env env, napi_callback_info info) {
    size_t count = 1, size = 0, needed;
    void *text = 0, *call = 0;
    napi_value given, result = 0;
    bool is_buffer = false;
    if (napi_get_cb_info(env, info, &count, &given, 0, &call) != napi_ok) return fail(env, "the addon failed");
    if (count != 1 || napi_is_buffer(env, given, &is_buffer) != napi_ok || !is_buffer) return fail(env, "a Buffer is wanted");
    if (napi_get_buffer_info(env, given, &text, &size) != napi_ok) return fail(env, "the addon failed");
    for (size_t room = 4 * size + 4096;; room = needed) {
        uint8_t *said = malloc(room);
        if (!said) return fail(env, "memory was refused");
        uint32_t status = ((Call *)call)(size ? text : (void *)"", size, said, room, &needed);
        if (status == CEDAR_ANSWERED) napi_create_buffer_copy(env, needed, said, 0, &result);
        free(said);
        if (status == CEDAR_ANSWERED) return result;
        if (status != CEDAR_TOO_SMALL) return fail(env, status == CEDAR_NO_MEMORY ? "memory was refused" : "the call is no text in UTF-8");
    }
}

NAPI_MODULE_INIT() {
    static const struct { const char *name, *later; Call *call; } calls[] = {{"validate", "validateLater", cedar_validate},
        {"checkData", "checkDataLater", cedar_check_data}, {"typedConditions", "typedConditionsLater", cedar_typed_conditions}};
    if (cedar_abi() != CEDAR_ABI) return fail(env, "libcedar has another number of calls");
    for (size_t i = 0; i < sizeof calls / sizeof *calls; i++) {
        napi_value it;
        if (napi_create_function(env, calls[i].name, NAPI_AUTO_LENGTH, answer, (void *)calls[i].call, &it) != napi_ok
            || napi_set_named_property(env, exports, calls[i].name, it) != napi_ok
            || napi_create_function(env, calls[i].later, NAPI_AUTO_LENGTH, answer_later, (void *)calls[i].call, &it) != napi_ok
            || napi_set_named_property(env, exports, calls[i].later, it) != napi_ok) return fail(env, "the addon failed");
    }
    return add_schema_calls(env, exports) ? exports : fail(env, "the addon failed");
}
