#include "../cedar.h"
#include <node_api.h>

typedef uint32_t Call(const uint8_t *, size_t, uint8_t *, size_t, size_t *);

/* Takes a Buffer, which must not change meanwhile, and answers a promise of one. The call that it makes is its data. */
napi_value answer_later(napi_env env, napi_callback_info info);
