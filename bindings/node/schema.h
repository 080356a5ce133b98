#include <node_api.h>
#include <stdbool.h>

/* Throws an error, and answers nothing. */
napi_value fail(napi_env env, const char *why);

/* Adds the calls by a handle to the exports: open, validateBy, checkDataBy, typedConditionsBy and close. */
bool add_schema_calls(napi_env env, napi_value exports);
