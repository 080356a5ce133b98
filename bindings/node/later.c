/* Calls that are answered by a promise: a thread of Node's pool makes them, and others go on meanwhile. */
#include "later.h"
#include <stdlib.h>

typedef struct {
    Call *call;
    napi_async_work work;
    napi_deferred promise;
    napi_ref given; /* keeps the text of the call */
    void *text;
    size_t size, needed;
    uint8_t *said;
    uint32_t status;
} Job;

static void make(napi_env env, void *data) {
    Job *job = data;
    (void)env;
    job->status = CEDAR_TOO_SMALL;
    for (size_t room = 4 * job->size + 4096; job->status == CEDAR_TOO_SMALL; room = job->needed) {
        free(job->said);
        job->said = malloc(room);
        job->status = job->said ? job->call(job->size ? job->text : (void *)"", job->size, job->said, room, &job->needed) : CEDAR_NO_MEMORY;
    }
}

static void finish(napi_env env, napi_status ended, void *data) {
    Job *job = data;
    napi_value result = 0, why = 0;
    const char *words = job->status == CEDAR_NO_TEXT ? "the call is no text in UTF-8" : "memory was refused";
    if (ended == napi_ok && job->status == CEDAR_ANSWERED) napi_create_buffer_copy(env, job->needed, job->said, 0, &result);
    if (result) {
        napi_resolve_deferred(env, job->promise, result);
    } else {
        napi_create_string_utf8(env, words, NAPI_AUTO_LENGTH, &why);
        napi_create_error(env, 0, why, &result);
        napi_reject_deferred(env, job->promise, result);
    }
    napi_delete_reference(env, job->given);
    napi_delete_async_work(env, job->work);
    free(job->said);
    free(job);
}

static napi_value fail_job(napi_env env, Job *job, const char *why) {
    free(job);
    napi_throw_error(env, 0, why);
    return 0;
}

napi_value answer_later(napi_env env, napi_callback_info info) {
    size_t count = 1;
    napi_value given, name, promise;
    void *call;
    bool is_buffer = false;
    Job *job = calloc(1, sizeof *job);
    if (!job) return fail_job(env, job, "memory was refused");
    if (napi_get_cb_info(env, info, &count, &given, 0, &call) != napi_ok) return fail_job(env, job, "the addon failed");
    if (count != 1 || napi_is_buffer(env, given, &is_buffer) != napi_ok || !is_buffer) return fail_job(env, job, "a Buffer is wanted");
    job->call = (Call *)call;
    if (napi_get_buffer_info(env, given, &job->text, &job->size) != napi_ok || napi_create_string_utf8(env, "cedar", NAPI_AUTO_LENGTH, &name) != napi_ok
        || napi_create_reference(env, given, 1, &job->given) != napi_ok || napi_create_promise(env, &job->promise, &promise) != napi_ok
        || napi_create_async_work(env, 0, name, make, finish, job, &job->work) != napi_ok || napi_queue_async_work(env, job->work) != napi_ok)
        return fail_job(env, job, "the addon failed");
    return promise;
}
