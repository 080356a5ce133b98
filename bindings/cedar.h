/* cedar.h: a validator of Cedar policies. Link -lcedar (`pkg-config --libs cedar`), the shared library or the archive.
 *
 * Each call takes a text of JSON and answers one. Calls write no file, print nothing, start no thread and take no lock. Only an open
 * `cedar_schema` keeps something between calls, so any number of threads may call at once, but at most one by the same `cedar_schema`.
 * Memory is taken by the program's malloc, realloc and free. All of it is given back before a call returns, except what an open
 * `cedar_schema` holds. You must not call from a signal handler, nor in the forked child of a process with threads.
 *
 * Pointers must not be NULL, not even for a length of 0. `schema`, `call`, `answer` and `needed` must not overlap.
 *
 * Stack: a call fits a thread with a stack of 1 MiB at the depth that it has if it asks for none, as was measured for each kind of nesting.
 * A policy whose condition is deeper than the call allows is refused alone, before it is checked, and the others are answered. It is not read
 * at all if its brackets and operators nest more than four times the depth, or more than 400 deep and more than twice the depth. In JSON it is
 * not read if its objects and lists nest more than twice the depth and 16. A call that sets "depth" higher, up to 400, needs
 * CEDAR_STACK(depth) bytes. At a depth of 10 a call fits 256 KiB, if the types of its schema nest at most 100 deep.
 *
 * Proved, of a library that is built by a proof: each call is safe and returns, its status, `needed` and the buffer are as said
 * below; a policy that is accepted in Strict or in Permissive mode does not go wrong, at a level it needs the slice alone, and a level
 * that is said is the required one. Only tested: that the texts of schemas, policies and data mean what is read, and that the answer
 * says what was decided. */
#ifndef CEDAR_H
#define CEDAR_H
#include <stddef.h>
#include <stdint.h>
#ifdef __cplusplus
extern "C" {
#endif

/* What cedar_abi() answers. Another number means other signatures or statuses. */
#define CEDAR_ABI 2

/* The stack in bytes that a call takes at most whose "depth" is this. */
#define CEDAR_STACK(depth) ((size_t)786432 + (size_t)(depth) * 6144)

enum cedar_status {
    CEDAR_ANSWERED = 0,  /* the first *needed bytes of `answer` are the answer, in UTF-8, with no 0 behind them; the rest is as it was */
    CEDAR_TOO_SMALL = 1, /* `answer` is as it was: call again with *needed bytes */
    CEDAR_NO_MEMORY = 2, /* memory was refused; `answer` is as it was, *needed is 0, and nothing is decided */
    CEDAR_NO_TEXT = 3,   /* `call` is no UTF-8; `answer` is as it was, and *needed is 0 */
    CEDAR_OPENED = 4,    /* the handle is open; `answer` is as it was, and *needed is 0 */
    CEDAR_CLOSED = 5,    /* the handle is closed; `answer` is as it was, and *needed is 0 */
    CEDAR_NO_ANSWER = 6  /* the handle keeps no answer; `answer` is as it was, and *needed is 0 */
};

uint32_t cedar_abi(void);

/* Validates policies by a schema. `call` is a ValidationCall of Cedar's FFI, and the answer is a ValidationAnswer: the keys "schema",
 * "policies" and perhaps "validationSettings" with "mode". The settings may have three keys more: "level" (a number: a policy that may
 * dereference more entities is refused), "depth" (how deep a condition may be), and "details" (true: each error has "also" and
 * "environments", and the answer has "policies", each with "policyId", "accepted", "level" and "moreFindings"). Each error of an answer
 * that is a `failure` has `of`, the text that has its place ("call", "schema" or "policies"), and `policyId`, if one policy has it. */
uint32_t cedar_validate(const uint8_t *call, size_t call_len, uint8_t *answer, size_t answer_len, size_t *needed);

/* Checks data by a schema: the keys "schema" and perhaps "entities" and "request". The answer has of each that is there whether it
 * "conforms", the "count" of entities, and "errors". */
uint32_t cedar_check_data(const uint8_t *call, size_t call_len, uint8_t *answer, size_t answer_len, size_t *needed);

/* Answers the condition of a policy in each of its environments: the keys "schema", "policy" and perhaps "validationSettings". The
 * answer has "accepted", "validationErrors" and, where the policy is accepted, "conditions": each has "principalType", "action", "resourceType", the types of slots,
 * and "condition", an expression in Cedar's form of JSON that evaluates as the condition of the policy does there. */
uint32_t cedar_typed_conditions(const uint8_t *call, size_t call_len, uint8_t *answer, size_t answer_len, size_t *needed);

/* A handle: a schema that is read once, for many calls. `cedar_schema schema = {0};` is a closed one. Only the calls below may change
 * an open handle. A copy of it must not be used beside it, and its memory must not go before cedar_schema_close.
 *
 * Threads: at most one thread at a time may use a handle, because it counts references without atomics. Another thread may use it
 * next, if a lock or a join orders both. Two handles have nothing in common, so each thread may have its own. */
typedef struct cedar_schema {
    void *held;
    unsigned char is_open;
} cedar_schema;

/* Opens a handle with the schema of `call`, an object of "schema" alone. CEDAR_OPENED says that it is open. Any other status leaves the
 * handle as it was: the answer is a `failure`, which says why the schema cannot be read. An open handle takes the new schema, and what
 * it held before is freed. Who opens a handle must close it. */
uint32_t cedar_schema_open(cedar_schema *schema, const uint8_t *call, size_t call_len, uint8_t *answer, size_t answer_len, size_t *needed);

/* The calls above by an open handle, whose `call` has no "schema". If the status is CEDAR_TOO_SMALL, the handle keeps the answer, which
 * cedar_schema_answer hands over without computing it again. The next call that is answered, or too small, ends what was kept. */
uint32_t cedar_schema_validate(cedar_schema *schema, const uint8_t *call, size_t call_len, uint8_t *answer, size_t answer_len, size_t *needed);
uint32_t cedar_schema_check_data(cedar_schema *schema, const uint8_t *call, size_t call_len, uint8_t *answer, size_t answer_len, size_t *needed);
uint32_t cedar_schema_typed_conditions(cedar_schema *schema, const uint8_t *call, size_t call_len, uint8_t *answer, size_t answer_len, size_t *needed);

/* Hands over the answer that a handle keeps. It keeps the answer no longer once the status is CEDAR_ANSWERED. */
uint32_t cedar_schema_answer(cedar_schema *schema, uint8_t *answer, size_t answer_len, size_t *needed);

/* Closes a handle, and frees all that it holds. A closed handle stays closed. */
void cedar_schema_close(cedar_schema *schema);

#ifdef __cplusplus
}
#endif
#endif
