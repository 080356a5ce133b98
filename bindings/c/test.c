/* The library called from C: sizes, odd texts, many calls, handles, four threads. The texts of calls and of answers are tested by the Python
 * package; here it is memory. */
#include "../cedar.h"
#include <assert.h>
#include <malloc.h>
#include <pthread.h>
#include <stdio.h>
#include <stdlib.h>
#include <string.h>

static const char GOOD[] =
    "{\"schema\":\"entity U{a?:Long};action v appliesTo{principal:U,resource:U};\",\"policies\":{\"staticPolicies\":"
    "{\"x\":\"permit(principal,action,resource) when {principal.a == 1};\",\"y\":\"forbid(principal,action,resource);\"}}}";
enum { ROOM = 1 << 16, CALLS = 10000, THREADS = 4 };
static uint8_t room[ROOM];
static char first[ROOM];

static uint32_t call(const void *text, size_t size, size_t *needed) {
    return cedar_validate(text, size, room, sizeof room, needed);
}

static int fails(const void *text, size_t size) {
    size_t needed;
    return call(text, size, &needed) == CEDAR_ANSWERED && !memcmp(room, "{\"type\":\"failure\"", 17);
}

static void sizes(void) {
    size_t size, needed;
    assert(call(GOOD, strlen(GOOD), &size) == CEDAR_ANSWERED && size < ROOM);
    memcpy(first, room, size);
    assert(strstr(first, "\"policyId\":\"x\"") && !strstr(first, "\"policyId\":\"y\""));
    memset(room, 9, sizeof room);
    for (size_t small = 0; small < size; small++) {
        assert(cedar_validate((const uint8_t *)GOOD, strlen(GOOD), room, small, &needed) == CEDAR_TOO_SMALL);
        assert(needed == size && room[0] == 9);
    }
    assert(cedar_validate((const uint8_t *)GOOD, strlen(GOOD), room, size, &needed) == CEDAR_ANSWERED && room[size] == 9);
}

static void odd_texts(void) {
    size_t needed = 7, most = ((size_t)1 << 26) + 1;
    memset(room, 9, sizeof room);
    assert(call("\xff{}", 3, &needed) == CEDAR_NO_TEXT && needed == 0 && room[0] == 9);
    assert(cedar_check_data((const uint8_t *)"\xff", 1, room, sizeof room, &needed) == CEDAR_NO_TEXT);
    assert(cedar_typed_conditions((const uint8_t *)"\xff", 1, room, sizeof room, &needed) == CEDAR_NO_TEXT);
    assert(fails("", 0));
    char *huge = malloc(most);
    for (const char *fill = "[ x\""; *fill; fill++) {
        memset(huge, *fill, most);
        assert(fails(huge, most) && fails(huge, most - 1) && fails(huge, 1 << 20));
    }
    free(huge);
}

static void *many(void *failed) {
    uint8_t *mine = malloc(ROOM);
    size_t needed;
    for (int i = 0; i < CALLS / THREADS; i++)
        if (cedar_validate((const uint8_t *)GOOD, strlen(GOOD), mine, ROOM, &needed) || needed != strlen(first) || memcmp(mine, first, needed))
            *(int *)failed = 1;
    free(mine);
    return 0;
}

static const char SCHEMA[] = "{\"schema\":\"entity U{a?:Long};action v appliesTo{principal:U,resource:U};\"}";
static const char BY[] = "{\"policies\":{\"staticPolicies\":{\"x\":\"permit(principal,action,resource) when {principal.a == 1};\",\"y\":"
    "\"forbid(principal,action,resource);\"}}}";
enum { NEEDED = 7 };

static uint32_t open_schema(cedar_schema *schema, const char *text, size_t *needed) {
    return cedar_schema_open(schema, (const uint8_t *)text, strlen(text), room, sizeof room, needed);
}

static uint32_t by(cedar_schema *schema, uint8_t *answer, size_t size, size_t *needed) {
    return cedar_schema_validate(schema, (const uint8_t *)BY, strlen(BY), answer, size, needed);
}

/* A status that leaves the buffer as it was, and needs nothing. */
static void is_left(uint32_t status, uint32_t wanted, const size_t *needed) {
    assert(status == wanted && *needed == 0 && room[0] == 9 && room[ROOM - 1] == 9);
}

/* Each call by a closed handle. */
static void closed(cedar_schema *schema) {
    size_t needed = NEEDED;
    const uint8_t *text = (const uint8_t *)BY;
    memset(room, 9, sizeof room);
    is_left(cedar_schema_validate(schema, text, strlen(BY), room, sizeof room, &needed), CEDAR_CLOSED, &needed);
    needed = NEEDED;
    is_left(cedar_schema_check_data(schema, text, strlen(BY), room, sizeof room, &needed), CEDAR_CLOSED, &needed);
    needed = NEEDED;
    is_left(cedar_schema_typed_conditions(schema, text, strlen(BY), room, sizeof room, &needed), CEDAR_CLOSED, &needed);
    needed = NEEDED;
    is_left(cedar_schema_answer(schema, room, sizeof room, &needed), CEDAR_CLOSED, &needed);
    cedar_schema_close(schema);
    assert(!schema->is_open);
}

static void no_schema(cedar_schema *schema) {
    size_t needed = NEEDED;
    is_left(cedar_schema_open(schema, (const uint8_t *)"\xff", 1, room, sizeof room, &needed), CEDAR_NO_TEXT, &needed);
    assert(cedar_schema_open(schema, (const uint8_t *)"{}", 2, room, 1, &needed) == CEDAR_TOO_SMALL && needed > 1 && room[0] == 9);
    assert(open_schema(schema, "{\"schema\":\"entity\"}", &needed) == CEDAR_ANSWERED && !memcmp(room, "{\"type\":\"failure\"", 17));
    assert(open_schema(schema, GOOD, &needed) == CEDAR_ANSWERED && !memcmp(room, "{\"type\":\"failure\"", 17));
    assert(open_schema(schema, "", &needed) == CEDAR_ANSWERED && !memcmp(room, "{\"type\":\"failure\"", 17));
}

/* Calls by an open handle answer what a call answers that names the schema. */
static void answers_by(cedar_schema *schema) {
    size_t needed, size = strlen(first);
    for (int i = 0; i < 3; i++) assert(by(schema, room, sizeof room, &needed) == CEDAR_ANSWERED && needed == size && !memcmp(room, first, size));
    memset(room, 9, sizeof room);
    is_left(cedar_schema_validate(schema, (const uint8_t *)"\xff", 1, room, sizeof room, &needed), CEDAR_NO_TEXT, &needed);
    is_left(cedar_schema_answer(schema, room, sizeof room, &needed), CEDAR_NO_ANSWER, &needed);
    for (size_t small = 0; small < size; small += 7) {
        assert(by(schema, room, small, &needed) == CEDAR_TOO_SMALL && needed == size && room[0] == 9);
        assert(cedar_schema_answer(schema, room, size - 1, &needed) == CEDAR_TOO_SMALL && needed == size && room[0] == 9);
        is_left(cedar_schema_validate(schema, (const uint8_t *)"\xff", 1, room, sizeof room, &needed), CEDAR_NO_TEXT, &needed);
        assert(cedar_schema_answer(schema, room, size, &needed) == CEDAR_ANSWERED && needed == size && !memcmp(room, first, size) && room[size] == 9);
        memset(room, 9, sizeof room);
        is_left(cedar_schema_answer(schema, room, sizeof room, &needed), CEDAR_NO_ANSWER, &needed);
    }
    /* another call that is answered ends what was kept */
    assert(by(schema, room, 0, &needed) == CEDAR_TOO_SMALL);
    assert(cedar_schema_check_data(schema, (const uint8_t *)"{}", 2, room, sizeof room, &needed) == CEDAR_ANSWERED);
    memset(room, 9, sizeof room);
    is_left(cedar_schema_answer(schema, room, sizeof room, &needed), CEDAR_NO_ANSWER, &needed);
}

static void handles(void) {
    cedar_schema schema = {0}, other = {0};
    size_t needed = NEEDED, before = mallinfo2().uordblks;
    closed(&schema);
    no_schema(&schema);
    closed(&schema);
    is_left(open_schema(&schema, SCHEMA, &needed), CEDAR_OPENED, &needed);
    answers_by(&schema);
    memset(room, 9, sizeof room);
    no_schema(&schema);
    answers_by(&schema);
    /* an open handle takes another schema, and has nothing in common with another handle */
    assert(open_schema(&other, "{\"schema\":\"entity V;\"}", &needed) == CEDAR_OPENED && by(&schema, room, 0, &needed) == CEDAR_TOO_SMALL);
    assert(open_schema(&schema, SCHEMA, &needed) == CEDAR_OPENED && cedar_schema_answer(&schema, room, sizeof room, &needed) == CEDAR_NO_ANSWER);
    answers_by(&schema);
    assert(by(&other, room, 0, &needed) == CEDAR_TOO_SMALL);
    cedar_schema_close(&other);
    closed(&other);
    answers_by(&schema);
    cedar_schema_close(&schema);
    closed(&schema);
    assert(mallinfo2().uordblks == before);
}

static cedar_schema shared;
static pthread_mutex_t turn = PTHREAD_MUTEX_INITIALIZER;

/* A handle of this thread's own, and one that threads use in turn. */
static void *many_by(void *failed) {
    uint8_t *mine = malloc(ROOM);
    cedar_schema own = {0};
    size_t needed;
    if (cedar_schema_open(&own, (const uint8_t *)SCHEMA, strlen(SCHEMA), mine, ROOM, &needed) != CEDAR_OPENED) *(int *)failed = 1;
    for (int i = 0; i < CALLS / THREADS; i++) {
        if (by(&own, mine, ROOM, &needed) || needed != strlen(first) || memcmp(mine, first, needed)) *(int *)failed = 1;
        pthread_mutex_lock(&turn);
        if (by(&shared, mine, 1, &needed) != CEDAR_TOO_SMALL || cedar_schema_answer(&shared, mine, ROOM, &needed) || memcmp(mine, first, needed))
            *(int *)failed = 1;
        pthread_mutex_unlock(&turn);
    }
    cedar_schema_close(&own);
    free(mine);
    return 0;
}

static void memory(void) {
    size_t needed, before = mallinfo2().uordblks;
    for (int i = 0; i < CALLS; i++) assert(call(GOOD, strlen(GOOD), &needed) == CEDAR_ANSWERED);
    assert(mallinfo2().uordblks == before);
}

static void threads(void *(*body)(void *)) {
    pthread_t thread[THREADS];
    int failed[THREADS] = {0};
    for (int i = 0; i < THREADS; i++) assert(!pthread_create(&thread[i], 0, body, &failed[i]));
    for (int i = 0; i < THREADS; i++) assert(!pthread_join(thread[i], 0) && !failed[i]);
}

int main(void) {
    assert(cedar_abi() == CEDAR_ABI);
    sizes();
    odd_texts();
    memory();
    handles();
    threads(many);
    size_t needed;
    assert(open_schema(&shared, SCHEMA, &needed) == CEDAR_OPENED);
    threads(many_by);
    cedar_schema_close(&shared);
    puts("sizes, odd texts, memory, handles, threads: ok");
    return 0;
}
