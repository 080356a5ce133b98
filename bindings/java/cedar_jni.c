/* cc -shared -fPIC -I$JAVA_HOME/include -I$JAVA_HOME/include/linux cedar_jni.c -o libcedar_jni.so -lcedar */
#include "../cedar.h"
#include <jni.h>
#include <stdlib.h>

typedef uint32_t Call(const uint8_t *, size_t, uint8_t *, size_t, size_t *);
typedef uint32_t CallBy(cedar_schema *, const uint8_t *, size_t, uint8_t *, size_t, size_t *);

static jbyteArray fail(JNIEnv *env, const char *name, const char *why) {
    jclass it = (*env)->FindClass(env, name);
    if (it) (*env)->ThrowNew(env, it, why);
    return 0;
}

static jbyteArray refused(JNIEnv *env, uint32_t status) {
    if (status == CEDAR_NO_MEMORY) return fail(env, "java/lang/OutOfMemoryError", "memory was refused");
    if (status == CEDAR_NO_TEXT) return fail(env, "java/lang/IllegalArgumentException", "the call is no text in UTF-8");
    return status == CEDAR_CLOSED ? fail(env, "java/lang/IllegalStateException", "the schema is closed") : 0;
}

static jbyteArray bytes(JNIEnv *env, const uint8_t *answer, size_t size) {
    jbyteArray result = (*env)->NewByteArray(env, (jsize)size);
    if (result) (*env)->SetByteArrayRegion(env, result, 0, (jsize)size, (const jbyte *)answer);
    return result;
}

JNIEXPORT jint JNICALL Java_carrotknife_cedar_Cedar_abi(JNIEnv *env, jclass of) {
    (void)env, (void)of;
    return (jint)cedar_abi();
}

JNIEXPORT jbyteArray JNICALL Java_carrotknife_cedar_Cedar_answer(JNIEnv *env, jclass of, jint number, jbyteArray given) {
    static Call *const calls[] = {cedar_validate, cedar_check_data, cedar_typed_conditions};
    size_t size = (size_t)(*env)->GetArrayLength(env, given), needed;
    uint32_t status = CEDAR_TOO_SMALL;
    jbyteArray result = 0;
    (void)of;
    jbyte *text = (*env)->GetByteArrayElements(env, given, 0);
    if (!text) return 0;
    for (size_t room = 4 * size + 4096; status == CEDAR_TOO_SMALL; room = needed) {
        uint8_t *answer = malloc(room);
        status = answer ? calls[number]((uint8_t *)text, size, answer, room, &needed) : CEDAR_NO_MEMORY;
        if (status == CEDAR_ANSWERED) result = bytes(env, answer, needed);
        free(answer);
    }
    (*env)->ReleaseByteArrayElements(env, given, text, JNI_ABORT);
    return result ? result : refused(env, status);
}

/* A handle, whose address Java has as a number. It is 0 if memory is refused. */
JNIEXPORT jlong JNICALL Java_carrotknife_cedar_Schema_closed(JNIEnv *env, jclass of) {
    (void)env, (void)of;
    return (jlong)(intptr_t)calloc(1, sizeof(cedar_schema));
}

/* Opens a handle: the answer is null, or a `failure` if the schema cannot be read. */
JNIEXPORT jbyteArray JNICALL Java_carrotknife_cedar_Schema_open(JNIEnv *env, jclass of, jlong at, jbyteArray given) {
    cedar_schema *schema = (cedar_schema *)(intptr_t)at;
    size_t size = (size_t)(*env)->GetArrayLength(env, given), needed = 4096;
    uint32_t status = CEDAR_TOO_SMALL;
    jbyteArray result = 0;
    (void)of;
    jbyte *text = (*env)->GetByteArrayElements(env, given, 0);
    if (!text) return 0;
    while (status == CEDAR_TOO_SMALL) {
        size_t room = needed;
        uint8_t *answer = malloc(room);
        status = answer ? cedar_schema_open(schema, (uint8_t *)text, size, answer, room, &needed) : CEDAR_NO_MEMORY;
        if (status == CEDAR_ANSWERED) result = bytes(env, answer, needed);
        free(answer);
    }
    (*env)->ReleaseByteArrayElements(env, given, text, JNI_ABORT);
    return result || status == CEDAR_OPENED ? result : refused(env, status);
}

JNIEXPORT jbyteArray JNICALL Java_carrotknife_cedar_Schema_answer(JNIEnv *env, jclass of, jlong at, jint number, jbyteArray given) {
    static CallBy *const calls[] = {cedar_schema_validate, cedar_schema_check_data, cedar_schema_typed_conditions};
    cedar_schema *schema = (cedar_schema *)(intptr_t)at;
    size_t size = (size_t)(*env)->GetArrayLength(env, given), needed, room = 4 * size + 4096;
    jbyteArray result = 0;
    (void)of;
    jbyte *text = (*env)->GetByteArrayElements(env, given, 0);
    if (!text) return 0;
    uint8_t *answer = malloc(room);
    uint32_t status = answer ? calls[number](schema, (uint8_t *)text, size, answer, room, &needed) : CEDAR_NO_MEMORY;
    if (status == CEDAR_TOO_SMALL) {
        free(answer);
        answer = malloc(room = needed);
        status = answer ? cedar_schema_answer(schema, answer, room, &needed) : CEDAR_NO_MEMORY;
    }
    if (status == CEDAR_ANSWERED) result = bytes(env, answer, needed);
    free(answer);
    (*env)->ReleaseByteArrayElements(env, given, text, JNI_ABORT);
    return result ? result : refused(env, status);
}

JNIEXPORT void JNICALL Java_carrotknife_cedar_Schema_close(JNIEnv *env, jclass of, jlong at) {
    (void)env, (void)of;
    cedar_schema_close((cedar_schema *)(intptr_t)at);
    free((cedar_schema *)(intptr_t)at);
}
