/* Refuses memory, for scripts/refused.py alone: it stands between crates/cedar_refused or crates/cedar_check and the C library.
   The program says what is to be refused by asking for blocks of sizes that nothing else asks for, and these are refused:
   BEGIN refuses each growth from there on, BEGIN + N the Nth growth alone, and END ends it. END is granted where nothing
   was refused in between. A block that shrinks is no growth. No call is allowed then that makes blocks in another way.
   Of a program that asks for none of these, the environment says what is to be refused: the growth of the number
   REFUSE_GROWTH of a line that it writes, of the line REFUSE_FIRST, counted from 0 on, and of each REFUSE_STEP lines later.
   Where REFUSE_GROWTH is 0, nothing is refused, and the growths of each line are told, each on a line of the error output. */
typedef unsigned long size;
extern void *__libc_malloc(size), *__libc_realloc(void *, size), *__libc_calloc(size, size), *__libc_memalign(size, size);
extern size malloc_usable_size(void *);
extern long write(int, const void *, size);
extern void _exit(int);
extern char *getenv(const char *);
extern long syscall(long, ...);
enum { END = 49999999, BEGIN = 50000000, MOST = 65535, NO_MEMORY = 12, INVALID = 22, WRITE = 1 };

static int at_work;
static size only, seen, refused;

static int is_word(size n) { return n >= END && n <= BEGIN + MOST; }

/* Whether the word is refused. */
static int answer(size n) {
    if (n == END) {
        at_work = 0;
        return refused > 0;
    }
    at_work = 1;
    only = n - BEGIN;
    seen = refused = 0;
    return 1;
}

/* The lines that are written, each with its growths. */
static int by_lines;
static size of_line, first, step, line, growths;

static size number(const char *name) {
    const char *digits = getenv(name);
    size n = 0;
    for (; digits && *digits >= '0' && *digits <= '9'; digits++) n = 10 * n + (size)(*digits - '0');
    return n;
}

__attribute__((constructor)) static void begin(void) {
    by_lines = getenv("REFUSE_GROWTH") != 0;
    of_line = number("REFUSE_GROWTH");
    step = number("REFUSE_STEP") ? number("REFUSE_STEP") : 1;
    first = number("REFUSE_FIRST");
}

static void tell(size n) {
    char digits[24];
    size at = sizeof digits;
    digits[--at] = '\n';
    do digits[--at] = (char)('0' + n % 10); while (n /= 10);
    syscall(WRITE, 2, digits + at, sizeof digits - at);
}

long write(int file, const void *bytes, size length) {
    if (by_lines && length && ((const char *)bytes)[length - 1] == '\n') {
        if (of_line == 0) tell(growths);
        growths = 0;
        line++;
    }
    return syscall(WRITE, file, bytes, length);
}

static int is_refused(void) {
    if (by_lines) return ++growths == of_line && line >= first && (line - first) % step == 0;
    if (!at_work || (++seen != only && only != 0)) return 0;
    refused++;
    return 1;
}

/* The C library gives a block up to 15 bytes more than it was asked for, and the smallest ones 24. */
static int shrinks(void *block, size n) {
    size room = block ? malloc_usable_size(block) : 0;
    return room > 24 && n + 16 <= room;
}

static void forbid(const char *message, size length) {
    if (!at_work) return;
    write(2, message, length);
    _exit(3);
}
#define FORBID(name) forbid(name " was called while memory is refused\n", sizeof(name " was called while memory is refused\n") - 1)

void *malloc(size n) {
    if (is_word(n) ? answer(n) : is_refused()) return 0;
    return __libc_malloc(n);
}

void *realloc(void *block, size n) {
    if (!shrinks(block, n) && is_refused()) return 0;
    return __libc_realloc(block, n);
}

void *calloc(size count, size n) {
    FORBID("calloc");
    return __libc_calloc(count, n);
}

void *reallocarray(void *block, size count, size n) {
    FORBID("reallocarray");
    return n && count > -1UL / n ? 0 : __libc_realloc(block, count * n);
}

void *aligned_alloc(size alignment, size n) {
    FORBID("aligned_alloc");
    return __libc_memalign(alignment, n);
}

void *memalign(size alignment, size n) {
    FORBID("memalign");
    return __libc_memalign(alignment, n);
}

int posix_memalign(void **block, size alignment, size n) {
    FORBID("posix_memalign");
    if (alignment % sizeof(void *) || (alignment & (alignment - 1))) return INVALID;
    *block = __libc_memalign(alignment, n);
    return *block ? 0 : NO_MEMORY;
}
