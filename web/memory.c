// What the module of libcedar needs of a machine, in WebAssembly with a 64-bit memory: memory, by free lists of powers of two, and
// products of 128 bits. The module names `write`, `rattle_errno` and `__sysv_signal` too, but no call reaches them.
typedef unsigned long size;
typedef unsigned __int128 wide;
typedef struct { long is_some; void *at; } maybe;
typedef struct block { struct block *next; } block;

#define PAGE 65536ul
// A block begins with the number of its list.
#define HEAD 16ul

extern unsigned char __heap_base;
static size next;
static block *lists[64];

// The number of the list whose blocks hold so many bytes, each of two to this power.
static int list_of(size bytes) {
    int number = 5;
    while (((size)1 << number) - HEAD < bytes) number++;
    return number;
}

// Memory of so many bytes, or 0 where it is refused.
void *cedar_room(size bytes) {
    if (bytes > (size)1 << 40) return 0;
    int number = list_of(bytes);
    block *found = lists[number];
    if (found) {
        lists[number] = found->next;
    } else {
        if (!next) next = ((size)&__heap_base + 15) & ~15ul;
        size end = next + ((size)1 << number), have = __builtin_wasm_memory_size(0) * PAGE;
        // (a memory that grows by more than it needs grows less often)
        if (end > have && __builtin_wasm_memory_grow(0, (end - have + PAGE - 1) / PAGE + 64) == (size)-1
            && __builtin_wasm_memory_grow(0, (end - have + PAGE - 1) / PAGE) == (size)-1) return 0;
        found = (block *)next;
        next = end;
    }
    *(size *)found = (size)number;
    return (char *)found + HEAD;
}

void cedar_give(void *given) {
    if (!given) return;
    block *it = (block *)((char *)given - HEAD);
    size number = *(size *)it;
    it->next = lists[number];
    lists[number] = it;
}

static maybe some(void *at) { return (maybe){at != 0, at}; }

// An alignment beyond 16 is that of no value of the module.
maybe rattle_alloc(size bytes, size align) { return align > HEAD ? some(0) : some(cedar_room(bytes)); }

maybe rattle_realloc(void *old, size had, size bytes, size align) {
    size number = *(size *)((char *)old - HEAD);
    if (((size)1 << number) - HEAD >= bytes) return some(old);
    maybe it = rattle_alloc(bytes, align);
    if (it.is_some) {
        __builtin_memcpy(it.at, old, had < bytes ? had : bytes);
        cedar_give(old);
    }
    return it;
}

void rattle_dealloc(void *given) { cedar_give(given); }

int rattle_errno(void) { return 0; }
long write(int file, const void *text, long bytes) { (void)file, (void)text; return bytes; }
long __sysv_signal(int number, long way) { (void)number, (void)way; return 0; }

wide __multi3(wide a, wide b) {
    const size half = 0xfffffffful;
    size al = (size)a, ah = (size)(a >> 64), bl = (size)b, bh = (size)(b >> 64);
    size low = (al & half) * (bl & half), left = (al >> 32) * (bl & half), right = (al & half) * (bl >> 32);
    size middle = (low >> 32) + (left & half) + (right & half);
    size high = (al >> 32) * (bl >> 32) + (left >> 32) + (right >> 32) + (middle >> 32) + ah * bl + al * bh;
    return ((wide)high << 64) | (middle << 32) | (low & half);
}
