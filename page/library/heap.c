/*
 * Memory for the library where there is no C library: the three functions by which it asks, and two for whoever calls it.
 *
 * A block is in a class of sizes, four of them to each doubling, so that at most a fifth of it lies idle. What is freed waits in
 * its class for the next block of that class; what is not there is cut from the end of all. Each block begins at a multiple of 16,
 * after a word that names its class. Where the machine gives no more memory the answer says so, and nothing else changes.
 */
#ifdef __wasm__
/* (the kit has no headers for this target) */
#define NULL ((void *) 0)
typedef __SIZE_TYPE__ size_t;
typedef __UINT64_TYPE__ uint64_t;
typedef __UINTPTR_TYPE__ uintptr_t;
#else
#include <stddef.h>
#include <stdint.h>
#endif

enum { ALIGN = 16, HEAD = 16, CLASSES = 160 };

/* As no answer of malloc can be, a block is smaller than this. */
static const uint64_t LARGEST = (uint64_t) 1 << 40;

#ifdef __wasm__
static const uint64_t PAGE = 65536, GROWN = 64;
extern unsigned char __heap_base;

static uintptr_t heap_start(void)
{
    return (uintptr_t) &__heap_base;
}

/* The end of memory, grown by a few pages at least where that is possible, so that `end` lies before it; otherwise as it was. */
static uintptr_t heap_end(uintptr_t end)
{
    uint64_t pages = __builtin_wasm_memory_size(0), due = (end + PAGE - 1) / PAGE;
    if (due > pages && __builtin_wasm_memory_grow(0, due - pages < GROWN ? GROWN : due - pages) == (size_t) -1)
        __builtin_wasm_memory_grow(0, due - pages);
    return (uintptr_t) (__builtin_wasm_memory_size(0) * PAGE);
}
#else
uintptr_t heap_start(void);
uintptr_t heap_end(uintptr_t end);
#endif

struct answer {
    uint64_t ok;
    void *block;
};

static void *freed[CLASSES];
static uintptr_t top;

/* The class of a size, from 64 bytes on, and how large its blocks are. */
static unsigned class_of(uint64_t size)
{
    unsigned power = 63 - (unsigned) __builtin_clzll(size | 64), quarter;
    uint64_t step = (uint64_t) 1 << (power - 2);
    for (quarter = 0; (4 + quarter) * step < size; quarter++)
        ;
    return 4 * (power - 6) + quarter;
}

static uint64_t size_of(unsigned number)
{
    return (uint64_t) (4 + number % 4) << (number / 4 + 4);
}

static unsigned *class_before(void *block)
{
    return (unsigned *) ((char *) block - HEAD);
}

void *px_malloc(size_t size)
{
    unsigned number;
    void *block;
    if (size > LARGEST)
        return NULL;
    number = class_of(size + HEAD);
    block = freed[number];
    if (block != NULL) {
        freed[number] = *(void **) block;
        return block;
    }
    if (top == 0)
        top = (heap_start() + ALIGN - 1) / ALIGN * ALIGN;
    if (heap_end(top + size_of(number)) < top + size_of(number))
        return NULL;
    block = (char *) top + HEAD;
    top += size_of(number);
    *class_before(block) = number;
    return block;
}

void px_free(void *block)
{
    if (block == NULL)
        return;
    *(void **) block = freed[*class_before(block)];
    freed[*class_before(block)] = block;
}

struct answer rattle_alloc(uint64_t size, uint64_t align)
{
    void *block = align <= ALIGN ? px_malloc((size_t) size) : NULL;
    struct answer answer = { block != NULL, block };
    return answer;
}

struct answer rattle_realloc(void *block, uint64_t old, uint64_t size, uint64_t align)
{
    struct answer answer = { 1, block };
    if (size <= size_of(*class_before(block)) - HEAD && align <= ALIGN)
        return answer;
    answer = rattle_alloc(size, align);
    if (answer.ok) {
        __builtin_memcpy(answer.block, block, (size_t) (old < size ? old : size));
        px_free(block);
    }
    return answer;
}

void rattle_dealloc(void *block)
{
    px_free(block);
}
