/*
 * Checks of heap.c in a process of its own, as `cc -fsanitize=address,undefined heap_check.c heap.c` builds it: blocks that live at
 * one time lie apart, inside the memory that there is, at multiples of 16; they keep what is in them, moved ones too; being out of
 * memory is reported, and ends with what is freed; and what is freed serves again. It ends with 1 at the first thing that is wrong.
 */
#include <stdint.h>
#include <stdio.h>
#include <stdlib.h>
#include <string.h>

struct answer {
    uint64_t ok;
    void *block;
};

void *px_malloc(size_t size);
void px_free(void *block);
struct answer rattle_alloc(uint64_t size, uint64_t align);
struct answer rattle_realloc(void *block, uint64_t old, uint64_t size, uint64_t align);
void rattle_dealloc(void *block);

enum { ROOM = 1 << 24, LIVING = 400, TURNS = 60000 };

static unsigned char *memory;
static uintptr_t reached;

uintptr_t heap_start(void)
{
    return (uintptr_t) memory + 8;
}

uintptr_t heap_end(uintptr_t end)
{
    uintptr_t last = (uintptr_t) memory + ROOM;
    if (end <= last && end > reached)
        reached = end;
    return last;
}

static struct { unsigned char *block, sign; uint64_t size; } living[LIVING];
static uint64_t lot = 1;

static uint64_t drawn(uint64_t most)
{
    lot = lot * 6364136223846793005u + 1442695040888963407u;
    return (lot >> 33) % most;
}

static void need(int is_so, const char *what)
{
    if (!is_so) {
        printf("wrong: %s\n", what);
        exit(1);
    }
}

static void looked_at(unsigned which)
{
    for (uint64_t at = 0; at < living[which].size; at++)
        need(living[which].block[at] == living[which].sign, "a block keeps what is in it");
}

static void put(unsigned which, void *block, uint64_t size)
{
    need((uintptr_t) block % 16 == 0, "a block begins at a multiple of 16");
    need((unsigned char *) block >= memory && (unsigned char *) block + size <= memory + ROOM, "a block lies inside the memory");
    living[which].block = block;
    living[which].size = size;
    living[which].sign = (unsigned char) drawn(256);
    memset(block, living[which].sign, size);
}

static void taken(unsigned which)
{
    looked_at(which);
    rattle_dealloc(living[which].block);
    living[which].block = NULL;
}

static void moved(unsigned which, uint64_t size)
{
    uint64_t old = living[which].size;
    struct answer answer = rattle_realloc(living[which].block, old, size, 16);
    if (!answer.ok) {
        looked_at(which);
        return;
    }
    living[which].block = answer.block;
    living[which].size = old < size ? old : size;
    looked_at(which);
    put(which, answer.block, size);
}

static void in_turn(void)
{
    for (int turn = 0; turn < TURNS; turn++) {
        unsigned which = (unsigned) drawn(LIVING);
        uint64_t size = drawn(10) ? drawn(2000) : drawn(100000);
        if (living[which].block == NULL) {
            struct answer answer = rattle_alloc(size, 8);
            if (answer.ok)
                put(which, answer.block, size);
        } else if (drawn(3) == 0) {
            moved(which, size);
        } else {
            taken(which);
        }
    }
    for (unsigned which = 0; which < LIVING; which++)
        if (living[which].block != NULL)
            taken(which);
}

int main(void)
{
    uintptr_t before;
    struct answer answer;
    void *blocks[64];
    unsigned count = 0;
    memory = malloc(ROOM);
    need(memory != NULL, "there is memory to check in");
    in_turn();
    before = reached;
    in_turn();
    need(reached - before <= ROOM / 16, "what is freed serves again");
    need(px_malloc(SIZE_MAX) == NULL && px_malloc(SIZE_MAX - 16) == NULL, "a size past all is refused");
    need(!rattle_alloc(16, 4096).ok, "an alignment past 16 is refused");
    while (count < 64 && (blocks[count] = px_malloc(1 << 20)) != NULL)
        count++;
    need(count > 0 && count < 64, "being out of memory is reported");
    memset(blocks[0], 7, 1 << 20);
    answer = rattle_realloc(blocks[0], 1 << 20, 1 << 23, 8);
    need(!answer.ok && *(unsigned char *) blocks[0] == 7, "a block that cannot grow stays");
    px_free(NULL);
    while (count > 0)
        px_free(blocks[--count]);
    need(px_malloc(1 << 20) != NULL, "being out of memory ends with what is freed");
    free(memory);
    puts("the heap is well");
    return 0;
}
