/*
 * What a compiled module asks of the system: the library for memory, and the program also for its words and for errno. The kit has
 * these for x86-64 Linux only (liblibc_c.a, libos_c.a), and each does here what the kit's does. No proof covers this file.
 */
#include <errno.h>
#include <stdint.h>
#include <stdlib.h>

#ifdef _WIN64
/* tools/lib/retarget.py has the module call these so. */
#define CALLED __attribute__((sysv_abi))
#else
#define CALLED
#endif

struct answer {
    uint64_t ok;
    void *block;
};

static char nothing;

static struct answer answered(void *block)
{
    struct answer answer = {block != NULL, block != NULL ? block : &nothing};
    return answer;
}

CALLED struct answer rattle_alloc(uint64_t size, uint64_t align)
{
    return answered(malloc(size != 0 ? size : align));
}

CALLED struct answer rattle_realloc(void *block, uint64_t old, uint64_t size, uint64_t align)
{
    (void) old;
    return answered(realloc(block, size != 0 ? size : align));
}

CALLED void rattle_dealloc(void *block)
{
    free(block);
}

#ifdef PROGRAM
static int count;
static char **words;

/* (glibc gives these to what it calls before main) */
__attribute__((constructor)) static void keep(int argc, char **argv)
{
    count = argc;
    words = argv;
}

/* Copies a word: its length; -1 if there is no such word, and -2 if there is no room for it. */
int64_t rattle_arg(uint64_t index, char *text, uint64_t room)
{
    uint64_t at;
    if (index >= (uint64_t) count || words[index] == NULL)
        return -1;
    for (at = 0; words[index][at] != 0; at++) {
        if (at == room)
            return -2;
        text[at] = words[index][at];
    }
    return (int64_t) at;
}

int32_t rattle_errno(void)
{
    return errno;
}

void rattle_set_errno(int32_t number)
{
    errno = number;
}
#endif
