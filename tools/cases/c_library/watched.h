/*
 * What the checks of the library share: memory that is counted and refused, buffers that end where a page begins that nobody
 * may touch, and the program's note of what was found. Linked with --wrap for malloc, realloc and free.
 */
#define _GNU_SOURCE
#ifdef _WIN32
#define __USE_MINGW_ANSI_STDIO 1
#endif
#include <malloc.h>
#include <pthread.h>
#include <stdarg.h>
#include <stdatomic.h>
#include <stdio.h>
#include <stdlib.h>
#include <string.h>
#include <unistd.h>
#include "pxplanes.h"
#ifdef _WIN32
/* What is used of sys/mman.h, by Windows' own calls. */
#include <windows.h>
#define malloc_usable_size _msize
#define flockfile(file)
#define funlockfile(file)
#define MAP_FAILED NULL
#define sysconf(page) 4096
#define mmap(at, size, ...) VirtualAlloc(at, size, MEM_RESERVE | MEM_COMMIT, PAGE_READWRITE)
#define mprotect(at, size, none) !VirtualProtect(at, size, PAGE_NOACCESS, &(DWORD){0})
#define munmap(at, size) VirtualFree(at, 0, MEM_RELEASE)
/* One thread at a time calls there: what is a thread's own is taken from malloc. */
#define _Thread_local
#else
#include <sys/mman.h>
#endif

#define FILL 0xa5
#define STACK (256 * 1024)

/* Memory: counted and refused for the thread that asks for it, while it is inside a call. */

void *__real_malloc(size_t size);
void *__real_realloc(void *old, size_t size);
void __real_free(void *old);

static _Thread_local int inside;
static _Thread_local long asked, refuse_at, held;
static _Thread_local size_t live, most;

static int is_refused(void)
{
    return inside && ++asked == refuse_at;
}

/* Counts the bytes that are held when so many more are wanted, given or not. */
static void note_size(size_t size)
{
    if (inside && live + size > most)
        most = live + size;
}

static void hold(void *got)
{
    if (inside && got != NULL)
        live += malloc_usable_size(got);
}

static void drop(void *old)
{
    if (inside && old != NULL)
        live -= malloc_usable_size(old);
}

void *__wrap_malloc(size_t size)
{
    note_size(size);
    void *got = is_refused() ? NULL : __real_malloc(size);
    held += inside && got != NULL;
    hold(got);
    return got;
}

void *__wrap_realloc(void *old, size_t size)
{
    note_size(size);
    if (is_refused())
        return NULL;
    drop(old);
    void *got = __real_realloc(old, size);
    hold(got == NULL ? old : got);
    held += inside && old == NULL && got != NULL;
    return got;
}

void __wrap_free(void *old)
{
    held -= inside && old != NULL;
    drop(old);
    __real_free(old);
}

/* What is compared. */

static atomic_long differences, calls;

static void differs(const char *name, const char *form, ...)
{
    va_list words;
    va_start(words, form);
    flockfile(stdout);
    printf("%s: ", name);
    vprintf(form, words);
    printf("\n");
    funlockfile(stdout);
    va_end(words);
    atomic_fetch_add(&differences, 1);
}

struct bytes {
    uint8_t *at;
    size_t len;
};

/* A buffer of so many elements of so many bytes, with its end at a page that may not be touched. */

struct buffer {
    uint8_t *pages, *at;
    size_t span, bytes, len;
};

static struct buffer made(size_t len, size_t each)
{
    size_t page = (size_t) sysconf(_SC_PAGESIZE);
    struct buffer buffer = {NULL, NULL, 0, len * each, len};
    buffer.span = (buffer.bytes + page - 1) / page * page + page;
    buffer.pages = mmap(NULL, buffer.span, PROT_READ | PROT_WRITE, MAP_PRIVATE | MAP_ANONYMOUS, -1, 0);
    if (buffer.pages == MAP_FAILED || mprotect(buffer.pages + buffer.span - page, page, PROT_NONE) != 0) {
        perror("mmap");
        exit(2);
    }
    memset(buffer.pages, FILL, buffer.span - page);
    if (len > 0)
        buffer.at = buffer.pages + buffer.span - page - buffer.bytes;
    return buffer;
}

static void let_go(struct buffer *buffer)
{
    munmap(buffer->pages, buffer->span);
}

/* Whether all is as it was filled, from a byte on. */
static int is_untouched(const struct buffer *buffer, size_t from)
{
    size_t page = (size_t) sysconf(_SC_PAGESIZE), end = buffer->span - page;
    for (size_t i = 0; i < end - buffer->bytes; i++)
        if (buffer->pages[i] != FILL)
            return 0;
    for (size_t i = from; i < buffer->bytes; i++)
        if (buffer->at[i] != FILL)
            return 0;
    return 1;
}

static int is_nothing(const struct pxplanes_found *found)
{
    static const struct pxplanes_found none;
    return memcmp(found, &none, sizeof none) == 0;
}

/* The note that the program writes for what was found. */
static void note_of(uint32_t status, const struct pxplanes_found *found, char *note, size_t size)
{
    uint8_t word[17] = {0};
    size_t len = 0;
    if (status == PXPLANES_MALFORMED)
        len = pxplanes_cause_name(found->cause, word, 16);
    if (status == PXPLANES_LIMIT)
        len = pxplanes_kind_name(found->kind, word, 16);
    word[len <= 16 ? len : 16] = 0;
    note[0] = 0;
    if (status == PXPLANES_MALFORMED)
        snprintf(note, size, "malformed line %u: %s\n", (unsigned) found->line, word);
    if (status == PXPLANES_LIMIT)
        snprintf(note, size, "limit line %u: %s %lld\n", (unsigned) found->line, word, (long long) found->number);
}

static struct bytes content(const char *folder, const char *name, const char *end)
{
    char path[1024];
    struct bytes bytes = {NULL, 0};
    snprintf(path, sizeof path, "%s/%s%s", folder, name, end);
    FILE *file = fopen(path, "rb");
    if (file == NULL) {
        perror(path);
        exit(2);
    }
    fseek(file, 0, SEEK_END);
    long len = ftell(file);
    rewind(file);
    bytes.at = malloc((size_t) len + 1);
    if (bytes.at == NULL || fread(bytes.at, 1, (size_t) len, file) != (size_t) len)
        exit(2);
    bytes.at[len] = 0;
    bytes.len = (size_t) len;
    fclose(file);
    return bytes;
}
