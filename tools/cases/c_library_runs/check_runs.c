/*
 * Runs the library by the words and the input of each case of the program, and compares what it answers with what the case has.
 *
 * Use: check_runs FOLDER
 *
 * FOLDER/list names runs, one a line. For each there are NAME.words, NAME.text, and of the program's answer NAME.output, NAME.note and
 * NAME.status.
 *
 * Each is run in a thread with a stack of 256 KiB, into a buffer of as many bytes as the program wrote; one that is short also into
 * one byte less, one more and none, and with each allocation refused in turn (some of the later ones). A run may ask for no more
 * bytes at once than its text, its output and its array explain. Prints a line for each difference, and last how much was compared.
 */
#include "watched.h"
#include <pxplanes_image.h>
#include <inttypes.h>
#include <time.h>

/* In seconds. */
#ifndef SHORT
#define SHORT 0.1
#endif

struct run {
    char name[256];
    struct bytes words, text, output, note;
    uint32_t status;
};

static size_t of_status[PXPLANES_LIMIT + 1], sizes, early;

/* The most bytes that a run may ask for at once: of its text as many as are read, 160 each; its output, while it grows; and two
 * arrays with their slots, which have 75 rows of 32 KiB and a tree of 128 KiB, five times, for 512 by 512 pixels. */
static size_t most_due(const struct run *run)
{
    size_t read = run->text.len < PXPLANES_MAX_TEXT + 1 ? run->text.len : PXPLANES_MAX_TEXT + 1;
    return 160 * read + 4 * run->output.len + (1 << 20) + (14 << 20);
}

static uint32_t called(const struct run *run, struct buffer *out, struct pxplanes_found *found, long refuse)
{
    const uint8_t *text = run->text.len ? run->text.at : NULL, *words = run->words.len ? run->words.at : NULL;
    memset(found, FILL, sizeof *found);
    atomic_fetch_add(&calls, 1);
    asked = held = 0;
    live = most = 0;
    refuse_at = refuse;
    inside = 1;
    uint32_t status = pxplanes_run(text, run->text.len, words, run->words.len, out->at, out->len, found);
    inside = 0;
    if (held != 0)
        differs(run->name, "%ld blocks of memory are kept", held);
    if (most > most_due(run))
        differs(run->name, "%zu bytes are wanted at once (status %u)", most, (unsigned) status);
    return status;
}

/* What was found is what the program's note tells, and no more. */
static void compare_found(const struct run *run, uint32_t status, struct pxplanes_found found)
{
    char note[200];
    note_of(status, &found, note, sizeof note);
    if (status == run->status && (status == PXPLANES_USAGE ? run->note.len < 7 || memcmp(run->note.at, "usage: ", 7)
                                                           : strlen(note) != run->note.len || memcmp(note, run->note.at, run->note.len)))
        differs(run->name, "the note is %s", note);
    if (status == PXPLANES_OK || status == PXPLANES_NO_ROOM) {
        if (found.room != run->output.len)
            differs(run->name, "room %llu is found", (unsigned long long) found.room);
        found.room = 0;
    }
    if (status == PXPLANES_MALFORMED)
        found.line = found.cause = 0;
    if (status == PXPLANES_LIMIT) {
        found.line = found.kind = 0;
        found.number = 0;
    }
    if (!is_nothing(&found))
        differs(run->name, "status %u finds what does not apply", (unsigned) status);
}

static void tried(const struct run *run, size_t len, long refuse);

/* With a byte too little an image is refused before an array is opened: no more is asked for at once than reading and planning take.
 * That of a large picture asked for more when it was drawn, as `most` still says. */
static void compare_early(const struct run *run)
{
    size_t drawn = most, due = 160 * run->text.len + (640 << 10);
    tried(run, run->output.len - 1, 0);
    if (most > due)
        differs(run->name, "%zu bytes are wanted at once to refuse it", most);
    early += drawn > due;
}

/* The size of an image, which pxplanes_maps_size gives before the work, is that of the output. */
static void compare_size(const struct run *run)
{
    struct pxplanes_found found;
    char words[64];
    uint32_t a = 1, b = 1;
    uint64_t size = 0;
    if (run->status != PXPLANES_OK || pxplanes_check(run->text.at, run->text.len, &found) != PXPLANES_OK)
        return;
    snprintf(words, sizeof words, "%.*s", (int) run->words.len, (const char *) run->words.at);
    if (run->words.len == 0 || strcmp(words, "render") == 0)
        size = pxplanes_maps_size(found.width, found.height, 2);
    else if (strcmp(words, "colour") == 0 || strcmp(words, "shadow") == 0 || strncmp(words, "refine ", 7) == 0)
        size = pxplanes_maps_size(found.width, found.height, 1);
    else if (sscanf(words, "tile %" SCNu32 " %" SCNu32, &a, &b) == 2)
        size = pxplanes_maps_size(a, b, 2);
    else
        return;
    sizes++;
    if (size != run->output.len)
        differs(run->name, "its size is %llu before the work", (unsigned long long) size);
    if (strcmp(words, "shadow") != 0)
        compare_early(run);
}

/* One run, into a buffer of so many bytes. */
static void tried(const struct run *run, size_t len, long refuse)
{
    struct buffer out = made(len, 1);
    struct pxplanes_found found;
    size_t due = run->output.len;
    uint32_t wanted = run->status ? run->status : len < due ? PXPLANES_NO_ROOM : PXPLANES_OK;
    uint32_t status = called(run, &out, &found, refuse);
    wanted = refuse ? PXPLANES_MEMORY : wanted;
    if (status != wanted)
        differs(run->name, "%zu bytes give status %u in place of %u (refused: %ld)", len, (unsigned) status, (unsigned) wanted, refuse);
    compare_found(run, status, found);
    if (!is_untouched(&out, status == PXPLANES_OK ? due : 0))
        differs(run->name, "status %u touches what it is to leave", (unsigned) status);
    if (status == PXPLANES_OK && due > 0 && memcmp(out.at, run->output.at, due))
        differs(run->name, "another output");
    let_go(&out);
}

static double seconds(void)
{
    struct timespec now;
    clock_gettime(CLOCK_MONOTONIC, &now);
    return (double) now.tv_sec + 1e-9 * (double) now.tv_nsec;
}

static struct run *runs;
static size_t count;

static void *compare_all(void *none)
{
    for (size_t i = 0; i < count; i++) {
        const struct run *run = &runs[i];
        double began = seconds();
        tried(run, run->output.len, 0);
        long all = asked;
        of_status[run->status]++;
        compare_size(run);
        if (seconds() - began > SHORT)
            continue;
        tried(run, 0, 0);
        tried(run, run->output.len + 1, 0);
        if (run->output.len > 0)
            tried(run, run->output.len - 1, 0);
        for (long at = 1; at <= all; at += 1 + at / 4)
            tried(run, run->output.len, at);
    }
    return none;
}

static void read_runs(const char *folder)
{
    struct bytes list = content(folder, "list", "");
    for (size_t i = 0; i < list.len; i++)
        count += list.at[i] == '\n';
    runs = calloc(count + 1, sizeof *runs);
    if (runs == NULL)
        exit(2);
    char *line = (char *) list.at;
    for (size_t i = 0; i < count; i++) {
        struct run *run = &runs[i];
        size_t len = strcspn(line, "\n");
        snprintf(run->name, sizeof run->name, "%.*s", (int) len, line);
        line += len + 1;
        run->words = content(folder, run->name, ".words");
        run->text = content(folder, run->name, ".text");
        run->output = content(folder, run->name, ".output");
        run->note = content(folder, run->name, ".note");
        struct bytes status = content(folder, run->name, ".status");
        run->status = (uint32_t) strtoul((const char *) status.at, NULL, 10);
        if (run->status > PXPLANES_LIMIT)
            differs(run->name, "status %u of the program is none that is compared", (unsigned) run->status);
        free(status.at);
    }
    free(list.at);
}

int main(int words, char **word)
{
    pthread_t thread;
    pthread_attr_t small;
    if (words != 2)
        return 2;
    read_runs(word[1]);
    pthread_attr_init(&small);
    pthread_attr_setstacksize(&small, STACK);
    if (atomic_load(&differences) == 0) {
        if (pthread_create(&thread, &small, compare_all, NULL) != 0)
            return 2;
        pthread_join(thread, NULL);
    }
    printf("%s sizes, %s early, %s done, %s usage, %s malformed, %s limits, %s calls, %ld differences\n", sizes > 60 ? "many" : "few", early > 5 ? "many" : "few",
           of_status[PXPLANES_OK] > 100 ? "many" : "few",
           of_status[PXPLANES_USAGE] > 15 ? "many" : "few", of_status[PXPLANES_MALFORMED] > 60 ? "many" : "few",
           of_status[PXPLANES_LIMIT] > 40 ? "many" : "few", atomic_load(&calls) > 10 * (long) count ? "many" : "few",
           atomic_load(&differences));
    return atomic_load(&differences) != 0;
}
