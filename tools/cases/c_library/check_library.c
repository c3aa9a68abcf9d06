/*
 * Calls the library over texts, and compares each answer with the program's.
 *
 * Use: check_library FOLDER
 *
 * FOLDER/list names texts, one a line. Next to it are for each NAME.text, and what the program answered for it:
 * NAME.COMMAND, NAME.COMMAND.note and NAME.COMMAND.status, where COMMAND is render, colour, plan, cost and play.
 *
 * Each buffer ends where a page begins that nobody may touch, and is filled before a call. For each text: check,
 * render, window (of the whole picture), colour and products with buffers of no element, one too few, as many as are due, and one more; state,
 * micros and course so too, at the first, a middle and the last clock or operation, and past it; each with each allocation refused in turn
 * (some of the later ones); and all of it in four threads at once. No call may ask for more bytes at once than its text
 * and, where it draws or clocks, its array explain. Linked with --wrap for malloc, realloc and free. Prints a line for each difference, and last how much was compared.
 */
#include "watched.h"

#define THREADS 4

struct answer {
    struct bytes output, note;
    long status;
};

enum { RENDER, COLOUR, PLAN, COST, PLAY, COMMANDS };
static const char *const commands[COMMANDS] = {"render", "colour", "plan", "cost", "play"};

struct text {
    char name[256];
    struct bytes bytes;
    struct answer answer[COMMANDS];
};

/* The calls, in one form: two buffers where there are two, else one. */

enum call { CHECK, DRAW, WINDOW, PAINT, LIST, CALLS, STATE = CALLS, MICROS, COURSE, ALL };
static const struct {
    const char *name;
    int command, buffers;
    size_t each;
} kinds[ALL] = {{"check", RENDER, 0, 0}, {"render", RENDER, 2, 4}, {"window", RENDER, 2, 4}, {"colour", COLOUR, 1, 1}, {"products", PLAN, 1, 4},
                {"state", COST, 1, 8}, {"micros", COST, 1, 8}, {"course", COST, 1, sizeof(struct pxplanes_operation)}};

/* What the calls of the machine take in addition: a clock, or an operation, and where the state is written. */
struct moment {
    uint64_t clock;
    struct pxplanes_moment state;
};

/* The most bytes that a call may ask for at once: 128 for each byte of its text and a MiB, and 14 MiB where it opens an array,
 * which with its four slots has 75 rows of 32 KiB and a tree of 128 KiB, five times, for 512 by 512 pixels. */
static size_t most_due(enum call call, const struct text *text, uint32_t status)
{
    int is_open = call == STATE || (kinds[call].buffers > 0 && call < LIST && (status == PXPLANES_OK || status == PXPLANES_MEMORY));
    return 128 * text->bytes.len + (1 << 20) + (is_open ? 14 << 20 : 0);
}

/* The size that a text writes, 1 by 1 if it writes none: check finds none of a text that it refuses. */
static void find_size(const struct text *text, struct pxplanes_found *found)
{
    char line[64] = {0};
    const char *end = (const char *) text->bytes.at + text->bytes.len;
    const char *at = text->bytes.len ? memmem(text->bytes.at, text->bytes.len, "picture", 7) : NULL;
    if (at != NULL)
        memcpy(line, at, (size_t) (end - at) < sizeof line ? (size_t) (end - at) : sizeof line - 1);
    if (sscanf(line, "picture %u %u", &found->width, &found->height) != 2)
        found->width = found->height = 1;
}

static uint32_t called(enum call call, const struct text *text, struct buffer *b, struct moment *moment,
                       struct pxplanes_found *found, long refuse)
{
    uint32_t status = 0;
    struct pxplanes_found whole = {0};
    if (call == WINDOW)
        find_size(text, &whole);
    memset(found, FILL, sizeof *found);
    atomic_fetch_add(&calls, 1);
    asked = held = 0;
    live = most = 0;
    refuse_at = refuse;
    inside = 1;
    switch (call) {
    case CHECK:
        status = pxplanes_check(text->bytes.at, text->bytes.len, found);
        break;
    case DRAW:
        status = pxplanes_render(text->bytes.at, text->bytes.len, (uint32_t *) b[0].at, b[0].len, (uint32_t *) b[1].at, b[1].len,
                                 found);
        break;
    case WINDOW:
        status = pxplanes_window(text->bytes.at, text->bytes.len, 0, 0, whole.width, whole.height, (uint32_t *) b[0].at, b[0].len,
                                 (uint32_t *) b[1].at, b[1].len, found);
        break;
    case PAINT:
        status = pxplanes_colour(text->bytes.at, text->bytes.len, b[0].at, b[0].len, found);
        break;
    case STATE:
        status = pxplanes_state(text->bytes.at, text->bytes.len, moment->clock, (uint64_t *) b[0].at, b[0].len, &moment->state,
                                found);
        break;
    case MICROS:
        status = pxplanes_micros(text->bytes.at, text->bytes.len, moment->clock, (uint64_t *) b[0].at, b[0].len, found);
        break;
    case COURSE:
        status = pxplanes_course(text->bytes.at, text->bytes.len, moment->clock, (struct pxplanes_operation *) b[0].at, b[0].len,
                                 found);
        break;
    default:
        status = pxplanes_products(text->bytes.at, text->bytes.len, (int32_t *) b[0].at, b[0].len, found);
    }
    inside = 0;
    if (held != 0)
        differs(text->name, "%s keeps %ld blocks of memory", kinds[call].name, held);
    if (most > most_due(call, text, status))
        differs(text->name, "%s asks for %zu bytes at once (status %u)", kinds[call].name, most, (unsigned) status);
    return status;
}

/* A pixel map of the program: its bytes, or nothing. */
static const uint8_t *map_at(const struct bytes *output, size_t number, uint32_t width, uint32_t height)
{
    char header[64];
    size_t head = (size_t) snprintf(header, sizeof header, "P6\n%u %u\n255\n", (unsigned) width, (unsigned) height);
    size_t one = head + 3 * (size_t) width * height;
    if (output->len < (number + 1) * one || memcmp(output->at + number * one, header, head) != 0)
        return NULL;
    return output->at + number * one + head;
}

static void compare_numbers(const struct text *text, const char *what, const struct buffer *buffer, const uint8_t *map, size_t pixels)
{
    const uint32_t *numbers = (const uint32_t *) buffer->at;
    for (size_t i = 0; map != NULL && i < pixels; i++)
        if (numbers[i] != ((uint32_t) map[3 * i] << 16 | (uint32_t) map[3 * i + 1] << 8 | map[3 * i + 2])) {
            differs(text->name, "%s of pixel %zu is %u", what, i, (unsigned) numbers[i]);
            return;
        }
    if (map == NULL)
        differs(text->name, "the program has no map of %s", what);
}

/* The names of a scene's solids, and the lines of `plan` written by them. */
static size_t named(const struct text *text, size_t solid, const char **name)
{
    const char *at = (const char *) text->bytes.at, *end = at + text->bytes.len;
    while (at < end) {
        const char *stop = memchr(at, '\n', (size_t) (end - at));
        stop = stop ? stop : end;
        while (at < stop && (*at == ' ' || *at == '\t' || *at == '\r'))
            at++;
        if (stop - at > 6 && memcmp(at, "solid", 5) == 0 && strchr(" \t\r", at[5]) && --solid == 0) {
            for (at += 5; *at == ' ' || *at == '\t' || *at == '\r'; at++)
                ;
            *name = at;
            return strcspn(at, " \t\r\n#");
        }
        at = stop + 1;
    }
    return 0;
}

static void compare_products(const struct text *text, const struct buffer *buffer)
{
    const struct bytes *output = &text->answer[PLAN].output;
    const int32_t *literals = (const int32_t *) buffer->at;
    const uint8_t *due = memchr(output->at, '\n', output->len), *end = output->at + output->len;
    int first = 1;
    due = due ? due + 1 : end;
    for (size_t i = 0; i < buffer->len; i++) {
        const char *name = "", *sign = first ? "" : " * ";
        size_t len = 0, sign_len;
        if (literals[i] < 0)
            sign = " - ";
        if (literals[i] == 0) {
            sign = "\n";
        } else {
            len = named(text, (size_t) labs((long) literals[i]), &name);
        }
        sign_len = strlen(sign);
        if ((size_t) (end - due) < sign_len + len || memcmp(due, sign, sign_len) != 0 || memcmp(due + sign_len, name, len) != 0) {
            differs(text->name, "number %zu of the products is %d", i, (int) literals[i]);
            return;
        }
        due += sign_len + len;
        first = literals[i] == 0;
    }
    if (due != end)
        differs(text->name, "the program lists more products");
}

/* What was found by a call that drew. */
static void compare_found(enum call call, const struct text *text, const struct pxplanes_found *found)
{
    struct pxplanes_found plain = *found;
    char cost[100];
    plain.width = plain.height = plain.faces = 0;
    plain.operations = plain.clocks = plain.room = 0;
    if (!is_nothing(&plain))
        differs(text->name, "%s finds what does not apply", kinds[call].name);
    snprintf(cost, sizeof cost, "macros %llu\nclocks %llu\n", (unsigned long long) found->operations,
             (unsigned long long) found->clocks);
    if (call == LIST ? found->operations || found->clocks
                     : strlen(cost) != text->answer[COST].output.len || memcmp(cost, text->answer[COST].output.at, strlen(cost)))
        differs(text->name, "%s finds another cost: %s", kinds[call].name, cost);
}

/* What was found by a call that is refused, or has no memory. */
static void compare_refusal(enum call call, const struct text *text, const struct answer *answer, uint32_t status,
                            struct pxplanes_found found)
{
    char note[200];
    if (status == PXPLANES_MEMORY && !is_nothing(&found))
        differs(text->name, "%s finds something without memory", kinds[call].name);
    if (status != PXPLANES_MALFORMED && status != PXPLANES_LIMIT)
        return;
    note_of(status, &found, note, sizeof note);
    if (strlen(note) != answer->note.len || memcmp(note, answer->note.at, answer->note.len))
        differs(text->name, "%s finds %s", kinds[call].name, note);
    found.line = found.cause = found.kind = 0;
    found.number = 0;
    if (!is_nothing(&found))
        differs(text->name, "%s finds what does not apply", kinds[call].name);
}

/* One call with buffers of so many elements more or less than are due. */
static uint32_t tried(enum call call, const struct text *text, size_t due, const long more[2], long refuse)
{
    struct buffer b[2] = {{0}};
    struct pxplanes_found found;
    const struct answer *answer = &text->answer[kinds[call].command];
    int short_of = 0;
    for (int i = 0; i < kinds[call].buffers; i++) {
        size_t len = more[i] < -1 || (more[i] < 0 && due == 0) ? 0 : due + (size_t) more[i];
        b[i] = made(len, kinds[call].each);
        short_of |= len < due;
    }
    uint32_t status = called(call, text, b, NULL, &found, refuse);
    uint32_t wanted = refuse ? PXPLANES_MEMORY : answer->status ? (uint32_t) answer->status : short_of ? PXPLANES_NO_ROOM : PXPLANES_OK;
    if (status != wanted)
        differs(text->name, "%s gives status %u in place of %u (refused: %ld)", kinds[call].name, (unsigned) status,
                (unsigned) wanted, refuse);
    compare_refusal(call, text, answer, status, found);
    if (status == PXPLANES_OK || status == PXPLANES_NO_ROOM) {
        compare_found(call, text, &found);
        if (found.room != (status == PXPLANES_NO_ROOM ? due : 0))
            differs(text->name, "%s finds room %llu", kinds[call].name, (unsigned long long) found.room);
    }
    for (int i = 0; i < kinds[call].buffers; i++)
        if (!is_untouched(&b[i], status == PXPLANES_OK ? due * kinds[call].each : 0))
            differs(text->name, "%s touches what it is to leave (status %u)", kinds[call].name, (unsigned) status);
    if (status == PXPLANES_OK && due > 0) {
        size_t pixels = (size_t) found.width * found.height;
        const struct bytes *output = &answer->output;
        if (kinds[call].buffers == 2) {
            compare_numbers(text, "the depth", &b[0], map_at(output, 0, found.width, found.height), pixels);
            compare_numbers(text, "the face", &b[1], map_at(output, 1, found.width, found.height), pixels);
        }
        if (call == PAINT) {
            const uint8_t *map = map_at(output, 0, found.width, found.height);
            if (map == NULL || memcmp(map, b[0].at, due))
                differs(text->name, "other colours");
        }
        if (call == LIST && more[0] == 0)
            compare_products(text, &b[0]);
    }
    for (int i = 0; i < kinds[call].buffers; i++)
        let_go(&b[i]);
    return status;
}

/* How many elements are due: what the program drew, by the size that `check` finds. */
static size_t due_of(enum call call, const struct text *text)
{
    struct pxplanes_found found;
    struct buffer none[2] = {{0}};
    uint32_t status = called(call, text, none, NULL, &found, 0);
    return status == PXPLANES_NO_ROOM ? (size_t) found.room : 0;
}

static void compare(const struct text *text)
{
    static const long sizes[][2] = {{-2, -2}, {-1, 0}, {0, -1}, {0, 0}, {1, 1}};
    for (enum call call = CHECK; call < CALLS; call++) {
        size_t due = due_of(call, text);
        for (size_t i = 0; i < sizeof sizes / sizeof *sizes; i++)
            if (kinds[call].buffers == 2 || sizes[i][1] == sizes[i][0] || (sizes[i][0] == -1))
                tried(call, text, due, sizes[i], 0);
        long all = asked;
        for (long at = 1; at <= all; at += 1 + at / 8)
            tried(call, text, due, sizes[3], at);
    }
}

/* The machine: its state and its micros, of a scene or of a listing. */

/* Whether the first word of a text is `pxlist`. */
static int is_listing(const struct text *text)
{
    const char *at = (const char *) text->bytes.at;
    for (at += strspn(at, " \t\r\n"); *at == '#'; at += strspn(at, " \t\r\n"))
        at += strcspn(at, "\n");
    return strncmp(at, "pxlist", 6) == 0 && strchr(" \t\r\n#", at[6]) != NULL;
}

static int is_no_state(const struct pxplanes_moment *s)
{
    return (s->grid_width | s->grid_height | s->words_per_row | s->bits | s->levels) == 0 &&
           (s->clock | s->clocks | s->operation | s->operation_clock | s->next_micro) == 0;
}

/* One call from a clock on with a buffer of so many elements, which is to have this status; what it wrote. */
static struct buffer answer_of(enum call call, const struct text *text, struct moment *moment, size_t len, size_t due, uint32_t wanted,
                          struct pxplanes_found *found, long refuse)
{
    const struct answer *answer = &text->answer[is_listing(text) ? PLAY : COST];
    struct buffer buffer = made(len, kinds[call].each);
    memset(&moment->state, FILL, sizeof moment->state);
    uint32_t status = called(call, text, &buffer, moment, found, refuse);
    if (status != wanted)
        differs(text->name, "%s from %llu on with %zu elements gives status %u in place of %u", kinds[call].name,
                (unsigned long long) moment->clock, len, (unsigned) status, (unsigned) wanted);
    if (!is_untouched(&buffer, status == PXPLANES_OK ? due * kinds[call].each : 0))
        differs(text->name, "%s touches what it is to leave (status %u)", kinds[call].name, (unsigned) status);
    if (call == STATE && status != PXPLANES_OK && !is_no_state(&moment->state))
        differs(text->name, "a state is written with status %u", (unsigned) status);
    compare_refusal(call, text, answer, status, *found);
    return buffer;
}

/* The same where no more is asked than whether only these of what is found are there. */
static void tried_at(enum call call, const struct text *text, uint64_t clock, size_t len, size_t due, uint32_t wanted,
                     struct pxplanes_found expected, long refuse)
{
    struct moment moment = {.clock = clock};
    struct pxplanes_found found;
    struct buffer buffer = answer_of(call, text, &moment, len, due, wanted, &found, refuse);
    if (wanted != PXPLANES_MALFORMED && wanted != PXPLANES_LIMIT && memcmp(&found, &expected, sizeof found))
        differs(text->name, "%s finds other numbers with status %u", kinds[call].name, (unsigned) wanted);
    let_go(&buffer);
}

/* A bit of a pixel in the words of a state. */
static unsigned bit_of(const struct pxplanes_moment *s, const uint64_t *words, size_t plane, size_t x, size_t y)
{
    return words[(plane * s->grid_height + y) * s->words_per_row + x / 64] >> x % 64 & 1;
}

/* The last state of a listing, against the lines that `play` prints of its pixels. */
static void compare_memory(const struct text *text, const struct pxplanes_moment *s, const uint64_t *words)
{
    const struct bytes *output = &text->answer[PLAY].output;
    const char *due = (const char *) output->at, *end = due + output->len;
    char line[PXPLANES_BITS + 100];
    for (size_t y = 0; y < s->grid_height; y++)
        for (size_t x = 0; x < s->grid_width; x++) {
            int at = sprintf(line, "pixel %zu %zu m ", x, y);
            for (size_t bit = 0; bit < s->bits; bit++)
                line[at++] = (char) ('0' + bit_of(s, words, bit, x, y));
            at += sprintf(line + at, " e %u\n", bit_of(s, words, s->bits, x, y));
            if (end - due < at || memcmp(due, line, (size_t) at)) {
                differs(text->name, "the last state has another pixel %zu %zu", x, y);
                return;
            }
            due += at;
        }
    if (due != end)
        differs(text->name, "the program plays more pixels");
}

/* A state by itself, and against the micros of all clocks. */
static void compare_state(const struct text *text, const struct moment *moment, const struct buffer *buffer,
                          const struct pxplanes_found *found, const uint64_t *micros)
{
    const struct pxplanes_moment *s = &moment->state;
    const uint64_t *words = (const uint64_t *) buffer->at;
    size_t planes = (size_t) (s->bits + 4) * s->grid_height * s->words_per_row, nodes = ((2ull << s->levels) + 63) / 64;
    int ended = moment->clock == found->clocks;
    if (s->bits != PXPLANES_BITS || s->words_per_row != (s->grid_width + 63) / 64 || s->clock != moment->clock ||
        1ull << s->levels != (uint64_t) s->grid_width * s->grid_height || s->clocks != found->clocks ||
        planes + 2 * nodes != buffer->len)
        differs(text->name, "a state of another form");
    if (s->next_micro != (ended ? 0 : micros[moment->clock]) || (s->operation == found->operations) != ended ||
        (ended && s->operation_clock != 0) || (moment->clock == 0 && (s->operation != 0 || s->operation_clock != 0)))
        differs(text->name, "another broadcast at clock %llu", (unsigned long long) moment->clock);
    for (size_t i = 0; moment->clock == 0 && i < buffer->len; i++)
        if (words[i] != 0) {
            differs(text->name, "word %zu of the first state is not 0", i);
            break;
        }
    if (ended && is_listing(text))
        compare_memory(text, s, words);
}

/* The state at one clock, moved by the micros up to another, against the state there. Every other call is refused, and then no word
   is written. */
static void compare_clocks(const struct text *text, uint64_t from, uint64_t to, size_t due, const uint64_t *micros)
{
    struct pxplanes_found found;
    struct moment moment = {.clock = from}, last = {.clock = to};
    struct buffer moved = answer_of(STATE, text, &moment, due, due, PXPLANES_OK, &found, 0);
    struct buffer there = answer_of(STATE, text, &last, due, due, PXPLANES_OK, &found, 0);
    uint64_t *words = (uint64_t *) moved.at, wrong[3] = {micros[from], (uint64_t) PXPLANES_BITS | 8ull << 32, 0};
    uint32_t width = moment.state.grid_width, height = moment.state.grid_height;
    const struct refused {
        size_t len;
        uint32_t width, height;
        const uint64_t *micros;
        size_t count;
        uint32_t status;
        struct pxplanes_found found;
    } refused[] = {
        {due, width, height + 1, micros, 1, PXPLANES_NO_GRID, {0}},
        {due, 1024, height, micros, 1, PXPLANES_NO_GRID, {0}},
        {0, width, 1, wrong, 3, PXPLANES_NO_GRID, {0}},
        {0, width, height, NULL, 0, PXPLANES_NO_ROOM, {.room = due}},
        {due - 1, width, height, wrong, 3, PXPLANES_NO_ROOM, {.room = due}},
        {due, width, height, wrong, 3, PXPLANES_NO_MICRO, {.number = 1}},
        {due, width, height, wrong + 2, 1, PXPLANES_NO_MICRO, {.number = 0}},
        {due, width, height, NULL, 0, PXPLANES_OK, {0}},
    };
    struct buffer before = made(due, 8);
    memcpy(before.at, moved.at, due * 8);
    for (size_t i = 0; i < sizeof refused / sizeof refused[0]; i++) {
        const struct refused *r = &refused[i];
        uint32_t status = pxplanes_clocks(r->len ? words : NULL, r->len, r->width, r->height, r->micros, r->count, &found);
        if (status != r->status || memcmp(&found, &r->found, sizeof found) || memcmp(before.at, moved.at, due * 8))
            differs(text->name, "call %zu of clocks gives status %u, or leaves other words", i, (unsigned) status);
    }
    asked = 0;
    uint32_t status = pxplanes_clocks(words, due, width, height, micros + from, to - from, &found);
    if (status != PXPLANES_OK || found.clocks != to - from || asked != 0)
        differs(text->name, "clocks give status %u, or take memory", (unsigned) status);
    if (memcmp(moved.at, there.at, due * 8) || !is_untouched(&moved, due * 8))
        differs(text->name, "clocks %llu to %llu leave another state", (unsigned long long) from, (unsigned long long) to);
    let_go(&before);
    let_go(&moved);
    let_go(&there);
}

/* Each state call of a text that is good: at the first, a middle and the last clock, and past it. */
static void compare_states(const struct text *text, const struct pxplanes_found *found, const uint64_t *micros)
{
    struct pxplanes_found room = {0}, past = {.clocks = found->clocks}, expected = *found;
    struct moment moment = {.clock = 0};
    struct buffer buffer = answer_of(STATE, text, &moment, 0, 0, PXPLANES_NO_ROOM, &room, 0);
    size_t due = (size_t) room.room;
    let_go(&buffer);
    tried_at(STATE, text, found->clocks, 0, 0, PXPLANES_NO_ROOM, (struct pxplanes_found){.room = due}, 0);
    tried_at(STATE, text, found->clocks / 2, due - 1, 0, PXPLANES_NO_ROOM, (struct pxplanes_found){.room = due}, 0);
    tried_at(STATE, text, found->clocks / 3, due + 1, due, PXPLANES_OK, expected, 0);
    tried_at(STATE, text, found->clocks + 1, due, 0, PXPLANES_NO_CLOCK, past, 0);
    tried_at(STATE, text, UINT64_MAX, 0, 0, PXPLANES_NO_CLOCK, past, 0);
    for (uint64_t half = 0; half < 3; half++) {
        moment.clock = half == 2 ? found->clocks : half * (found->clocks / 2);
        buffer = answer_of(STATE, text, &moment, due, due, PXPLANES_OK, &expected, 0);
        if (memcmp(&expected, found, sizeof expected))
            differs(text->name, "a state finds other numbers");
        compare_state(text, &moment, &buffer, found, micros);
        let_go(&buffer);
    }
    long all = asked;
    for (long at = 1; at <= all; at += 1 + at / 4)
        tried_at(STATE, text, found->clocks, due, 0, PXPLANES_MEMORY, (struct pxplanes_found){0}, at);
    if (found->clocks > 0) {
        uint64_t some = found->clocks < 400 ? found->clocks : 400;
        compare_clocks(text, 0, some, due, micros);
        compare_clocks(text, found->clocks - some / 2 - 1, found->clocks, due, micros);
    }
}

/* An operation by itself, after the one before it: in a scene a step begins with each "all", a literal with each step "open", and
   what it says of faces and other literals is of the steps that have them. */
static int is_operation(const struct pxplanes_operation *o, const struct pxplanes_operation *before, int is_listed, uint64_t clocks)
{
    static const uint32_t counts[] = {0, 0, 3, 2, 5, 5, 5, 3, 2, 1, 3, 3};
    if (o->kind < 1 || o->kind > 11 || o->numbers_count != counts[o->kind] || o->clock >= clocks)
        return 0;
    for (uint32_t at = o->numbers_count; at < 5; at++)
        if (o->numbers[at] != 0)
            return 0;
    if (before == NULL ? o->clock != 0 : o->clock <= before->clock)
        return 0;
    if (is_listed)
        return (o->pass | o->literal) == 0 && (o->role | o->solid | o->face | o->other) == 0;
    int begins = o->kind == 1;
    if (before == NULL)
        return begins && o->pass == 0 && o->role == 1 && o->literal == 0;
    int has_face = o->role == 3 || o->role == 4 || o->role == 6 || o->role == 9, has_other = o->role >= 8 && o->role <= 10;
    return o->pass == before->pass + (uint64_t) begins && (begins || o->role == before->role) && o->role > 1 - !begins && o->role <= 11 &&
           o->literal == before->literal + (uint64_t) (begins && o->role == 2) && (o->solid != 0) == has_face &&
           (has_face || o->face == 0) && (o->other != 0) == has_other;
}

/* The operations of a text that is good: from the first, from a middle one, and past the last. */
static void compare_courses(const struct text *text, const struct pxplanes_found *found)
{
    size_t all = (size_t) found->operations, half = all / 2;
    struct pxplanes_found expected = *found, past = {.operations = all};
    struct moment start = {.clock = 0}, middle = {.clock = half};
    tried_at(COURSE, text, 0, 0, 0, PXPLANES_OK, expected, 0);
    tried_at(COURSE, text, all, 0, 0, PXPLANES_OK, expected, 0);
    tried_at(COURSE, text, all, 1, 0, PXPLANES_NO_OPERATION, past, 0);
    tried_at(COURSE, text, all + 1, 0, 0, PXPLANES_NO_OPERATION, past, 0);
    tried_at(COURSE, text, UINT64_MAX, 1, 0, PXPLANES_NO_OPERATION, past, 0);
    tried_at(COURSE, text, 0, all + 1, 0, PXPLANES_NO_OPERATION, past, 0);
    struct buffer whole = answer_of(COURSE, text, &start, all, all, PXPLANES_OK, &expected, 0);
    long asks = asked;
    struct buffer rest = answer_of(COURSE, text, &middle, all - half, all - half, PXPLANES_OK, &expected, 0);
    const struct pxplanes_operation *course = (const struct pxplanes_operation *) whole.at;
    for (size_t at = 0; at < all; at++)
        if (!is_operation(&course[at], at ? &course[at - 1] : NULL, is_listing(text), found->clocks)) {
            differs(text->name, "operation %zu is another one", at);
            break;
        }
    if (all > half && memcmp(rest.at, whole.at + half * sizeof *course, (all - half) * sizeof *course))
        differs(text->name, "the operations from %zu on are others", half);
    let_go(&whole);
    let_go(&rest);
    for (long at = 1; at <= asks; at += 1 + at / 4)
        tried_at(COURSE, text, 0, all, 0, PXPLANES_MEMORY, (struct pxplanes_found){0}, at);
}

static void compare_machine(const struct text *text)
{
    const struct answer *answer = &text->answer[is_listing(text) ? PLAY : COST];
    struct pxplanes_found none = {0}, found;
    struct moment start = {.clock = 0};
    uint32_t wanted = answer->status ? (uint32_t) answer->status : PXPLANES_OK;
    struct buffer buffer = answer_of(MICROS, text, &start, 0, 0, wanted, &found, 0);
    let_go(&buffer);
    if (wanted != PXPLANES_OK) {
        tried_at(STATE, text, UINT64_MAX, 0, 0, wanted, none, 0);
        tried_at(MICROS, text, UINT64_MAX, 1, 0, wanted, none, 0);
        tried_at(COURSE, text, UINT64_MAX, 1, 0, wanted, none, 0);
        return;
    }
    if (!is_listing(text))
        compare_found(MICROS, text, &found);
    struct pxplanes_found expected = found, past = {.clocks = found.clocks};
    size_t clocks = (size_t) found.clocks;
    tried_at(MICROS, text, found.clocks, 0, 0, PXPLANES_OK, expected, 0);
    tried_at(MICROS, text, found.clocks, 1, 0, PXPLANES_NO_CLOCK, past, 0);
    tried_at(MICROS, text, found.clocks + 1, 0, 0, PXPLANES_NO_CLOCK, past, 0);
    tried_at(MICROS, text, UINT64_MAX, 1, 0, PXPLANES_NO_CLOCK, past, 0);
    tried_at(MICROS, text, 0, clocks + 1, 0, PXPLANES_NO_CLOCK, past, 0);
    tried_at(MICROS, text, clocks > 0, clocks - (clocks > 0), clocks - (clocks > 0), PXPLANES_OK, expected, 0);
    buffer = answer_of(MICROS, text, &start, clocks, clocks, PXPLANES_OK, &found, 0);
    long all = asked;
    for (long at = 1; at <= all; at += 1 + at / 4)
        tried_at(MICROS, text, 0, clocks, 0, PXPLANES_MEMORY, none, at);
    compare_states(text, &expected, (const uint64_t *) buffer.at);
    let_go(&buffer);
    compare_courses(text, &expected);
}

static struct text *texts;
static size_t count;

static void *compare_all(void *start)
{
    for (size_t i = 0; i < count; i++) {
        compare(&texts[(i + *(size_t *) start) % count]);
        compare_machine(&texts[(i + *(size_t *) start) % count]);
    }
    return NULL;
}

/* Reading what was prepared. */

static void read_texts(const char *folder)
{
    struct bytes list = content(folder, "list", "");
    for (size_t i = 0; i < list.len; i++)
        count += list.at[i] == '\n';
    texts = calloc(count + 1, sizeof *texts);
    if (texts == NULL)
        exit(2);
    char *line = (char *) list.at;
    for (size_t i = 0; i < count; i++) {
        struct text *text = &texts[i];
        size_t len = strcspn(line, "\n");
        snprintf(text->name, sizeof text->name, "%.*s", (int) len, line);
        line += len + 1;
        text->bytes = content(folder, text->name, ".text");
        for (int c = 0; c < COMMANDS; c++) {
            char end[64];
            snprintf(end, sizeof end, ".%s", commands[c]);
            text->answer[c].output = content(folder, text->name, end);
            snprintf(end, sizeof end, ".%s.note", commands[c]);
            text->answer[c].note = content(folder, text->name, end);
            snprintf(end, sizeof end, ".%s.status", commands[c]);
            struct bytes status = content(folder, text->name, end);
            text->answer[c].status = atol((const char *) status.at);
            free(status.at);
        }
    }
    free(list.at);
}

/* One pixel (docs/dev/ARCHITECTURE.md counts its clocks), as the oracle has it: after 40 clocks memory bits 2 to 5, enable and the leaf
   of each of the four pixels are 1, and no other bit of a plane. Clock 0 is an enable-all. */
static void compare_one_pixel(void)
{
    static const char scene[] = "pxscene 1\npicture 1 1\ndepth 4\nsolid a 200 100 50\nfront 0 0 5\nback 0 0 9\nshow a\nend\n";
    const uint8_t *text = (const uint8_t *) scene;
    uint64_t words[154], micros[317];
    struct pxplanes_moment state;
    struct pxplanes_found found;
    if (pxplanes_state(text, sizeof scene - 1, 40, words, 154, &state, &found) != PXPLANES_OK || state.clocks != 317 ||
        found.operations != 22 || state.grid_width != 2 || state.grid_height != 2)
        differs("one pixel", "another state");
    for (size_t plane = 0; plane < 76; plane++)
        for (size_t y = 0; y < 2; y++)
            if (words[2 * plane + y] != ((plane >= 2 && plane < 6) || plane == 72 || plane == 75 ? 3 : 0))
                differs("one pixel", "row %zu of plane %zu is %llx", y, plane, (unsigned long long) words[2 * plane + y]);
    if (pxplanes_micros(text, sizeof scene - 1, 0, micros, 317, &found) != PXPLANES_OK || micros[0] != 2ull << 32)
        differs("one pixel", "other micros");
    /* Start, open, the near face and the front as candidates, and merge (docs/PASSES.md, "Steps"): the front's own pass is the fourth, from
       operation 11 on, and puts face 2 into key T. */
    struct pxplanes_operation course[22];
    if (pxplanes_course(text, sizeof scene - 1, 0, course, 22, &found) != PXPLANES_OK || course[1].kind != 7 || course[1].numbers[2] != 15 * 4 ||
        course[3].role != 2 || course[4].role != 3 || course[4].face != 1 || course[11].pass != 3 || course[11].role != 3 ||
        course[11].solid != 1 || course[11].face != 2 || course[11].literal != 1 || course[21].role != 11 || course[21].kind != 10)
        differs("one pixel", "another course");
}

/* A number that is loaded, and a form that is added to it, on four columns and two rows, by the tables of docs/MACHINE.md: 19
   clocks, of which the first is an enable-all, and the second a clear. */
static void compare_small_listing(void)
{
    static const char listing[] = "pxlist 1\ngrid 2 1\nall\nload-linear 1 4 2 3 5\nadd-linear 1 1 0 3 5\nend\n";
    const uint8_t *text = (const uint8_t *) listing;
    uint64_t words[154], micros[19];
    struct pxplanes_moment state;
    struct pxplanes_found found;
    if (pxplanes_state(text, sizeof listing - 1, 10, words, 154, &state, &found) != PXPLANES_OK || state.clocks != 19 ||
        state.grid_width != 4 || state.grid_height != 2)
        differs("a small listing", "another state");
    if (pxplanes_micros(text, sizeof listing - 1, 0, micros, 19, &found) != PXPLANES_OK || micros[0] != 2ull << 32 ||
        micros[1] != (1ull << 48) + (1ull << 32))
        differs("a small listing", "other micros");
    struct pxplanes_operation course[3];
    static const struct pxplanes_operation added = {.numbers = {1, 1, 0, 3, 5}, .clock = 10, .kind = 6, .numbers_count = 5};
    if (pxplanes_course(text, sizeof listing - 1, 0, course, 3, &found) != PXPLANES_OK || memcmp(&course[2], &added, sizeof added))
        differs("a small listing", "another course");
}

static void compare_names(void)
{
    uint8_t word[17];
    for (uint32_t number = 0; number < 40; number++)
        for (size_t room = 0; room <= 16; room++)
            for (int kind = 0; kind < 2; kind++) {
                memset(word, FILL, sizeof word);
                size_t len = kind ? pxplanes_kind_name(number, room ? word : NULL, room)
                                  : pxplanes_cause_name(number, room ? word : NULL, room);
                size_t written = len <= room ? len : 0;
                for (size_t i = 0; i < sizeof word; i++)
                    if (i < written ? !(word[i] == '-' || (word[i] >= 'a' && word[i] <= 'z')) : word[i] != FILL)
                        differs("names", "%s %u with room %zu", kind ? "kind" : "cause", (unsigned) number, room);
                if ((len > 0) != (number > 0 && number <= (kind ? 23 : 10)) || len > 16)
                    differs("names", "%s %u has %zu letters", kind ? "kind" : "cause", (unsigned) number, len);
            }
}

int main(int words, char **word)
{
    pthread_t threads[THREADS];
    size_t starts[THREADS];
    pthread_attr_t small;
    if (words != 2)
        return 2;
    read_texts(word[1]);
    compare_names();
    compare_one_pixel();
    compare_small_listing();
    pthread_attr_init(&small);
    pthread_attr_setstacksize(&small, STACK);
    for (size_t i = 0; i < THREADS; i++) {
        starts[i] = i * count / THREADS;
        if (pthread_create(&threads[i], &small, compare_all, &starts[i]) != 0)
            return 2;
    }
    for (size_t i = 0; i < THREADS; i++)
        pthread_join(threads[i], NULL);
    printf("%s texts, %s calls, %ld differences\n", count > 100 ? "enough" : "too few",
           atomic_load(&calls) > 40 * (long) count ? "enough" : "too few", atomic_load(&differences));
    return atomic_load(&differences) != 0;
}
