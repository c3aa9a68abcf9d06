/* 10,000 calls by a seed with texts, words, lengths, clocks and grids that are wrong, and null where a length is 0: each ends with a status
 * of the header, and writes what its lengths allow, and nothing if it ends with another status than OK. */
#include <stdio.h>
#include <stdlib.h>
#include <string.h>
#include "pxplanes.h"

#define FILL 0xa5
#define EDGE 64
enum { CALLS = 12, LONGEST_WORD = 16, STATUSES = 15, MOST = 100000 };

static uint64_t lot = 83;
static uint64_t next(uint64_t below)
{
    lot ^= lot << 13, lot ^= lot >> 7, lot ^= lot << 17;
    return lot % below;
}

/* A buffer of so many bytes, with as many after it that nothing may write to. */
struct room { uint8_t *at; size_t size; };

/* What a call is given: where the room has no byte, often null. */
static void *given(struct room room)
{
    return room.size == 0 && next(2) ? NULL : room.at;
}

static struct room taken(size_t size)
{
    struct room room = {malloc(size + EDGE), size};
    if (room.at == NULL)
        exit(2);
    memset(room.at, FILL, size + EDGE);
    return room;
}

static int is_wrong(struct room room, int is_written)
{
    size_t from = is_written ? room.size : 0;
    while (from < room.size + EDGE && room.at[from] == FILL)
        from++;
    int wrong = from < room.size + EDGE;
    free(room.at);
    return wrong;
}

/* A text of just its length in bytes, with some of them changed, or cut off. */
static uint8_t *changed(const char *text, size_t *len)
{
    size_t all = strlen(text);
    *len = next(4) ? all : next(all + 1);
    uint8_t *own = malloc(*len + (*len == 0));
    if (own == NULL)
        exit(2);
    memcpy(own, text, *len);
    for (uint64_t count = next(3); count > 0 && *len > 0; count--)
        own[next(*len)] = next(2) ? (uint8_t) next(256) : (uint8_t) "0 9-\n(#"[next(7)];
    return own;
}

int main(void)
{
    static const char *scene = "pxscene 1\npicture 8 4\ndepth 4\nsolid ramp 200 100 50\nfront 1 0 0\nback 0 0 9\nshow ramp\nend\n";
    static const char *words[] = {"tidy", "tile 9 9", "refine 2", "list", "plan", "play", "sample 2", "", "debug", "shadow"};
    static const uint64_t ends[] = {0, 1, 7, 300, UINT64_MAX, UINT64_MAX - 1, (uint64_t) 1 << 63};
    unsigned seen[STATUSES] = {0}, wrong = 0;
    for (int round = 0; round < 10000; round++) {
        size_t len, word_len;
        uint8_t *own = changed(scene, &len), *own_word = changed(words[next(10)], &word_len);
        const uint8_t *text = len == 0 && next(2) ? NULL : own, *word = word_len == 0 && next(2) ? NULL : own_word;
        struct pxplanes_found found;
        struct pxplanes_moment moment;
        uint32_t status = pxplanes_check(text, len, &found), call = (uint32_t) next(CALLS);
        uint64_t pixels = status == PXPLANES_OK && found.clocks < MOST ? (uint64_t) found.width * found.height : 32, end = ends[next(7)];
        size_t count = (size_t) (pixels - (next(3) == 0) + (next(3) == 0) * 5) * (next(4) > 0);
        size_t size = call == 1 || call == 9 ? 4 : call == 6 ? sizeof(struct pxplanes_operation) : 8;
        struct room one = taken(call == 7 ? next(60000) / 8 * 8 : count * size), two = taken(count * size);
        struct room face = taken(sizeof(struct pxplanes_numbered_face));
        int draws = status != PXPLANES_OK || found.clocks < MOST;
        size_t name = 0;
        switch (draws ? call : 0) {
        case 1: status = pxplanes_render(text, len, given(one), count, given(two), count, &found); break;
        case 2: status = pxplanes_colour(text, len, given(one), one.size, &found); break;
        case 3: status = pxplanes_products(text, len, given(one), one.size / 4, &found); break;
        case 4: status = pxplanes_state(text, len, end, given(one), one.size / 8, &moment, &found); break;
        case 5: status = pxplanes_micros(text, len, end, given(one), one.size / 8, &found); break;
        case 6: status = pxplanes_course(text, len, end, given(one), count, &found); break;
        case 7: status = pxplanes_clocks(given(one), one.size / 8, (uint32_t) next(9), (uint32_t) next(9), given(two),
                                         count, &found); break;
        case 8: status = pxplanes_run(text, len, word, word_len, given(one), one.size, &found); break;
        case 9: status = pxplanes_window(text, len, (uint32_t) (next(3) ? next(9) : end), (uint32_t) (next(3) ? next(9) : 4090 + next(9)),
                                         (uint32_t) (next(5) ? next(9) : next(600)), (uint32_t) next(9), given(one), count,
                                         given(two), count, &found); break;
        case 10: status = pxplanes_face(text, len, next(3) ? (uint32_t) next(9) : (uint32_t) end, given(two), two.size,
                                        given(face), &found); break;
        case 11: name = next(9) == 0 ? pxplanes_version(given(two), two.size) : (next(2) ? pxplanes_cause_name : pxplanes_kind_name)(
                            (uint32_t) (next(2) ? next(20) : end), given(two), two.size); break;
        default: status = pxplanes_check(text, len, &found);
        }
        if (name > LONGEST_WORD || status >= STATUSES || status == 1 || status == 5 || status == 6)
            wrong++;
        else
            seen[status]++;
        int fills_two = call == 1 || call == 9 || call == 10 ? status == PXPLANES_OK : call == 11 && name > 0 && name <= two.size;
        wrong += (unsigned) (is_wrong(one, status == PXPLANES_OK && call != 11) + is_wrong(two, fills_two)
                             + is_wrong(face, call == 10 && status == PXPLANES_OK));
        free(own);
        free(own_word);
    }
    for (int status = 0; status < STATUSES; status++)
        if (seen[status])
            printf("status %d: %s\n", status, seen[status] > 20 ? "many" : "some");
    printf("%u wrong\n", wrong);
    return wrong != 0;
}
