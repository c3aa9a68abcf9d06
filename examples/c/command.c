/* Does a command of the program in this process: command FILE [WORD..] > output, as command first.scene tile 96 64. It ends as the program
   does, with the same note. */
#include <errno.h>
#include <stdio.h>
#include <stdlib.h>
#include <string.h>
#include <pxplanes.h>

/* Room for the longest text, and for one byte more, by which a longer one is known. */
static uint8_t text[PXPLANES_MAX_TEXT + 1];

/* Says why there is no output, as the program's note does. */
static void tell(uint32_t status, const struct pxplanes_found *found)
{
    char word[32];
    size_t length;

    if (status == PXPLANES_USAGE) {
        fprintf(stderr, "usage: command FILE [render|colour|tidy|plan|cost|debug|sample N|shadow|tile W H|refine K|list|play]\n");
    } else if (status == PXPLANES_MALFORMED) {
        length = pxplanes_cause_name(found->cause, (uint8_t *) word, sizeof word);
        fprintf(stderr, "malformed line %u: %.*s\n", (unsigned) found->line, (int) length, word);
    } else if (status == PXPLANES_LIMIT) {
        length = pxplanes_kind_name(found->kind, (uint8_t *) word, sizeof word);
        fprintf(stderr, "limit line %u: %.*s %lld\n", (unsigned) found->line, (int) length, word,
                (long long) found->number);
    } else {
        fprintf(stderr, "out of memory\n");
    }
}

/* Does the command with room for so many bytes, or for as many as turn out to be due, and writes them. */
static uint32_t perform(size_t length, const char *words, size_t room)
{
    struct pxplanes_found found = {0};
    uint32_t status = PXPLANES_NO_ROOM;

    for (; status == PXPLANES_NO_ROOM; room = (size_t) found.room) {
        uint8_t *out = malloc(room);
        status = out == NULL && room > 0 ? PXPLANES_MEMORY
                                         : pxplanes_run(text, length, (const uint8_t *) words, strlen(words), out, room, &found);
        if (status == PXPLANES_OK)
            fwrite(out, 1, (size_t) found.room, stdout);
        free(out);
    }
    if (status != PXPLANES_OK)
        tell(status, &found);
    return status;
}

int main(int count, char **word)
{
    FILE *file = count > 1 ? fopen(word[1], "rb") : NULL;
    char words[200] = "";
    size_t length;

    if (file == NULL) {
        fprintf(stderr, count > 1 ? "command: %s: %s\n" : "use: command FILE [WORD..] > output\n", word[count > 1], strerror(errno));
        return 2;
    }
    for (int i = 2; i < count && strlen(words) + strlen(word[i]) + 2 < sizeof words; i++)
        strcat(strcat(words, word[i]), " ");
    length = fread(text, 1, sizeof text, file);
    fclose(file);
    return (int) perform(length, words, 1 << 21);
}
