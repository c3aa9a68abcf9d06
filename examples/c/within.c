/*
 * Draws the two maps of a scene, as the program's `render` does, if it takes so many clocks at most: within CLOCKS SCENE > maps. It
 * draws strips and reports each on standard error, so Ctrl-C loses nothing that was asked for. It ends with 0, with 12 if more
 * clocks are needed, and otherwise as the call did.
 */
#include <errno.h>
#include <stdio.h>
#include <stdlib.h>
#include <string.h>
#include <pxplanes.h>

#define OVER_BUDGET 12
#define STRIP 64 /* rows: so many strips together take no longer than the whole */

static uint8_t text[PXPLANES_MAX_TEXT + 1];
static uint32_t depths[PXPLANES_MAX_SIDE * PXPLANES_MAX_SIDE], faces[PXPLANES_MAX_SIDE * PXPLANES_MAX_SIDE];

/* A map: three bytes a pixel, the highest first. */
static void put(const uint32_t *map, uint32_t width, uint32_t height)
{
    size_t at;

    printf("P6\n%u %u\n255\n", (unsigned) width, (unsigned) height);
    for (at = 0; at < (size_t) width * height; at++) {
        putchar((int) (map[at] >> 16));
        putchar((int) (map[at] >> 8 & 255));
        putchar((int) (map[at] & 255));
    }
}

int main(int count, char **words)
{
    FILE *file = count == 3 ? fopen(words[2], "rb") : NULL;
    struct pxplanes_found found, part;
    uint32_t status, y, rows;
    size_t length, at;

    if (file == NULL) {
        fprintf(stderr, count == 3 ? "within: %s: %s\n" : "use: within CLOCKS SCENE > maps\n", words[count - 1], strerror(errno));
        return 2;
    }
    length = fread(text, 1, sizeof text, file);
    fclose(file);
    status = pxplanes_check(text, length, &found);
    if (status == PXPLANES_OK && found.clocks > strtoull(words[1], NULL, 10)) {
        fprintf(stderr, "%llu clocks are more than %s\n", (unsigned long long) found.clocks, words[1]);
        return OVER_BUDGET;
    }
    for (y = 0; status == PXPLANES_OK && y < found.height; y += rows) {
        rows = found.height - y < STRIP ? found.height - y : STRIP;
        at = (size_t) y * found.width;
        status = pxplanes_window(text, length, 0, y, found.width, rows, depths + at, rows * found.width, faces + at,
                                 rows * found.width, &part);
        fprintf(stderr, "%u of %u rows\n", (unsigned) (y + rows), (unsigned) found.height);
    }
    if (status == PXPLANES_OK) {
        put(depths, found.width, found.height);
        put(faces, found.width, found.height);
    }
    return (int) status;
}
