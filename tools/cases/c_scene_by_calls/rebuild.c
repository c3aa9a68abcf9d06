/*
 * Writes scenes by pxplanes_scene.h, and compares each text with what `tidy` wrote.
 *
 * Use: rebuild < LIST    where LIST has the numbers of each scene as scenes.py writes them, after the file of its canonical text
 */
#include "pxplanes_scene.h"

#include <stdio.h>
#include <stdlib.h>
#include <string.h>

#define MOST 1100000
#define SOLIDS 255
#define PLANES 64

static char tidy[MOST], written[MOST], joined[MOST], shows[64][MOST];
static char names[SOLIDS][40];
static struct pxplanes_face faces[SOLIDS][PLANES];
static struct pxplanes_plane sides[SOLIDS][PLANES];
static struct pxplanes_solid solids[SOLIDS];

static size_t content(const char *path, char *to)
{
    FILE *file = fopen(path, "rb");
    size_t len = file == NULL ? 0 : fread(to, 1, MOST - 1, file);
    if (file == NULL || fclose(file) != 0)
        exit(2);
    to[len] = 0;
    return len;
}

static long long number(void)
{
    long long found;
    if (scanf("%lld", &found) != 1)
        exit(2);
    return found;
}

static struct pxplanes_plane plane(void)
{
    struct pxplanes_plane found;
    found.a = number();
    found.b = number();
    found.c = number();
    return found;
}

static void colour(uint8_t *rgb)
{
    for (unsigned i = 0; i < 3; i++)
        rgb[i] = (uint8_t) number();
}

/* A name, a colour, how many faces and sides, and these. A face with its solid's colour has none of its own every other time. */
static void take_solid(unsigned i)
{
    struct pxplanes_solid to = {names[i], {0, 0, 0}, faces[i], 0, sides[i], 0};
    if (scanf("%39s", names[i]) != 1)
        exit(2);
    colour(to.rgb);
    to.faces_len = (size_t) number();
    to.sides_len = (size_t) number();
    for (size_t j = 0; j < to.faces_len; j++) {
        struct pxplanes_face *face = &faces[i][j];
        face->kind = number() != 0 ? PXPLANES_FRONT : PXPLANES_BACK;
        face->plane = plane();
        colour(face->rgb);
        face->has_colour = memcmp(face->rgb, to.rgb, 3) != 0 || j % 2;
    }
    for (size_t j = 0; j < to.sides_len; j++)
        sides[i][j] = plane();
    solids[i] = to;
}

/* The expression by pxplanes_join, of its nodes in postorder, up to a full stop. */
static const char *take_show(void)
{
    char node[8];
    unsigned top = 0;
    while (scanf("%7s", node) == 1 && strcmp(node, ".") != 0)
        if (strchr("+*-^", node[0]) == NULL) {
            strcpy(shows[top++], names[atoi(node)]);
        } else {
            top--;
            if (pxplanes_join(joined, sizeof joined, shows[top - 1], node[0], shows[top]) != strlen(joined))
                exit(2);
            strcpy(shows[top - 1], joined);
        }
    return shows[0];
}

/* The text is that of `tidy`, its length is known without room, and with too little there is no text. */
static int is_same(const char *path)
{
    struct pxplanes_scene scene;
    size_t wanted = content(path, tidy), asked, short_of, len;
    int is_empty;
    scene.width = (uint32_t) number();
    scene.height = (uint32_t) number();
    scene.depth_bits = (uint32_t) number();
    scene.fraction_bits = (uint32_t) number();
    scene.solids = solids;
    scene.solids_len = (size_t) number();
    for (unsigned i = 0; i < scene.solids_len; i++)
        take_solid(i);
    scene.show = take_show();
    asked = pxplanes_write(NULL, 0, &scene);
    short_of = pxplanes_write(written, wanted, &scene);
    is_empty = written[0] == 0;
    len = pxplanes_write(written, wanted + 1, &scene);
    if (len == wanted && memcmp(written, tidy, wanted + 1) == 0 && asked == wanted && short_of == wanted && is_empty)
        return 1;
    printf("%s differs\n", path);
    return 0;
}

int main(void)
{
    char path[1024];
    unsigned same = 0, all = 0;
    while (scanf("%1023s", path) == 1) {
        all++;
        same += (unsigned) is_same(path);
    }
    printf("%s of them are written as by tidy\n", all < 200 ? "too few" : same == all ? "all" : "not all");
    return same != all;
}
