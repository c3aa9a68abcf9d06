/*
 * The text of a scene from solids by arrays of planes and an expression by operators (docs/SCENES.md), in C99 or C++, for every
 * call that takes a text. Nothing is allocated, and nothing is judged: what is no scene pxplanes_check refuses by its line.
 *
 *     struct pxplanes_face faces[] = {{PXPLANES_FRONT, {0, 0, 100}, 0, {0, 0, 0}}, {PXPLANES_BACK, {0, 0, 900}, 1, {10, 20, 30}}};
 *     struct pxplanes_plane sides[] = {{1, 0, -8}};
 *     struct pxplanes_solid solids[] = {{"block", {200, 180, 160}, faces, 2, sides, 1}, {"hole", {90, 90, 90}, faces, 1, NULL, 0}};
 *     char show[32], text[256];
 *     pxplanes_join(show, sizeof show, "block", '-', "hole");
 *     struct pxplanes_scene scene = {64, 48, 12, 0, solids, 2, show};
 *     size_t len = pxplanes_write(text, sizeof text, &scene);
 *
 * The text is the canonical one of the scene, which the program's `tidy` gives back.
 */
#ifndef PXPLANES_SCENE_H
#define PXPLANES_SCENE_H

#include <stddef.h>
#include <stdint.h>
#include <string.h>

/* The plane with the value a*x + b*y + c at pixel (x, y). */
struct pxplanes_plane {
    int64_t a, b, c;
};

enum pxplanes_kind { PXPLANES_FRONT, PXPLANES_BACK };

/* A front or a back; it has a colour of its own where has_colour is not 0, and otherwise that of its solid. In C++ write
 * `struct pxplanes_face`, as in C: pxplanes.h has a call of the same name, which hides the short name of a struct there. Another
 * name for either would break programs that use it. */
struct pxplanes_face {
    enum pxplanes_kind kind;
    struct pxplanes_plane plane;
    int has_colour;
    uint8_t rgb[3];
};

/* A convex solid. Its near face has a face number, and its faces have the next ones in their order. */
struct pxplanes_solid {
    const char *name;
    uint8_t rgb[3];
    const struct pxplanes_face *faces;
    size_t faces_len;
    const struct pxplanes_plane *sides;
    size_t sides_len;
};

/* A picture of width by height pixels, with so many bits of a depth and of its fraction, of the expression `show`: the name of a
 * solid, or what pxplanes_join writes. */
struct pxplanes_scene {
    uint32_t width, height, depth_bits, fraction_bits;
    const struct pxplanes_solid *solids;
    size_t solids_len;
    const char *show;
};

/* Where a text is written; `at` counts what does not fit too. */
struct pxplanes_writer_ {
    char *text;
    size_t room, at;
};

static inline void pxplanes_put_(struct pxplanes_writer_ *to, const char *word)
{
    for (; *word != 0; word++, to->at++)
        if (to->at < to->room)
            to->text[to->at] = *word;
}

static inline void pxplanes_number_(struct pxplanes_writer_ *to, int64_t number)
{
    char digits[24];
    char *at = digits + sizeof digits - 1;
    int64_t left = number;
    *at = 0;
    do
        *--at = "0123456789"[left < 0 ? -(left % 10) : left % 10];
    while ((left /= 10) != 0);
    pxplanes_put_(to, number < 0 ? " -" : " ");
    pxplanes_put_(to, at);
}

static inline void pxplanes_colour_(struct pxplanes_writer_ *to, const uint8_t *rgb)
{
    for (int part = 0; part < 3; part++)
        pxplanes_number_(to, rgb[part]);
}

static inline void pxplanes_plane_(struct pxplanes_writer_ *to, const char *kind, const struct pxplanes_plane *plane)
{
    pxplanes_put_(to, kind);
    pxplanes_number_(to, plane->a);
    pxplanes_number_(to, plane->b);
    pxplanes_number_(to, plane->c);
}

static inline void pxplanes_solid_(struct pxplanes_writer_ *to, const struct pxplanes_solid *solid)
{
    pxplanes_put_(to, "solid ");
    pxplanes_put_(to, solid->name);
    pxplanes_colour_(to, solid->rgb);
    pxplanes_put_(to, "\n");
    for (size_t i = 0; i < solid->faces_len; i++) {
        const struct pxplanes_face *face = &solid->faces[i];
        pxplanes_plane_(to, face->kind == PXPLANES_FRONT ? "front" : "back", &face->plane);
        pxplanes_colour_(to, face->has_colour ? face->rgb : solid->rgb);
        pxplanes_put_(to, "\n");
    }
    for (size_t i = 0; i < solid->sides_len; i++) {
        pxplanes_plane_(to, "side", &solid->sides[i]);
        pxplanes_put_(to, "\n");
    }
}

/* Ends a text of characters by a 0 where there is room for both; its length without the 0. */
static inline size_t pxplanes_end_(struct pxplanes_writer_ *to)
{
    if (to->at < to->room)
        to->text[to->at] = 0;
    else if (to->room > 0)
        to->text[0] = 0;
    return to->at;
}

/* Whether a word, with its 0, and a buffer share a byte. */
static inline int pxplanes_overlaps_(const char *word, const char *text, size_t room)
{
    const size_t size = strlen(word) + 1;
    for (size_t at = 0; at < room; at++)
        if (text + at == word)
            return 1;
    for (size_t at = 0; at < size && room > 0; at++)
        if (word + at == text)
            return 1;
    return 0;
}

/*
 * Writes "(left sign right)", with a 0 after it, and gives its length without the 0. Where room is not more than that, the
 * buffer has the empty text, if it has room for any. The sign is '+', '*', '-' or '^'; both sides are names, or were joined
 * in another buffer. If the sign is another one, or a side is null or overlaps the buffer, it gives 0 and writes nothing.
 */
static inline size_t pxplanes_join(char *text, size_t room, const char *left, char sign, const char *right)
{
    struct pxplanes_writer_ to = {text, room, 0};
    const char signs[4] = {' ', sign, ' ', 0};
    if (left == NULL || right == NULL || sign == 0 || strchr("+*-^", sign) == NULL || pxplanes_overlaps_(left, text, room)
        || pxplanes_overlaps_(right, text, room))
        return 0;
    pxplanes_put_(&to, "(");
    pxplanes_put_(&to, left);
    pxplanes_put_(&to, signs);
    pxplanes_put_(&to, right);
    pxplanes_put_(&to, ")");
    return pxplanes_end_(&to);
}

/* Writes the text of a scene, as pxplanes_join does an expression: with room 0 that is how to ask for its length, and text may be
 * null. Nothing that the scene points to overlaps the text; faces and sides may be null if there are none, and no other pointer may. */
static inline size_t pxplanes_write(char *text, size_t room, const struct pxplanes_scene *scene)
{
    struct pxplanes_writer_ to = {text, room, 0};
    pxplanes_put_(&to, scene->fraction_bits > 0 ? "pxscene 3" : strchr(scene->show, '^') != NULL ? "pxscene 2" : "pxscene 1");
    pxplanes_put_(&to, "\npicture");
    pxplanes_number_(&to, scene->width);
    pxplanes_number_(&to, scene->height);
    pxplanes_put_(&to, "\ndepth");
    pxplanes_number_(&to, scene->depth_bits);
    if (scene->fraction_bits > 0)
        pxplanes_number_(&to, scene->fraction_bits);
    pxplanes_put_(&to, "\n");
    for (size_t i = 0; i < scene->solids_len; i++)
        pxplanes_solid_(&to, &scene->solids[i]);
    pxplanes_put_(&to, "show ");
    pxplanes_put_(&to, scene->show);
    pxplanes_put_(&to, "\nend\n");
    return pxplanes_end_(&to);
}

#endif
