/*
 * pxplanes.h: pictures of solids by Pixel-Planes, in your own process.
 *
 * A scene is a text (docs/SCENES.md). Its picture has, for each pixel, the depth of the first cell that
 * belongs to the shown expression, and the number of the face that shows there (docs/PICTURE.md). These calls
 * read a scene and give its size, its cost, its picture or a window of it, its colours, or the products that are drawn; and, of a
 * scene or of a listing of operations (docs/LISTINGS.md), the machine after any number of clocks, what is
 * broadcast to it, and what each operation is for; they make clocks of a state (docs/MACHINE.md); and one does what any
 * command of the program does. What each answers is proved (docs/PROMISES.md).
 *
 * A whole program:
 *
 *     #include <stdio.h>
 *     #include <stdlib.h>
 *     #include <string.h>
 *     #include "pxplanes.h"
 *
 *     static const char scene[] =
 *         "pxscene 1\npicture 8 4\ndepth 4\nsolid ramp 200 100 50\n"
 *         "front 1 0 0\nback 0 0 9\nshow ramp\nend\n";
 *
 *     int main(void)
 *     {
 *         const uint8_t *text = (const uint8_t *) scene;
 *         size_t text_len = strlen(scene);
 *         struct pxplanes_found found;
 *         uint32_t status = pxplanes_check(text, text_len, &found);
 *         if (status != PXPLANES_OK) {
 *             fprintf(stderr, "status %u at line %u\n", (unsigned) status, (unsigned) found.line);
 *             return 1;
 *         }
 *         size_t pixels = (size_t) found.width * found.height;
 *         uint32_t *depths = malloc(pixels * sizeof *depths);
 *         uint32_t *faces = malloc(pixels * sizeof *faces);
 *         if (depths == NULL || faces == NULL)
 *             return 1;
 *         status = pxplanes_render(text, text_len, depths, pixels, faces, pixels, &found);
 *         if (status == PXPLANES_OK)
 *             for (uint32_t y = 0; y < found.height; y++) {
 *                 for (uint32_t x = 0; x < found.width; x++)
 *                     printf("%3u", (unsigned) depths[(size_t) y * found.width + x]);
 *                 putchar('\n');
 *             }
 *         free(depths);
 *         free(faces);
 *         return status != PXPLANES_OK;
 *     }
 *
 * What you owe:
 *   - A pointer to a buffer points to as many elements as its length says. With length 0 it may be null: a null text is
 *     the empty text, null words are no words, and a null buffer to write to has no room.
 *   - found and state are never null.
 *   - No two buffers of one call overlap, nor the text, nor *found, nor *state. Nothing else writes to any of them,
 *     or reads what a call writes, before the call returns.
 *   - No call is made from a signal handler, nor in the child of a fork of a process with threads, and none is
 *     left by longjmp.
 *   - malloc, realloc and free are those of one allocator.
 *
 * What you get:
 *   - Every call returns, though a text of some kilobytes can take hours: pxplanes_check says in found.clocks what a
 *     picture takes, before anything is drawn, and strips by pxplanes_window show progress and an end (examples/c/within.c).
 *   - None prints, exits, keeps state or memory, starts a thread or opens a file. Calls are independent of one
 *     another, so any number of threads may make them at once, each with buffers of its own.
 *   - A call takes memory only by malloc and realloc, and gives all of it back before it returns.
 *   - A buffer is written with PXPLANES_OK alone: its front is what the call says, and what comes after that stays
 *     as it was. With every other status each buffer is as it was. *found and *state are written on every return.
 *   - The stack that a call needs does not depend on the text. Some 256 KiB are enough.
 */
#ifndef PXPLANES_H
#define PXPLANES_H

#include <stddef.h>
#include <stdint.h>

#ifdef __cplusplus
extern "C" {
#endif

/* How a call ends; the numbers are the program's own, where it has them. */
#define PXPLANES_OK 0        /* what was asked is in the buffers */
#define PXPLANES_USAGE 2     /* the words name no command */
#define PXPLANES_MALFORMED 3 /* no scene, or no listing: found.line is the first bad line, found.cause says why */
#define PXPLANES_LIMIT 4     /* a limit is passed: found.kind, found.number and found.line say which, how many, where */
#define PXPLANES_MEMORY 7    /* malloc or realloc gave no memory */
#define PXPLANES_NO_ROOM 8   /* a buffer is too small: found.room is how many elements it needs. Nothing is written */
#define PXPLANES_NO_CLOCK 9  /* what is asked lies past the last clock: found.clocks is how many there are */
#define PXPLANES_NO_GRID 10  /* a grid has not so many columns or rows */
#define PXPLANES_NO_MICRO 11 /* a word packs no microinstruction: found.number is its index */
#define PXPLANES_NO_OPERATION 12 /* what is asked lies past the last operation: found.operations is how many there are */
#define PXPLANES_NO_WINDOW 13 /* a window has not so many columns or rows, or lies past PXPLANES_MAX_WIDE_SIDE */
#define PXPLANES_NO_FACE 14 /* the scene has no face of this number: found.faces is the greatest */

/* The version of this header; pxplanes_version gives that of the library. */
#define PXPLANES_VERSION_MAJOR 1
#define PXPLANES_VERSION_MINOR 0
#define PXPLANES_VERSION_PATCH 0

/* A text has at most so many bytes, a picture at most so many columns and rows, and one that is drawn in parts so many. */
#define PXPLANES_MAX_TEXT 1048576
#define PXPLANES_MAX_SIDE 512
#define PXPLANES_MAX_WIDE_SIDE 4096

/*
 * What a call found. Each call writes all fields on every return; what is not named for its status is 0.
 *
 *   OK         width, height, faces; operations and clocks, but for pxplanes_products
 *   MALFORMED  line, cause
 *   LIMIT      kind, number, and line where the limit is passed in one line
 *   MEMORY     (none)
 *   NO_ROOM    as OK, and room
 *   NO_WINDOW  (none)
 *
 * Of pxplanes_face, which draws nothing:
 *
 *   OK         width, height, faces
 *   NO_FACE    width, height, faces
 *   NO_ROOM    width, height, faces, room
 *
 * Of pxplanes_state, pxplanes_micros and pxplanes_course, which look at no picture:
 *
 *   OK            operations, clocks
 *   NO_ROOM       room
 *   NO_CLOCK      clocks
 *   NO_OPERATION  operations
 *
 * Of pxplanes_clocks, which reads no text:
 *
 *   OK         clocks, those that were made
 *   NO_GRID    (none)
 *   NO_ROOM    room
 *   NO_MICRO   number
 *
 * Of pxplanes_run:
 *
 *   OK         room, the bytes that were written
 *   NO_ROOM    room
 *   USAGE      (none)
 */
struct pxplanes_found {
    uint32_t width;      /* columns of the picture, 1 to 512 */
    uint32_t height;     /* rows of the picture, 1 to 512 */
    uint32_t faces;      /* the greatest face number of the scene; faces are numbered from 1 (docs/SCENES.md) */
    uint32_t line;       /* the first bad line of the text, from 1; its last, where `end` is missing */
    uint32_t cause;      /* why that line is bad, from 1: pxplanes_cause_name has the word */
    uint32_t kind;       /* which limit is passed, from 1: pxplanes_kind_name has the word */
    int64_t number;      /* what was found there, as the program prints it: a count, or a number of the text */
    uint64_t operations; /* broadcast operations that draw the picture, or of the listing */
    uint64_t clocks;     /* clocks that they take the machine (docs/PASSES.md) */
    uint64_t room;       /* elements that the buffer, or each of the two, has to have */
};

/*
 * Judges a text and draws nothing.
 *
 * OK is answered exactly where pxplanes_render can draw the picture; found then has its size and cost. A text
 * that is no scene is MALFORMED, or past a LIMIT, by its first bad line. A scene is past a LIMIT, with line 0,
 * where its passes need more than 72 bits of a pixel ("pixel-memory"), or its expression has a list of more than
 * 1024 products ("products").
 */
uint32_t pxplanes_check(const uint8_t *text, size_t text_len, struct pxplanes_found *found);

/*
 * Draws a picture: pixel (x, y) is element y * found.width + x of each buffer, with x from the left and y from
 * the top.
 *
 * depths: the depth of the first cell of the shown expression, in cells from the viewer; where there is none,
 *         2^depth - 1 for the scene's `depth`.
 * faces:  the number of the face that shows, 1 to found.faces; 0 for the background.
 *
 * Each has found.width * found.height elements or more. Refusals are those of pxplanes_check, whatever the
 * buffers; NO_ROOM is answered for a scene that could be drawn.
 */
uint32_t pxplanes_render(const uint8_t *text, size_t text_len, uint32_t *depths, size_t depths_len,
                         uint32_t *faces, size_t faces_len, struct pxplanes_found *found);

/*
 * Draws a window of a picture, of `width` by `height` pixels: pixel (x + i, y + j) of the picture is element
 * j * width + i of each buffer. Depths and faces are those of pxplanes_render, and each buffer has width * height elements
 * or more.
 *
 * The window is drawn as a scene of its own, so time and memory are those of a picture of its size: draw a picture in
 * strips to report progress, to stop between two of them, or to let each thread draw one. found has the size of the
 * window, and what its passes cost.
 *
 * x, y: its first column and row. The window may lie right of the scene's picture or below it: there it shows what
 *       the program's `tile` draws, whose widest picture is PXPLANES_MAX_WIDE_SIDE pixels wide and high.
 * width, height: 1 to PXPLANES_MAX_SIDE.
 *
 * The text is refused as by pxplanes_check. Then come, in this order: NO_WINDOW; LIMIT, with line 0, if the constant of a
 * plane at pixel (x, y) is past 2^33 ("coefficient", whatever pxplanes_render answers), and for "pixel-memory" and
 * "products" of the window; and NO_ROOM.
 */
uint32_t pxplanes_window(const uint8_t *text, size_t text_len, uint32_t x, uint32_t y, uint32_t width, uint32_t height,
                         uint32_t *depths, size_t depths_len, uint32_t *faces, size_t faces_len,
                         struct pxplanes_found *found);

/*
 * Draws a picture in colour: bytes 3 * (y * found.width + x) and the two after it are red, green and blue of the
 * face that shows at (x, y), and black for the background.
 *
 * rgb has 3 * found.width * found.height bytes or more. Refusals are those of pxplanes_check.
 */
uint32_t pxplanes_colour(const uint8_t *text, size_t text_len, uint8_t *rgb, size_t rgb_len,
                         struct pxplanes_found *found);

/* Which face of its solid a face is. */
#define PXPLANES_FACE_NEAR 1  /* its near face */
#define PXPLANES_FACE_FRONT 2 /* one of its fronts */
#define PXPLANES_FACE_BACK 3  /* one of its backs */

/* What a face number means. pxplanes_face writes all fields with OK, and none with another status. */
struct pxplanes_numbered_face {
    uint32_t solid; /* its solid, from 1 in the order of their lines */
    uint32_t kind;  /* PXPLANES_FACE_NEAR, PXPLANES_FACE_FRONT or PXPLANES_FACE_BACK */
    uint32_t plane; /* which front or back of the solid it is, from 1 in the order of their lines; 0 for the near face */
    uint32_t line;  /* the line of the text that gives it its number, from 1: the solid's for the near face, otherwise the plane's */
    uint32_t red;   /* its colour, each part from 0 to 255 */
    uint32_t green;
    uint32_t blue;
};

/* A solid's name has at most so many bytes. */
#define PXPLANES_MAX_NAME 32

/*
 * Says what a face number of a picture means. Faces are numbered from 1 in the order of the lines `solid`, `front` and
 * `back` (docs/PICTURE.md, "Faces").
 *
 * number: 1 to found.faces; NO_FACE is answered for any other number, as for 0, the background.
 * name: the solid's name goes to its front, without a 0 after it: PXPLANES_MAX_NAME bytes, and one that is 0, hold each
 *       name as a string. NO_ROOM is answered where it is shorter than the name: found.room is the name's length.
 *
 * A text that is no scene is refused as by pxplanes_check; nothing is drawn, and so no limit of the picture is asked.
 */
uint32_t pxplanes_face(const uint8_t *text, size_t text_len, uint32_t number, uint8_t *name, size_t name_len,
                       struct pxplanes_numbered_face *face, struct pxplanes_found *found);

/*
 * Lists the products that are drawn, those that can show anything, in the order of the program's `plan`.
 *
 * A product is a row of solid numbers, counted from 1 in the order of their lines: first those of the solids that
 * its cells lie inside, rising, then, below 0, those of the solids that they lie outside, and a 0 after them. So
 * "house - door" is 1 -2 0, and found.room numbers are needed for all.
 *
 * A text that is no scene is refused as by pxplanes_check; of the limits after it, only that of "products" counts.
 * found.operations and found.clocks are 0.
 */
uint32_t pxplanes_products(const uint8_t *text, size_t text_len, int32_t *literals, size_t literals_len,
                           struct pxplanes_found *found);

/* Memory bits of a pixel of the machine. */
#define PXPLANES_BITS 72

/* Where the machine is. pxplanes_state writes all fields on every return; with another status than OK each is 0. */
struct pxplanes_moment {
    uint32_t grid_width;      /* columns of the grid of pixels: 2, 4, .. 512 */
    uint32_t grid_height;     /* its rows: 2, 4, .. 512 */
    uint32_t words_per_row;   /* words that a row of a plane has: one for each 64 columns */
    uint32_t bits;            /* memory bits of a pixel: PXPLANES_BITS */
    uint32_t levels;          /* levels of the multiplier tree; level k has 2^k nodes, and the last has one a pixel */
    uint64_t clock;           /* clocks that were made, as asked */
    uint64_t clocks;          /* clocks that there are */
    uint64_t operation;       /* operation of the broadcast that comes next, from 0; at the end how many there are */
    uint64_t operation_clock; /* which of that operation's clocks it is, from 0; at the end 0 */
    uint64_t next_micro;      /* what is broadcast then, packed (see pxplanes_micros); at the end 0 */
};

/*
 * Finds the machine after the first `clock` clocks of a scene or of a listing: a text whose first word is "pxlist"
 * is a listing, and every other one a scene. A listing is read for pixels of 72 memory bits. Clock 0 is before the
 * first broadcast, where every bit is 0, and clock found.clocks is after the last.
 *
 * words: found.room of them, or more: the bits of the machine, all in one list.
 *   - First PXPLANES_BITS + 4 planes, each of grid_height rows from row 0, each of words_per_row words from column 0:
 *     the bits of memory from bit 0 on, then enable, carry and latch, and last the leaf, which is what the tree gives
 *     the pixel. Bit i of word w of a row is the pixel of column 64 * w + i, and 0 past the last column. So memory
 *     bit b of pixel (x, y) is
 *         words[((size_t) b * state.grid_height + y) * state.words_per_row + x / 64] >> x % 64 & 1
 *   - Then the outputs of all nodes of the tree, and after them their carries, each (2^(levels + 1) + 63) / 64
 *     words: node i of level k, with levels from 1, is bit (2^k + i) % 64 of word (2^k + i) / 64. Bits 0 and 1 are 0.
 *
 * The text is refused as by pxplanes_check, and a listing as docs/LISTINGS.md says, by the same numbers of causes and
 * by kinds of its own. NO_CLOCK is answered where clock is past the last, and otherwise NO_ROOM. The room does not depend
 * on the clock. So for the first words of a scene:
 *
 *     struct pxplanes_moment state;
 *     uint64_t *words = NULL;
 *     uint32_t status = pxplanes_state(text, text_len, 40, NULL, 0, &state, &found);
 *     if (status == PXPLANES_NO_ROOM && (words = malloc((size_t) found.room * sizeof *words)) != NULL)
 *         status = pxplanes_state(text, text_len, 40, words, (size_t) found.room, &state, &found);
 */
uint32_t pxplanes_state(const uint8_t *text, size_t text_len, uint64_t clock, uint64_t *words, size_t words_len,
                        struct pxplanes_moment *state, struct pxplanes_found *found);

/*
 * Writes what is broadcast in micros_len clocks of a scene or of a listing, from clock `first` on, counted from 0: a
 * microinstruction in each element. With micros_len 0 nothing but found is written, and found.clocks is how many
 * there are.
 *
 *   bits 0 to 31   the place of memory that the act names, and otherwise 0
 *   bits 32 to 39  the act: 1 nop, 2 enable-all, 3 enable-carry, 4 enable-tree, 5 enable-bit, 6 set-carry, 7 fetch,
 *                  8 store-tree, 9 store-latch, 10 store-const, 11 toggle, 12 carry-tree, 13 carry-latch,
 *                  14 add-tree (docs/MACHINE.md, "The fourteen acts")
 *   bit 40         the value that it names, and otherwise 0
 *   bits 48, 49    what the tree does: 0 hold, 1 clear, 2 feed
 *   bits 56 to 58  the lines a, b and c of a feed, and otherwise 0
 *
 * All other bits are 0, and no microinstruction is 0. Texts are read as by pxplanes_state. NO_CLOCK is answered
 * where first + micros_len is past the last clock; then no element is written. NO_ROOM is not answered.
 */
uint32_t pxplanes_micros(const uint8_t *text, size_t text_len, uint64_t first, uint64_t *micros, size_t micros_len,
                         struct pxplanes_found *found);

/* An operation of a scene's passes, or of a listing, and what it is for. Numbers that do not apply are 0. */
struct pxplanes_operation {
    int64_t numbers[5];     /* those of its line, in their order (docs/LISTINGS.md, "Operations") */
    uint64_t clock;         /* the clock at which it begins, from 0 */
    uint64_t pass;          /* its step among all steps of a scene, from 0; each begins with "all" */
    uint64_t literal;       /* the literal that the step is of, from 1: its place among all numbers but 0 that
                               pxplanes_products writes; 0 for the start */
    uint32_t kind;          /* which operation it is, from 1 */
    uint32_t numbers_count; /* how many of the numbers its line has */
    uint32_t role;          /* which step it is of, from 1; 0 in a listing */
    uint32_t solid;         /* the solid of the face that the step is of, from 1; 0 where the step is of no face */
    uint32_t face;          /* that face's number, as pxplanes_render writes it; 0 for the far limit, which has none */
    uint32_t other;         /* which other literal the step asks, from 1, among the literals of the product that are
                               of other solids, in their order; 0 where it asks none */
};

/*
 * Writes course_len operations of a scene or of a listing, from operation `first` on, counted from 0, and of a
 * scene what each is for (docs/PASSES.md, "Steps"). With course_len 0 nothing but found is written, and
 * found.operations is how many there are.
 *
 *   kind   1 all, 2 keep-sign, 3 keep-bit, 4 load-linear, 5 keep-at-most, 6 add-linear, 7 load-const, 8 set-bit,
 *          9 toggle, 10 copy, 11 keep-less (docs/MACHINE.md, "Broadcast operations")
 *   role   1 start: the background becomes the best
 *          2 open: no candidate is alive
 *          3 candidate: a face of the literal's solid becomes the candidate
 *          4 drop: a back of a plain solid drops the candidate that is not before it
 *          5 clear: the fronts of a barred solid are to be counted
 *          6 front: one of them is counted
 *          7 confirm: the candidate stays alive where a front was
 *          8 begin: another literal begins to judge
 *          9 turn: a face of its solid is counted
 *          10 close: the other literal judges
 *          11 merge: a live candidate takes the place of the best where it is nearer
 *
 * A face comes with the roles 3, 4, 6 and 9, and another literal with 8, 9 and 10. Texts are read as by
 * pxplanes_state. NO_OPERATION is answered where first + course_len is past the last operation; then no element is
 * written. NO_ROOM is not answered.
 */
uint32_t pxplanes_course(const uint8_t *text, size_t text_len, uint64_t first, struct pxplanes_operation *course,
                         size_t course_len, struct pxplanes_found *found);

/*
 * The machine itself: makes a clock for each of micros_len microinstructions, in their order, on the state that the
 * words hold. Words and microinstructions are as pxplanes_state and pxplanes_micros write them, or of your own: a
 * state is yours, to copy and to keep, and going back is a copy that was kept. No memory is taken, and
 * PXPLANES_MEMORY is never answered.
 *
 * words: the state of a grid of grid_width by grid_height pixels, 2, 4, .. 512 each, in found.room words of them or
 *        more (with words_len 0 that is how to ask how many). With OK they hold the state after the last clock; what
 *        comes after them stays. Words that no state has (a bit set where no pixel or node is, or leaves that are not the
 *        outputs of their nodes) give words of which nothing is promised.
 * micros: each names a place below PXPLANES_BITS where its act names one.
 *
 * NO_GRID is answered where a side is none of these; otherwise NO_ROOM; otherwise NO_MICRO, where an element packs no
 * microinstruction, or names a place past the memory, with the index of the first. Then no word is written.
 */
uint32_t pxplanes_clocks(uint64_t *words, size_t words_len, uint32_t grid_width, uint32_t grid_height,
                         const uint64_t *micros, size_t micros_len, struct pxplanes_found *found);

/*
 * Runs the program: does what its words ask (docs/SCENES.md, "Commands") with a text in place of its standard input, and
 * writes what it writes to its standard output, byte for byte.
 *
 * words: those of a command with spaces between them, as "tidy", "tile 1024 768", "refine 2", "shadow", "list", "play",
 *        "sample 20", or "debug" with its lines after the scene (docs/DEBUGGER.md). No words are those of "render".
 * out:   the bytes of the output, found.room of them, from the front on.
 *
 * The text is refused as by the program: with MALFORMED and LIMIT found is what its note says, and with USAGE the
 * words name no command. `debug` is past a LIMIT where its lines are, though the program answers those before: then
 * nothing is written. NO_ROOM is answered also if there is no buffer. For "render", "colour", "refine" and "tile" it comes before the
 * work: no array is opened and nothing is drawn, so a call without a buffer asks for the room. For "shadow" and for texts it comes after
 * the work, which is then done for nothing; the room of "shadow" is that of "colour".
 *
 *     struct pxplanes_found found;
 *     size_t room = 1 << 20;
 *     uint8_t *tidied = malloc(room);
 *     if (tidied != NULL && pxplanes_run(text, text_len, (const uint8_t *) "tidy", 4, tidied, room, &found) == PXPLANES_OK)
 *         fwrite(tidied, 1, (size_t) found.room, stdout);
 */
uint32_t pxplanes_run(const uint8_t *text, size_t text_len, const uint8_t *words, size_t words_len, uint8_t *out,
                      size_t out_len, struct pxplanes_found *found);

/*
 * The word of found.cause, as "unexpected"; of found.kind, as "solids"; and the version of the library, as
 * "1.0.0". In ASCII, with no byte 0 after it.
 *
 * Each gives the length of the word, and writes it to the front of the buffer where it fits; where it does not,
 * nothing is written. A number that names nothing has a word of length 0. No word is longer than 16 bytes.
 */
size_t pxplanes_cause_name(uint32_t cause, uint8_t *name, size_t name_len);
size_t pxplanes_kind_name(uint32_t kind, uint8_t *name, size_t name_len);
size_t pxplanes_version(uint8_t *text, size_t text_len);

#ifdef __cplusplus
}
#endif

#endif
