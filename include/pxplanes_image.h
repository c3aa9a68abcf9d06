/*
 * Pictures in a form of your own, in C99 or C++: what pxplanes_render, pxplanes_window and pxplanes_colour write, as RGB or RGBA
 * of 8 bits, as uint32_t or as float, in rows at any distance; and the size of what pxplanes_run writes. Nothing is allocated.
 *
 *     uint8_t *pixels = malloc(stride * height);          // rows from the bottom, as OpenGL has them
 *     pxplanes_place_rgba(pixels + (height - 1) * stride, -(ptrdiff_t) stride, rgb, width, height);
 *
 * first: where the picture's top row begins. stride: bytes from a row to the one below it, less than 0 for rows from the bottom.
 * What lies between two rows stays as it is. No pointer is null, and the two buffers do not overlap.
 */
#ifndef PXPLANES_IMAGE_H
#define PXPLANES_IMAGE_H

#include <stddef.h>
#include <stdint.h>
#include <string.h>

#ifdef __cplusplus
#define PXPLANES_CAST_(type, value) static_cast<type>(value)
#else
#define PXPLANES_CAST_(type, value) ((type) (value))
#endif

static inline unsigned char *pxplanes_row_(void *first, ptrdiff_t stride, uint32_t y)
{
    return PXPLANES_CAST_(unsigned char *, first) + stride * PXPLANES_CAST_(ptrdiff_t, y);
}

/* Three bytes a pixel, as pxplanes_colour writes them. */
static inline void pxplanes_place_rgb(void *first, ptrdiff_t stride, const uint8_t *rgb, uint32_t width, uint32_t height)
{
    const size_t row = sizeof *rgb * 3 * width;
    for (uint32_t y = 0; y < height; y++, rgb += row)
        memcpy(pxplanes_row_(first, stride, y), rgb, row);
}

/* Four bytes a pixel; the last is 255. */
static inline void pxplanes_place_rgba(void *first, ptrdiff_t stride, const uint8_t *rgb, uint32_t width, uint32_t height)
{
    for (uint32_t y = 0; y < height; y++) {
        unsigned char *to = pxplanes_row_(first, stride, y);
        for (uint32_t x = 0; x < width; x++, rgb += 3, to += 4) {
            memcpy(to, rgb, 3);
            to[3] = 255;
        }
    }
}

/* Depths or faces as they are. */
static inline void pxplanes_place_numbers(void *first, ptrdiff_t stride, const uint32_t *numbers, uint32_t width, uint32_t height)
{
    for (uint32_t y = 0; y < height; y++, numbers += width)
        memcpy(pxplanes_row_(first, stride, y), numbers, width * sizeof *numbers);
}

/* Depths as float, which holds each exactly, since none has more than 24 bits. */
static inline void pxplanes_place_floats(void *first, ptrdiff_t stride, const uint32_t *depths, uint32_t width, uint32_t height)
{
    for (uint32_t y = 0; y < height; y++) {
        unsigned char *to = pxplanes_row_(first, stride, y);
        for (uint32_t x = 0; x < width; x++, depths++, to += sizeof(float)) {
            const float depth = PXPLANES_CAST_(float, *depths);
            memcpy(to, &depth, sizeof depth);
        }
    }
}

/*
 * The bytes that pxplanes_run writes for an image, without a call of it: two maps of the picture's size, as pxplanes_check finds it, for
 * "render"; one for "colour", "shadow" and "refine"; and two of A by B for "tile A B".
 */
static inline uint64_t pxplanes_maps_size(uint32_t width, uint32_t height, uint32_t maps)
{
    uint64_t head = 11;
    for (uint32_t left = width; left > 9; left /= 10)
        head++;
    for (uint32_t left = height; left > 9; left /= 10)
        head++;
    return maps * (head + UINT64_C(3) * width * height);
}

#undef PXPLANES_CAST_

#endif
