/*
 * Products of 128 bits, which the compiler asks for where the library looks whether a product of 64 bits is past its size, and an
 * instruction set has none: the low 128 bits of the product of two such numbers, by halves of 32 bits.
 */
#ifdef __wasm__
typedef __UINT64_TYPE__ uint64_t;
#else
#include <stdint.h>
#endif

#ifndef WIDE_PRODUCT
#define WIDE_PRODUCT __multi3
#endif

__extension__ typedef unsigned __int128 wide;

wide WIDE_PRODUCT(wide left, wide right);

/* The product of two numbers of 64 bits. */
static wide product(uint64_t left, uint64_t right)
{
    const uint64_t low = 0xffffffff;
    uint64_t first = (left & low) * (right & low);
    uint64_t second = (left >> 32) * (right & low) + (first >> 32);
    uint64_t third = (left & low) * (right >> 32) + (second & low);
    uint64_t high = (left >> 32) * (right >> 32) + (second >> 32) + (third >> 32);
    return (wide) high << 64 | third << 32 | (first & low);
}

wide WIDE_PRODUCT(wide left, wide right)
{
    uint64_t left_low = (uint64_t) left, left_high = (uint64_t) (left >> 64);
    uint64_t right_low = (uint64_t) right, right_high = (uint64_t) (right >> 64);
    return product(left_low, right_low) + ((wide) (left_high * right_low + left_low * right_high) << 64);
}
