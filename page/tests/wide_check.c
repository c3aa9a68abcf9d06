/*
 * Checks wide.c against the compiler's own products, as `cc -DWIDE_PRODUCT=wide_product wide_check.c wide.c` builds it: numbers at the
 * edges of their halves, each with each, and a million random ones. It ends with 1 at the first product that differs.
 */
#include <stdint.h>
#include <stdio.h>

__extension__ typedef unsigned __int128 wide;

wide wide_product(wide left, wide right);

static uint64_t drawn = 88172645463325252u;

static uint64_t draw(void)
{
    drawn ^= drawn << 13;
    drawn ^= drawn >> 7;
    return drawn ^= drawn << 17;
}

static int differs(wide left, wide right)
{
    return wide_product(left, right) != left * right;
}

int main(void)
{
    static const uint64_t edges[] = {0, 1, 2, 0x7fffffff, 0x80000000, 0xffffffff, 0x100000000, 0x7fffffffffffffff, 0x8000000000000000,
                                     0xfffffffffffffffe, 0xffffffffffffffff};
    enum { EDGES = sizeof edges / sizeof *edges };
    int wrong = 0;
    for (int at = 0; at < EDGES * EDGES * EDGES * EDGES; at++)
        wrong |= differs((wide) edges[at % EDGES] << 64 | edges[at / EDGES % EDGES],
                         (wide) edges[at / EDGES / EDGES % EDGES] << 64 | edges[at / EDGES / EDGES / EDGES]);
    for (int times = 0; times < 1000000; times++)
        wrong |= differs((wide) draw() << 64 | draw(), (wide) (draw() >> draw() % 64) << 64 | draw());
    puts(wrong ? "wrong: a product" : "products are well");
    return wrong;
}
