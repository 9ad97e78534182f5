/* A map viewer colours the edges of a shape while a point is dragged over it:
 * each edge by the side on which the point lies, as the estimate in single
 * floats tells it, and by the exact test where it says "close".
 *
 *     sides
 *
 * To build it, with Karvoiss installed:
 *
 *     cc sides.c $(pkg-config --cflags --libs karvoiss) -o sides
 */
#include <karvoiss.h>

#include <stdio.h>

struct point {
    int32_t x, y;
};

/* A district round the origin, against the clock: within it a point is to the
 * left of every edge. */
static const struct point corners[] = {
    {-900000, -700000}, {800000, -850000}, {950000, 600000}, {100000, 980000}, {-870000, 640000},
};

enum { EDGES = sizeof corners / sizeof corners[0] };

/* The exact side value fits 64 bits. */
static int exact_side(struct point a, struct point b, struct point c)
{
    int64_t value = ((int64_t)b.x - a.x) * ((int64_t)c.y - a.y) - ((int64_t)b.y - a.y) * ((int64_t)c.x - a.x);

    return (value > 0) - (value < 0);
}

/* One line: the point, then of each edge its side, < left, > right, = on its
 * line, with a mark where the exact test was asked. Returns how often it was. */
static int colour(struct point c)
{
    int asked = 0;

    printf("(%d,%d):", c.x, c.y);
    for (int i = 0; i < EDGES; i++) {
        struct point a = corners[i], b = corners[(i + 1) % EDGES];
        karvoiss_estimate_t e = karvoiss_estimate(a.x, a.y, b.x, b.y, c.x, c.y);
        int side = e.side != 0 ? e.side : exact_side(a, b, c);

        asked += e.side == 0;
        printf(" %c%s", side > 0 ? '<' : side < 0 ? '>' : '=', e.side == 0 ? "!" : "");
    }
    printf("\n");
    return asked;
}

int main(void)
{
    /* the point is dragged out of the district, over its lowest edge, and back
     * in at a corner; the last place lies outside the range of estimates */
    static const struct point path[] = {
        {0, 0}, {-50000, -774999}, {-50000, -775000}, {-50000, -775001}, {0, -999999}, {800000, -850000}, {799999, -849999}, {0, 1000001},
    };
    const int places = sizeof path / sizeof path[0];
    int asked = 0;

    for (int i = 0; i < places; i++)
        asked += colour(path[i]);
    printf("%d sides, %d of them by the exact test\n", places * EDGES, asked);
    return 0;
}
