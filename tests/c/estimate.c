/* karvoiss_estimate beside an emulation in whole numbers: no float is computed with here, and the answers are compared bit by bit. Triples of points at random, triples
 * whose side value lies near 524,288, points at and beyond the range, and known cases. Then the emulation with one mistake after the other takes the place of the archive, and
 * each must be noticed.
 *
 *     estimate [seed [triples]]
 */
#include "karvoiss.h"

#include <stdio.h>
#include <stdlib.h>
#include <string.h>

enum { RANGE = 1000000, BOUND = 524288, DIGITS = 24 };

struct triple {
    int32_t ax, ay, bx, by, cx, cy;
};

/* What is told of a triple: the estimate's bits and the side. */
struct told {
    uint32_t bits;
    int32_t side;
};

/* ---- whole numbers with a sign, as a float has them: minus zero is one of them */

struct number {
    bool negative;
    uint64_t size;
};

enum mistake {
    NONE,
    FUSED_FIRST,
    FUSED_SECOND,
    ROUNDED_AT_THE_END,
    ROUNDED_DOWN,
    TIES_UPWARD,
    ENDS_EXCHANGED,
    FROM_THE_OTHER_END,
    ZERO_WITHOUT_SIGN,
    BOUND_IS_CERTAIN,
    SIDE_BY_EXACT_VALUE,
    SIDES_EXCHANGED,
    RANGE_ONE_MORE,
    RANGE_ONE_LESS,
    LAST_POINT_UNASKED,
    ESTIMATE_OUTSIDE,
    MISTAKES
};

static const char *const names[MISTAKES] = {
    "none",
    "the first product fused into the subtraction",
    "the second product fused into the subtraction",
    "one rounding, at the end",
    "rounded towards zero",
    "ties away from zero",
    "the segment's ends exchanged",
    "differences from the other end",
    "zero without its sign",
    "524,288 is certain",
    "the side by the exact value",
    "left and right exchanged",
    "the range one more",
    "the range one less",
    "the last point's range not asked",
    "an estimate outside the range",
};

static enum mistake mistake;

static struct number whole(int64_t v)
{
    return (struct number){.negative = v < 0, .size = v < 0 ? (uint64_t)-v : (uint64_t)v};
}

/* To 24 binary digits, to the nearest, and to the even one of two. */
static struct number rounded(struct number n)
{
    int dropped = 0;

    while (n.size >> dropped >= (uint64_t)1 << DIGITS)
        dropped++;
    if (dropped == 0)
        return n;

    uint64_t unit = (uint64_t)1 << dropped, rest = n.size % unit, kept = n.size / unit;

    if (mistake != ROUNDED_DOWN && (rest > unit / 2 || (rest == unit / 2 && (kept % 2 == 1 || mistake == TIES_UPWARD))))
        kept++;
    n.size = kept * unit;
    return n;
}

static struct number product(struct number a, struct number b)
{
    return (struct number){.negative = a.negative != b.negative, .size = a.size * b.size};
}

/* A difference that is zero is plus zero, but for minus zero less plus zero. */
static struct number difference(struct number a, struct number b)
{
    if (a.negative != b.negative)
        return (struct number){.negative = a.negative, .size = a.size + b.size};
    if (a.size > b.size)
        return (struct number){.negative = a.negative, .size = a.size - b.size};
    if (a.size < b.size)
        return (struct number){.negative = !a.negative, .size = b.size - a.size};
    return (struct number){.negative = false, .size = 0};
}

/* The bits of the single float that is this number, which has 24 digits at most. */
static uint32_t float_bits(struct number n)
{
    uint32_t sign = n.negative && !(n.size == 0 && mistake == ZERO_WITHOUT_SIGN) ? (uint32_t)1 << 31 : 0;
    uint32_t exponent = 127 + DIGITS - 1;

    if (n.size == 0)
        return sign;
    for (; n.size >= (uint64_t)1 << DIGITS; n.size /= 2)
        exponent++;
    for (; n.size < (uint64_t)1 << (DIGITS - 1); n.size *= 2)
        exponent--;
    return sign | exponent << (DIGITS - 1) | (uint32_t)(n.size - ((uint64_t)1 << (DIGITS - 1)));
}

/* ---- the estimate, emulated */

static bool in_range(int32_t x, int32_t y)
{
    int32_t range = RANGE + (mistake == RANGE_ONE_MORE) - (mistake == RANGE_ONE_LESS);

    return x >= -range && x <= range && y >= -range && y <= range;
}

static bool all_in_range(const struct triple *t)
{
    return in_range(t->ax, t->ay) && in_range(t->bx, t->by) && (mistake == LAST_POINT_UNASKED || in_range(t->cx, t->cy));
}

static int64_t exact_side(const struct triple *t)
{
    return ((int64_t)t->bx - t->ax) * ((int64_t)t->cy - t->ay) - ((int64_t)t->by - t->ay) * ((int64_t)t->cx - t->ax);
}

static struct number apart(int32_t u, int32_t v)
{
    return rounded(difference(rounded(whole(u)), rounded(whole(v))));
}

static struct number estimated(const struct triple *t)
{
    struct number across = apart(t->bx, t->ax), up = apart(t->cy, t->ay), rise = apart(t->by, t->ay), aside = apart(t->cx, t->ax);
    struct number first = product(across, up), second = product(rise, aside);

    switch (mistake) {
    case ROUNDED_AT_THE_END:
        return rounded(difference(first, second));
    case FUSED_FIRST:
        return rounded(difference(first, rounded(second)));
    case FUSED_SECOND:
        return rounded(difference(rounded(first), second));
    case ENDS_EXCHANGED:
        return rounded(difference(rounded(second), rounded(first)));
    case FROM_THE_OTHER_END:
        return rounded(difference(rounded(product(across, apart(t->cy, t->by))), rounded(product(rise, apart(t->cx, t->bx)))));
    default:
        return rounded(difference(rounded(first), rounded(second)));
    }
}

static int32_t side_of(struct number n)
{
    if (n.size < BOUND || (n.size == BOUND && mistake != BOUND_IS_CERTAIN))
        return 0;
    return n.negative != (mistake == SIDES_EXCHANGED) ? -1 : 1;
}

static struct told emulated(const struct triple *t)
{
    if (!all_in_range(t))
        return (struct told){.bits = mistake == ESTIMATE_OUTSIDE ? float_bits(estimated(t)) : 0, .side = 0};

    struct number n = estimated(t);

    return (struct told){.bits = float_bits(n), .side = side_of(mistake == SIDE_BY_EXACT_VALUE ? whole(exact_side(t)) : n)};
}

static struct told answered(const struct triple *t)
{
    karvoiss_estimate_t e = karvoiss_estimate(t->ax, t->ay, t->bx, t->by, t->cx, t->cy);
    struct told told = {.side = e.side};

    memcpy(&told.bits, &e.estimate, sizeof told.bits);
    return told;
}

/* ---- triples */

static uint64_t state;

static uint64_t draw(void)
{
    uint64_t z = state += 0x9E3779B97F4A7C15;

    z = (z ^ z >> 30) * 0xBF58476D1CE4E5B9;
    z = (z ^ z >> 27) * 0x94D049BB133111EB;
    return z ^ z >> 31;
}

/* From -most to most. */
static int32_t within(int32_t most)
{
    return (int32_t)(draw() % (2 * (uint64_t)most + 1)) - most;
}

/* A coordinate: anywhere, or near the end of the range, and now and then just beyond it; or near zero. */
static int32_t coordinate(void)
{
    switch (draw() % 16) {
    case 0:
        return (draw() % 2 ? 1 : -1) * (RANGE - (int32_t)(draw() % 4));
    case 1:
        return within(100);
    case 2:
        return draw() % 64 ? within(2000) : within(RANGE + 2);
    case 3:
        return draw() % 64 ? within(RANGE) : (draw() % 2 ? 1 : -1) * (RANGE + 1);
    default:
        return within(RANGE);
    }
}

static struct triple any_triple(void)
{
    struct triple t = {.ax = coordinate(), .ay = coordinate(), .bx = coordinate(), .by = coordinate(), .cx = coordinate(), .cy = coordinate()};

    if (draw() % 4096 == 0)
        t.cx = (int32_t)draw();
    return t;
}

/* x and y with dx y - dy x = 1, for dx and dy above zero without a common factor; none if they have one. */
static bool one_apart(int64_t dx, int64_t dy, int64_t *x, int64_t *y)
{
    int64_t r = dx, s = dy, rx = 0, ry = 1, sx = -1, sy = 0;

    while (s != 0) {
        int64_t q = r / s, k;

        k = r - q * s, r = s, s = k;
        k = rx - q * sx, rx = sx, sx = k;
        k = ry - q * sy, ry = sy, sy = k;
    }
    *x = rx;
    *y = ry;
    return r == 1;
}

/* A triple whose side value is near 524,288 or its opposite: c is moved along the segment's direction until it lies in the range. */
static bool near_triple(struct triple *t)
{
    int64_t dx = 1 + (int64_t)(draw() % 1999999), dy = 1 + (int64_t)(draw() % 1999999), x, y;
    int64_t wanted = (draw() % 2 ? BOUND : -BOUND) + within(draw() % 2 ? 3 : 400000);

    if (!one_apart(dx, dy, &x, &y))
        return false;
    t->ax = -RANGE + (int32_t)(draw() % (uint64_t)(2 * RANGE - dx + 1));
    t->ay = -RANGE + (int32_t)(draw() % (uint64_t)(2 * RANGE - dy + 1));
    t->bx = t->ax + (int32_t)dx;
    t->by = t->ay + (int32_t)dy;

    int64_t cx = (int64_t)((__int128)x * wanted % dx), steps;

    steps = (draw() % 3) - 1;
    cx += steps * dx;

    int64_t cy = (int64_t)(((__int128)dy * cx + wanted) / dx);

    cx += t->ax;
    cy += t->ay;
    if (cx < -RANGE || cx > RANGE || cy < -RANGE || cy > RANGE)
        return false;
    t->cx = (int32_t)cx;
    t->cy = (int32_t)cy;
    return exact_side(t) == wanted;
}

/* ---- the comparison */

struct tally {
    long near, fused, certain, minus_zero, outside;
};

static void fail(const char *what, const struct triple *t)
{
    fprintf(stderr, "estimate: %s: a (%d,%d), b (%d,%d), c (%d,%d)\n", what, t->ax, t->ay, t->bx, t->by, t->cx, t->cy);
    exit(1);
}

/* What document 02 says of an answer, apart from the emulation: within 524,288, and a side that is told is the exact one. */
static void holds(const struct triple *t, struct told told)
{
    struct number n = estimated(t);
    int64_t side = exact_side(t), error = (n.negative ? -(int64_t)n.size : (int64_t)n.size) - side;

    if (error > BOUND || error < -BOUND)
        fail("further than 524,288", t);
    if ((told.side == 1 && side <= 0) || (told.side == -1 && side >= 0))
        fail("a wrong side", t);
}

static uint32_t fused_bits(const struct triple *t, enum mistake how)
{
    mistake = how;

    uint32_t bits = float_bits(estimated(t));

    mistake = NONE;
    return bits;
}

static void compare(const struct triple *t, struct tally *tally)
{
    struct told expected = emulated(t), found = answered(t);

    if (expected.bits != found.bits)
        fail("another estimate", t);
    if (expected.side != found.side)
        fail("another side", t);
    if (!all_in_range(t)) {
        tally->outside++;
        return;
    }
    holds(t, found);
    tally->certain += found.side != 0;
    tally->minus_zero += found.bits == (uint32_t)1 << 31;
    tally->fused += fused_bits(t, FUSED_FIRST) != found.bits || fused_bits(t, FUSED_SECOND) != found.bits;
}

/* ---- known cases */

struct known {
    struct triple t;
    int64_t estimate;
    bool minus_zero;
    int32_t side;
};

static const struct known known[] = {
    {{-273771, -1000000, 905877, 999997, -1000000, 900003}, 3693790887936, false, 1},
    {{0, 0, 0, 0, 0, -5}, 0, true, 0},
    {{0, 0, 524289, 0, 0, 1}, 524289, false, 1},
    {{0, 0, 524288, 0, 0, 1}, 524288, false, 0},
    {{0, 0, -524288, 0, 0, 1}, -524288, false, 0},
    {{0, 0, -524289, 0, 0, 1}, -524289, false, -1},
    {{0, 0, 1000000, 0, 0, 1}, 1000000, false, 1},
    {{0, 0, 1000001, 0, 0, 1}, 0, false, 0},
    {{0, 0, 0, -1000001, 1000000, 0}, 0, false, 0},
    {{1000000, 1000000, -1000000, -1000000, 1000000, -1000000}, 4000000000000, false, 1},
    {{INT32_MIN, 0, INT32_MAX, 0, 0, INT32_MIN}, 0, false, 0},
};

enum { KNOWN = sizeof known / sizeof known[0] };

static void known_cases(struct tally *tally)
{
    for (int k = 0; k < KNOWN; k++) {
        struct number n = whole(known[k].estimate);

        n.negative = n.negative || known[k].minus_zero;
        compare(&known[k].t, tally);

        struct told found = answered(&known[k].t);

        if (found.bits != float_bits(rounded(n)) || found.side != known[k].side)
            fail("a known case", &known[k].t);
    }

    /* the greatest error that there is */
    if (3693790887936 - exact_side(&known[0].t) != 327679)
        fail("the error is another", &known[0].t);
}

/* ---- each mistake must be noticed, on the same triples */

static bool notices(const struct triple *t)
{
    struct told wrong = emulated(t), found = answered(t);

    return wrong.bits != found.bits || wrong.side != found.side;
}

static bool noticed(uint64_t seed, long triples)
{
    struct triple t;

    state = seed;
    for (int k = 0; k < KNOWN; k++)
        if (notices(&known[k].t))
            return true;
    for (long i = 0; i < triples; i++)
        if ((t = any_triple(), notices(&t)) || (near_triple(&t) && notices(&t)))
            return true;
    return false;
}

int main(int argc, char **argv)
{
    uint64_t seed = argc > 1 ? strtoull(argv[1], NULL, 10) : 10;
    long triples = argc > 2 ? strtol(argv[2], NULL, 10) : 1000000;
    struct tally tally = {0};
    struct triple t;

    state = seed;
    known_cases(&tally);
    for (long i = 0; i < triples; i++) {
        t = any_triple();
        compare(&t, &tally);
    }
    while (tally.near < triples / 10)
        if (near_triple(&t)) {
            compare(&t, &tally);
            tally.near++;
        }
    printf("estimate: seed %llu: %ld triples and %ld near the bound, bit by bit; %ld outside the range, %ld certain, %ld minus zero, fusing shows on %ld\n",
           (unsigned long long)seed, triples, tally.near, tally.outside, tally.certain, tally.minus_zero, tally.fused);
    if (tally.fused < triples / 100 || tally.minus_zero == 0 || tally.outside == 0) {
        fprintf(stderr, "estimate: the triples show too little\n");
        return 1;
    }
    for (mistake = NONE + 1; mistake < MISTAKES; mistake++)
        if (!noticed(seed, triples / 10)) {
            fprintf(stderr, "estimate: not noticed: %s\n", names[mistake]);
            return 1;
        }
    printf("estimate: %d mistakes noticed\n", MISTAKES - 1);
    return 0;
}
