/* karvoiss_in_window beside a reference in whole numbers, written apart from the crates: a float is taken apart by its bits, and no float is compared here. Windows whose numbers
 * lie at and beside the edges of boxes, at the limits, subnormal, huge and not finite; lists of up to 66 summaries, some bad, some cut. Then the reference with one mistake after
 * the other takes the place of the archive, and each must be noticed.
 *
 *     window [seed [windows]]
 */
#include "karvoiss.h"

#include <stdio.h>
#include <stdlib.h>
#include <string.h>

enum { LIMIT = 10000000, SIZE = 20, MOST = 64, ROOM = 70 * SIZE };

/* What is asked: the bits of least x, least y, greatest x, greatest y, and the summaries' bytes. */
struct asked {
    uint32_t bits[4];
    uint8_t bytes[ROOM];
    size_t length;
};

struct told {
    uint32_t number;
    size_t place;
    uint64_t word;
    uint32_t hits;
};

enum mistake {
    NONE,
    LEFT_EDGE_MISSED,
    RIGHT_EDGE_MISSED,
    LOWER_EDGE_MISSED,
    UPPER_EDGE_MISSED,
    NUMBERS_CUT_TO_WHOLE,
    ONE_AXIS,
    BITS_FROM_THE_OTHER_END,
    EMPTY_COUNTED,
    HITS_OF_THE_SENT,
    NAN_TAKEN,
    INFINITY_TAKEN,
    MINUS_ZERO_BELOW_ZERO,
    EQUAL_NUMBERS_REFUSED,
    MANY_BEFORE_WINDOW,
    BAD_BEFORE_MANY,
    CUT_ONE_NOT_COUNTED,
    CUT_ONE_IGNORED,
    PLACE_IN_BYTES,
    LAST_BAD,
    BOUNDARY_UNTESTED,
    EMPTY_RULE_UNTESTED,
    LIMIT_UNTESTED,
    MISTAKES
};

static const char *const names[MISTAKES] = {
    "none",
    "a box that ends at the window's least x is missed",
    "a box that begins at the window's greatest x is missed",
    "a box that ends at the window's least y is missed",
    "a box that begins at the window's greatest y is missed",
    "numbers cut to whole ones",
    "one axis for both",
    "bits from the other end",
    "empty ones counted",
    "hits of the sent",
    "a NaN is taken",
    "an infinity is taken",
    "-0.0 below 0.0",
    "equal numbers refused",
    "28 before 27",
    "18 before 28",
    "a cut one not counted",
    "a cut one ignored",
    "18 at an offset",
    "18 at the last bad one",
    "a region without boundary taken",
    "an empty one with a box taken",
    "a coordinate beyond the limit taken",
};

static enum mistake mistake;

/* ---- floats by their bits */

static bool is_nan(uint32_t b)
{
    return (b & 0x7FFFFFFF) > 0x7F800000;
}

static bool is_finite(uint32_t b)
{
    return (b & 0x7F800000) != 0x7F800000 || (mistake == NAN_TAKEN && is_nan(b)) || (mistake == INFINITY_TAKEN && !is_nan(b));
}

/* Numbers in the order of this key are in the order of the floats; both zeros have one. */
static int64_t key(uint32_t b)
{
    int64_t size = b & 0x7FFFFFFF;

    return b >> 31 ? -size - (mistake == MINUS_ZERO_BELOW_ZERO) : size;
}

/* Below, at or above a whole number that 32 bits hold: -1, 0 or 1. The float is a whole number of units of 2 ^ e. */
static int against(uint32_t b, int32_t z)
{
    int field = (int)(b >> 23 & 0xFF), e = (field == 0 ? 1 : field) - 150;
    __int128 units = (b & 0x7FFFFF) | (field == 0 ? 0 : 0x800000), other = z;

    if (b >> 31)
        units = -units;
    if (e > 40)
        e = 40; /* beyond any z as it is */
    if (e < -80)
        e = -80; /* below one as it is, or zero */
    if (e >= 0)
        units *= (__int128)1 << e;
    else if (mistake == NUMBERS_CUT_TO_WHOLE)
        units /= (__int128)1 << -e;
    else
        other *= (__int128)1 << -e;
    return (units > other) - (units < other);
}

/* ---- summaries */

static int32_t number_at(const uint8_t *p)
{
    return (int32_t)((uint32_t)p[0] | (uint32_t)p[1] << 8 | (uint32_t)p[2] << 16 | (uint32_t)p[3] << 24);
}

static bool is_bad(const uint8_t *p)
{
    int32_t n[4];
    bool all_zero = true;

    if (p[0] != 83 || p[1] < 1 || p[1] > 3 || p[2] > 1 || p[19] > 1)
        return true;
    for (int i = 0; i < 4; i++) {
        n[i] = number_at(p + 3 + 4 * i);
        all_zero = all_zero && n[i] == 0;
        if ((n[i] < -LIMIT || n[i] > LIMIT) && mistake != LIMIT_UNTESTED)
            return true;
    }
    if (n[0] > n[2] || n[1] > n[3])
        return true;

    bool narrow = n[0] == n[2], low = n[1] == n[3];

    if (p[2] == 1)
        return mistake != EMPTY_RULE_UNTESTED && (!all_zero || p[19] == 1);
    if (p[1] == 1)
        return p[19] == 1;
    if (p[1] == 2)
        return (narrow && low) || ((narrow || low) && p[19] == 0);
    return narrow || low || (p[19] == 0 && mistake != BOUNDARY_UNTESTED);
}

/* ---- the answer */

static bool is_window(const uint32_t *b)
{
    bool ordered = key(b[0]) <= key(b[2]) && key(b[1]) <= key(b[3]);

    if (mistake == EQUAL_NUMBERS_REFUSED)
        ordered = key(b[0]) < key(b[2]) && key(b[1]) < key(b[3]);
    return is_finite(b[0]) && is_finite(b[1]) && is_finite(b[2]) && is_finite(b[3]) && ordered;
}

/* The window from least to greatest and the box from low to high, along one axis. */
static bool share(uint32_t least, uint32_t greatest, int32_t low, int32_t high, enum mistake first, enum mistake second)
{
    return against(least, high) <= (mistake == first ? -1 : 0) && against(greatest, low) >= (mistake == second ? 1 : 0);
}

static bool is_hit(const uint32_t *b, const uint8_t *p)
{
    if (p[2] == 1 && mistake != EMPTY_COUNTED)
        return false;
    return share(b[0], b[2], number_at(p + 3), number_at(p + 11), LEFT_EDGE_MISSED, RIGHT_EDGE_MISSED)
        && (mistake == ONE_AXIS || share(b[1], b[3], number_at(p + 7), number_at(p + 15), LOWER_EDGE_MISSED, UPPER_EDGE_MISSED));
}

/* The index of the first bad summary of `sent`, a cut one being bad; `sent` if there is none. */
static size_t first_bad(const struct asked *a, size_t sent)
{
    size_t found = sent;

    for (size_t k = 0; k < sent; k++)
        if (SIZE * k + SIZE > a->length || is_bad(a->bytes + SIZE * k)) {
            found = k;
            if (mistake != LAST_BAD)
                break;
        }
    return found;
}

static struct told refusal(uint32_t number, size_t place)
{
    return (struct told){.number = number, .place = place};
}

static struct told judged(const struct asked *a)
{
    size_t whole = a->length / SIZE, sent = whole + (a->length % SIZE != 0 && mistake != CUT_ONE_IGNORED);
    bool many = (mistake == CUT_ONE_NOT_COUNTED ? whole : sent) > MOST;
    size_t bad = first_bad(a, sent);
    struct told told = {0};

    if (mistake == MANY_BEFORE_WINDOW && many)
        return refusal(28, 0);
    if (!is_window(a->bits))
        return refusal(27, 0);
    if (mistake == BAD_BEFORE_MANY && bad < sent)
        return refusal(18, bad);
    if (many)
        return refusal(28, 0);
    if (bad < sent)
        return refusal(18, mistake == PLACE_IN_BYTES ? SIZE * bad : bad);
    for (size_t k = 0; k < sent; k++)
        if (is_hit(a->bits, a->bytes + SIZE * k)) {
            told.word |= (uint64_t)1 << (mistake == BITS_FROM_THE_OTHER_END ? 63 - k : k);
            told.hits++;
        }
    if (mistake == HITS_OF_THE_SENT)
        told.hits = (uint32_t)sent;
    return told;
}

static struct told answered(const struct asked *a)
{
    karvoiss_window_t window;

    memcpy(&window.least_x, &a->bits[0], 4);
    memcpy(&window.least_y, &a->bits[1], 4);
    memcpy(&window.greatest_x, &a->bits[2], 4);
    memcpy(&window.greatest_y, &a->bits[3], 4);

    karvoiss_in_window_t r = karvoiss_in_window(window, a->length == 0 ? NULL : a->bytes, a->length);

    return (struct told){.number = r.number, .place = r.place, .word = r.word, .hits = r.hits};
}

static bool same(struct told a, struct told b)
{
    return a.number == b.number && a.place == b.place && a.word == b.word && a.hits == b.hits;
}

/* ---- what is asked, at random */

static uint64_t state;

static uint64_t draw(void)
{
    uint64_t z = state += 0x9E3779B97F4A7C15;

    z = (z ^ z >> 30) * 0xBF58476D1CE4E5B9;
    z = (z ^ z >> 27) * 0x94D049BB133111EB;
    return z ^ z >> 31;
}

static int32_t within(int32_t most)
{
    return (int32_t)(draw() % (2 * (uint64_t)most + 1)) - most;
}

static void put(uint8_t *p, int32_t v)
{
    for (int i = 0; i < 4; i++)
        p[i] = (uint8_t)((uint32_t)v >> 8 * i);
}

/* A coordinate: near zero, so that edges fall together, or anywhere, or at the limit. */
static int32_t coordinate(void)
{
    switch (draw() % 4) {
    case 0:
        return within(LIMIT);
    case 1:
        return draw() % 8 == 0 ? (draw() % 2 ? LIMIT : -LIMIT) : within(40);
    default:
        return within(6);
    }
}

/* A good summary, now and then with one byte or one number changed. */
static void put_summary(uint8_t *p)
{
    int32_t n[4];

    for (int i = 0; i < 2; i++) {
        int32_t u = coordinate(), v = coordinate();

        n[i] = u < v ? u : v;
        n[i + 2] = u < v ? v : u;
    }
    p[0] = 83;
    p[1] = (uint8_t)(1 + draw() % 3);
    p[2] = draw() % 8 == 0;
    if (p[1] == 3 && (n[0] == n[2] || n[1] == n[3]))
        p[1] = 1;
    if (p[1] == 2 && n[0] == n[2] && n[1] == n[3])
        p[1] = 1;
    p[19] = p[1] == 1 ? 0 : p[1] == 3 ? 1 : n[0] == n[2] || n[1] == n[3] || draw() % 2;
    if (p[2] == 1) {
        memset(n, 0, sizeof n);
        p[19] = 0;
    }
    for (int i = 0; i < 4; i++)
        put(p + 3 + 4 * i, n[i]);
    if (draw() % 256 == 0)
        p[draw() % SIZE] = (uint8_t)draw();
    if (draw() % 512 == 0)
        put(p + 3 + 4 * (draw() % 4), (draw() % 2 ? 1 : -1) * (LIMIT + 1));
    if (draw() % 512 == 0)
        p[19] ^= 1;
}

/* The bits of the float of a whole number of up to 24 digits. */
static uint32_t float_of(int32_t v)
{
    uint32_t size = (uint32_t)(v < 0 ? -v : v), sign = v < 0 ? 0x80000000 : 0, field = 150;

    if (size == 0)
        return draw() % 2 ? 0x80000000 : 0;
    for (; size < 0x800000; size *= 2)
        field--;
    return sign | field << 23 | (size & 0x7FFFFF);
}

/* An edge of one of the boxes or a coordinate, or the float beside it; or some other float. */
static uint32_t number(const struct asked *a, size_t field)
{
    size_t count = a->length / SIZE;
    int32_t v = count > 0 && draw() % 4 != 0 ? number_at(a->bytes + SIZE * (draw() % count) + field) : coordinate();
    uint32_t b = v < -(1 << 24) || v > 1 << 24 ? 0 : float_of(v);

    switch (draw() % 64) {
    case 0:
        return (uint32_t)draw();
    case 1:
        return (uint32_t)(draw() % 0x800000) | (uint32_t)(draw() % 2) << 31; /* subnormal */
    case 2:
        return 0x7F7FFFFF - (uint32_t)(draw() % 4) + ((uint32_t)(draw() % 2) << 31); /* huge */
    case 3:
        return draw() % 8 == 0 ? 0x7F800000 + (uint32_t)(draw() % 2) + ((uint32_t)(draw() % 2) << 31) : b;
    case 4:
    case 5:
    case 6:
    case 7:
    case 8:
    case 9:
    case 10:
    case 11:
        return b + 1 - 2 * (uint32_t)(draw() % 2);
    default:
        return b;
    }
}

static void exchange(uint32_t *a, uint32_t *b)
{
    uint32_t kept = *a;

    *a = *b;
    *b = kept;
}

static void make(struct asked *a)
{
    size_t count = draw() % 16 == 0 ? 60 + draw() % 7 : draw() % 12;

    for (size_t k = 0; k < 70; k++)
        put_summary(a->bytes + SIZE * k);
    a->length = SIZE * count;
    if (draw() % 16 == 0)
        a->length += draw() % SIZE;
    for (int i = 0; i < 4; i++)
        a->bits[i] = number(a, draw() % 2 ? 3 + 4 * (size_t)(i % 2) : 11 + 4 * (size_t)(i % 2));
    for (int i = 0; i < 2; i++)
        if (draw() % 64 != 0 && key(a->bits[i]) > key(a->bits[i + 2]))
            exchange(&a->bits[i], &a->bits[i + 2]);
}

/* ---- known cases */

static void fail(const char *what, const struct asked *a)
{
    struct told e = judged(a), f = answered(a);

    fprintf(stderr, "window: %s: %08x %08x %08x %08x, %zu bytes: %u %zu %llx %u and %u %zu %llx %u\n", what, a->bits[0], a->bits[1], a->bits[2], a->bits[3], a->length, e.number,
            e.place, (unsigned long long)e.word, e.hits, f.number, f.place, (unsigned long long)f.word, f.hits);
    exit(1);
}

static void put_square(uint8_t *p, int32_t from, int32_t to)
{
    p[0] = 83;
    p[1] = 3;
    p[2] = 0;
    put(p + 3, from);
    put(p + 7, from);
    put(p + 11, to);
    put(p + 15, to);
    p[19] = 1;
}

static void expect(const char *what, const struct asked *a, struct told told)
{
    if (!same(told, answered(a)) || !same(told, judged(a)))
        fail(what, a);
}

static void known_cases(void)
{
    const uint32_t one = 0x3F800000, ten = 0x41200000, nan = 0x7FC00000, infinite = 0x7F800000, minus = 0x80000000, at_limit = 0x4B189680;
    struct asked a = {.bits = {one, one, ten, ten}, .length = SIZE};

    for (size_t k = 0; k < 70; k++)
        put_square(a.bytes + SIZE * k, 0, 1);
    expect("from 1.0 hits a box that ends at 1", &a, (struct told){.word = 1, .hits = 1});
    a.bits[0]++;
    expect("from just above 1.0 misses it", &a, (struct told){0});
    a.bits[0] = one;
    a.length = 64 * SIZE;
    expect("64 summaries", &a, (struct told){.word = UINT64_MAX, .hits = 64});
    a.length++;
    expect("64 and one byte", &a, refusal(28, 0));
    a.length = 63 * SIZE + 19;
    expect("63 and 19 bytes", &a, refusal(18, 63));
    a.length = 0;
    expect("none", &a, (struct told){0});
    for (int i = 0; i < 4; i++) {
        struct asked b = a;

        b.bits[i] = nan;
        b.length = 65 * SIZE;
        expect("a NaN before too many", &b, refusal(27, 0));
        b.bits[i] = infinite;
        expect("an infinity", &b, refusal(27, 0));
    }
    a.length = SIZE;
    put_square(a.bytes, LIMIT - 1, LIMIT);
    a.bits[0] = a.bits[1] = a.bits[2] = a.bits[3] = at_limit;
    expect("the last corner of the range", &a, (struct told){.word = 1, .hits = 1});
    a.bits[0] = ++a.bits[2];
    expect("a step past it", &a, (struct told){0});
    put(a.bytes + 11, LIMIT + 1);
    expect("a box that ends a step past it", &a, refusal(18, 0));
    put_square(a.bytes, 0, 1);
    a.bits[0] = a.bits[1] = 0;
    a.bits[2] = a.bits[3] = minus;
    expect("from 0.0 to -0.0", &a, (struct told){.word = 1, .hits = 1});
    memset(a.bytes + 3, 0, 17);
    a.bytes[2] = 1;
    expect("an empty one round the origin", &a, (struct told){0});
    a.bytes[0] = 84;
    a.length = 65 * SIZE;
    expect("too many before a bad one", &a, refusal(28, 0));
}

/* ---- each mistake must be noticed, on what is asked anyway */

static bool noticed(uint64_t seed, long windows)
{
    static struct asked a;

    state = seed;
    for (long i = 0; i < windows; i++) {
        enum mistake kept = mistake;

        mistake = NONE; /* what is asked must not depend on it */
        make(&a);
        mistake = kept;
        if (!same(judged(&a), answered(&a)))
            return true;
    }
    return false;
}

int main(int argc, char **argv)
{
    uint64_t seed = argc > 1 ? strtoull(argv[1], NULL, 10) : 11;
    long windows = argc > 2 ? strtol(argv[2], NULL, 10) : 100000, of[29] = {0}, hits = 0;
    static struct asked a;

    state = seed;
    known_cases();
    for (long i = 0; i < windows; i++) {
        make(&a);
        if (!same(judged(&a), answered(&a)))
            fail("another answer", &a);
        of[answered(&a).number]++;
        hits += answered(&a).hits;
    }
    printf("window: seed %llu: %ld windows, %ld taken with %ld hits, %ld refused with 27, %ld with 28, %ld with 18\n", (unsigned long long)seed, windows, of[0], hits, of[27],
           of[28], of[18]);
    if (of[0] == 0 || of[18] == 0 || of[27] == 0 || of[28] == 0 || hits == 0) {
        fprintf(stderr, "window: what is asked shows too little\n");
        return 1;
    }
    for (mistake = NONE + 1; mistake < MISTAKES; mistake++)
        if (!noticed(seed, windows)) {
            fprintf(stderr, "window: not noticed: %s\n", names[mistake]);
            return 1;
        }
    printf("window: %d mistakes noticed\n", MISTAKES - 1);
    return 0;
}
