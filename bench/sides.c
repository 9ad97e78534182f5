/* The exact side test beside the estimate, over triples of points that are asked again and again: nanoseconds of the thread for each triple, best of so many
 * passes. `exact` is the test that the walk makes, with 64-bit products; `estimate` the archive's call; `behind` asks the estimate first and the exact test where it is close. */
#define _POSIX_C_SOURCE 200112L
#include "karvoiss.h"

#include <stdio.h>
#include <time.h>

enum { TRIPLES = 4096, ROUNDS = 200, PASSES = 15, RANGE = 1000000 };

struct triple {
    int32_t ax, ay, bx, by, cx, cy;
};

static struct triple triples[TRIPLES];

/* A call, as the archive's is. */
__attribute__((noinline)) static int exact(const struct triple *t)
{
    int64_t value = ((int64_t)t->bx - t->ax) * ((int64_t)t->cy - t->ay) - ((int64_t)t->by - t->ay) * ((int64_t)t->cx - t->ax);

    return (value > 0) - (value < 0);
}

__attribute__((noinline)) static int estimate(const struct triple *t)
{
    return karvoiss_estimate(t->ax, t->ay, t->bx, t->by, t->cx, t->cy).side;
}

__attribute__((noinline)) static int behind(const struct triple *t)
{
    int side = estimate(t);

    return side != 0 ? side : exact(t);
}

static double now(void)
{
    struct timespec t;

    clock_gettime(CLOCK_THREAD_CPUTIME_ID, &t);
    return (double)t.tv_sec * 1e9 + (double)t.tv_nsec;
}

static double best(int (*asks)(const struct triple *), long *sum)
{
    double least = 1e30;

    for (int pass = 0; pass < PASSES; pass++) {
        double start = now(), taken;

        for (int round = 0; round < ROUNDS; round++)
            for (int i = 0; i < TRIPLES; i++)
                *sum += asks(&triples[i]);
        taken = (now() - start) / ((double)ROUNDS * TRIPLES);
        if (taken < least)
            least = taken;
    }
    return least;
}

/* Triples with coordinates of up to `most` in size. */
static void fill(uint64_t most)
{
    uint64_t state = 7;
    int32_t *number = &triples[0].ax;

    for (int i = 0; i < 6 * TRIPLES; i++) {
        state = state * 6364136223846793005 + 1442695040888963407;
        number[i] = (int32_t)((state >> 33) % (2 * most + 1)) - (int32_t)most;
    }
}

int main(void)
{
    static const uint64_t sizes[] = {RANGE, 10000, 1000};
    long sum = 0;

    for (int k = 0; k < 3; k++) {
        long close = 0;

        fill(sizes[k]);
        for (int i = 0; i < TRIPLES; i++)
            close += estimate(&triples[i]) == 0;
        printf("coordinates to %7lu: %4.1f%% close; exact %.2f ns, estimate %.2f ns, behind %.2f ns\n", (unsigned long)sizes[k], 100.0 * (double)close / TRIPLES,
               best(exact, &sum), best(estimate, &sum), best(behind, &sum));
    }
    return sum == 0;
}
