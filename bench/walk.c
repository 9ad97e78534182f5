/* A walk in portions beside the single call: nanoseconds of the thread, best of so many passes, in which the calls take turns, over scenes of full size. The walk of the single call is what
 * it takes with all flags wanted, less what it takes with none, which is its checks. A portion of 64 events may take a tenth of that, and all of them together twice; it fails beyond. The beginning stands beside the
 * whole single call, without a limit. */
#define _POSIX_C_SOURCE 200112L
#include "karvoiss.h"

#include <stdio.h>
#include <stdlib.h>
#include <time.h>

enum { CALLS = 200, PASSES = 15, PORTION = 64 };

static uint8_t scene[38918], ground[KARVOISS_WALK_ROOM];
static size_t length;
static uint16_t want_f, want_g;

static double now(void)
{
    struct timespec t;

    clock_gettime(CLOCK_THREAD_CPUTIME_ID, &t);
    return (double)t.tv_sec * 1e9 + (double)t.tv_nsec;
}

static double timed(void (*work)(void))
{
    const double start = now();

    for (int i = 0; i < CALLS; i++)
        work();
    return (now() - start) / CALLS;
}

static void single(void)
{
    karvoiss_vectors(scene, length, want_f, want_g);
}

static void checks(void)
{
    karvoiss_vectors(scene, length, 0, 0);
}

static karvoiss_walk_t begun;

static void begin(void)
{
    begun = karvoiss_walk_begin(scene, length, want_f, want_g, ground, sizeof ground);
}

static void all_portions(void)
{
    karvoiss_walk_t walk = begun;

    while (walk.number == 0 && !walk.done)
        walk = karvoiss_walk_portion(ground, sizeof ground, walk, PORTION);
}

/* The least time of each. */
struct times {
    double single, checks, begin, all;
};

static void keep(double *least, double taken)
{
    if (taken < *least)
        *least = taken;
}

static struct times best(void)
{
    struct times t = {1e30, 1e30, 1e30, 1e30};

    for (int pass = 0; pass < PASSES; pass++) {
        keep(&t.single, timed(single));
        keep(&t.checks, timed(checks));
        keep(&t.begin, timed(begin));
        keep(&t.all, timed(all_portions));
    }
    return t;
}

/* argv: scenes */
int main(int argc, char **argv)
{
    static const uint16_t masks[3][3][2] = {{{3, 1}, {7, 1}, {7, 0}}, {{1, 7}, {63, 7}, {127, 1}}, {{0, 7}, {1, 127}, {255, 15}}};
    int bad = 0;

    for (int i = 1; i < argc; i++) {
        FILE *file = fopen(argv[i], "rb");

        if (file == NULL)
            return 2;
        length = fread(scene, 1, sizeof scene, file);
        fclose(file);
        int f = scene[1], g = 0;

        for (size_t at = length - 1; g == 0; at--)
            if (scene[at] == 84 && at > 2 && scene[at - 1] == 69 && scene[at + 1] >= 1 && scene[at + 1] <= 3
                && karvoiss_summary(scene + at, length - at).number == 0)
                g = scene[at + 1];
        want_f = masks[f - 1][g - 1][0];
        want_g = masks[f - 1][g - 1][1];
        begin();
        if (begun.number != 0)
            return 2;

        const int n = (int)begun.events;
        const struct times t = best();
        const double walk = t.single - t.checks, portion = t.all / ((n + PORTION - 1) / PORTION);

        printf("walk of %d,%d, %4d events: portion of %d %.0f ns, all %.0f ns; the single call after its checks %.0f ns: %.3f and %.2f of it; beginning %.0f ns, %.2f of the single call\n", f, g, n,
               PORTION, portion, t.all, walk, portion / walk, t.all / walk, t.begin, t.begin / t.single);
        if (walk > 0 && (portion > walk / 10 || t.all > 2 * walk))
            bad = 1;
    }
    return bad;
}
