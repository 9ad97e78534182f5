/* A window over 64 summaries: nanoseconds of the thread for a call, best of so many passes, for windows that meet none, some and all of the boxes. The aim is
 * a microsecond, and it fails beyond that. */
#define _POSIX_C_SOURCE 200112L
#include "karvoiss.h"

#include <stdio.h>
#include <string.h>
#include <time.h>

enum { COUNT = 64, SIZE = 20, CALLS = 20000, PASSES = 15 };

static uint8_t summaries[COUNT * SIZE];

static double now(void)
{
    struct timespec t;

    clock_gettime(CLOCK_THREAD_CPUTIME_ID, &t);
    return (double)t.tv_sec * 1e9 + (double)t.tv_nsec;
}

static bool time_window(float from, float to)
{
    double least = 1e30;
    unsigned hits = 0;

    for (int pass = 0; pass < PASSES; pass++) {
        double start = now(), taken;

        for (int i = 0; i < CALLS; i++)
            hits = karvoiss_in_window((karvoiss_window_t){from, from, to, to}, summaries, sizeof summaries).hits;
        taken = (now() - start) / CALLS;
        if (taken < least)
            least = taken;
    }
    printf("window of %d summaries, %2u hits: %.0f ns\n", COUNT, hits, least);
    return least < 1000;
}

int main(void)
{
    for (int k = 0; k < COUNT; k++) {
        uint8_t from = (uint8_t)(3 * (k * 29 % COUNT));

        memcpy(summaries + SIZE * k, (const uint8_t[SIZE]){83, 3, 0, from, [7] = from, [11] = (uint8_t)(from + 2), [15] = (uint8_t)(from + 2), [19] = 1}, SIZE);
    }

    bool none = time_window(-10.0F, -0.5F), some = time_window(30.5F, 90.25F), all = time_window(0.0F, 200.0F);

    return !(none && some && all);
}
