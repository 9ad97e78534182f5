/* A long question that may be put down: a route beside a zone, asked for its vectors a few
 * events at a time, as a panel does that must redraw while the user drags. Then the same walk
 * from a state that was kept, and states that fit no ground.
 *
 *     walk
 *
 * To build it, with Karvoiss installed:
 *
 *     cc walk.c $(pkg-config --cflags --libs karvoiss) -o walk
 */
#include <karvoiss.h>

#include <stdio.h>

/* POINT (0 0), then LINESTRING (0 0, 4 0): three events, the left halfsegment, the point, and
 * the right halfsegment. */
static const uint8_t stop_and_route[] = {
    84, 1,
    80, 0, 0, 0, 0, 0, 0, 0, 0,
    69,
    84, 2,
    76, 0, 0, 0, 0, 0, 0, 0, 0, 4, 0, 0, 0, 0, 0, 0, 0, 1,
    76, 0, 0, 0, 0, 0, 0, 0, 0, 4, 0, 0, 0, 0, 0, 0, 0, 0,
    69,
};

static void say(const char *when, karvoiss_walk_t walk)
{
    if (walk.number != 0)
        printf("%s: refused with %u at %zu\n", when, (unsigned)walk.number, walk.place);
    else
        printf("%s: f %u, g %u, %s\n", when, (unsigned)walk.f, (unsigned)walk.g,
               walk.done ? "done" : "more to come");
}

int main(void)
{
    static uint8_t ground[KARVOISS_WALK_ROOM];
    karvoiss_walk_t walk = karvoiss_walk_begin(stop_and_route, sizeof stop_and_route, 7, 1,
                                               ground, sizeof ground);
    karvoiss_walk_t kept = walk;

    say("at the beginning", walk);
    while (walk.number == 0 && !walk.done) {
        walk = karvoiss_walk_portion(ground, sizeof ground, walk, 1);
        say("one event more", walk);
    }

    karvoiss_vectors_t single = karvoiss_vectors(stop_and_route, sizeof stop_and_route, 7, 1);

    printf("the single call: f %u, g %u\n", (unsigned)single.f, (unsigned)single.g);
    say("from the beginning, all at once",
        karvoiss_walk_portion(ground, sizeof ground, kept, SIZE_MAX));
    say("over a ground that was cut", karvoiss_walk_portion(ground, 11, kept, 1));
    kept.taken = 5000;
    say("a state that was tampered with", karvoiss_walk_portion(ground, sizeof ground, kept, 1));
    say("a buffer that is too short",
        karvoiss_walk_begin(stop_and_route, sizeof stop_and_route, 7, 1, ground, 11));
    return 0;
}
