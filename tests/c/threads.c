/* Several threads ask about all scenes at once, each from another scene on, and must get what one thread got alone. They begin together, and ask so
   often that each is interrupted within calls, on a machine with one processor too. */
#define _POSIX_C_SOURCE 200112L
#include "scenes.h"

#include <pthread.h>

enum { THREADS = 8, ROUNDS = 400, MOST = 64 };

static pthread_barrier_t start;
static struct scene scenes[MOST];
static struct answers alone[MOST];
static int count;

static void *ask_all(void *first)
{
    struct answers found;

    pthread_barrier_wait(&start);
    for (int i = 0; i < ROUNDS * count; i++) {
        int k = (*(int *)first + i) % count;

        ask(scenes[k].bytes, scenes[k].length, found.list, LIST, &found);
        if (!same_answers(&alone[k], &found) || memcmp(alone[k].list, found.list, LIST) != 0)
            fail(scenes[k].name, "another answer beside other threads");
    }
    return NULL;
}

int main(int argc, char **argv)
{
    pthread_t threads[THREADS];
    int first[THREADS];

    count = argc - 1;
    if (count < 1 || count > MOST)
        fail("threads", "name 1 to 64 scenes");
    for (int k = 0; k < count; k++) {
        scenes[k] = read_scene(argv[k + 1]);
        ask(scenes[k].bytes, scenes[k].length, alone[k].list, LIST, &alone[k]);
    }
    if (pthread_barrier_init(&start, NULL, THREADS) != 0)
        fail("threads", "cannot be started");
    for (int t = 0; t < THREADS; t++) {
        first[t] = t * count / THREADS;
        if (pthread_create(&threads[t], NULL, ask_all, &first[t]) != 0)
            fail("threads", "cannot be started");
    }
    for (int t = 0; t < THREADS; t++)
        pthread_join(threads[t], NULL);
    printf("threads: %d, each over %d scenes %d times\n", THREADS, count, ROUNDS);
    return 0;
}
