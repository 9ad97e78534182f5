/* The stack that each call needs, measured: the call runs on a painted stack of its own, and what is no longer painted was used. The header
 * states a limit for each call, and no scene may need more. */
#define _DEFAULT_SOURCE
#include "scenes.h"

#include <ucontext.h>

enum { STACK = 1 << 20, PAINT = 0xC5 };

static _Alignas(64) uint8_t stack[STACK];
static ucontext_t here, there;
static struct scene scene;
static struct masks all;
static size_t second;
static uint8_t list[LIST], wkb[2][WKB], object[WKB], split[SCENE], ground[KARVOISS_WALK_ROOM];
static size_t wkb_length[2];
static struct answers answers;

static void ask_vectors(void)
{
    answers.vectors = karvoiss_vectors(scene.bytes, scene.length, all.f, all.g);
}

static void ask_cells(void)
{
    answers.cells = karvoiss_cells(scene.bytes, scene.length);
}

static void ask_relate(void)
{
    answers.relate = karvoiss_relate(scene.bytes, scene.length, (const uint8_t *)"TTTTTTTTT", 9);
}

static void ask_overlap(void)
{
    answers.overlap = karvoiss_overlap(scene.bytes, scene.length, list, LIST);
}

static void ask_areas(void)
{
    answers.areas = karvoiss_areas(scene.bytes, scene.length);
}

static void ask_summary(void)
{
    answers.first = karvoiss_summary(scene.bytes, second);
}

static void ask_other_summary(void)
{
    answers.second = karvoiss_summary(scene.bytes + second, scene.length - second);
}

static void ask_far(void)
{
    answers.far = karvoiss_far(answers.first.record, 20, answers.second.record, 20);
}

static void ask_read(void)
{
    answers.read = karvoiss_read_wkb(wkb[0], wkb_length[0], object, sizeof object);
}

static void ask_other_read(void)
{
    answers.read = karvoiss_read_wkb(wkb[1], wkb_length[1], object, sizeof object);
}

static void ask_written(void)
{
    answers.written = karvoiss_write_wkb(scene.bytes, second, object, sizeof object);
}

static void ask_other_written(void)
{
    answers.written = karvoiss_write_wkb(scene.bytes + second, scene.length - second, object, sizeof object);
}

static void ask_split_alone(void)
{
    answers.split = karvoiss_split(scene.bytes, scene.length, split, sizeof split);
}

static void ask_walk_begin(void)
{
    answers.walk = karvoiss_walk_begin(scene.bytes, scene.length, all.f, all.g, ground, sizeof ground);
}

static void ask_walk_portion(void)
{
    answers.walk = karvoiss_walk_portion(ground, sizeof ground, answers.walk, SIZE_MAX);
}

static void ask_estimate(void)
{
    answers.estimate = karvoiss_estimate(-273771, -1000000, 905877, 999997, -1000000, 900003);
}

/* 64 summaries of a square, all of them hits. */
static void ask_window(void)
{
    static uint8_t summaries[64 * 20];
    const karvoiss_window_t window = {0.0F, 0.0F, 1.0F, 1.0F};

    for (int k = 0; k < 64; k++)
        memcpy(summaries + 20 * k, (const uint8_t[20]){83, 3, 0, [11] = 1, [15] = 1, [19] = 1}, 20);
    if (karvoiss_in_window(window, summaries, sizeof summaries).hits != 64)
        fail("stack", "not 64 hits");
}

/* The few bytes of the asking function itself are counted in. */
static size_t used_by(void (*asks)(void))
{
    size_t unused = 0;

    memset(stack, PAINT, STACK);
    getcontext(&there);
    there.uc_stack.ss_sp = stack;
    there.uc_stack.ss_size = STACK;
    there.uc_link = &here;
    makecontext(&there, asks, 0);
    swapcontext(&here, &there);
    while (unused < STACK && stack[unused] == PAINT)
        unused++;
    return STACK - unused;
}

struct call {
    const char *name;
    void (*asks)(void);
    size_t stated;
    size_t measured;
};

int main(int argc, char **argv)
{
    struct call calls[] = {
        {"karvoiss_vectors", ask_vectors, KARVOISS_VECTORS_STACK, 0},
        {"karvoiss_cells", ask_cells, KARVOISS_CELLS_STACK, 0},
        {"karvoiss_relate", ask_relate, KARVOISS_RELATE_STACK, 0},
        {"karvoiss_overlap", ask_overlap, KARVOISS_OVERLAP_STACK, 0},
        {"karvoiss_areas", ask_areas, KARVOISS_AREAS_STACK, 0},
        {"karvoiss_summary, the first object", ask_summary, KARVOISS_SUMMARY_STACK, 0},
        {"karvoiss_summary, the second object", ask_other_summary, KARVOISS_SUMMARY_STACK, 0},
        {"karvoiss_far", ask_far, KARVOISS_FAR_STACK, 0},
        {"karvoiss_read_wkb, the first object", ask_read, KARVOISS_READ_WKB_STACK, 0},
        {"karvoiss_read_wkb, the second object", ask_other_read, KARVOISS_READ_WKB_STACK, 0},
        {"karvoiss_write_wkb, the first object", ask_written, KARVOISS_WRITE_WKB_STACK, 0},
        {"karvoiss_write_wkb, the second object", ask_other_written, KARVOISS_WRITE_WKB_STACK, 0},
        {"karvoiss_split", ask_split_alone, KARVOISS_SPLIT_STACK, 0},
        {"karvoiss_walk_begin", ask_walk_begin, KARVOISS_WALK_BEGIN_STACK, 0},
        {"karvoiss_walk_portion", ask_walk_portion, KARVOISS_WALK_PORTION_STACK, 0},
        {"karvoiss_estimate", ask_estimate, KARVOISS_ESTIMATE_STACK, 0},
        {"karvoiss_in_window", ask_window, KARVOISS_IN_WINDOW_STACK, 0},
    };
    const int count = sizeof calls / sizeof *calls;
    int bad = argc < 2;

    for (int i = 1; i < argc; i++) {
        scene = read_scene(argv[i]);
        all = all_flags(scene.bytes, scene.length);
        second = second_object(scene.bytes, scene.length);
        wkb_length[0] = wkb_of(scene.bytes, second, wkb[0]);
        wkb_length[1] = wkb_of(scene.bytes + second, scene.length - second, wkb[1]);
        for (int k = 0; k < count; k++) {
            size_t used = used_by(calls[k].asks);

            if (used > calls[k].measured)
                calls[k].measured = used;
        }
        free(scene.bytes);
    }
    for (int k = 0; k < count; k++) {
        printf("stack: %s used %zu bytes, the header states %zu\n", calls[k].name, calls[k].measured, calls[k].stated);
        if (calls[k].measured > calls[k].stated || calls[k].measured == 0)
            bad = 1;
    }
    return bad;
}
