/* Two summaries that lie right before a page that may not be touched, and right after one, in pages that may only be read: whole and cut at every byte, each beside
 * each. A whole one must tell what it tells in ordinary memory; one that is cut must be refused with 18, at the first that is cut. */
#define _DEFAULT_SOURCE
#include "fences.h"

enum { SUMMARY = 20 };

/* `length` bytes of a record in a fenced area. */
static const uint8_t *put(struct fenced area, placing place, const uint8_t *record, size_t length)
{
    uint8_t *bytes = place(area, length);

    mprotect(area.start, area.size, PROT_READ | PROT_WRITE);
    memcpy(bytes, record, length);
    mprotect(area.start, area.size, PROT_READ);
    return bytes;
}

static void ask_cut(const struct answers *whole, struct fenced areas[2], placing place, size_t first, size_t second)
{
    const uint8_t *one = put(areas[0], place, whole->first.record, first), *other = put(areas[1], place, whole->second.record, second);
    karvoiss_far_t found = karvoiss_far(one, first, other, second);
    karvoiss_far_t cut = {.number = 18, .place = first == SUMMARY};

    if (!same_far(&found, first == SUMMARY && second == SUMMARY ? &whole->far : &cut))
        fail(current, "another answer beside a fence");
}

int main(int argc, char **argv)
{
    size_t pairs = 0, cuts = 0;

    watch_fences();
    struct fenced areas[2] = {fence(SUMMARY), fence(SUMMARY)};
    for (int i = 1; i < argc; i++) {
        struct scene scene = read_scene(argv[i]);
        struct answers whole;

        current = scene.name;
        ask(scene.bytes, scene.length, whole.list, LIST, &whole);
        free(scene.bytes);
        if (whole.far.number != 0)
            continue;
        pairs++;
        for (int k = 0; k < 2; k++)
            for (size_t first = 0; first <= SUMMARY; first++)
                for (size_t second = 0; second <= SUMMARY; second++, cuts++)
                    ask_cut(&whole, areas, placings[k], first, second);
    }
    printf("summaries: %zu pairs, %zu cuts\n", pairs, cuts);
    return pairs > 0 ? 0 : 1;
}
