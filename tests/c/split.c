/* Pairs that lie right before a page that may not be touched, and right after one, in pages that may only be read, whole and cut at every byte; and buffers of every size beside such
 * pages for the scene that they are split into. */
#define _DEFAULT_SOURCE
#include "fences.h"

static const uint8_t *put(struct fenced area, placing place, const uint8_t *pair, size_t length)
{
    uint8_t *bytes = place(area, length);

    mprotect(area.start, area.size, PROT_READ | PROT_WRITE);
    memcpy(bytes, pair, length);
    mprotect(area.start, area.size, PROT_READ);
    return bytes;
}

/* The expected answer, and the buffer with its first bytes as expected and the others as they were. */
static void is_split(karvoiss_split_t found, karvoiss_split_t expected, const uint8_t *buffer, size_t room, const uint8_t *split)
{
    if (!same_split(&found, &expected))
        fail(current, "another answer beside a fence");
    if (memcmp(buffer, split, expected.length) != 0)
        fail(current, "another scene beside a fence");
    for (size_t i = expected.length; i < room; i++)
        if (buffer[i] != 0xEE)
            fail(current, "a later byte was changed beside a fence");
}

/* One that is cut has the refusal of the cells. */
static void cut_at(struct fenced area, placing place, const struct scene *pair, size_t length, karvoiss_split_t whole, const uint8_t *split)
{
    static uint8_t buffer[SCENE];
    const karvoiss_cells_t cells = karvoiss_cells(pair->bytes, length);
    const karvoiss_split_t refused = {.number = cells.number, .place = cells.place};

    memset(buffer, 0xEE, sizeof buffer);
    karvoiss_split_t found = karvoiss_split(put(area, place, pair->bytes, length), length, buffer, sizeof buffer);
    is_split(found, length < pair->length ? refused : whole, buffer, sizeof buffer, split);
}

static void split_into(struct fenced area, placing place, const struct scene *pair, size_t room, karvoiss_split_t whole, const uint8_t *split)
{
    const karvoiss_split_t too_short = {.number = 21};
    uint8_t *buffer = place(area, room);

    memset(buffer, 0xEE, room);
    is_split(karvoiss_split(pair->bytes, pair->length, buffer, room), whole.number == 0 && room < whole.length ? too_short : whole, buffer, room, split);
}

int main(int argc, char **argv)
{
    static uint8_t split[SCENE];
    size_t cuts = 0, rooms = 0, added = 0;

    watch_fences();
    for (int i = 1; i < argc; i++) {
        struct scene pair = read_scene(argv[i]);
        karvoiss_split_t whole = karvoiss_split(pair.bytes, pair.length, split, sizeof split);
        struct fenced pairs = fence(pair.length), buffers = fence(whole.length + 2);

        current = pair.name;
        added += whole.added_f + whole.added_g;
        for (int k = 0; k < 2; k++) {
            for (size_t length = 0; length <= pair.length; length++, cuts++)
                cut_at(pairs, placings[k], &pair, length, whole, split);
            for (size_t room = 0; room <= whole.length + 2; room++, rooms++)
                split_into(buffers, placings[k], &pair, room, whole, split);
        }
        munmap(pairs.start - page, pairs.size + 2 * page);
        munmap(buffers.start - page, buffers.size + 2 * page);
        free(pair.bytes);
    }
    printf("split: %d pairs, %zu added segments, %zu cuts, %zu rooms\n", argc - 1, added, cuts, rooms);
    return added > 0 ? 0 : 1;
}
