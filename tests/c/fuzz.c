/* For libFuzzer: an input is two masks, a room (each 16 bits, low byte first), a pattern with its length, and a scene. The archive must answer what the reference does.
 * The same bytes are asked about as one object and as two summaries, the first of them as long as the room's lowest five bits say; as well-known binary, as an object to be
 * written so, as a pair to be split, as a scene to be walked over, and as a ground with a state.
 * The scene, the pattern and the list end at pages that may not be touched, so that a byte too far is noticed though the archive has no checks of its own. */
#define _DEFAULT_SOURCE
#include "scenes.h"

#include <sys/mman.h>
#include <unistd.h>

enum { PATTERN = 6, LONGEST = 10, HEAD = PATTERN + 1 + LONGEST, MOST = 1 << 17, GUARD = 64, ROOM = LIST + GUARD };

struct reference {
    struct masks all;
    karvoiss_vectors_t vectors;
    karvoiss_vectors_t wanted;
    karvoiss_vectors_t nothing;
    karvoiss_cells_t cells;
    karvoiss_relate_t relate;
    karvoiss_overlap_t overlap;
    karvoiss_areas_t areas;
    karvoiss_summary_t summary;
    karvoiss_far_t far;
};

struct reference reference_answers(const uint8_t *scene, size_t length, size_t split, uint16_t want_f, uint16_t want_g,
                                   const uint8_t *pattern, size_t pattern_length, uint8_t *list, size_t room);
karvoiss_read_wkb_t reference_read_wkb(const uint8_t *wkb, size_t length, uint8_t *buffer, size_t room);
karvoiss_write_wkb_t reference_write_wkb(const uint8_t *object, size_t length, uint8_t *buffer, size_t room);
karvoiss_split_t reference_split(const uint8_t *scene, size_t length, uint8_t *buffer, size_t room);
int LLVMFuzzerTestOneInput(const uint8_t *data, size_t size);

/* The end of `size` bytes, a whole number of pages, before a page that may not be touched. */
static uint8_t *fenced_end(size_t size)
{
    size_t page = (size_t)sysconf(_SC_PAGESIZE);
    uint8_t *start = mmap(NULL, size + page, PROT_READ | PROT_WRITE, MAP_PRIVATE | MAP_ANONYMOUS, -1, 0);

    if (start == MAP_FAILED || mprotect(start + size, page, PROT_NONE) != 0)
        fail("mmap", "no memory");
    return start + size;
}

static void require(bool holds, const char *what)
{
    if (!holds) {
        fprintf(stderr, "DISAGREEMENT: %s\n", what);
        abort();
    }
}

/* Mostly nine characters, and mostly of the three. */
static size_t spell(const uint8_t *data, uint8_t *end)
{
    size_t length = data[0] < 224 ? 9 : data[0] % (LONGEST + 1);

    for (size_t i = 0; i < length; i++)
        (end - length)[i] = data[1 + i] < 250 ? (uint8_t)"TF*012"[data[1 + i] % 6] : data[1 + i];
    return length;
}

static size_t number(const uint8_t *data)
{
    return data[0] + 256u * data[1];
}

/* Into a buffer before a fence, of just the size that is needed, and of the room: what is written there and around it must be the reference's. */
static void ask_wkb_at_fence(const uint8_t *bytes, size_t length, size_t room)
{
    static uint8_t *end, expected[1 << 15];
    const size_t size = sizeof expected;

    if (end == NULL)
        end = fenced_end(size);
    size_t rooms[2] = {reference_read_wkb(bytes, length, expected, size).length, room};
    for (int k = 0; k < 2; k++) {
        memset(expected, 0xEE, size);
        memset(end - size, 0xEE, size);
        karvoiss_read_wkb_t reference = reference_read_wkb(bytes, length, expected + size - rooms[k], rooms[k]);
        karvoiss_read_wkb_t read = karvoiss_read_wkb(bytes, length, end - rooms[k], rooms[k]);
        require(same_read(&reference, &read), "reading well-known binary");
        require(memcmp(expected, end - size, size) == 0, "the object that was read, or what is around it");
    }
    rooms[0] = reference_write_wkb(bytes, length, expected, size).length;
    for (int k = 0; k < 2; k++) {
        memset(expected, 0xEE, size);
        memset(end - size, 0xEE, size);
        karvoiss_write_wkb_t reference = reference_write_wkb(bytes, length, expected + size - rooms[k], rooms[k]);
        karvoiss_write_wkb_t written = karvoiss_write_wkb(bytes, length, end - rooms[k], rooms[k]);
        require(same_written(&reference, &written), "writing well-known binary");
        require(memcmp(expected, end - size, size) == 0, "the well-known binary that was written, or what is around it");
    }
}

static void ask_split_at_fence(const uint8_t *bytes, size_t length, size_t room)
{
    static uint8_t *end, expected[1 << 16];
    const size_t size = sizeof expected;

    if (end == NULL)
        end = fenced_end(size);
    const size_t rooms[2] = {reference_split(bytes, length, expected, size).length, room};
    for (int k = 0; k < 2; k++) {
        memset(expected, 0xEE, size);
        memset(end - size, 0xEE, size);
        karvoiss_split_t reference = reference_split(bytes, length, expected + size - rooms[k], rooms[k]);
        karvoiss_split_t split = karvoiss_split(bytes, length, end - rooms[k], rooms[k]);
        require(same_split(&reference, &split), "splitting");
        require(memcmp(expected, end - size, size) == 0, "the scene that was split, or what is around it");
    }
}

/* A walk over the scene that ends at the fence, in portions, to the vectors of the reference; and the bytes as a ground, with a state whose numbers are the first of them, or the
 * state of the scene's own walk: what follows from the state, and no byte that was not lent. */
static void ask_walk_at_fence(const uint8_t *bytes, size_t length, uint16_t want_f, uint16_t want_g, karvoiss_vectors_t wanted, size_t portion)
{
    static uint8_t ground[KARVOISS_WALK_ROOM];
    karvoiss_walk_t walk = karvoiss_walk_begin(bytes, length, want_f, want_g, ground, sizeof ground), state = walk;

    require(walk.number == wanted.number && walk.place == wanted.place, "the beginning of a walk");
    while (walk.number == 0 && !walk.done)
        walk = karvoiss_walk_portion(ground, sizeof ground, walk, 1 + portion % 100);
    require(walk.f == wanted.f && walk.g == wanted.g, "the vectors at the end of a walk");
    if (state.number != 0 || length % 2 == 1)
        memcpy(&state, bytes, length < sizeof state ? length : sizeof state);
    karvoiss_walk_t found = karvoiss_walk_portion(bytes, length, state, portion);
    require(is_portion(&state, length, portion, &found), "a portion of any state over any ground");
}

int LLVMFuzzerTestOneInput(const uint8_t *data, size_t size)
{
    static uint8_t *scene_end, *pattern_end, *list_end;
    static uint8_t expected[GUARD + ROOM];

    if (size < HEAD || size - HEAD > MOST)
        return -1;
    if (scene_end == NULL) {
        scene_end = fenced_end(MOST);
        pattern_end = fenced_end(1 << 13);
        list_end = fenced_end(1 << 13);
    }

    size_t length = size - HEAD, room = number(data + 4) % ROOM;
    uint16_t want_f = (uint16_t)number(data), want_g = (uint16_t)number(data + 2);
    size_t split = number(data + 4) % 32 < length ? number(data + 4) % 32 : length;
    uint8_t *scene = scene_end - length, *list = list_end - room;

    size_t pattern_length = spell(data + PATTERN, pattern_end);
    const uint8_t *pattern = pattern_end - pattern_length;

    memcpy(scene, data + HEAD, length);
    memset(expected, 0xEE, GUARD + room);
    memset(list - GUARD, 0xEE, GUARD + room);

    struct reference reference = reference_answers(scene, length, split, want_f, want_g, pattern, pattern_length, expected + GUARD, room);
    karvoiss_vectors_t vectors = karvoiss_vectors(scene, length, reference.all.f, reference.all.g);
    karvoiss_vectors_t wanted = karvoiss_vectors(scene, length, want_f, want_g);
    karvoiss_vectors_t nothing = karvoiss_vectors(scene, length, 0, 0);
    karvoiss_cells_t cells = karvoiss_cells(scene, length);
    karvoiss_relate_t relate = karvoiss_relate(scene, length, pattern, pattern_length);
    karvoiss_overlap_t overlap = karvoiss_overlap(scene, length, list, room);
    karvoiss_areas_t areas = karvoiss_areas(scene, length);
    karvoiss_summary_t summary = karvoiss_summary(scene, length);
    karvoiss_far_t far = karvoiss_far(scene, split, scene + split, length - split);

    require(same_vectors(&reference.vectors, &vectors), "vectors");
    require(same_vectors(&reference.wanted, &wanted), "vectors under the masks");
    require(same_vectors(&reference.nothing, &nothing), "vectors under two zero masks");
    require(same_cells(&reference.cells, &cells), "cells");
    require(same_relate(&reference.relate, &relate), "pattern");
    require(same_overlap(&reference.overlap, &overlap), "overlap list");
    require(same_areas(&reference.areas, &areas), "areas");
    require(same_summary(&reference.summary, &summary), "summary");
    require(same_far(&reference.far, &far), "what two summaries tell");
    require(memcmp(expected, list - GUARD, GUARD + room) == 0, "the lent buffer, its list or what is around it");
    ask_wkb_at_fence(scene, length, room);
    ask_split_at_fence(scene, length, room);
    ask_walk_at_fence(scene, length, reference.all.f, reference.all.g, reference.vectors, room);
    ask_walk_at_fence(scene, length, want_f, want_g, reference.wanted, room);
    require(memcmp(data + HEAD, scene, length) == 0, "the scene was changed");
    return 0;
}
