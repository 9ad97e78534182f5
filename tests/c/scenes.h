/* What the tests of the border to C share: scenes read from files, and everything that the calls answer about one byte string. */
#ifndef SCENES_H
#define SCENES_H

#include "karvoiss.h"

#include <stdio.h>
#include <stdlib.h>
#include <string.h>

/* More bytes than any list has; as many as any object has, as any object has as well-known binary by karvoiss_write_wkb, and by wkb_of; as many as any scene has. */
enum { LIST = 2048, OBJECT = 19459, WRITTEN = 21513, WKB = 39433, SCENE = 2 * OBJECT };

struct scene {
    const char *name;
    uint8_t *bytes;
    size_t length;
};

/* All flags of a pair of types. */
struct masks {
    uint16_t f, g;
};

/* `nothing` is asked for under two zero masks; `first` and `second` are the summaries of the two objects, and `far` is what they tell; `estimate` is asked for the numbers in the
 * first 24 bytes, `in_window` for the bytes as summaries; `read` for the first object as well-known binary, `written` for the first object, `unread` for the bytes as well-known
 * binary; `split` for the bytes as a pair; `walk` is the end of a walk over the bytes, in portions of seven. */
struct answers {
    karvoiss_vectors_t vectors;
    karvoiss_vectors_t nothing;
    karvoiss_cells_t cells;
    karvoiss_relate_t relate;
    karvoiss_overlap_t overlap;
    karvoiss_areas_t areas;
    karvoiss_summary_t first, second;
    karvoiss_far_t far;
    karvoiss_estimate_t estimate;
    karvoiss_in_window_t in_window;
    karvoiss_read_wkb_t read, unread;
    karvoiss_write_wkb_t written;
    karvoiss_split_t split;
    karvoiss_walk_t walk;
    uint8_t list[LIST];
};

static inline void fail(const char *name, const char *what)
{
    fprintf(stderr, "border: %s: %s\n", name, what);
    exit(1);
}

static inline struct scene read_scene(const char *name)
{
    struct scene scene = {.name = name};
    FILE *file = fopen(name, "rb");

    if (file == NULL || fseek(file, 0, SEEK_END) != 0)
        fail(name, "cannot be read");
    scene.length = (size_t)ftell(file);
    scene.bytes = malloc(scene.length + 1);
    rewind(file);
    if (scene.bytes == NULL || fread(scene.bytes, 1, scene.length, file) != scene.length)
        fail(name, "cannot be read");
    fclose(file);
    return scene;
}

/* How many bytes the record at `kind` takes; none if there is no such kind. */
static inline size_t record_length(uint8_t kind)
{
    return kind == 80 ? 9 : kind == 76 ? 18 : kind == 82 ? 19 : kind == 84 ? 2 : kind == 69 ? 1 : 0;
}

/* How many elements the records have, up to one that is no record. */
static inline size_t count_elements(const uint8_t *bytes, size_t length)
{
    size_t count = 0;

    for (size_t at = 0; at < length && record_length(bytes[at]) > 0; at += record_length(bytes[at]))
        count += record_length(bytes[at]) > 2;
    return count;
}

/* All flags of the scene's pair of types; no flag where the bytes do not say what the types are. */
static inline struct masks all_flags(const uint8_t *bytes, size_t length)
{
    static const struct masks of_types[3][3] = {{{3, 1}, {7, 1}, {7, 0}}, {{1, 7}, {63, 7}, {127, 1}}, {{0, 7}, {1, 127}, {255, 15}}};
    uint8_t types[2] = {0, 0};
    size_t count = 0;

    for (size_t at = 0; at < length && count < 2 && record_length(bytes[at]) > 0; at += record_length(bytes[at]))
        if (bytes[at] == 84 && at + 1 < length)
            types[count++] = bytes[at + 1];
    if (types[0] < 1 || types[0] > 3 || types[1] < 1 || types[1] > 3)
        return (struct masks){0, 0};
    return of_types[types[0] - 1][types[1] - 1];
}

/* Where the second object begins: after the first end record, or where the bytes end. */
static inline size_t second_object(const uint8_t *bytes, size_t length)
{
    size_t at = 0;

    while (at < length && bytes[at] != 69 && record_length(bytes[at]) > 0)
        at += record_length(bytes[at]);
    return at < length && bytes[at] == 69 ? at + 1 : length;
}

/* The summaries of the two objects, as far as they have some, and what these tell: the full answer, if anything. A refusal has zeros, and its zeros are no summary. */
static inline void ask_summaries(const uint8_t *bytes, size_t length, struct answers *answers)
{
    static const uint8_t zeros[20];
    size_t start = second_object(bytes, length);
    const karvoiss_summary_t *summaries[2] = {&answers->first, &answers->second};

    answers->first = karvoiss_summary(bytes, start);
    answers->second = karvoiss_summary(length == 0 ? bytes : bytes + start, length - start);
    for (int k = 0; k < 2; k++)
        if ((summaries[k]->number == 0) != (memcmp(summaries[k]->record, zeros, sizeof zeros) != 0))
            fail("summary", "zeros beside no refusal, or a record beside one");
    answers->far = karvoiss_far(answers->first.record, 20, answers->second.record, 20);
    if (answers->first.number != 0 || answers->second.number != 0) {
        if (answers->far.number != 18 || answers->far.place != (answers->first.number == 0))
            fail("far", "20 zeros are taken for a summary");
    } else if (answers->far.number != 0) {
        fail("far", "a summary that was made is refused");
    } else if (!answers->far.look
               && (answers->vectors.number != 0 || answers->far.f != answers->vectors.f || answers->far.g != answers->vectors.g)) {
        fail("far", "what is told is not the full answer");
    }
    if ((answers->far.look || answers->far.number != 0) && (answers->far.f != 0 || answers->far.g != 0))
        fail("far", "vectors beside a refusal or a look");
}

/* A number of `size` bytes, high byte first or low byte first. */
static inline uint8_t *put_number(uint8_t *to, uint64_t value, size_t size, bool high_first)
{
    for (size_t i = 0; i < size; i++)
        to[high_first ? size - 1 - i : i] = (uint8_t)(value >> 8 * i);
    return to + size;
}

static inline uint8_t *put_header(uint8_t *to, bool high_first, uint32_t type)
{
    *to = !high_first;
    return put_number(to + 1, type, 4, high_first);
}

/* The point whose coordinates stand at `from`, as two floats. */
static inline uint8_t *put_point(uint8_t *to, const uint8_t *from, bool high_first)
{
    for (int i = 0; i < 2; i++) {
        int32_t coordinate;
        double value;
        uint64_t bits;

        memcpy(&coordinate, from + 4 * i, 4);
        value = coordinate;
        memcpy(&bits, &value, 8);
        to = put_number(to, bits, 8, high_first);
    }
    return to;
}

/* An object of which nothing is tested as well-known binary, into WKB bytes; gives their number. Each left halfsegment of a line is a part, and each of a region a ring that goes
 * there and back: taken once, they are the region. The byte order changes from header to header. */
static inline size_t wkb_of(const uint8_t *object, size_t length, uint8_t *wkb)
{
    const uint8_t type = object[1];
    const size_t size = type == 1 ? 9 : type == 2 ? 18 : 19;
    uint32_t count = 0;
    uint8_t *to = wkb + 9;

    for (size_t at = 2; at + size < length; at += size) {
        const uint8_t *left = object + at + 1, *right = left + 8;
        const uint8_t *const ring[4] = {left, right, right, left};
        const bool high_first = count % 2 == 1;

        if (type != 1 && object[at + 17] == 0)
            continue;
        count++;
        to = put_header(to, high_first, type);
        if (type > 1)
            to = put_number(to, type == 2 ? 2 : 1, 4, high_first);
        if (type > 2)
            to = put_number(to, 4, 4, high_first);
        for (int i = 0; i < (type == 1 ? 1 : type == 2 ? 2 : 4); i++)
            to = put_point(to, ring[i], high_first);
    }
    put_number(put_header(wkb, true, type + 3u), count, 4, true);
    return (size_t)(to - wkb);
}

/* The first object, if it is taken, through well-known binary and back: by wkb_of, and by the library if it is no region. Both must give the object, byte for byte. */
static inline void ask_wkb(const uint8_t *bytes, size_t length, struct answers *answers)
{
    uint8_t wkb[WKB], object[OBJECT];
    size_t first = second_object(bytes, length);
    bool taken = answers->first.number == 0;

    answers->unread = karvoiss_read_wkb(bytes, length, object, sizeof object);
    answers->read = karvoiss_read_wkb(wkb, taken ? wkb_of(bytes, first, wkb) : 0, object, sizeof object);
    if (taken && (answers->read.number != 0 || answers->read.length != first || memcmp(object, bytes, first) != 0))
        fail("read_wkb", "another object than the one that was written");
    memset(wkb, 0xEE, sizeof wkb);
    answers->written = karvoiss_write_wkb(bytes, first, wkb, sizeof wkb);
    if (answers->written.number != (taken && bytes[1] == 3 ? 24 : answers->first.number))
        fail("write_wkb", "another refusal than the summary has");
    for (size_t i = answers->written.length; i < sizeof wkb; i++)
        if (wkb[i] != 0xEE)
            fail("write_wkb", "a later byte was changed");
    if (answers->written.number == 0) {
        karvoiss_read_wkb_t back = karvoiss_read_wkb(wkb, answers->written.length, object, sizeof object);

        if (back.number != 0 || back.length != first || memcmp(object, bytes, first) != 0)
            fail("write_wkb", "not read back as the same object");
    }
}

static inline bool same_split(const karvoiss_split_t *a, const karvoiss_split_t *b)
{
    return a->number == b->number && a->place == b->place && a->added_f == b->added_f && a->added_g == b->added_g && a->length == b->length;
}

/* A scene that is split into itself. */
static inline void splits_no_more(const uint8_t *scene, size_t length)
{
    uint8_t again[SCENE];
    const karvoiss_split_t found = karvoiss_split(scene, length, again, sizeof again), expected = {.length = length};

    if (!same_split(&found, &expected) || memcmp(again, scene, length) != 0)
        fail("split", "a scene is split into another");
}

/* The bytes as a pair: the refusals are those of the cells, but for 15; what is written is a scene. */
static inline void ask_split(const uint8_t *bytes, size_t length, struct answers *answers)
{
    uint8_t split[SCENE];
    const karvoiss_cells_t *cells = &answers->cells;
    const karvoiss_split_t found = karvoiss_split(bytes, length, memset(split, 0xEE, sizeof split), sizeof split);

    answers->split = found;
    if (cells->number != 15 ? found.number != cells->number || found.place != cells->place : found.number != 0 && found.number != 19 && found.number != 20)
        fail("split", "another refusal than the cells have");
    if (found.number != 0 && (found.length != 0 || found.added_f != 0 || found.added_g != 0))
        fail("split", "something beside a refusal");
    for (size_t i = found.length; i < sizeof split; i++)
        if (split[i] != 0xEE)
            fail("split", "a later byte was changed");
    if (cells->number == 0)
        splits_no_more(bytes, length);
    if (cells->number == 15 && found.number == 0) {
        if (karvoiss_cells(split, found.length).number != 0 || found.added_f + found.added_g == 0)
            fail("split", "what is written is no scene, or nothing was added");
        splits_no_more(split, found.length);
    }
}

static inline bool same_walk(const karvoiss_walk_t *a, const karvoiss_walk_t *b)
{
    return a->number == b->number && a->place == b->place && a->f == b->f && a->g == b->g && a->done == b->done && a->type_f == b->type_f && a->type_g == b->type_g
        && a->turned == b->turned && a->want_f == b->want_f && a->want_g == b->want_g && a->events == b->events && a->taken == b->taken;
}

/* Does a state fit a ground of so many bytes, whatever stands there? */
static inline bool fits_ground(const karvoiss_walk_t *walk, size_t length)
{
    const bool types = walk->type_f >= 1 && walk->type_f <= 3 && walk->type_g >= 1 && walk->type_g <= 3;

    return types && walk->events <= 2048 && walk->events <= length / 4 && walk->taken <= walk->events;
}

/* Whether a portion of any state over any ground of so many bytes may be what was found, all of which but the flags follows from the state. */
static inline bool is_portion(const karvoiss_walk_t *walk, size_t length, size_t events, const karvoiss_walk_t *found)
{
    karvoiss_walk_t expected = {.number = 24};

    if (walk->number != 0)
        return same_walk(found, walk);
    if (fits_ground(walk, length)) {
        const size_t left = walk->events - walk->taken;

        expected = *walk;
        expected.place = 0;
        expected.turned = walk->turned != 0;
        expected.taken += events < left ? events : left;
        expected.done = expected.taken == walk->events;
        expected.f = (uint16_t)(walk->f | (found->f & walk->want_f));
        expected.g = (uint16_t)(walk->g | (found->g & walk->want_g));
    }
    return same_walk(found, &expected);
}

/* Walked over to the end: the refusals and the vectors are those of the single call. */
static inline void ask_walk(const uint8_t *bytes, size_t length, struct masks all, struct answers *answers)
{
    uint8_t ground[KARVOISS_WALK_ROOM];
    karvoiss_walk_t walk = karvoiss_walk_begin(bytes, length, all.f, all.g, memset(ground, 0xEE, sizeof ground), sizeof ground);

    if (walk.number != answers->vectors.number || walk.place != answers->vectors.place)
        fail("walk", "another refusal than the vectors have");
    for (size_t i = 4 * walk.events; i < sizeof ground; i++)
        if (ground[i] != 0xEE)
            fail("walk", "a byte was changed that must not be");
    while (walk.number == 0 && !walk.done)
        walk = karvoiss_walk_portion(ground, sizeof ground, walk, 7);
    if (walk.number != answers->vectors.number || walk.f != answers->vectors.f || walk.g != answers->vectors.g)
        fail("walk", "other vectors at the end than the single call has");
    answers->walk = walk;
}

/* The pattern of what was answered, nine characters: each cell as it is, but for IE, of which it is asked whether it is empty, and EI, which is left open. */
static inline void own_pattern(const karvoiss_cells_t *cells, uint8_t *pattern)
{
    for (int i = 0; i < 9; i++)
        pattern[i] = i == 6 ? '*' : i == 2 && cells->cell[0][2] != 'F' ? 'T' : cells->cell[i / 3][i % 3];
}

/* The side estimate of the six numbers in the first 24 bytes, cut to a size that is in the range as often as not; 0 for those that are not there. */
static inline karvoiss_estimate_t ask_numbers(const uint8_t *bytes, size_t length)
{
    int32_t n[6] = {0};

    if (length > 0)
        memcpy(n, bytes, length < sizeof n ? length : sizeof n);
    for (int i = 0; i < 6; i++)
        n[i] %= 1 << 20;
    return karvoiss_estimate(n[0], n[1], n[2], n[3], n[4], n[5]);
}

/* The list is asked for into `list`, whose bytes are all 0xEE before. Two zero masks have the refusals that all flags have, and want nothing. */
static inline void ask(const uint8_t *bytes, size_t length, uint8_t *list, size_t room, struct answers *answers)
{
    struct masks all = all_flags(bytes, length);
    uint8_t pattern[9];

    memset(list, 0xEE, room);
    answers->vectors = karvoiss_vectors(bytes, length, all.f, all.g);
    answers->nothing = karvoiss_vectors(bytes, length, 0, 0);
    if (answers->nothing.number != answers->vectors.number || answers->nothing.place != answers->vectors.place)
        fail("two zero masks", "another refusal");
    if (answers->nothing.f != 0 || answers->nothing.g != 0)
        fail("two zero masks", "a flag");
    answers->cells = karvoiss_cells(bytes, length);
    for (int k = 0; k < 9; k++) {
        uint8_t sign = answers->cells.cell[k / 3][k % 3];

        if (sign != 'F' && (answers->cells.number != 0 || sign < '0' || sign > '2'))
            fail("cells", answers->cells.number != 0 ? "one beside a refusal is not F" : "one has none of the four signs");
    }
    own_pattern(&answers->cells, pattern);
    answers->relate = karvoiss_relate(bytes, length, pattern, sizeof pattern);
    if (answers->relate.number != answers->cells.number || answers->relate.place != answers->cells.place)
        fail("a pattern", "another refusal than the cells have");
    if (answers->relate.holds != (answers->cells.number == 0))
        fail("a pattern", "the scene's own does not hold");
    answers->overlap = karvoiss_overlap(bytes, length, list, room);
    answers->areas = karvoiss_areas(bytes, length);
    ask_summaries(bytes, length, answers);
    answers->estimate = ask_numbers(bytes, length);
    answers->in_window = karvoiss_in_window((karvoiss_window_t){-1.0F, -1.0F, 1.0F, 1.0F}, bytes, length);
    ask_wkb(bytes, length, answers);
    ask_split(bytes, length, answers);
    ask_walk(bytes, length, all, answers);
}

static inline bool same_vectors(const karvoiss_vectors_t *a, const karvoiss_vectors_t *b)
{
    return a->number == b->number && a->place == b->place && a->f == b->f && a->g == b->g;
}

static inline bool same_cells(const karvoiss_cells_t *a, const karvoiss_cells_t *b)
{
    return a->number == b->number && a->place == b->place && memcmp(a->cell, b->cell, sizeof a->cell) == 0;
}

static inline bool same_relate(const karvoiss_relate_t *a, const karvoiss_relate_t *b)
{
    return a->number == b->number && a->place == b->place && a->holds == b->holds;
}

static inline bool same_overlap(const karvoiss_overlap_t *a, const karvoiss_overlap_t *b)
{
    return a->number == b->number && a->place == b->place && a->count == b->count;
}

static inline bool same_areas(const karvoiss_areas_t *a, const karvoiss_areas_t *b)
{
    return a->number == b->number && a->place == b->place && a->both == b->both && a->f_only == b->f_only && a->g_only == b->g_only;
}

static inline bool same_summary(const karvoiss_summary_t *a, const karvoiss_summary_t *b)
{
    return a->number == b->number && a->place == b->place && memcmp(a->record, b->record, sizeof a->record) == 0;
}

static inline bool same_far(const karvoiss_far_t *a, const karvoiss_far_t *b)
{
    return a->number == b->number && a->place == b->place && a->look == b->look && a->f == b->f && a->g == b->g;
}

static inline bool same_estimate(const karvoiss_estimate_t *a, const karvoiss_estimate_t *b)
{
    return memcmp(&a->estimate, &b->estimate, sizeof a->estimate) == 0 && a->side == b->side;
}

static inline bool same_in_window(const karvoiss_in_window_t *a, const karvoiss_in_window_t *b)
{
    return a->number == b->number && a->place == b->place && a->word == b->word && a->hits == b->hits;
}

static inline bool same_read(const karvoiss_read_wkb_t *a, const karvoiss_read_wkb_t *b)
{
    return a->number == b->number && a->place == b->place && a->length == b->length && (a->value == b->value || (a->value != a->value && b->value != b->value));
}

static inline bool same_written(const karvoiss_write_wkb_t *a, const karvoiss_write_wkb_t *b)
{
    return a->number == b->number && a->place == b->place && a->length == b->length;
}

static inline bool same_answers(const struct answers *a, const struct answers *b)
{
    return same_vectors(&a->vectors, &b->vectors) && same_vectors(&a->nothing, &b->nothing) && same_cells(&a->cells, &b->cells)
        && same_relate(&a->relate, &b->relate) && same_overlap(&a->overlap, &b->overlap) && same_summary(&a->first, &b->first)
        && same_summary(&a->second, &b->second) && same_far(&a->far, &b->far) && same_estimate(&a->estimate, &b->estimate)
        && same_in_window(&a->in_window, &b->in_window) && same_areas(&a->areas, &b->areas)
        && same_read(&a->read, &b->read) && same_read(&a->unread, &b->unread) && same_written(&a->written, &b->written) && same_split(&a->split, &b->split)
        && same_walk(&a->walk, &b->walk);
}

#endif
