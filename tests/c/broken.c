/* The archive with a mistake on purpose, linked with --wrap: -DMISTAKE_name chooses it. Each test of the border must notice its own. */
#include "karvoiss.h"

#include <stdlib.h>
#include <string.h>

karvoiss_cells_t __real_karvoiss_cells(const uint8_t *scene, size_t length);
karvoiss_cells_t __wrap_karvoiss_cells(const uint8_t *scene, size_t length);
karvoiss_relate_t __real_karvoiss_relate(const uint8_t *scene, size_t length, const uint8_t *pattern, size_t pattern_length);
karvoiss_relate_t __wrap_karvoiss_relate(const uint8_t *scene, size_t length, const uint8_t *pattern, size_t pattern_length);
karvoiss_overlap_t __real_karvoiss_overlap(const uint8_t *scene, size_t length, uint8_t *list, size_t room);
karvoiss_overlap_t __wrap_karvoiss_overlap(const uint8_t *scene, size_t length, uint8_t *list, size_t room);

karvoiss_summary_t __real_karvoiss_summary(const uint8_t *object, size_t length);
karvoiss_summary_t __wrap_karvoiss_summary(const uint8_t *object, size_t length);
karvoiss_far_t __real_karvoiss_far(const uint8_t *first, size_t first_length, const uint8_t *second, size_t second_length);
karvoiss_far_t __wrap_karvoiss_far(const uint8_t *first, size_t first_length, const uint8_t *second, size_t second_length);

karvoiss_read_wkb_t __real_karvoiss_read_wkb(const uint8_t *wkb, size_t length, uint8_t *object, size_t room);
karvoiss_read_wkb_t __wrap_karvoiss_read_wkb(const uint8_t *wkb, size_t length, uint8_t *object, size_t room);
karvoiss_write_wkb_t __real_karvoiss_write_wkb(const uint8_t *object, size_t length, uint8_t *wkb, size_t room);
karvoiss_write_wkb_t __wrap_karvoiss_write_wkb(const uint8_t *object, size_t length, uint8_t *wkb, size_t room);

karvoiss_split_t __real_karvoiss_split(const uint8_t *scene, size_t length, uint8_t *split, size_t room);
karvoiss_split_t __wrap_karvoiss_split(const uint8_t *scene, size_t length, uint8_t *split, size_t room);

karvoiss_walk_t __real_karvoiss_walk_begin(const uint8_t *scene, size_t length, uint16_t want_f, uint16_t want_g, uint8_t *ground, size_t room);
karvoiss_walk_t __wrap_karvoiss_walk_begin(const uint8_t *scene, size_t length, uint16_t want_f, uint16_t want_g, uint8_t *ground, size_t room);
karvoiss_walk_t __real_karvoiss_walk_portion(const uint8_t *ground, size_t length, karvoiss_walk_t walk, size_t events);
karvoiss_walk_t __wrap_karvoiss_walk_portion(const uint8_t *ground, size_t length, karvoiss_walk_t walk, size_t events);

/* Reads a byte. */
static inline __attribute__((unused)) void touch(const volatile uint8_t *byte)
{
    (void)*byte;
}

/* Uses so much stack. */
static inline __attribute__((unused)) void dig(size_t size)
{
    volatile uint8_t local[size];

    for (size_t i = 0; i < size; i++)
        local[i] = 0;
    touch(local);
}

karvoiss_cells_t __wrap_karvoiss_cells(const uint8_t *scene, size_t length)
{
#if defined MISTAKE_reads_null
    touch(scene);
#elif defined MISTAKE_reads_on
    touch(scene + length);
#elif defined MISTAKE_reads_before
    touch(scene - 1);
#elif defined MISTAKE_writes_scene
    if (length > 0)
        *(volatile uint8_t *)scene = *scene;
#elif defined MISTAKE_keeps_state
    static volatile size_t kept;

    kept = length;
    karvoiss_cells_t answer = __real_karvoiss_cells(scene, length);
    answer.place += kept != length;
    return answer;
#elif defined MISTAKE_deep
    dig(KARVOISS_CELLS_STACK);
#elif defined MISTAKE_heap
    free(malloc(length));
#endif
    return __real_karvoiss_cells(scene, length);
}

karvoiss_summary_t __wrap_karvoiss_summary(const uint8_t *object, size_t length)
{
#if defined MISTAKE_object_reads_on
    touch(object + length);
#elif defined MISTAKE_object_deep
    dig(KARVOISS_SUMMARY_STACK);
#endif
    karvoiss_summary_t answer = __real_karvoiss_summary(object, length);

#if defined MISTAKE_object_keeps_record
    answer.record[0] = 83;
#endif
    return answer;
}

karvoiss_far_t __wrap_karvoiss_far(const uint8_t *first, size_t first_length, const uint8_t *second, size_t second_length)
{
#if defined MISTAKE_far_reads_on
    touch(second + 19);
#elif defined MISTAKE_far_reads_null
    touch(first);
#elif defined MISTAKE_far_writes
    *(volatile uint8_t *)first = 83;
#elif defined MISTAKE_far_deep
    dig(KARVOISS_FAR_STACK);
#endif
    return __real_karvoiss_far(first, first_length, second, second_length);
}

karvoiss_relate_t __wrap_karvoiss_relate(const uint8_t *scene, size_t length, const uint8_t *pattern, size_t pattern_length)
{
#if defined MISTAKE_reads_pattern_on
    touch(pattern + pattern_length);
#elif defined MISTAKE_by_columns
    uint8_t turned[9];

    if (pattern_length == 9) {
        for (int i = 0; i < 9; i++)
            turned[i] = pattern[i % 3 * 3 + i / 3];
        pattern = turned;
    }
#endif
    return __real_karvoiss_relate(scene, length, pattern, pattern_length);
}

karvoiss_overlap_t __wrap_karvoiss_overlap(const uint8_t *scene, size_t length, uint8_t *list, size_t room)
{
    karvoiss_overlap_t answer = __real_karvoiss_overlap(scene, length, list, room);

#if defined MISTAKE_writes_on
    ((volatile uint8_t *)list)[answer.count] = 0;
#elif defined MISTAKE_clears_rest
    memset(list + answer.count, 0, room - answer.count);
#endif
    return answer;
}

karvoiss_read_wkb_t __wrap_karvoiss_read_wkb(const uint8_t *wkb, size_t length, uint8_t *object, size_t room)
{
#if defined MISTAKE_wkb_reads_on
    touch(wkb + length);
#elif defined MISTAKE_wkb_reads_null
    touch(wkb);
#elif defined MISTAKE_wkb_keeps_state
    static volatile size_t kept;

    kept = length;
#elif defined MISTAKE_wkb_deep
    dig(KARVOISS_READ_WKB_STACK);
#endif
    karvoiss_read_wkb_t answer = __real_karvoiss_read_wkb(wkb, length, object, room);

#if defined MISTAKE_wkb_written_early
    if (answer.number != 0 && room > 0)
        *(volatile uint8_t *)object = 84;
#elif defined MISTAKE_wkb_writes_on
    ((volatile uint8_t *)object)[answer.length] = 0;
#elif defined MISTAKE_wkb_outer_order
    if (answer.number == 0 && length > 9 && wkb[9] != wkb[0])
        answer.number = 24;
#elif defined MISTAKE_wkb_keeps_state
    answer.place += kept != length;
#endif
    return answer;
}

karvoiss_write_wkb_t __wrap_karvoiss_write_wkb(const uint8_t *object, size_t length, uint8_t *wkb, size_t room)
{
#if defined MISTAKE_writer_reads_on
    touch(object + length);
#elif defined MISTAKE_writer_deep
    dig(KARVOISS_WRITE_WKB_STACK);
#endif
    karvoiss_write_wkb_t answer = __real_karvoiss_write_wkb(object, length, wkb, room);

#if defined MISTAKE_writer_clears_rest
    if (room > 0)
        memset(wkb + answer.length, 0, room - answer.length);
#elif defined MISTAKE_writer_high_first
    if (answer.number == 0)
        *wkb = 0;
#endif
    return answer;
}

karvoiss_split_t __wrap_karvoiss_split(const uint8_t *scene, size_t length, uint8_t *split, size_t room)
{
#if defined MISTAKE_split_reads_on
    touch(scene + length);
#elif defined MISTAKE_split_reads_null
    touch(scene);
#elif defined MISTAKE_split_keeps_state
    static volatile size_t kept;

    kept = length;
#elif defined MISTAKE_split_deep
    dig(KARVOISS_SPLIT_STACK);
#endif
    karvoiss_split_t answer = __real_karvoiss_split(scene, length, split, room);

#if defined MISTAKE_split_written_early
    if (answer.number != 0 && room > 0)
        *(volatile uint8_t *)split = 84;
#elif defined MISTAKE_split_writes_on
    ((volatile uint8_t *)split)[answer.length] = 0;
#elif defined MISTAKE_split_clears_rest
    if (room > 0)
        memset(split + answer.length, 0, room - answer.length);
#elif defined MISTAKE_split_still_15
    if (answer.added_f + answer.added_g > 0)
        answer = (karvoiss_split_t){.number = 15, .place = 2};
#elif defined MISTAKE_split_in_vain
    if (answer.number == 0)
        memcpy(split, scene, length);
#elif defined MISTAKE_split_counts_halves
    answer.added_f *= 2;
    answer.added_g *= 2;
#elif defined MISTAKE_split_keeps_state
    answer.place += kept != length;
#endif
    return answer;
}

karvoiss_walk_t __wrap_karvoiss_walk_begin(const uint8_t *scene, size_t length, uint16_t want_f, uint16_t want_g, uint8_t *ground, size_t room)
{
#if defined MISTAKE_walk_reads_on
    touch(scene + length);
#elif defined MISTAKE_walk_reads_null
    touch(scene);
#elif defined MISTAKE_walk_deep
    dig(KARVOISS_WALK_BEGIN_STACK);
#endif
    karvoiss_walk_t walk = __real_karvoiss_walk_begin(scene, length, want_f, want_g, ground, room);

#if defined MISTAKE_walk_written_early
    if (walk.number != 0 && room > 0)
        *(volatile uint8_t *)ground = 84;
#elif defined MISTAKE_walk_writes_on
    if (walk.number == 0)
        ((volatile uint8_t *)ground)[4 * walk.events] = 0;
#endif
    return walk;
}

karvoiss_walk_t __wrap_karvoiss_walk_portion(const uint8_t *ground, size_t length, karvoiss_walk_t walk, size_t events)
{
#if defined MISTAKE_portion_reads_on
    touch(ground + length);
#elif defined MISTAKE_portion_reads_null
    touch(ground);
#elif defined MISTAKE_portion_writes
    if (length > 0)
        *(volatile uint8_t *)ground = *ground;
#elif defined MISTAKE_portion_keeps_state
    static volatile size_t kept;
    const size_t taken = walk.taken;

    kept = taken;
#elif defined MISTAKE_portion_deep
    dig(KARVOISS_WALK_PORTION_STACK);
#elif defined MISTAKE_portion_of_one_more
    events += events > 0 && events < SIZE_MAX;
#endif
    walk = __real_karvoiss_walk_portion(ground, length, walk, events);
#if defined MISTAKE_portion_done_by_flags
    walk.done = walk.number == 0 && (walk.done || (walk.f == walk.want_f && walk.g == walk.want_g));
#elif defined MISTAKE_portion_refuses_with_state
    walk.events += walk.number != 0;
#elif defined MISTAKE_portion_keeps_state
    walk.place += kept != taken;
#endif
    return walk;
}
