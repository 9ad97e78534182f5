/* Walks that may be put down: scenes and grounds beside pages that may not be touched, grounds in pages that may only be read; every room; every portion's state against the
 * same number of events at once; states and grounds that are any bytes, of which all but the flags follows from the state. */
#define _DEFAULT_SOURCE
#include "fences.h"

enum { TAMPERED = 20000 };

static void is_walk(karvoiss_walk_t found, karvoiss_walk_t expected)
{
    if (!same_walk(&found, &expected))
        fail(current, "another state of the walk");
}

static void is_untouched(const uint8_t *buffer, size_t from, size_t room)
{
    for (size_t i = from; i < room; i++)
        if (buffer[i] != 0xEE)
            fail(current, "a byte of the ground was changed that must not be");
}

/* The ground in a buffer of this size: laid as it is in a longer one and no byte more changed, or 21 and none changed. */
static void begin_in(struct fenced area, placing place, const struct scene *scene, struct masks all, size_t room, const uint8_t *laid, karvoiss_walk_t whole)
{
    const bool fits = room >= 4 * count_elements(scene->bytes, scene->length);
    const karvoiss_walk_t too_short = {.number = 21};
    uint8_t *ground = place(area, room);

    memset(ground, 0xEE, room);
    is_walk(karvoiss_walk_begin(scene->bytes, scene->length, all.f, all.g, ground, room), fits ? whole : too_short);
    is_untouched(ground, fits ? 4 * whole.events : 0, room);
    if (fits && memcmp(ground, laid, 4 * whole.events) != 0)
        fail(current, "another ground");
}

/* A scene that is cut has the refusal of the vectors question, and no ground. */
static void begin_cut(struct fenced area, placing place, const struct scene *scene, struct masks all, size_t length)
{
    static uint8_t ground[KARVOISS_WALK_ROOM];
    const karvoiss_vectors_t refused = karvoiss_vectors(scene->bytes, length, all.f, all.g);
    const karvoiss_walk_t expected = {.number = refused.number, .place = refused.place};
    uint8_t *bytes = place(area, length);

    memcpy(bytes, scene->bytes, length);
    memset(ground, 0xEE, sizeof ground);
    if (refused.number == 0)
        fail(current, "a cut scene is taken");
    is_walk(karvoiss_walk_begin(bytes, length, all.f, all.g, ground, sizeof ground), expected);
    is_untouched(ground, 0, sizeof ground);
}

static karvoiss_walk_t portion_of(const uint8_t *ground, size_t room, karvoiss_walk_t walk, size_t events)
{
    const karvoiss_walk_t found = karvoiss_walk_portion(ground, room, walk, events);

    if (!is_portion(&walk, room, events, &found))
        fail(current, "a portion that does not follow from its state");
    return found;
}

/* Event by event over a ground that may only be read: each state is that of as many events at once, portions add up, and the end has the vectors of the single call. */
static size_t walk_over(const uint8_t *ground, size_t room, karvoiss_walk_t begin, karvoiss_vectors_t single)
{
    karvoiss_walk_t walk = begin;
    size_t events = 0;

    while (walk.number == 0 && !walk.done) {
        is_walk(karvoiss_walk_portion(ground, room, walk, 0), walk);
        walk = portion_of(ground, room, walk, 1);
        is_walk(karvoiss_walk_portion(ground, room, begin, ++events), walk);
    }
    if (walk.number != 0 || walk.f != single.f || walk.g != single.g)
        fail(current, "the end has not the vectors of the single call");
    is_walk(karvoiss_walk_portion(ground, room, walk, SIZE_MAX), walk);
    is_walk(karvoiss_walk_portion(ground, room, begin, SIZE_MAX), walk);
    return events;
}

static uint32_t state = 1;

static uint32_t next_number(void)
{
    state ^= state << 13;
    state ^= state >> 17;
    state ^= state << 5;
    return state;
}

/* A number like those that a state has, or any. */
static size_t any_size(void)
{
    static const size_t some[] = {0, 1, 2, 12, 1023, 1024, 2047, 2048, 2049, 8192, SIZE_MAX, SIZE_MAX - 1, SIZE_MAX / 4 + 1};
    const uint32_t n = next_number();

    return n % 3 == 0 ? some[next_number() % (sizeof some / sizeof *some)] : n % 3 == 1 ? next_number() % 64 : ((size_t)next_number() << 32) + n;
}

static karvoiss_walk_t tampered(karvoiss_walk_t walk)
{
    size_t *const sizes[] = {&walk.events, &walk.taken, &walk.place};
    uint8_t *const bytes[] = {&walk.type_f, &walk.type_g, &walk.turned, &walk.done};
    uint16_t *const words[] = {&walk.f, &walk.g, &walk.want_f, &walk.want_g};
    const uint32_t which = next_number() % 12;

    if (which < 3)
        *sizes[which] = any_size();
    else if (which < 7)
        *bytes[which - 3] = (uint8_t)(next_number() % 2 == 0 ? next_number() % 5 : next_number());
    else if (which < 11)
        *words[which - 7] = (uint16_t)next_number();
    else
        memset(&walk, (int)next_number(), sizeof walk);
    return walk;
}

/* Any states over any grounds of any sizes; gives how many were refused. */
static size_t tamper(struct fenced area, placing place, const uint8_t *laid, size_t need, karvoiss_walk_t begin)
{
    size_t refused = 0;

    for (int i = 0; i < TAMPERED; i++) {
        const size_t room = next_number() % 4 == 0 ? next_number() % (need + 1) : need;
        uint8_t *ground = place(area, room);

        memcpy(ground, laid, room);
        for (uint32_t k = next_number() % 4; k > 0 && room > 0; k--)
            ground[next_number() % room] = (uint8_t)next_number();
        refused += portion_of(ground, room, i % 2 == 0 ? tampered(begin) : begin, next_number() % 3 == 0 ? SIZE_MAX : next_number() % 16).number != 0;
    }
    return refused;
}

/* Fewer of the small ones, and each of those around what is needed. */
static size_t next_room(size_t room, size_t need)
{
    const size_t next = room + 1 + room / 64;

    return room + 5 < need && next + 5 > need ? need - 5 : room + 5 < need ? next : room + 1;
}

int main(int argc, char **argv)
{
    static uint8_t laid[KARVOISS_WALK_ROOM];
    size_t events = 0, rooms = 0, cuts = 0, refused = 0;

    watch_fences();
    for (int i = 1; i < argc; i++) {
        struct scene scene = read_scene(argv[i]);
        const struct masks all = all_flags(scene.bytes, scene.length);
        const karvoiss_vectors_t single = karvoiss_vectors(scene.bytes, scene.length, all.f, all.g);
        const karvoiss_walk_t begin = karvoiss_walk_begin(scene.bytes, scene.length, all.f, all.g, laid, sizeof laid);
        const size_t need = 4 * count_elements(scene.bytes, scene.length);

        current = scene.name;
        if (begin.number != 0) {
            is_walk(begin, (karvoiss_walk_t){.number = single.number, .place = single.place});
            free(scene.bytes);
            continue;
        }

        struct fenced scenes = fence(scene.length), grounds = fence(need + 2);

        for (int k = 0; k < 2; k++) {
            for (size_t length = 0; length < scene.length; length += 1 + length / 64, cuts++)
                begin_cut(scenes, placings[k], &scene, all, length);
            for (size_t room = 0; room <= need + 2; room = next_room(room, need), rooms++)
                begin_in(grounds, placings[k], &scene, all, room, laid, begin);
            uint8_t *ground = placings[k](grounds, 4 * begin.events);
            memcpy(ground, laid, 4 * begin.events);
            mprotect(grounds.start, grounds.size, PROT_READ);
            events += walk_over(ground, 4 * begin.events, begin, single);
            mprotect(grounds.start, grounds.size, PROT_READ | PROT_WRITE);
            refused += tamper(grounds, placings[k], laid, need, begin);
        }
        munmap(scenes.start - page, scenes.size + 2 * page);
        munmap(grounds.start - page, grounds.size + 2 * page);
        free(scene.bytes);
    }
    printf("walk: %d scenes, %zu events, %zu rooms, %zu cuts, %zu of %d tampered states and grounds refused\n", argc - 1, events, rooms, cuts, refused, 2 * TAMPERED * (argc - 1));
    return events > 0 && refused > 0 ? 0 : 1;
}
