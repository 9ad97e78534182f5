/* Null where the length is 0: for the scene of each call, for the pattern and the list, alone and with it, for either summary, for well-known binary, in and out,
 * for a pair and what it is split into, and for a walk's scene and its ground. */
#include "scenes.h"

static const uint8_t empty_regions[] = {84, 3, 69, 84, 3, 69};

static void is_overlap(const char *name, karvoiss_overlap_t answer, uint32_t number, size_t count)
{
    if (answer.number != number || answer.place != 0 || answer.count != count)
        fail(name, "another answer");
}

static void is_bad_at(const char *name, karvoiss_far_t answer, size_t place)
{
    karvoiss_far_t bad = {.number = 18, .place = place};

    if (!same_far(&answer, &bad))
        fail(name, "another answer");
}

static void summaries_of_null(const struct scene *scene)
{
    static const karvoiss_summary_t no_summary = {.number = 1};
    karvoiss_summary_t null = karvoiss_summary(NULL, 0), some = karvoiss_summary(scene->bytes, second_object(scene->bytes, scene->length));

    if (!same_summary(&null, &no_summary) || some.number != 0)
        fail("summary of null", "another answer");
    is_bad_at("null twice", karvoiss_far(NULL, 0, NULL, 0), 0);
    is_bad_at("null first", karvoiss_far(NULL, 0, some.record, 20), 0);
    is_bad_at("null second", karvoiss_far(some.record, 20, NULL, 0), 1);
}

static void is_read(const char *name, karvoiss_read_wkb_t answer, uint32_t number)
{
    karvoiss_read_wkb_t expected = {.number = number};

    if (!same_read(&answer, &expected))
        fail(name, "another answer");
}

static void is_written(const char *name, karvoiss_write_wkb_t answer, uint32_t number)
{
    karvoiss_write_wkb_t expected = {.number = number};

    if (!same_written(&answer, &expected))
        fail(name, "another answer");
}

static void wkb_of_null(void)
{
    static const uint8_t no_points[] = {84, 1, 69}, no_points_wkb[] = {1, 4, 0, 0, 0, 0, 0, 0, 0};
    uint8_t buffer[1] = {0xEE};

    is_read("null read into a buffer", karvoiss_read_wkb(NULL, 0, buffer, 1), 24);
    is_read("null read into null", karvoiss_read_wkb(NULL, 0, NULL, 0), 24);
    is_read("no points read into null", karvoiss_read_wkb(no_points_wkb, sizeof no_points_wkb, NULL, 0), 21);
    is_written("null written into a buffer", karvoiss_write_wkb(NULL, 0, buffer, 1), 1);
    is_written("null written into null", karvoiss_write_wkb(NULL, 0, NULL, 0), 1);
    is_written("no points written into null", karvoiss_write_wkb(no_points, sizeof no_points, NULL, 0), 21);
    if (buffer[0] != 0xEE)
        fail("null", "a buffer was changed");
}

static void is_refused(const char *name, karvoiss_split_t answer, uint32_t number)
{
    karvoiss_split_t expected = {.number = number};

    if (!same_split(&answer, &expected))
        fail(name, "another answer");
}

static void split_of_null(void)
{
    uint8_t buffer[1] = {0xEE};

    is_refused("null split into a buffer", karvoiss_split(NULL, 0, buffer, 1), 1);
    is_refused("null split into null", karvoiss_split(NULL, 0, NULL, 0), 1);
    is_refused("two empty regions split into null", karvoiss_split(empty_regions, sizeof empty_regions, NULL, 0), 21);
    if (buffer[0] != 0xEE)
        fail("null", "a buffer was changed");
}

static void is_walk(const char *name, karvoiss_walk_t answer, uint32_t number)
{
    karvoiss_walk_t expected = {.number = number};

    if (!same_walk(&answer, &expected))
        fail(name, "another answer");
}

static void walk_of_null(const struct scene *scene)
{
    static uint8_t ground[KARVOISS_WALK_ROOM];
    uint8_t buffer[1] = {0xEE};
    const karvoiss_walk_t empty = karvoiss_walk_begin(empty_regions, sizeof empty_regions, 255, 15, NULL, 0), empty_end = karvoiss_walk_portion(NULL, 0, empty, 1);
    const karvoiss_walk_t begin = karvoiss_walk_begin(scene->bytes, scene->length, 255, 15, ground, sizeof ground);

    is_walk("null walked over", karvoiss_walk_begin(NULL, 0, 0, 0, buffer, 1), 1);
    is_walk("null walked over in null", karvoiss_walk_begin(NULL, 0, 0, 0, NULL, 0), 1);
    is_walk("two regions walked over in null", karvoiss_walk_begin(scene->bytes, scene->length, 255, 15, NULL, 0), 21);
    is_walk("a walk over null", karvoiss_walk_portion(NULL, 0, begin, 1), 24);
    is_walk("zeros over null", karvoiss_walk_portion(NULL, 0, (karvoiss_walk_t){0}, 1), 24);
    is_walk("zeros over a ground", karvoiss_walk_portion(ground, sizeof ground, (karvoiss_walk_t){0}, 1), 24);
    if (empty.number != 0 || empty.done != 1 || !same_walk(&empty, &empty_end))
        fail("two empty regions", "are not done at the beginning, in null");
    if (buffer[0] != 0xEE)
        fail("null", "a buffer was changed");
}

static void is_relate(const char *name, karvoiss_relate_t answer, uint32_t number)
{
    if (answer.number != number || answer.place != 0 || answer.holds)
        fail(name, "another answer");
}

/* argv[1]: a scene of two regions that are not both empty */
int main(int argc, char **argv)
{
    if (argc != 2)
        fail("null", "name one scene");

    struct scene scene = read_scene(argv[1]);
    uint8_t list[1] = {0xEE};
    karvoiss_vectors_t v = karvoiss_vectors(NULL, 0, 0, 0);
    karvoiss_cells_t c = karvoiss_cells(NULL, 0);
    karvoiss_areas_t a = karvoiss_areas(NULL, 0);
    static const karvoiss_vectors_t no_vectors = {.number = 1};
    static const karvoiss_cells_t no_cells = {.number = 1, .cell = {{'F', 'F', 'F'}, {'F', 'F', 'F'}, {'F', 'F', 'F'}}};
    static const karvoiss_areas_t no_areas = {.number = 1};

    if (!same_vectors(&v, &no_vectors))
        fail("vectors of null", "another answer");
    if (!same_cells(&c, &no_cells))
        fail("cells of null", "another answer");
    is_relate("pattern against null", karvoiss_relate(NULL, 0, (const uint8_t *)"*********", 9), 1);
    is_relate("null against null", karvoiss_relate(NULL, 0, NULL, 0), 1);
    is_relate("null against two regions", karvoiss_relate(scene.bytes, scene.length, NULL, 0), 22);
    is_overlap("overlap of null into a buffer", karvoiss_overlap(NULL, 0, list, 1), 1, 0);
    is_overlap("overlap of null into null", karvoiss_overlap(NULL, 0, NULL, 0), 1, 0);
    is_overlap("overlap of two empty regions into null", karvoiss_overlap(empty_regions, sizeof empty_regions, NULL, 0), 0, 0);
    is_overlap("overlap of two regions into null", karvoiss_overlap(scene.bytes, scene.length, NULL, 0), 17, 0);
    if (!same_areas(&a, &no_areas))
        fail("areas of null", "another answer");
    karvoiss_in_window_t none = karvoiss_in_window((karvoiss_window_t){0.0F, 0.0F, 1.0F, 1.0F}, NULL, 0);

    if (none.number != 0 || none.place != 0 || none.word != 0 || none.hits != 0)
        fail("no summaries", "another answer");
    if (list[0] != 0xEE)
        fail("overlap of null into a buffer", "the buffer was changed");
    summaries_of_null(&scene);
    wkb_of_null();
    split_of_null();
    walk_of_null(&scene);
    puts("null: 26 calls");
    return 0;
}
