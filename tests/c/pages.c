/* Scenes, patterns and lists that lie right before a page that may not be touched, and right after one. Each scene is asked about whole and cut at
 * every byte, in pages that may only be read; the answers must be those that the same bytes get in ordinary memory. */
#define _DEFAULT_SOURCE
#include "fences.h"

static void ask_at(struct fenced scenes, placing place, const struct scene *scene, size_t length)
{
    static uint8_t ordinary[1 << 17];
    static uint8_t list[LIST];
    struct answers expected, found;
    uint8_t *bytes = place(scenes, length);

    if (length > sizeof ordinary)
        fail(scene->name, "too long");
    memcpy(ordinary, scene->bytes, length);
    ask(ordinary, length, expected.list, LIST, &expected);
    mprotect(scenes.start, scenes.size, PROT_READ | PROT_WRITE);
    memcpy(bytes, scene->bytes, length);
    mprotect(scenes.start, scenes.size, PROT_READ);
    ask(bytes, length, list, LIST, &found);
    if (!same_answers(&expected, &found) || memcmp(expected.list, list, LIST) != 0)
        fail(scene->name, "another answer beside a fence");
}

/* Patterns of every length up to ten, and one with a wrong last character, in pages that may only be read. */
static size_t patterns_at(struct fenced patterns, placing place, const struct scene *scene)
{
    static const char *const texts[] = {"*********x", "TTTTTTTTx"};
    size_t count = 0;

    for (int k = 0; k < 2; k++)
        for (size_t length = 0; length <= strlen(texts[k]); length++, count++) {
            uint8_t *pattern = place(patterns, length);
            karvoiss_relate_t expected = karvoiss_relate(scene->bytes, scene->length, (const uint8_t *)texts[k], length);

            mprotect(patterns.start, patterns.size, PROT_READ | PROT_WRITE);
            memcpy(pattern, texts[k], length);
            mprotect(patterns.start, patterns.size, PROT_READ);
            karvoiss_relate_t found = karvoiss_relate(scene->bytes, scene->length, pattern, length);
            if (!same_relate(&expected, &found))
                fail(scene->name, "another answer to a pattern beside a fence");
        }
    return count;
}

/* Every room up to two more than the count. */
static size_t lists_at(struct fenced lists, placing place, const struct scene *scene)
{
    struct answers whole, found;
    size_t room = 0;

    ask(scene->bytes, scene->length, whole.list, LIST, &whole);
    for (; room <= whole.overlap.count + 2; room++) {
        uint8_t *list = place(lists, room);
        bool taken = whole.overlap.number == 0 && room >= whole.overlap.count;
        size_t count = taken ? whole.overlap.count : 0;

        ask(scene->bytes, scene->length, list, room, &found);
        if (found.overlap.count != count || memcmp(list, whole.list, count) != 0)
            fail(scene->name, "another list beside a fence");
        for (size_t i = count; i < room; i++)
            if (list[i] != 0xEE)
                fail(scene->name, "a later byte was changed beside a fence");
    }
    return room;
}

int main(int argc, char **argv)
{
    size_t cuts = 0, rooms = 0, patterns = 0;

    watch_fences();
    for (int i = 1; i < argc; i++) {
        struct scene scene = read_scene(argv[i]);
        struct fenced scenes = fence(scene.length), lists = fence(LIST), characters = fence(16);

        current = scene.name;
        for (int k = 0; k < 2; k++) {
            for (size_t length = 0; length <= scene.length; length++, cuts++)
                ask_at(scenes, placings[k], &scene, length);
            rooms += lists_at(lists, placings[k], &scene);
            patterns += patterns_at(characters, placings[k], &scene);
        }
        free(scene.bytes);
    }
    printf("pages: %d scenes, %zu cuts, %zu rooms, %zu patterns\n", argc - 1, cuts, rooms, patterns);
    return argc > 1 ? 0 : 1;
}
