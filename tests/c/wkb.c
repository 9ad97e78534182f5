/* Well-known binary that lies right before a page that may not be touched, and right after one, in pages that may only be read, whole and cut at every byte; and buffers of
 * every size beside such pages, for the object that is read and for what is written of it. */
#define _DEFAULT_SOURCE
#include "fences.h"

/* What is taken has the object, or the well-known binary, in the first bytes; all else of a buffer is as it was. */
static void is_written(const uint8_t *buffer, size_t room, const uint8_t *expected, size_t length)
{
    if (memcmp(buffer, expected, length) != 0)
        fail(current, "other bytes beside a fence");
    for (size_t i = length; i < room; i++)
        if (buffer[i] != 0xEE)
            fail(current, "a later byte was changed beside a fence");
}

/* One that is cut is refused with 24 at a field, which begins less than eight bytes before its end. */
static void cut_at(struct fenced area, placing place, const uint8_t *wkb, size_t whole, size_t length)
{
    static uint8_t object[OBJECT];
    uint8_t *bytes = place(area, length);

    mprotect(area.start, area.size, PROT_READ | PROT_WRITE);
    memcpy(bytes, wkb, length);
    mprotect(area.start, area.size, PROT_READ);
    memset(object, 0xEE, sizeof object);
    karvoiss_read_wkb_t found = karvoiss_read_wkb(bytes, length, object, sizeof object);
    if (length < whole) {
        if (found.number != 24 || found.place > length || length - found.place > 7 || found.length != 0 || found.value != 0)
            fail(current, "another answer to what is cut");
        is_written(object, sizeof object, object, 0);
    } else if (found.number != 0) {
        fail(current, "another answer beside a fence");
    }
}

static void read_into(struct fenced area, placing place, const struct scene *object, const uint8_t *wkb, size_t length, size_t room)
{
    uint8_t *buffer = place(area, room);
    size_t written = room < object->length ? 0 : object->length;

    memset(buffer, 0xEE, room);
    karvoiss_read_wkb_t found = karvoiss_read_wkb(wkb, length, buffer, room), expected = {.number = written == 0 ? 21 : 0, .length = written};
    if (!same_read(&found, &expected))
        fail(current, "another answer for a buffer beside a fence");
    is_written(buffer, room, object->bytes, written);
}

static void write_into(struct fenced area, placing place, const struct scene *object, const uint8_t *wkb, size_t length, size_t room)
{
    uint8_t *buffer = place(area, room);
    size_t written = room < length ? 0 : length;

    memset(buffer, 0xEE, room);
    karvoiss_write_wkb_t found = karvoiss_write_wkb(object->bytes, object->length, buffer, room), expected = {.number = written == 0 ? 21 : 0, .length = written};
    if (!same_written(&found, &expected))
        fail(current, "another answer of the writer beside a fence");
    is_written(buffer, room, wkb, written);
}

/* The writer's object in pages that may only be read. */
static void object_at(struct fenced area, placing place, const struct scene *object)
{
    static uint8_t ordinary[WRITTEN], wkb[WRITTEN];
    uint8_t *bytes = place(area, object->length);
    karvoiss_write_wkb_t expected = karvoiss_write_wkb(object->bytes, object->length, ordinary, sizeof ordinary);

    mprotect(area.start, area.size, PROT_READ | PROT_WRITE);
    memcpy(bytes, object->bytes, object->length);
    mprotect(area.start, area.size, PROT_READ);
    karvoiss_write_wkb_t found = karvoiss_write_wkb(bytes, object->length, wkb, sizeof wkb);
    if (!same_written(&found, &expected) || memcmp(ordinary, wkb, found.length) != 0)
        fail(current, "the writer has another answer beside a fence");
}

static void try_object(const struct scene *object, size_t *cuts, size_t *rooms)
{
    static uint8_t wkb[WKB], written[WRITTEN];
    struct fenced inputs = fence(WKB), buffers = fence(WRITTEN + 2), objects = fence(object->length);
    size_t length = wkb_of(object->bytes, object->length, wkb);
    size_t most = karvoiss_write_wkb(object->bytes, object->length, written, sizeof written).length;

    for (int k = 0; k < 2; k++) {
        object_at(objects, placings[k], object);
        for (size_t cut = 0; cut <= length; cut++, ++*cuts)
            cut_at(inputs, placings[k], wkb, length, cut);
        for (size_t room = 0; room <= object->length + 2; room++, ++*rooms)
            read_into(buffers, placings[k], object, wkb, length, room);
        for (size_t room = 0; most > 0 && room <= most + 2; room++, ++*rooms)
            write_into(buffers, placings[k], object, written, most, room);
    }
    munmap(inputs.start - page, inputs.size + 2 * page);
    munmap(buffers.start - page, buffers.size + 2 * page);
    munmap(objects.start - page, objects.size + 2 * page);
}

int main(int argc, char **argv)
{
    size_t tried = 0, cuts = 0, rooms = 0;

    watch_fences();
    for (int i = 1; i < argc; i++) {
        struct scene scene = read_scene(argv[i]);
        size_t second = second_object(scene.bytes, scene.length);
        struct scene objects[2] = {{scene.name, scene.bytes, second}, {scene.name, scene.bytes + second, scene.length - second}};

        current = scene.name;
        for (int k = 0; k < 2; k++)
            if (karvoiss_summary(objects[k].bytes, objects[k].length).number == 0) {
                try_object(&objects[k], &cuts, &rooms);
                tried++;
            }
        free(scene.bytes);
    }
    printf("wkb: %zu objects, %zu cuts, %zu rooms\n", tried, cuts, rooms);
    return tried > 0 ? 0 : 1;
}
