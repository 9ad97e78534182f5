/* Asks how a line and a square lie to each other, once with the line first and
 * once with the square first, and prints the flags by name and the nine cells:
 * F for none, 0 for points, 1 for a length, 2 for an area.
 * The line is (2,2)-(4,2); the square is 0..4, its right side split at (4,2),
 * where the line ends on it. */
#include "karvoiss.h"

#include <stdio.h>
#include <string.h>

enum { POINTS = 1, LINE = 2, REGION = 3 };

struct object {
    uint8_t type;
    uint8_t bytes[256];
    size_t length;
};

static void byte(struct object *o, uint8_t b)
{
    o->bytes[o->length++] = b;
}

static void coordinate(struct object *o, int32_t v)
{
    uint32_t u = (uint32_t)v;

    for (int i = 0; i < 4; i++)
        byte(o, (uint8_t)(u >> (8 * i)));
}

static struct object begin(uint8_t type)
{
    return (struct object){.type = type, .bytes = {84, type}, .length = 2};
}

static void segment(struct object *o, uint8_t kind, int32_t lx, int32_t ly, int32_t rx, int32_t ry, uint8_t d)
{
    byte(o, kind);
    coordinate(o, lx);
    coordinate(o, ly);
    coordinate(o, rx);
    coordinate(o, ry);
    byte(o, d);
}

static void line_half(struct object *o, int32_t lx, int32_t ly, int32_t rx, int32_t ry, uint8_t d)
{
    segment(o, 76, lx, ly, rx, ry, d);
}

static void region_half(struct object *o, int32_t lx, int32_t ly, int32_t rx, int32_t ry, uint8_t d, uint8_t ia)
{
    segment(o, 82, lx, ly, rx, ry, d);
    byte(o, ia);
}

static void end(struct object *o)
{
    byte(o, 69);
}

/* The flags of an object, bit 0 first, by its own type and the other's; so they
 * are the same whichever comes first. Of two objects of one type they are F's. */
typedef const char *const names[8];

static names of_types[4][4] = {
    [POINTS] = {[POINTS] = {"poi_disjoint", "poi_shared"},
                [LINE] = {"poi_disjoint", "poi_on_interior", "poi_on_bound"},
                [REGION] = {"poi_inside", "poi_on_bound", "poi_outside"}},
    [LINE] = {[POINTS] = {"bound_poi_disjoint"},
              [LINE] = {"seg_shared", "interior_poi_shared", "seg_unshared", "bound_on_interior", "bound_shared", "bound_disjoint"},
              [REGION] = {"seg_inside", "seg_shared", "seg_outside", "poi_shared", "bound_inside", "bound_shared", "bound_disjoint"}},
    [REGION] = {[LINE] = {"seg_unshared"},
                [REGION] = {"(0/1)", "(1/0)", "(1/2)", "(2/1)", "(0/2)", "(2/0)", "(1/1)", "bound_poi_shared"}},
};

/* G's flags, of two objects of one type. */
static names of_second[4] = {
    [POINTS] = {"poi_disjoint"},
    [LINE] = {"seg_unshared", "bound_on_interior", "bound_disjoint"},
    [REGION] = {"(0/1)", "(1/0)", "(1/2)", "(2/1)"},
};

/* The mask that wants all flags: a bit for each name. */
static uint16_t all(names of)
{
    unsigned mask = 0;

    for (int k = 0; k < 8 && of[k] != NULL; k++)
        mask |= 1u << k;
    return (uint16_t)mask;
}

static void print_flags(const char *object, uint16_t vector, names of)
{
    printf("%s:", object);
    for (int k = 0; k < 8 && of[k] != NULL; k++)
        if (vector >> k & 1)
            printf(" %s", of[k]);
    printf("\n");
}

/* Two objects in a scene, F then G; gives the length. */
static size_t scene_of(const struct object *f, const struct object *g, uint8_t *scene)
{
    memcpy(scene, f->bytes, f->length);
    memcpy(scene + f->length, g->bytes, g->length);
    return f->length + g->length;
}

static int ask(const struct object *f, const struct object *g)
{
    static const char *const types[] = {"", "points", "line", "region"};
    static const char *const parts[] = {"interior", "boundary", "exterior"};
    names *of_f = &of_types[f->type][g->type];
    names *of_g = f->type == g->type ? &of_second[g->type] : &of_types[g->type][f->type];
    uint8_t scene[512];
    size_t length = scene_of(f, g, scene);

    karvoiss_vectors_t v = karvoiss_vectors(scene, length, all(*of_f), all(*of_g));
    if (v.number != 0) {
        printf("refused: number %u at byte %zu\n", (unsigned)v.number, v.place);
        return 1;
    }
    print_flags(types[f->type], v.f, *of_f);
    print_flags(types[g->type], v.g, *of_g);

    karvoiss_cells_t c = karvoiss_cells(scene, length);
    for (int r = 0; r < 3; r++)
        printf("%s %c %c %c\n", parts[r], c.cell[r][0], c.cell[r][1], c.cell[r][2]);
    return 0;
}

int main(void)
{
    struct object line = begin(LINE), square = begin(REGION);
    uint8_t scene[512];

    line_half(&line, 2, 2, 4, 2, 1);
    line_half(&line, 2, 2, 4, 2, 0);
    end(&line);
    region_half(&square, 0, 0, 4, 0, 1, 1);
    region_half(&square, 0, 0, 0, 4, 1, 0);
    region_half(&square, 0, 0, 0, 4, 0, 0);
    region_half(&square, 0, 4, 4, 4, 1, 0);
    region_half(&square, 0, 0, 4, 0, 0, 1);
    region_half(&square, 4, 0, 4, 2, 1, 1);
    region_half(&square, 4, 0, 4, 2, 0, 1);
    region_half(&square, 4, 2, 4, 4, 1, 1);
    region_half(&square, 0, 4, 4, 4, 0, 0);
    region_half(&square, 4, 2, 4, 4, 0, 1);
    end(&square);

    /* either type may come first: vectors and rows are in the scene's order */
    if (ask(&line, &square) != 0 || ask(&square, &line) != 0)
        return 1;

    /* two zero masks want nothing: the scene is checked, and no flag is looked for */
    karvoiss_vectors_t v = karvoiss_vectors(scene, scene_of(&line, &square, scene), 0, 0);
    printf("nothing wanted: number %u, vectors %u and %u\n", (unsigned)v.number, (unsigned)v.f, (unsigned)v.g);

    v = karvoiss_vectors(NULL, 0, 0, 0);
    printf("no bytes: number %u at byte %zu\n", (unsigned)v.number, v.place);
    return 0;
}
