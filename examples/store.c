/* A small store of shapes. It keeps each shape as a named object in a file, with
 * its summary, asks Karvoiss how every two of them lie to each other, and prints a
 * register of the answers, one pair to a line. It asks the two summaries first, and
 * loads the outlines only where these say "look"; at the end it says how often that
 * was. Then it asks the other way round, and checks that both answers say the same.
 * Last it prints the ground that two regions share, and what each has alone.
 *
 *     store          fills a store in a temporary file
 *     store FILE     fills and keeps it in FILE
 *
 * To build it, with Karvoiss installed:
 *
 *     cc store.c $(pkg-config --cflags --libs karvoiss) -o store
 */
#include <karvoiss.h>

#include <stdio.h>
#include <stdlib.h>
#include <string.h>

/* An object's bytes: a type record, up to 1,024 elements of at most 19 bytes,
 * and an end record. A scene is two objects, one after the other. */
enum { POINTS = 1, LINE = 2, REGION = 3 };
enum { NAME = 12, SUMMARY = 20, OBJECT_BYTES = 2 + 1024 * 19 + 1, OBJECTS = 16 };

struct object {
    char name[NAME];
    size_t length;
    uint8_t bytes[OBJECT_BYTES];
};

/* ---- Making objects ------------------------------------------------------ */

/* The left end comes first: less x, or the same x and less y. In a region,
 * ia is 1 if the interior is above the segment (left of it, if vertical). */
struct segment {
    int32_t x, y, right_x, right_y;
    uint8_t ia;
};

/* Each segment is stored twice: d = 1 at its left end, d = 0 at its right. */
struct half {
    struct segment s;
    uint8_t d;
};

static void put_byte(struct object *o, uint8_t b)
{
    o->bytes[o->length++] = b;
}

/* 32 bits, low byte first */
static void put_number(struct object *o, int32_t v)
{
    for (int i = 0; i < 4; i++)
        put_byte(o, (uint8_t)((uint32_t)v >> (8 * i)));
}

static void put_half(struct object *o, uint8_t type, const struct half *h)
{
    put_byte(o, type == REGION ? 82 : 76);
    put_number(o, h->s.x);
    put_number(o, h->s.y);
    put_number(o, h->s.right_x);
    put_number(o, h->s.right_y);
    put_byte(o, h->d);
    if (type == REGION)
        put_byte(o, h->s.ia);
}

static void begin(struct object *o, const char *name, uint8_t type)
{
    memset(o, 0, sizeof *o);
    strncpy(o->name, name, NAME - 1);
    put_byte(o, 84);
    put_byte(o, type);
}

static void end(struct object *o)
{
    put_byte(o, 69);
}

/* Points must come in order: by x, then by y. */
static void make_points(struct object *o, const char *name, const int32_t (*xy)[2], int count)
{
    begin(o, name, POINTS);
    for (int i = 0; i < count; i++) {
        put_byte(o, 80);
        put_number(o, xy[i][0]);
        put_number(o, xy[i][1]);
    }
    end(o);
}

static int sign(int64_t v)
{
    return (v > 0) - (v < 0);
}

/* The order of halfsegments: by dominating point; there, d = 0 before d = 1;
 * then h before k if k's far end is to the left of the ray through h's. */
static int by_order(const void *a, const void *b)
{
    const struct half *h = a, *k = b;
    int64_t hx = h->d ? h->s.x : h->s.right_x, hy = h->d ? h->s.y : h->s.right_y;
    int64_t kx = k->d ? k->s.x : k->s.right_x, ky = k->d ? k->s.y : k->s.right_y;

    if (hx != kx)
        return sign(hx - kx);
    if (hy != ky)
        return sign(hy - ky);
    if (h->d != k->d)
        return h->d - k->d;

    int64_t far_hx = (h->d ? h->s.right_x : h->s.x) - hx, far_hy = (h->d ? h->s.right_y : h->s.y) - hy;
    int64_t far_kx = (k->d ? k->s.right_x : k->s.x) - hx, far_ky = (k->d ? k->s.right_y : k->s.y) - hy;

    return -sign(far_hx * far_ky - far_hy * far_kx);
}

static void make_shape(struct object *o, const char *name, uint8_t type, const struct segment *segments, int count)
{
    static struct half halves[1024];

    for (int i = 0; i < count; i++) {
        halves[2 * i] = (struct half){segments[i], 1};
        halves[2 * i + 1] = (struct half){segments[i], 0};
    }
    qsort(halves, 2 * (size_t)count, sizeof *halves, by_order);
    begin(o, name, type);
    for (int i = 0; i < 2 * count; i++)
        put_half(o, type, &halves[i]);
    end(o);
}

/* ---- The file: for each object its name, summary, length and bytes ------- */

/* What is known of an object without its outline: all but its bytes, which begin at
 * `start` in the file. */
struct entry {
    char name[NAME];
    uint8_t summary[SUMMARY];
    size_t length;
    long start;
};

/* Whether the bytes are an object at all is not tested here: the calls do that. One
 * that is refused has 20 zeros, which are no summary. */
static bool save(FILE *file, const struct object *o)
{
    karvoiss_summary_t s = karvoiss_summary(o->bytes, o->length);

    return fwrite(o->name, NAME, 1, file) == 1 && fwrite(s.record, SUMMARY, 1, file) == 1
        && fwrite(&o->length, sizeof o->length, 1, file) == 1 && fwrite(o->bytes, 1, o->length, file) == o->length;
}

/* The next entry; the bytes are passed over. */
static bool next_entry(FILE *file, struct entry *e)
{
    bool good = fread(e->name, NAME, 1, file) == 1 && fread(e->summary, SUMMARY, 1, file) == 1
        && fread(&e->length, sizeof e->length, 1, file) == 1 && e->length <= OBJECT_BYTES;

    e->name[NAME - 1] = '\0';
    e->start = ftell(file);
    return good && fseek(file, (long)e->length, SEEK_CUR) == 0;
}

static bool load(FILE *file, const struct entry *e, struct object *o)
{
    memcpy(o->name, e->name, NAME);
    o->length = e->length;
    return fseek(file, e->start, SEEK_SET) == 0 && fread(o->bytes, 1, o->length, file) == o->length;
}

static void load_both(FILE *file, const struct entry *f, const struct entry *g, struct object *first, struct object *second)
{
    if (!load(file, f, first) || !load(file, g, second)) {
        perror("store");
        exit(1);
    }
}

static bool fill(FILE *file)
{
    static const int32_t wells[][2] = {{2, 2}, {4, 2}, {9, 9}};
    static const int32_t far_away[][2] = {{10000001, 0}};
    static const struct segment road[] = {{2, 2, 4, 2, 0}, {4, 2, 8, 2, 0}};
    static const struct segment ditch[] = {{6, 0, 6, 5, 0}};
    static const struct segment field[] = {{0, 0, 4, 0, 1}, {0, 0, 0, 4, 0}, {0, 4, 4, 4, 0}, {4, 0, 4, 2, 1}, {4, 2, 4, 4, 1}};
    static const struct segment yard[] = {{4, 0, 8, 0, 1}, {4, 0, 4, 2, 0}, {4, 2, 8, 2, 0}, {8, 0, 8, 2, 1}};
    static const struct segment plot[] = {{3, 6, 4, 4, 1}, {4, 4, 5, 6, 1}, {3, 6, 5, 6, 0}};
    static const struct segment isle[] = {{70, 70, 90, 70, 1}, {70, 70, 80, 95, 0}, {80, 95, 90, 70, 0}};
    static const struct segment ring[] = {{60, 0, 64, 0, 0}, {60, 0, 62, 3, 0}, {62, 3, 64, 0, 0}};
    static struct object o;
    bool good = true;

    make_shape(&o, "field", REGION, field, 5);
    good &= save(file, &o);
    make_shape(&o, "road", LINE, road, 2);
    good &= save(file, &o);
    make_points(&o, "wells", wells, 3);
    good &= save(file, &o);
    make_shape(&o, "ditch", LINE, ditch, 1);
    good &= save(file, &o);
    make_shape(&o, "yard", REGION, yard, 4);
    good &= save(file, &o);
    make_shape(&o, "plot", REGION, plot, 3);
    good &= save(file, &o);
    make_shape(&o, "isle", REGION, isle, 3);
    good &= save(file, &o);
    make_shape(&o, "ring", LINE, ring, 3);
    good &= save(file, &o);
    make_points(&o, "none", wells, 0);
    good &= save(file, &o);
    make_points(&o, "lost", far_away, 1);
    good &= save(file, &o);
    return good;
}

/* ---- The register -------------------------------------------------------- */

/* The type is the second byte; 0 for what has none of the three. */
static uint8_t type_of(const struct object *o)
{
    return o->length > 1 && o->bytes[1] <= REGION ? o->bytes[1] : 0;
}

/* Nothing need be tested before a call: whatever the bytes are, the answer says
 * so. The place is an offset in the scene, and tells which object is at fault. */
static void print_refusal(const struct entry *f, const struct entry *g, uint32_t number, size_t place)
{
    bool in_f = place < f->length;

    printf("%-6s %-6s refused: number %u, %s at byte %zu\n", f->name, g->name, (unsigned)number,
           in_f ? f->name : g->name, in_f ? place : place - f->length);
}

/* A number for F and one for G: masks or vectors. */
struct both {
    uint16_t f, g;
};

/* All flags of a pair of types. Two zero masks would want nothing, and a bit that
 * has no flag is refused, so each pair has masks of its own. */
static struct both all_flags(const struct object *f, const struct object *g)
{
    static const struct both of_types[4][4] = {
        [POINTS] = {[POINTS] = {3, 1}, [LINE] = {7, 1}, [REGION] = {7, 0}},
        [LINE] = {[POINTS] = {1, 7}, [LINE] = {63, 7}, [REGION] = {127, 1}},
        [REGION] = {[POINTS] = {0, 7}, [LINE] = {1, 127}, [REGION] = {255, 15}},
    };

    return of_types[type_of(f)][type_of(g)];
}

/* "Do they touch?" as OGC has it: one of three patterns holds, with T for any way to
 * touch, or with 1 for a stretch in common. Each call checks the scene and then looks
 * only for what its pattern needs. */
static bool touches(const uint8_t *scene, size_t length, uint8_t how)
{
    static const int places[] = {1, 3, 4};
    bool any = false;

    for (int i = 0; i < 3; i++) {
        uint8_t pattern[9] = {'F', '*', '*', '*', '*', '*', '*', '*', '*'};

        pattern[places[i]] = how;
        any = any || karvoiss_relate(scene, length, pattern, 9).holds;
    }
    return any;
}

struct answer {
    karvoiss_vectors_t v;
    karvoiss_cells_t m;
    bool touches, share_stretch, looked;
};

/* A cell that is 'F' is empty. */
static const char *in_a_word(const struct answer *a)
{
    if (a->m.cell[0][0] != 'F')
        return "the interiors meet";
    return a->share_stretch ? "they share a stretch" : a->touches ? "they share points" : "apart";
}

/* What of an object lies in the exterior of another that is far from it: all of it.
 * So the cells follow from the summaries' type, emptiness and boundary alone. */
static void signs_apart(const uint8_t *summary, uint8_t *interior, uint8_t *boundary)
{
    static const char dimensions[4] = {[POINTS] = '0', [LINE] = '1', [REGION] = '2'};
    uint8_t type = summary[1], empty = summary[2], has_boundary = summary[19];

    *interior = empty ? 'F' : (uint8_t)dimensions[type];
    *boundary = has_boundary ? (uint8_t)dimensions[type - 1] : 'F';
}

static karvoiss_cells_t cells_apart(const struct entry *f, const struct entry *g)
{
    karvoiss_cells_t m = {.cell = {{'F', 'F', 'F'}, {'F', 'F', 'F'}, {'F', 'F', '2'}}};

    signs_apart(f->summary, &m.cell[0][2], &m.cell[1][2]);
    signs_apart(g->summary, &m.cell[2][0], &m.cell[2][1]);
    return m;
}

/* Two objects as one scene, and its length. */
static size_t make_scene(const struct object *f, const struct object *g, uint8_t *scene)
{
    memcpy(scene, f->bytes, f->length);
    memcpy(scene + f->length, g->bytes, g->length);
    return f->length + g->length;
}

/* The full answer, from the outlines. Either type may come first: the answer is in
 * the order of the two objects. */
static struct answer ask_outlines(const struct object *f, const struct object *g)
{
    static uint8_t scene[2 * OBJECT_BYTES];
    size_t length = make_scene(f, g, scene);
    struct both all = all_flags(f, g);

    return (struct answer){karvoiss_vectors(scene, length, all.f, all.g), karvoiss_cells(scene, length),
                           touches(scene, length, 'T'), touches(scene, length, '1'), true};
}

/* The summaries are asked first. What they tell is the full answer; where they say
 * "look", and where one is bad, since its object was refused, the outlines are
 * loaded. */
static struct answer ask(FILE *file, const struct entry *f, const struct entry *g)
{
    static struct object first, second;
    karvoiss_far_t far = karvoiss_far(f->summary, SUMMARY, g->summary, SUMMARY);

    if (far.number == 0 && !far.look)
        return (struct answer){.v = {.f = far.f, .g = far.g}, .m = cells_apart(f, g)};
    load_both(file, f, g, &first, &second);
    return ask_outlines(&first, &second);
}

static void print_pair(const struct entry *f, const struct entry *g, const struct answer *a)
{
    if (a->v.number != 0) {
        print_refusal(f, g, a->v.number, a->v.place);
        return;
    }
    printf("%-6s %-6s %3u %3u  ", f->name, g->name, (unsigned)a->v.f, (unsigned)a->v.g);
    for (int row = 0; row < 3; row++)
        for (int column = 0; column < 3; column++)
            putchar(a->m.cell[row][column]);
    printf("  %s\n", in_a_word(a));
}

/* ---- Both ways round ----------------------------------------------------- */

/* The vectors of the pair the other way round. Of unequal types they change
 * places. Objects of one type share some flags, which change places too, while
 * the others say something of both: bit `shared[k]` of F's vector and bit k of
 * G's are the same flag. */
static struct both vectors_turned(uint8_t type_f, uint8_t type_g, struct both v)
{
    static const int shared[4][4] = {[POINTS] = {0}, [LINE] = {2, 3, 5}, [REGION] = {0, 1, 2, 3}};
    static const int count[4] = {[POINTS] = 1, [LINE] = 3, [REGION] = 4};
    struct both turned = {v.f, 0};

    if (type_f != type_g)
        return (struct both){v.g, v.f};
    for (int k = 0; k < count[type_f]; k++) {
        int bit = shared[type_f][k];

        turned.f = (uint16_t)((turned.f & ~(1u << bit)) | (v.g >> k & 1u) << bit);
        turned.g = (uint16_t)(turned.g | (v.f >> bit & 1u) << k);
    }
    return turned;
}

/* The same number both ways; the cells turned about the diagonal, the vectors
 * exchanged. A place is an offset in the scene as it was asked about, so places
 * may differ. */
static bool agree(const struct entry *f, const struct entry *g, const struct answer *one, const struct answer *other)
{
    struct both turned = vectors_turned(f->summary[1], g->summary[1], (struct both){one->v.f, one->v.g});
    bool same = one->v.number == other->v.number && one->m.number == other->m.number;

    same = same && turned.f == other->v.f && turned.g == other->v.g;
    same = same && one->touches == other->touches;
    for (int row = 0; row < 3; row++)
        for (int column = 0; column < 3; column++)
            same = same && one->m.cell[row][column] == other->m.cell[column][row];
    return same;
}

/* ---- Shared and separate ground ------------------------------------------ */

/* Of two regions that their summaries do not tell apart: those that these do share no
 * ground. The areas come doubled, so that they are whole numbers. */
static void print_ground(FILE *file, const struct entry *f, const struct entry *g)
{
    static struct object first, second;
    static uint8_t scene[2 * OBJECT_BYTES];
    bool regions = f->summary[1] == REGION && g->summary[1] == REGION;

    if (!regions || !karvoiss_far(f->summary, SUMMARY, g->summary, SUMMARY).look)
        return;
    load_both(file, f, g, &first, &second);

    size_t length = make_scene(&first, &second, scene);
    karvoiss_areas_t a = karvoiss_areas(scene, length);

    if (a.number == 0)
        printf("ground in both %.1f, in %s only %.1f, in %s only %.1f\n", (double)a.both / 2, f->name,
               (double)a.f_only / 2, g->name, (double)a.g_only / 2);
}

int main(int argc, char **argv)
{
    static struct entry entries[OBJECTS];
    int count = 0, pairs = 0, looked = 0, agreed = 0;
    FILE *file = argc > 1 ? fopen(argv[1], "wb+") : tmpfile();

    if (file == NULL || !fill(file)) {
        perror("store");
        return 1;
    }
    rewind(file);
    while (count < OBJECTS && next_entry(file, &entries[count]))
        count++;

    printf("F      G        f   g  cells\n");
    for (int i = 0; i < count; i++)
        for (int k = i + 1; k < count; k++) {
            const struct entry *f = &entries[i], *g = &entries[k];
            struct answer one = ask(file, f, g), other = ask(file, g, f);

            print_pair(f, g, &one);
            pairs++;
            looked += one.looked;
            agreed += agree(f, g, &one, &other);
        }
    printf("outlines were loaded for %d pairs of %d\n", looked, pairs);
    printf("the other way round, the same is said of %d pairs of %d\n", agreed, pairs);
    for (int i = 0; i < count; i++)
        for (int k = i + 1; k < count; k++)
            print_ground(file, &entries[i], &entries[k]);
    fclose(file);
    return agreed == pairs ? 0 : 1;
}
