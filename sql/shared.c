/* shared.c: see shared.h. */
#include "shared.h"

#include <stdio.h>
#include <stdlib.h>
#include <string.h>

enum { POINTS = 1, LINE = 2, REGION = 3 };
enum { TYPE_RECORD = 84, END_RECORD = 69, MOST_ELEMENTS = 1024 };

/* ---- Refusals ------------------------------------------------------------ */

/* What a refusal's place counts; nothing for the numbers whose place is always 0. */
enum place { BYTES, CHARACTERS, SUMMARIES, NOTHING };

struct words {
    const char *says;
    const char *hint;
    enum place place;
};

#define MADE_BY "Objects are made by karvoiss_object of well-known binary, and scenes by karvoiss_scene of two objects."
#define SMALLER "Cut the shape into several smaller ones."

static const struct words words[] = {
    [1] = {"the bytes end before a record or inside it", MADE_BY, BYTES},
    [2] = {"a record of a kind that is not allowed here", MADE_BY, BYTES},
    [3] = {"a type is not 1 to 3, or d or ia is not 0 or 1", MADE_BY, BYTES},
    [4] = {"a coordinate is not in -10000000 to 10000000", "Move or scale the shapes into this range.", BYTES},
    [5] = {"a left end is not before its right end", MADE_BY, BYTES},
    [6] = {"an object has more than 1024 elements", SMALLER, BYTES},
    [7] = {"bytes after the end of the last object", "An object is asked for as one, and a scene as two.", BYTES},
    [9] = {"a wanted bit has no flag", "The masks name flags of the pair of types; without masks all are wanted.", NOTHING},
    [10] = {"an element is not strictly after the one before",
            "In well-known binary, two segments of one line have a common left end or a common right end: "
            "split the line's own segments where they meet.",
            BYTES},
    [11] = {"a halfsegment has no partner of opposite d, equal ends and ia", MADE_BY, BYTES},
    [12] = {"two segments of one object share a point that is not an end of both",
            "Split the object's own segments where they meet.", BYTES},
    [13] = {"an end of a region belongs to an odd number of its segments",
            "Close every outline, and merge polygons that have a side in common.", BYTES},
    [14] = {"a wrong ia", MADE_BY, BYTES},
    [15] = {"segments of the two objects share a point that is not an end of both",
            "karvoiss_split splits the segments of the two objects where they meet.", BYTES},
    [16] = {"an object is not a region", "Areas are those of two regions.", BYTES},
    [17] = {"the buffer is shorter than the count", "Lend a longer buffer.", NOTHING},
    [18] = {"a bad summary", "Summaries are made by karvoiss_summary of an object.", SUMMARIES},
    [19] = {"segments of the two objects cross at a point that is not on the grid",
            "Move the crossing onto the grid: give both shapes a common vertex there.", BYTES},
    [20] = {"an object would have more than 1024 points or 512 segments", SMALLER, BYTES},
    [21] = {"the buffer is shorter than what is written", "Lend a longer buffer.", NOTHING},
    [22] = {"the pattern has not nine characters", "A pattern has one for each cell, row by row.", NOTHING},
    [23] = {"a character of the pattern is none of T, F, *, 0, 1, 2", "T and F are capital letters.", CHARACTERS},
    [24] = {"a field of well-known binary is cut, has no allowed value or is left over",
            "Read are MultiPoint, MultiLineString and MultiPolygon without Z, M and SRID, as PostGIS's "
            "ST_AsBinary(ST_Multi(ST_Force2D(g))) gives them.",
            BYTES},
    [25] = {"a coordinate is not a whole number in -10000000 to 10000000",
            "Scale the shapes, and round them to whole numbers.", BYTES},
    [26] = {"a ring's last point is not its first", "Repeat the first point of each ring as its last.", BYTES},
    [27] = {"not a window", "A window has finite numbers, least before greatest.", NOTHING},
    [28] = {"more than 64 summaries", "Ask for at most 64 at a time.", NOTHING},
};

static const struct words *words_of(uint32_t number)
{
    const bool known = number < sizeof words / sizeof *words && words[number].says != NULL;

    return known ? &words[number] : NULL;
}

const char *sql_words(uint32_t number)
{
    const struct words *found = words_of(number);

    return found != NULL ? found->says : NULL;
}

const char *sql_hint(uint32_t number)
{
    const struct words *found = words_of(number);

    return found != NULL ? found->hint : NULL;
}

/* The shortest decimal number that is read as `value`. */
static void in_decimal(double value, char text[32])
{
    int digits = 15;

    do
        snprintf(text, 32, "%.*g", digits, value);
    while (strtod(text, NULL) != value && digits++ < 17);
    if (value != value)
        strcpy(text, "NaN");
}

void sql_says(sql_refusal_t refusal, char text[SQL_TEXT_ROOM])
{
    const char *says = sql_words(refusal.number);
    char value[32];

    in_decimal(refusal.value, value);
    if (refusal.number == 25)
        snprintf(text, SQL_TEXT_ROOM, "%s: %s", says, value);
    else
        snprintf(text, SQL_TEXT_ROOM, "%s", says != NULL ? says : "unknown");
}

void sql_where(sql_refusal_t refusal, char text[SQL_TEXT_ROOM])
{
    const struct words *found = words_of(refusal.number);
    const unsigned number = (unsigned)refusal.number;

    switch (found != NULL && refusal.of != NULL ? found->place : NOTHING) {
    case BYTES:
        snprintf(text, SQL_TEXT_ROOM, "refusal %u at byte %zu of the %s", number, refusal.place, refusal.of);
        break;
    case CHARACTERS:
        snprintf(text, SQL_TEXT_ROOM, "refusal %u at character %zu of the pattern", number, refusal.place);
        break;
    case SUMMARIES:
        snprintf(text, SQL_TEXT_ROOM, "refusal %u of summary %zu", number, refusal.place);
        break;
    default:
        snprintf(text, SQL_TEXT_ROOM, "refusal %u", number);
    }
}

static sql_refusal_t refusal_in(const char *of, uint32_t number, size_t place)
{
    return (sql_refusal_t){.number = number, .place = place, .of = of};
}

static sql_refusal_t refusal_in_scene(uint32_t number, size_t place)
{
    return refusal_in("scene", number, place);
}

/* ---- Objects and scenes -------------------------------------------------- */

/* The length of an element of a type; 0 for what is no type. */
static size_t element_length(uint8_t type)
{
    static const size_t of_type[] = {[POINTS] = 9, [LINE] = 18, [REGION] = 19};

    return type <= REGION ? of_type[type] : 0;
}

/* Where the object ends that the bytes begin with, by its type and the places of its elements; 0 if it
 * has no type or does not end. */
static size_t end_of_object(const uint8_t *bytes, size_t length)
{
    size_t size = length >= 2 && bytes[0] == TYPE_RECORD ? element_length(bytes[1]) : 0, at = 2;

    for (int count = 0; count < MOST_ELEMENTS && size > 0 && at < length && bytes[at] != END_RECORD; count++)
        at += size;
    return size > 0 && at < length && bytes[at] == END_RECORD ? at + 1 : 0;
}

static sql_refusal_t one_object(const uint8_t *object, size_t length, size_t before)
{
    if (length > 0 && end_of_object(object, length) == length)
        return refusal_in_scene(0, 0);

    karvoiss_summary_t summary = karvoiss_summary(object, length);

    return refusal_in_scene(summary.number, before + summary.place);
}

sql_refusal_t sql_two_objects(const uint8_t *first, size_t first_length, const uint8_t *second,
                              size_t second_length)
{
    sql_refusal_t refusal = one_object(first, first_length, 0);

    return refusal.number != 0 ? refusal : one_object(second, second_length, first_length);
}

sql_refusal_t sql_object(const uint8_t *wkb, size_t length, uint8_t *object, size_t *written)
{
    karvoiss_read_wkb_t answer = karvoiss_read_wkb(wkb, length, object, SQL_OBJECT_ROOM);
    const bool has_place = answer.number >= 24 && answer.number <= 26;

    *written = answer.length;
    return (sql_refusal_t){answer.number, answer.place, has_place ? "well-known binary" : NULL, answer.value};
}

sql_refusal_t sql_summary(const uint8_t *object, size_t length, uint8_t summary[SQL_SUMMARY_LENGTH])
{
    karvoiss_summary_t answer = karvoiss_summary(object, length);

    memcpy(summary, answer.record, SQL_SUMMARY_LENGTH);
    return refusal_in("object", answer.number, answer.place);
}

sql_refusal_t sql_split(const uint8_t *scene, size_t length, uint8_t *split, size_t *written)
{
    karvoiss_split_t answer = karvoiss_split(scene, length, split, SQL_SCENE_ROOM);

    *written = answer.length;
    return refusal_in_scene(answer.number, answer.place);
}

/* ---- Questions about a scene --------------------------------------------- */

sql_refusal_t sql_cells(const uint8_t *scene, size_t length, char cells[9])
{
    karvoiss_cells_t answer = karvoiss_cells(scene, length);

    memcpy(cells, answer.cell, 9);
    return refusal_in_scene(answer.number, answer.place);
}

uint32_t sql_bits(const char cells[9])
{
    uint32_t bits = 0;

    for (int k = 0; k < 9; k++)
        bits |= (uint32_t)(cells[k] != 'F') << k;
    return bits;
}

sql_refusal_t sql_relate(const uint8_t *scene, size_t length, const char *pattern,
                         size_t pattern_length, bool *holds)
{
    karvoiss_relate_t answer = karvoiss_relate(scene, length, (const uint8_t *)pattern, pattern_length);

    *holds = answer.holds;
    return refusal_in_scene(answer.number, answer.place);
}

/* The types of F and G; zeros where the bytes do not say them. */
struct types {
    uint8_t f, g;
};

static struct types types_of(const uint8_t *scene, size_t length)
{
    size_t second = end_of_object(scene, length);

    if (second == 0 || length - second < 2 || element_length(scene[second + 1]) == 0)
        return (struct types){0, 0};
    return (struct types){scene[1], scene[second + 1]};
}

static int64_t both_vectors(uint16_t f, uint16_t g)
{
    return (int64_t)f + 65536 * (int64_t)g;
}

static sql_refusal_t ask_vectors(const uint8_t *scene, size_t length, uint16_t want_f, uint16_t want_g,
                                 int64_t *vectors)
{
    karvoiss_vectors_t answer = karvoiss_vectors(scene, length, want_f, want_g);

    *vectors = both_vectors(answer.f, answer.g);
    return refusal_in_scene(answer.number, answer.place);
}

sql_refusal_t sql_vectors(const uint8_t *scene, size_t length, int64_t *vectors)
{
    static const struct {
        uint16_t f, g;
    } all[4][4] = {
        [POINTS] = {[POINTS] = {3, 1}, [LINE] = {7, 1}, [REGION] = {7, 0}},
        [LINE] = {[POINTS] = {1, 7}, [LINE] = {63, 7}, [REGION] = {127, 1}},
        [REGION] = {[POINTS] = {0, 7}, [LINE] = {1, 127}, [REGION] = {255, 15}},
    };
    struct types types = types_of(scene, length);

    return ask_vectors(scene, length, all[types.f][types.g].f, all[types.f][types.g].g, vectors);
}

/* No pair of types has a flag for bit 15, so a mask that has it is refused. */
static uint16_t mask_of(int64_t want)
{
    return want < 0 || want > UINT16_MAX ? UINT16_MAX : (uint16_t)want;
}

sql_refusal_t sql_wanted_vectors(const uint8_t *scene, size_t length, int64_t want_f, int64_t want_g,
                                 int64_t *vectors)
{
    return ask_vectors(scene, length, mask_of(want_f), mask_of(want_g), vectors);
}

sql_refusal_t sql_areas(const uint8_t *scene, size_t length, int64_t areas[3])
{
    karvoiss_areas_t answer = karvoiss_areas(scene, length);

    areas[SQL_BOTH] = answer.both;
    areas[SQL_F_ONLY] = answer.f_only;
    areas[SQL_G_ONLY] = answer.g_only;
    return refusal_in_scene(answer.number, answer.place);
}

/* ---- The named predicates ------------------------------------------------ */

const char *const sql_predicate_names[SQL_PREDICATES] = {
    "equals", "disjoint", "intersects", "touches", "within", "contains", "coveredby", "covers", "crosses", "overlaps",
};

/* A pair of types as a bit, and the pairs that a pattern is of. */
#define PAIR(f, g) (1u << (4 * (f) + (g)))
#define ANY 0xFFFFu
#define LOWER_FIRST (PAIR(POINTS, LINE) | PAIR(POINTS, REGION) | PAIR(LINE, REGION))
#define HIGHER_FIRST (PAIR(LINE, POINTS) | PAIR(REGION, POINTS) | PAIR(REGION, LINE))

struct pattern {
    unsigned pairs;
    const char *cells;
};

/* The table of karvoiss.h; a predicate holds if one of its patterns for the pair of types does. */
static const struct pattern patterns[SQL_PREDICATES][4] = {
    [SQL_EQUALS] = {{ANY, "T*F**FFF*"}},
    [SQL_DISJOINT] = {{ANY, "FF*FF****"}},
    [SQL_INTERSECTS] = {{ANY, "T********"}, {ANY, "*T*******"}, {ANY, "***T*****"}, {ANY, "****T****"}},
    [SQL_TOUCHES] = {{ANY & ~PAIR(POINTS, POINTS), "FT*******"},
                     {ANY & ~PAIR(POINTS, POINTS), "F**T*****"},
                     {ANY & ~PAIR(POINTS, POINTS), "F***T****"}},
    [SQL_WITHIN] = {{ANY, "T*F**F***"}},
    [SQL_CONTAINS] = {{ANY, "T*****FF*"}},
    [SQL_COVERED_BY] = {{ANY, "T*F**F***"}, {ANY, "*TF**F***"}, {ANY, "**FT*F***"}, {ANY, "**F*TF***"}},
    [SQL_COVERS] = {{ANY, "T*****FF*"}, {ANY, "*T****FF*"}, {ANY, "***T**FF*"}, {ANY, "****T*FF*"}},
    [SQL_CROSSES] = {{LOWER_FIRST, "T*T******"}, {HIGHER_FIRST, "T*****T**"}, {PAIR(LINE, LINE), "0********"}},
    [SQL_OVERLAPS] = {{PAIR(POINTS, POINTS) | PAIR(REGION, REGION), "T*T***T**"}, {PAIR(LINE, LINE), "1*T***T**"}},
};

/* Whether nine cells fit a pattern, as karvoiss_relate has it. */
static bool fits(const char cells[9], const char *pattern)
{
    bool all = true;

    for (int k = 0; k < 9; k++)
        all = all && (pattern[k] == '*' || pattern[k] == cells[k] || (pattern[k] == 'T' && cells[k] != 'F'));
    return all;
}

sql_refusal_t sql_holds(sql_predicate_t predicate, const uint8_t *scene, size_t length, bool *holds)
{
    char cells[9];
    sql_refusal_t refusal = sql_cells(scene, length, cells);
    struct types types = refusal.number == 0 ? types_of(scene, length) : (struct types){0, 0};

    *holds = false;
    for (int k = 0; k < 4 && refusal.number == 0 && !*holds; k++) {
        const struct pattern *pattern = &patterns[predicate][k];

        *holds = (pattern->pairs & PAIR(types.f, types.g)) != 0 && fits(cells, pattern->cells);
    }
    return refusal;
}

/* ---- Questions about summaries ------------------------------------------- */

/* Signed 32 bits, low byte first. */
static int32_t coordinate_at(const uint8_t *bytes)
{
    uint32_t value = (uint32_t)bytes[0] | (uint32_t)bytes[1] << 8 | (uint32_t)bytes[2] << 16 | (uint32_t)bytes[3] << 24;
    int32_t coordinate;

    memcpy(&coordinate, &value, sizeof coordinate);
    return coordinate;
}

sql_refusal_t sql_box(const uint8_t *summary, size_t length, bool *has_one, int32_t box[4])
{
    karvoiss_far_t answer = karvoiss_far(summary, length, summary, length);

    *has_one = false;
    if (answer.number != 0)
        return refusal_in("summary", answer.number, answer.place);
    *has_one = summary[2] == 0;
    for (int k = 0; k < 4; k++)
        box[k] = coordinate_at(summary + 3 + 4 * k);
    return refusal_in("summary", 0, 0);
}

/* What of a far object lies in the other's exterior: all of it. So its type, whether it is empty and
 * whether its boundary has a point give the two cells. */
static void cells_apart(const uint8_t *summary, char *interior, char *boundary)
{
    static const char dimensions[] = {[POINTS] = '0', [LINE] = '1', [REGION] = '2'};
    uint8_t type = summary[1], empty = summary[2], has_boundary = summary[19];

    *interior = empty ? 'F' : dimensions[type];
    *boundary = has_boundary ? dimensions[type - 1] : 'F';
}

sql_refusal_t sql_far(const uint8_t *first, size_t first_length, const uint8_t *second,
                      size_t second_length, sql_far_t *far)
{
    karvoiss_far_t answer = karvoiss_far(first, first_length, second, second_length);

    far->look = answer.look;
    far->vectors = both_vectors(answer.f, answer.g);
    memcpy(far->cells, "FFFFFFFF2", 9);
    if (answer.number == 0) {
        cells_apart(first, &far->cells[2], &far->cells[5]);
        cells_apart(second, &far->cells[6], &far->cells[7]);
    }
    return refusal_in("summary", answer.number, answer.place);
}
