/* What the functions of the extension for PostgreSQL must answer, by the calls in C: reads lines of a sort and bytes in hexadecimal (`listed` of tests/reference), and writes each as a row for COPY: its
   number, where its second object begins, the bytes, and the answer to each question in the order of tests/postgres.sql. An answer is a value as the server prints it, "null", or a refusal as its
   SQLSTATE and its DETAIL. Nothing of sql/ is used: places, masks, patterns and boxes are made here once more. */
#define _POSIX_C_SOURCE 200809L
#include "scenes.h"

#include <inttypes.h>

enum { BYTES = 1 << 20 };

/* ---- Writing ------------------------------------------------------------- */

static bool first_answer;

static void begin_answer(void)
{
    printf("%s\"", first_answer ? "" : ",");
    first_answer = false;
}

static void say(const char *text)
{
    begin_answer();
    printf("%s\"", text);
}

static void say_number(int64_t value)
{
    begin_answer();
    printf("%" PRId64 "\"", value);
}

static void say_hexadecimal(const uint8_t *bytes, size_t length)
{
    begin_answer();
    printf("\\\\\\\\x"); /* once for COPY, and once for the array */
    for (size_t i = 0; i < length; i++)
        printf("%02x", bytes[i]);
    putchar('"');
}

/* Whether it was refused; then that is the answer. */
static bool refused(uint32_t number, size_t place, const char *of)
{
    if (number == 0)
        return false;
    begin_answer();
    printf("22K%02u Refusal %u", (unsigned)number, (unsigned)number);
    if (number == 18)
        printf(" of summary %zu", place);
    else if (number == 23)
        printf(" at character %zu of the pattern", place);
    else if (of != NULL && number != 9 && number != 21 && number != 22)
        printf(" at byte %zu of the %s", place, of);
    printf(".\"");
    return true;
}

static void say_whether(bool holds)
{
    say(holds ? "true" : "false");
}

/* ---- Questions about a scene --------------------------------------------- */

static const char *const patterns[] = {"T********", "FF*FF****", "T*F**FFF*", "****1****", "0********", "*********", "TTTTTTTTT", "T*T***T*", "T*F*t****", "", "T*F**F****"};

static void ask_cells(const uint8_t *scene, size_t length, uint64_t id)
{
    const karvoiss_cells_t cells = karvoiss_cells(scene, length);
    const char *pattern = patterns[id % (sizeof patterns / sizeof *patterns)];
    const karvoiss_relate_t relate = karvoiss_relate(scene, length, (const uint8_t *)pattern, strlen(pattern));
    char text[10] = {0};
    int bits = 0;

    for (int k = 0; k < 9; k++) {
        text[k] = (char)cells.cell[k / 3][k % 3];
        bits += text[k] != 'F' ? 1 << k : 0;
    }
    if (!refused(cells.number, cells.place, "scene"))
        say(text);
    if (!refused(cells.number, cells.place, "scene"))
        say_number(bits);
    if (!refused(relate.number, relate.place, "scene"))
        say_whether(relate.holds);
}

/* Which pairs of types a pattern is of: all, all but points and points, the lower type first, the higher type first, lines, and points or regions alone. */
enum pairs { ANY, NOT_POINTS, LOWER, HIGHER, LINES, ALIKE };

static bool is_of(enum pairs pairs, int f, int g)
{
    const bool alike[] = {
        [ANY] = true, [NOT_POINTS] = f != 1 || g != 1, [LOWER] = f < g, [HIGHER] = f > g, [LINES] = f == 2 && g == 2, [ALIKE] = f == g && f != 2};

    return alike[pairs];
}

static const struct predicate {
    struct {
        enum pairs pairs;
        const char *cells;
    } pattern[4];
} predicates[] = {
    {{{ANY, "T*F**FFF*"}}},
    {{{ANY, "FF*FF****"}}},
    {{{ANY, "T********"}, {ANY, "*T*******"}, {ANY, "***T*****"}, {ANY, "****T****"}}},
    {{{NOT_POINTS, "FT*******"}, {NOT_POINTS, "F**T*****"}, {NOT_POINTS, "F***T****"}}},
    {{{ANY, "T*F**F***"}}},
    {{{ANY, "T*****FF*"}}},
    {{{ANY, "T*F**F***"}, {ANY, "*TF**F***"}, {ANY, "**FT*F***"}, {ANY, "**F*TF***"}}},
    {{{ANY, "T*****FF*"}, {ANY, "*T****FF*"}, {ANY, "***T**FF*"}, {ANY, "****T*FF*"}}},
    {{{LOWER, "T*T******"}, {HIGHER, "T*****T**"}, {LINES, "0********"}}},
    {{{ALIKE, "T*T***T**"}, {LINES, "1*T***T**"}}},
};

static void ask_predicate(const struct predicate *predicate, const uint8_t *scene, size_t length)
{
    const karvoiss_cells_t cells = karvoiss_cells(scene, length);
    bool holds = false;

    if (refused(cells.number, cells.place, "scene"))
        return;
    for (int k = 0; k < 4; k++) {
        const char *pattern = predicate->pattern[k].cells;

        if (pattern != NULL && is_of(predicate->pattern[k].pairs, scene[1], scene[second_object(scene, length) + 1]))
            holds = holds || karvoiss_relate(scene, length, (const uint8_t *)pattern, 9).holds;
    }
    say_whether(holds);
}

static void ask_vectors(const uint8_t *scene, size_t length, struct masks masks)
{
    const karvoiss_vectors_t vectors = karvoiss_vectors(scene, length, masks.f, masks.g);

    if (!refused(vectors.number, vectors.place, "scene"))
        say_number(vectors.f + 65536 * (int64_t)vectors.g);
}

static void ask_areas(const uint8_t *scene, size_t length)
{
    const karvoiss_areas_t areas = karvoiss_areas(scene, length);
    const int64_t values[3] = {areas.both, areas.f_only, areas.g_only};

    for (int k = 0; k < 3; k++)
        if (!refused(areas.number, areas.place, "scene"))
            say_number(values[k]);
}

static void ask_split_of(const uint8_t *scene, size_t length)
{
    static uint8_t split[SCENE];
    const karvoiss_split_t answer = karvoiss_split(scene, length, split, sizeof split);

    if (!refused(answer.number, answer.place, "scene"))
        say_hexadecimal(split, answer.length);
    say_number(answer.number);
    say_number((int64_t)answer.place);
}

/* ---- Questions about an object ------------------------------------------- */

static void ask_object(const uint8_t *wkb, size_t length)
{
    static uint8_t object[OBJECT];
    const karvoiss_read_wkb_t answer = karvoiss_read_wkb(wkb, length, object, sizeof object);

    if (!refused(answer.number, answer.place, answer.number >= 24 ? "well-known binary" : NULL))
        say_hexadecimal(object, answer.length);
    say_number(answer.number);
    say_number((int64_t)answer.place);
}

static void ask_summary(const uint8_t *object, size_t length)
{
    const karvoiss_summary_t answer = karvoiss_summary(object, length);

    if (!refused(answer.number, answer.place, "object"))
        say_hexadecimal(answer.record, sizeof answer.record);
    say_number(answer.number);
    say_number((int64_t)answer.place);
}

/* Whether the bytes are one object by their records: a type record, at most 1,024 elements of its kind, an end record, and no more. */
static bool has_records(const uint8_t *bytes, size_t length)
{
    static const uint8_t kinds[] = {0, 80, 76, 82};
    size_t at = 2;
    int count = 0;

    if (length < 3 || bytes[0] != 84 || bytes[1] < 1 || bytes[1] > 3)
        return false;
    while (at < length && bytes[at] != 69 && count <= 1024) {
        at += record_length(kinds[bytes[1]]);
        count++;
    }
    return count <= 1024 && at + 1 == length && bytes[at] == 69;
}

static void ask_scene(const uint8_t *bytes, size_t at, size_t length)
{
    karvoiss_summary_t first = karvoiss_summary(bytes, at), second = karvoiss_summary(bytes + at, length - at);

    if (!has_records(bytes, at))
        refused(first.number, first.place, "scene");
    else if (!has_records(bytes + at, length - at))
        refused(second.number, at + second.place, "scene");
    else
        say_hexadecimal(bytes, length);
}

/* ---- Questions about summaries ------------------------------------------- */

static int32_t number_at(const uint8_t *bytes)
{
    return (int32_t)((uint32_t)bytes[0] | (uint32_t)bytes[1] << 8 | (uint32_t)bytes[2] << 16 | (uint32_t)bytes[3] << 24);
}

/* The four sides of a summary's box, and the box as the server writes it. */
static void ask_box(const uint8_t *summary, size_t length)
{
    const bool bad = karvoiss_far(summary, length, summary, length).number != 0;
    const bool is_empty = !bad && summary[2] == 1;
    char text[80];

    for (int side = 0; side < 4; side++)
        if (is_empty)
            say("null");
        else if (!refused(bad ? 18 : 0, 0, NULL))
            say_number(number_at(summary + 3 + 4 * side));
    if (is_empty) {
        say("null");
    } else if (!refused(bad ? 18 : 0, 0, NULL)) {
        snprintf(text, sizeof text, "(%d,%d),(%d,%d)", number_at(summary + 11), number_at(summary + 15), number_at(summary + 3), number_at(summary + 7));
        say(text);
    }
}

/* What of a far object lies in the other's exterior, by the header's table. */
static void far_signs(const uint8_t *summary, char *interior, char *boundary)
{
    static const char signs[] = "F012";

    *interior = summary[2] == 1 ? 'F' : signs[summary[1]];
    *boundary = summary[19] == 1 ? signs[summary[1] - 1] : 'F';
}

static void ask_far(const uint8_t *f, size_t f_length, const uint8_t *g, size_t g_length)
{
    const karvoiss_far_t far = karvoiss_far(f, f_length, g, g_length);
    char cells[] = "FFFFFFFF2";

    if (!refused(far.number, far.place, NULL))
        say_whether(!far.look);
    if (refused(far.number, far.place, NULL)) {
        refused(far.number, far.place, NULL);
    } else if (far.look) {
        say("null");
        say("null");
    } else {
        far_signs(f, &cells[2], &cells[5]);
        far_signs(g, &cells[6], &cells[7]);
        say(cells);
        say_number(far.f + 65536 * (int64_t)far.g);
    }
}

/* ---- All of them --------------------------------------------------------- */

static void ask_everything(const uint8_t *bytes, size_t length, size_t at, uint64_t id)
{
    const karvoiss_cells_t cells = karvoiss_cells(bytes, length);
    const karvoiss_summary_t first = karvoiss_summary(bytes, at), second = karvoiss_summary(bytes + at, length - at);

    ask_cells(bytes, length, id);
    say_number(cells.number);
    say_number((int64_t)cells.place);
    for (size_t k = 0; k < sizeof predicates / sizeof *predicates; k++)
        ask_predicate(&predicates[k], bytes, length);
    ask_vectors(bytes, length, all_flags(bytes, length));
    ask_vectors(bytes, length, (struct masks){(uint16_t)(id % 8), (uint16_t)(id / 8 % 3)});
    ask_areas(bytes, length);
    ask_split_of(bytes, length);
    ask_object(bytes, length);
    ask_summary(bytes, at);
    ask_scene(bytes, at, length);
    ask_box(first.record, 20);
    ask_far(first.record, 20, second.record, 20);
}

static unsigned digit(char c)
{
    return (unsigned)(c <= '9' ? c - '0' : c - 'a' + 10);
}

int main(void)
{
    static uint8_t bytes[BYTES];
    char *line = NULL;
    size_t room = 0;
    uint64_t id = 0;

    while (getline(&line, &room, stdin) > 0) {
        const char *hexadecimal = strchr(line, ' ') + 1;
        size_t length = strcspn(hexadecimal, "\n") / 2;

        if (length > sizeof bytes)
            fail("postgres", "too long an input");
        for (size_t i = 0; i < length; i++)
            bytes[i] = (uint8_t)(16 * digit(hexadecimal[2 * i]) + digit(hexadecimal[2 * i + 1]));

        size_t at = second_object(bytes, length);

        printf("%" PRIu64 "\t%zu\t\\\\x%.*s\t{", id, at, (int)(2 * length), hexadecimal);
        first_answer = true;
        ask_everything(bytes, length, at, id);
        printf("}\n");
        id++;
    }
    return 0;
}
