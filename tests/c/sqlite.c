/* What the extension for SQLite answers, beside what the library's calls answer: every function, and its karvoiss_try_ form, about every byte string of the files named. A file
 * holds byte strings, each after its length in 4 bytes, low byte first. Every argument lies right before a page that may not be touched, or right after one.
 *
 *     sqlite EXTENSION THREADS FILE..
 *
 * Each thread has a connection of its own, and a stack of what karvoiss_split needs and 128 KB more; each asks about all byte strings, from another one on. The named predicates
 * are held against karvoiss_relate, with the patterns that karvoiss.h has: tests/sqlite takes them from there. */
#define _DEFAULT_SOURCE
#include "fences.h"

#include <pthread.h>
#include <sqlite3.h>

enum { MOST = 50000, MOST_FILES = 16, MOST_THREADS = 16, TEXT = 4096, BIG = 1 << 20 };

/* ---- The byte strings ---------------------------------------------------- */

static struct scene items[MOST], files[MOST_FILES];
static size_t count;

static void read_items(const struct scene *file)
{
    for (size_t at = 0; at < file->length; count++) {
        uint32_t length;

        if (count == MOST || file->length - at < 4)
            fail(file->name, "too many byte strings, or one that is cut");
        memcpy(&length, file->bytes + at, 4);
        items[count] = (struct scene){file->name, file->bytes + at + 4, length};
        at += 4 + length;
        if (at > file->length)
            fail(file->name, "a byte string is cut");
    }
}

/* ---- What a byte string is asked for ------------------------------------- */

/* `whole` is asked as a scene, an object and well-known binary; `first` and `second` are its two parts, objects if it is a scene. */
struct asked {
    const struct scene *item;
    struct scene whole, first, second;
    uint8_t *records[2];
    struct fenced fences[5];
    const char *pattern;
    int64_t want_f, want_g;
    karvoiss_cells_t cells;
    karvoiss_summary_t summaries[2];
    karvoiss_far_t far;
    struct masks all;
};

static struct scene placed(struct fenced fence, placing place, const uint8_t *bytes, size_t length)
{
    struct scene at = {"", place(fence, length), length};

    if (length > 0)
        memcpy(at.bytes, bytes, length);
    return at;
}

/* Every other byte string is parted anywhere. */
static size_t part(const struct scene *item, size_t number)
{
    return number % 2 == 0 ? second_object(item->bytes, item->length) : number * 7919 % (item->length + 1);
}

static void ask_library(struct asked *a, const struct scene *item, size_t number)
{
    static const char *const some[] = {"T********", "FF*FF****", "T*F**F***", "212101212", "FFFFFFFFF", "*********", "", "TTTTTTTT", "T*f******"};
    static const int64_t masks[] = {0, 1, 5, 255, 65535, 65536, -1, INT64_MAX};
    const placing place = placings[number / 2 % 2];
    size_t first = part(item, number);

    a->item = item;
    a->whole = placed(a->fences[0], place, item->bytes, item->length);
    a->first = placed(a->fences[1], place, item->bytes, first);
    a->second = placed(a->fences[2], place, item->bytes + first, item->length - first);
    a->pattern = some[number % 9];
    a->want_f = masks[number % 8];
    a->want_g = masks[number / 8 % 8];
    a->cells = karvoiss_cells(item->bytes, item->length);
    a->summaries[0] = karvoiss_summary(a->first.bytes, a->first.length);
    a->summaries[1] = karvoiss_summary(a->second.bytes, a->second.length);
    for (int k = 0; k < 2; k++)
        a->records[k] = placed(a->fences[3 + k], place, a->summaries[k].record, 20).bytes;
    a->far = karvoiss_far(a->records[0], 20, a->records[1], 20);
    a->all = all_flags(item->bytes, item->length);
}

/* ---- What it must be answered -------------------------------------------- */

/* A refusal, of which `where` says how the place is counted, or a value: an integer, or bytes as a text or a blob, or NULL. */
struct answer {
    uint32_t number;
    size_t place;
    const char *where;
    int type;
    int64_t integer;
    size_t length;
    uint8_t bytes[SCENE];
};

static const char of_scene[] = " at byte %zu of the scene", of_object[] = " at byte %zu of the object", of_wkb[] = " at byte %zu of the well-known binary",
                  of_pattern[] = " at character %zu of the pattern", of_summary[] = " of summary %zu";

static void refused(struct answer *answer, uint32_t number, size_t place, const char *where)
{
    answer->number = number;
    answer->place = place;
    answer->where = number == 9 || number == 22 ? "" : number == 23 ? of_pattern : where;
}

static void integer(struct answer *answer, int64_t value)
{
    answer->type = SQLITE_INTEGER;
    answer->integer = value;
}

static void bytes(struct answer *answer, int type, const void *from, size_t length)
{
    answer->type = type;
    answer->length = length;
    memcpy(answer->bytes, from, length);
}

static void object(const struct asked *a, int which, struct answer *answer)
{
    karvoiss_read_wkb_t read = karvoiss_read_wkb(a->whole.bytes, a->whole.length, answer->bytes, OBJECT);

    (void)which;
    refused(answer, read.number, read.place, read.number >= 24 ? of_wkb : "");
    answer->type = SQLITE_BLOB;
    answer->length = read.length;
}

static void summary(const struct asked *a, int which, struct answer *answer)
{
    const karvoiss_summary_t *summary = &a->summaries[which];

    refused(answer, summary->number, summary->place, of_object);
    bytes(answer, SQLITE_BLOB, summary->record, 20);
}

static void split(const struct asked *a, int which, struct answer *answer)
{
    karvoiss_split_t split = karvoiss_split(a->whole.bytes, a->whole.length, answer->bytes, SCENE);

    (void)which;
    refused(answer, split.number, split.place, of_scene);
    answer->type = SQLITE_BLOB;
    answer->length = split.length;
}

static void cells(const struct asked *a, int which, struct answer *answer)
{
    int64_t bits = 0;

    refused(answer, a->cells.number, a->cells.place, of_scene);
    bytes(answer, SQLITE_TEXT, a->cells.cell, 9);
    for (int r = 2; r >= 0; r--)
        for (int c = 2; c >= 0; c--)
            bits = 2 * bits + (a->cells.cell[r][c] != 'F');
    if (which == 1)
        integer(answer, bits);
}

static void relate(const struct asked *a, int which, struct answer *answer)
{
    karvoiss_relate_t relate = karvoiss_relate(a->whole.bytes, a->whole.length, (const uint8_t *)a->pattern, strlen(a->pattern));

    (void)which;
    refused(answer, relate.number, relate.place, of_scene);
    integer(answer, relate.holds);
}

static void vectors(const struct asked *a, int which, struct answer *answer)
{
    const uint16_t f = (uint16_t)(which == 0 ? a->all.f : a->want_f == (uint16_t)a->want_f ? a->want_f : 65535);
    const uint16_t g = (uint16_t)(which == 0 ? a->all.g : a->want_g == (uint16_t)a->want_g ? a->want_g : 65535);
    karvoiss_vectors_t vectors = karvoiss_vectors(a->whole.bytes, a->whole.length, f, g);

    refused(answer, vectors.number, vectors.place, of_scene);
    integer(answer, vectors.f + 65536 * (int64_t)vectors.g);
}

static void area(const struct asked *a, int which, struct answer *answer)
{
    karvoiss_areas_t areas = karvoiss_areas(a->whole.bytes, a->whole.length);

    refused(answer, areas.number, areas.place, of_scene);
    integer(answer, which == 0 ? areas.both : which == 1 ? areas.f_only : areas.g_only);
}

/* `which` is where the side stands in the summary: of an empty object it is NULL. */
static void box(const struct asked *a, int which, struct answer *answer)
{
    const uint8_t *record = a->summaries[0].record;
    int32_t side;

    memcpy(&side, record + which, 4);
    refused(answer, a->summaries[0].number == 0 ? 0 : 18, 0, of_summary);
    integer(answer, side);
    if (record[2] == 1)
        answer->type = SQLITE_NULL;
}

enum { IS_FAR, FAR_CELLS, FAR_VECTORS };

/* Objects that are told apart are a scene, if each is an object: what is told is the full answer. */
static void far(const struct asked *a, int which, struct answer *answer)
{
    refused(answer, a->far.number, a->far.place, of_summary);
    if (which == IS_FAR)
        integer(answer, !a->far.look);
    else if (a->far.look)
        answer->type = SQLITE_NULL;
    else if (which == FAR_VECTORS)
        integer(answer, a->far.f + 65536 * (int64_t)a->far.g);
    else
        bytes(answer, SQLITE_TEXT, a->cells.cell, 9);
}

/* Number or place of what is refused. */
enum { OF_SCENE, OF_OBJECT, OF_SUMMARY, OF_SPLIT };

static void number(const struct asked *a, int which, struct answer *answer)
{
    static void (*const questions[])(const struct asked *, int, struct answer *) = {cells, object, summary, split};

    questions[which / 2](a, 0, answer);
    integer(answer, which % 2 == 0 ? answer->number : (int64_t)answer->place);
    answer->number = 0;
}

/* A predicate as karvoiss.h has it: the pairs of types and a pattern. */
struct pattern {
    const char *predicate, *types, *cells;
};

static const struct pattern patterns[] = {
#include "predicates.inc"
};

static const char *const predicates[] = {"equals", "disjoint", "intersects", "touches", "within", "contains", "coveredBy", "covers", "crosses", "overlaps"};

static bool is_of(const char *types, uint8_t f, uint8_t g)
{
    const char pair[] = {(char)('0' + f), ',', (char)('0' + g), '\0'};

    if (strcmp(types, "any but 1, 1") == 0)
        return f != 1 || g != 1;
    return strcmp(types, "any types") == 0 || strstr(types, pair) != NULL;
}

static void predicate(const struct asked *a, int which, struct answer *answer)
{
    const struct scene *scene = &a->whole;
    size_t second = second_object(scene->bytes, scene->length);
    bool any = false;

    for (size_t k = 0; k < sizeof patterns / sizeof *patterns && a->cells.number == 0; k++)
        if (strcmp(patterns[k].predicate, predicates[which]) == 0 && is_of(patterns[k].types, scene->bytes[1], scene->bytes[second + 1]))
            any = any || karvoiss_relate(scene->bytes, scene->length, (const uint8_t *)patterns[k].cells, 9).holds;
    refused(answer, a->cells.number, a->cells.place, of_scene);
    integer(answer, any);
}

/* ---- The questions ------------------------------------------------------- */

struct question {
    const char *name, *arguments;
    void (*expect)(const struct asked *, int, struct answer *);
    int which;
    bool has_try;
};

static const struct question questions[] = {
    {"object", ":whole", object, 0, true},
    {"summary", ":first", summary, 0, true},
    {"summary", ":second", summary, 1, true},
    {"x_min", ":record", box, 3, true},
    {"y_min", ":record", box, 7, true},
    {"x_max", ":record", box, 11, true},
    {"y_max", ":record", box, 15, true},
    {"far", ":record, :other", far, IS_FAR, true},
    {"far_cells", ":record, :other", far, FAR_CELLS, true},
    {"far_vectors", ":record, :other", far, FAR_VECTORS, true},
    {"split", ":whole", split, 0, true},
    {"cells", ":whole", cells, 0, true},
    {"bits", ":whole", cells, 1, true},
    {"relate", ":whole, :pattern", relate, 0, true},
    {"equals", ":whole", predicate, 0, true},
    {"disjoint", ":whole", predicate, 1, true},
    {"intersects", ":whole", predicate, 2, true},
    {"touches", ":whole", predicate, 3, true},
    {"within", ":whole", predicate, 4, true},
    {"contains", ":whole", predicate, 5, true},
    {"coveredBy", ":whole", predicate, 6, true},
    {"covers", ":whole", predicate, 7, true},
    {"crosses", ":whole", predicate, 8, true},
    {"overlaps", ":whole", predicate, 9, true},
    {"vectors", ":whole", vectors, 0, true},
    {"vectors", ":whole, :want_f, :want_g", vectors, 1, true},
    {"area_both", ":whole", area, 0, true},
    {"area_f_only", ":whole", area, 1, true},
    {"area_g_only", ":whole", area, 2, true},
    {"number", ":whole", number, 2 * OF_SCENE, false},
    {"place", ":whole", number, 2 * OF_SCENE + 1, false},
    {"object_number", ":whole", number, 2 * OF_OBJECT, false},
    {"object_place", ":whole", number, 2 * OF_OBJECT + 1, false},
    {"summary_number", ":first", number, 2 * OF_SUMMARY, false},
    {"summary_place", ":first", number, 2 * OF_SUMMARY + 1, false},
    {"split_number", ":whole", number, 2 * OF_SPLIT, false},
    {"split_place", ":whole", number, 2 * OF_SPLIT + 1, false},
};

enum { QUESTIONS = sizeof questions / sizeof *questions };

/* ---- A connection -------------------------------------------------------- */

struct connection {
    sqlite3 *db;
    sqlite3_stmt *plain[QUESTIONS], *tries[QUESTIONS], *scene, *try_scene, *words;
    struct asked asked;
    char message[TEXT];
    size_t answers;
};

static const char *extension;

static _Noreturn void differs(const struct connection *c, const char *what, const char *answered)
{
    const struct scene *item = c->asked.item;

    fprintf(stderr, "sqlite: %s: byte string %td: %s: %s\n", item->name, item - items, what, answered);
    exit(1);
}

static sqlite3_stmt *prepared(sqlite3 *db, const char *text)
{
    sqlite3_stmt *statement;

    if (sqlite3_prepare_v2(db, text, -1, &statement, NULL) != SQLITE_OK)
        fail(text, sqlite3_errmsg(db));
    return statement;
}

static sqlite3_stmt *question_about(sqlite3 *db, const char *form, const struct question *q)
{
    char text[TEXT];

    snprintf(text, sizeof text, "SELECT karvoiss_%s%s(%s)", form, q->name, q->arguments);
    return prepared(db, text);
}

static void connect(struct connection *c)
{
    char *error = NULL;

    if (sqlite3_open(":memory:", &c->db) != SQLITE_OK || sqlite3_enable_load_extension(c->db, 1) != SQLITE_OK
        || sqlite3_load_extension(c->db, extension, "sqlite3_karvoiss_init", &error) != SQLITE_OK)
        fail(extension, error != NULL ? error : "cannot be loaded");
    for (int k = 0; k < QUESTIONS; k++) {
        c->plain[k] = question_about(c->db, "", &questions[k]);
        c->tries[k] = questions[k].has_try ? question_about(c->db, "try_", &questions[k]) : NULL;
    }
    c->scene = prepared(c->db, "SELECT karvoiss_scene(:first, :second)");
    c->try_scene = prepared(c->db, "SELECT karvoiss_try_scene(:first, :second)");
    c->words = prepared(c->db, "SELECT karvoiss_words(?1)");
    for (int k = 0; k < 5; k++)
        c->asked.fences[k] = fence(k < 3 ? BIG : 20);
}

static void disconnect(struct connection *c)
{
    for (int k = 0; k < QUESTIONS; k++) {
        sqlite3_finalize(c->plain[k]);
        sqlite3_finalize(c->tries[k]);
    }
    sqlite3_finalize(c->scene);
    sqlite3_finalize(c->try_scene);
    sqlite3_finalize(c->words);
    if (sqlite3_close(c->db) != SQLITE_OK)
        fail("sqlite", "the connection cannot be closed");
    for (int k = 0; k < 5; k++)
        munmap(c->asked.fences[k].start - page, c->asked.fences[k].size + 2 * page);
}

static void bind(sqlite3_stmt *statement, const struct asked *a)
{
    const struct {
        const char *name;
        const uint8_t *bytes;
        size_t length;
    } blobs[] = {
        {":whole", a->whole.bytes, a->whole.length},    {":first", a->first.bytes, a->first.length}, {":second", a->second.bytes, a->second.length},
        {":record", a->records[0], 20}, {":other", a->records[1], 20},
    };

    for (size_t k = 0; k < sizeof blobs / sizeof *blobs; k++)
        sqlite3_bind_blob(statement, sqlite3_bind_parameter_index(statement, blobs[k].name), blobs[k].bytes, (int)blobs[k].length, SQLITE_STATIC);
    sqlite3_bind_text(statement, sqlite3_bind_parameter_index(statement, ":pattern"), a->pattern, -1, SQLITE_STATIC);
    sqlite3_bind_int64(statement, sqlite3_bind_parameter_index(statement, ":want_f"), a->want_f);
    sqlite3_bind_int64(statement, sqlite3_bind_parameter_index(statement, ":want_g"), a->want_g);
}

/* ---- Answers beside what they must be ------------------------------------ */

/* The message begins with the function, number and place, and goes on with the words for the number. */
static bool says(struct connection *c, const char *message, const char *name, const struct answer *expected)
{
    char text[TEXT], place[64];

    snprintf(place, sizeof place, expected->where, expected->place);
    sqlite3_bind_int64(c->words, 1, expected->number);
    if (sqlite3_step(c->words) != SQLITE_ROW || sqlite3_column_type(c->words, 0) != SQLITE_TEXT)
        differs(c, name, "a refusal without words");
    snprintf(text, sizeof text, "karvoiss_%s: refusal %u%s: %.256s", name, (unsigned)expected->number, place, (const char *)sqlite3_column_text(c->words, 0));
    sqlite3_reset(c->words);
    return strncasecmp(text, message, strlen(text)) == 0;
}

/* The message of an error, before another statement has one. */
static void keep_message(struct connection *c)
{
    snprintf(c->message, sizeof c->message, "%s", sqlite3_errmsg(c->db));
}

static bool same_value(sqlite3_stmt *statement, const struct answer *expected)
{
    size_t length;

    if (sqlite3_column_type(statement, 0) != expected->type)
        return false;
    if (expected->type == SQLITE_INTEGER)
        return sqlite3_column_int64(statement, 0) == expected->integer;
    length = (size_t)sqlite3_column_bytes(statement, 0);
    return expected->type == SQLITE_NULL || (length == expected->length && memcmp(sqlite3_column_blob(statement, 0), expected->bytes, length) == 0);
}

static void ask_plain(struct connection *c, int k, const struct answer *expected)
{
    const char *name = questions[k].name;
    sqlite3_stmt *statement = c->plain[k];
    int status;

    bind(statement, &c->asked);
    status = sqlite3_step(statement);
    keep_message(c);
    if (expected->number != 0 && (status != SQLITE_ERROR || !says(c, c->message, name, expected)))
        differs(c, name, status == SQLITE_ROW ? "a value for a refusal" : c->message);
    if (expected->number == 0 && (status != SQLITE_ROW || !same_value(statement, expected)))
        differs(c, name, status == SQLITE_ROW ? "another value than the library's" : c->message);
    sqlite3_reset(statement);
    c->answers++;
}

static void ask_try(struct connection *c, int k, const struct answer *expected)
{
    static const struct answer null = {.type = SQLITE_NULL};
    sqlite3_stmt *statement = c->tries[k];

    if (statement == NULL)
        return;
    bind(statement, &c->asked);
    if (sqlite3_step(statement) != SQLITE_ROW || !same_value(statement, expected->number == 0 ? expected : &null))
        differs(c, questions[k].name, "another value of the form that gives NULL");
    sqlite3_reset(statement);
    c->answers++;
}

/* ---- Two objects as a scene ---------------------------------------------- */

/* What is given is the bytes of both; if these are a scene, the two are its objects. */
static void given_scene(struct connection *c, sqlite3_stmt *statement)
{
    const struct asked *a = &c->asked;
    const size_t length = (size_t)sqlite3_column_bytes(statement, 0);

    if (length != a->whole.length || memcmp(sqlite3_column_blob(statement, 0), a->whole.bytes, length) != 0)
        differs(c, "scene", "not the two byte strings one after the other");
    if (a->cells.number == 0 && (a->summaries[0].number != 0 || a->summaries[1].number != 0))
        differs(c, "scene", "a scene of other objects than the two");
}

/* What is refused has the refusal of one of the two as an object. */
static void refused_scene(struct connection *c)
{
    const struct asked *a = &c->asked;
    const karvoiss_summary_t *f = &a->summaries[0], *g = &a->summaries[1];
    struct answer first = {0}, second = {0};

    refused(&first, f->number, f->place, of_scene);
    refused(&second, g->number, a->first.length + g->place, of_scene);
    if ((f->number == 0 || !says(c, c->message, "scene", &first)) && (g->number == 0 || !says(c, c->message, "scene", &second)))
        differs(c, "scene", c->message);
}

static void ask_scene(struct connection *c)
{
    int status;

    bind(c->scene, &c->asked);
    bind(c->try_scene, &c->asked);
    status = sqlite3_step(c->scene);
    keep_message(c);
    if (status == SQLITE_ROW)
        given_scene(c, c->scene);
    else
        refused_scene(c);
    if (sqlite3_step(c->try_scene) != SQLITE_ROW || sqlite3_column_type(c->try_scene, 0) != (status == SQLITE_ROW ? SQLITE_BLOB : SQLITE_NULL))
        differs(c, "try_scene", "an error, or another value than the form that refuses");
    if (status == SQLITE_ROW)
        given_scene(c, c->try_scene);
    sqlite3_reset(c->scene);
    sqlite3_reset(c->try_scene);
    c->answers += 2;
}

/* ---- All of it ----------------------------------------------------------- */

static void ask_all(struct connection *c, size_t number)
{
    struct answer *expected = malloc(sizeof *expected);

    if (expected == NULL)
        fail("sqlite", "no memory");
    ask_library(&c->asked, &items[number], number);
    for (int k = 0; k < QUESTIONS; k++) {
        memset(expected, 0, offsetof(struct answer, bytes));
        questions[k].expect(&c->asked, questions[k].which, expected);
        ask_plain(c, k, expected);
        ask_try(c, k, expected);
    }
    ask_scene(c);
    free(expected);
}

struct thread {
    pthread_t id;
    size_t first, answers;
};

static void *ask_from(void *argument)
{
    struct thread *thread = argument;
    struct connection *c = calloc(1, sizeof *c);

    if (c == NULL)
        fail("sqlite", "no memory");
    connect(c);
    for (size_t i = 0; i < count; i++)
        ask_all(c, (thread->first + i) % count);
    disconnect(c);
    thread->answers = c->answers;
    free(c);
    return NULL;
}

int main(int argc, char **argv)
{
    static struct thread threads[MOST_THREADS];
    int most = argc > 3 ? atoi(argv[2]) : 0;
    size_t answers = 0;
    pthread_attr_t attributes;

    if (most < 1 || most > MOST_THREADS || argc > 3 + MOST_FILES)
        fail("sqlite", "name the extension, a number of threads and files");
    extension = argv[1];
    watch_fences();
    for (int i = 3; i < argc; i++) {
        files[i - 3] = read_scene(argv[i]);
        read_items(&files[i - 3]);
    }
    pthread_attr_init(&attributes);
    if (count == 0 || pthread_attr_setstacksize(&attributes, KARVOISS_SPLIT_STACK + (1 << 17)) != 0)
        fail("sqlite", "nothing to ask about, or no stack of this size");
    for (int t = 0; t < most; t++) {
        threads[t].first = (size_t)t * count / (size_t)most;
        if (pthread_create(&threads[t].id, &attributes, ask_from, &threads[t]) != 0)
            fail("sqlite", "a thread cannot be started");
    }
    for (int t = 0; t < most; t++) {
        pthread_join(threads[t].id, NULL);
        answers += threads[t].answers;
    }
    for (int i = 3; i < argc; i++)
        free(files[i - 3].bytes);
    printf("sqlite: %zu byte strings, %d threads, %zu answers are the library's\n", count, most, answers);
    return 0;
}
