/* The extension for SQLite beside the library's calls, in one run: nanoseconds of the thread, best of so many passes. First a call on two neighbouring parcels, of each of some
 * sizes, in C and in SQL, where a table of as many rows as calls is gone through. Then 10,000 parcels, 100 by 100, of 64 segments each: their objects and summaries, the index over
 * their boxes, the pairs of boxes, and the cells of all these pairs, in SQL and in C.
 *
 * Neighbours share a fence, whose vertices lie off the straight line by up to a third of their distance; at its two ends it meets others. */
#define _POSIX_C_SOURCE 200112L
#include "karvoiss.h"

#include <sqlite3.h>
#include <stdio.h>
#include <stdlib.h>
#include <string.h>
#include <time.h>

enum { OBJECT = 19459, SIDE = 100, PARCELS = SIDE * SIDE, PASSES = 7, MOST_ROWS = 20000, MOST_PER_SIDE = 128, STEP = 30 };

static _Noreturn void fail(const char *what, const char *why)
{
    fprintf(stderr, "bench: %s: %s\n", what, why);
    exit(1);
}

static double now(void)
{
    struct timespec t;

    clock_gettime(CLOCK_THREAD_CPUTIME_ID, &t);
    return (double)t.tv_sec * 1e9 + (double)t.tv_nsec;
}

/* ---- Parcels --------------------------------------------------------------- */

/* How far vertex k of a fence lies off its straight line, the same for both neighbours; the ends lie on it. */
static int off(unsigned fence, int k, int per_side)
{
    unsigned mixed = (fence * 2654435761u + (unsigned)k * 40503u) * 2246822519u;

    return k == 0 || k == per_side ? 0 : (int)(mixed >> 16) % (2 * STEP / 3 + 1) - STEP / 3;
}

struct wkb {
    uint8_t bytes[18 + 16 * (4 * MOST_PER_SIDE + 1)];
    size_t length;
};

static void put(struct wkb *w, const void *from, size_t length)
{
    memcpy(w->bytes + w->length, from, length);
    w->length += length;
}

static void put_point(struct wkb *w, int x, int y)
{
    const double point[2] = {x, y};

    put(w, point, sizeof point);
}

/* The parcel in a column and a row, of so many segments on each side, as a MultiPolygon, low byte first. */
static void make_parcel(struct wkb *w, int column, int row, int per_side)
{
    const int width = per_side * STEP, left = column * width, low = row * width, right = left + width, high = low + width;
    const unsigned below = 2 * (unsigned)(row * (SIDE + 1) + column), above = below + 2 * (SIDE + 1), before = below + 1, after = before + 2;
    const uint32_t points = 4 * (uint32_t)per_side + 1;

    w->length = 0;
    put(w, "\1\6\0\0\0\1\0\0\0\1\3\0\0\0\1\0\0", 18);
    put(w, &points, 4);
    for (int k = 0; k < per_side; k++)
        put_point(w, left + k * STEP, low + off(below, k, per_side));
    for (int k = 0; k < per_side; k++)
        put_point(w, right + off(after, k, per_side), low + k * STEP);
    for (int k = per_side; k > 0; k--)
        put_point(w, left + k * STEP, high + off(above, k, per_side));
    for (int k = per_side; k >= 0; k--)
        put_point(w, left + off(before, k, per_side), low + k * STEP);
}

struct object {
    uint8_t bytes[OBJECT];
    size_t length;
};

static void read_parcel(const struct wkb *w, struct object *o)
{
    karvoiss_read_wkb_t read = karvoiss_read_wkb(w->bytes, w->length, o->bytes, OBJECT);

    if (read.number != 0)
        fail("a parcel", "refused");
    o->length = read.length;
}

/* ---- SQL ------------------------------------------------------------------- */

static sqlite3 *db;

static sqlite3_stmt *prepared(const char *text)
{
    sqlite3_stmt *statement;

    if (sqlite3_prepare_v2(db, text, -1, &statement, NULL) != SQLITE_OK)
        fail(text, sqlite3_errmsg(db));
    return statement;
}

static void run(const char *text)
{
    if (sqlite3_exec(db, text, NULL, NULL, NULL) != SQLITE_OK)
        fail(text, sqlite3_errmsg(db));
}

/* The number that a statement gives, and how long it took. */
static int64_t asked(const char *text, double *taken)
{
    sqlite3_stmt *statement = prepared(text);
    double start = now();
    int64_t given;

    if (sqlite3_step(statement) != SQLITE_ROW)
        fail(text, sqlite3_errmsg(db));
    *taken = now() - start;
    given = sqlite3_column_int64(statement, 0);
    sqlite3_finalize(statement);
    return given;
}

static double best_of(const char *text)
{
    double least = 1e30, taken;

    for (int pass = 0; pass < PASSES; pass++) {
        asked(text, &taken);
        least = taken < least ? taken : least;
    }
    return least;
}

/* ---- A call ------------------------------------------------------------------ */

/* Two neighbours: the well-known binary of the first, both objects, the scene, and both summaries. */
static struct wkb wkb;
static struct object f, g;
static uint8_t scene[2 * OBJECT], again[2 * OBJECT];
static size_t length;
static karvoiss_summary_t summaries[2];

static uint32_t call_object(void) { return karvoiss_read_wkb(wkb.bytes, wkb.length, again, OBJECT).number; }
static uint32_t call_summary(void) { return karvoiss_summary(f.bytes, f.length).number; }
static uint32_t call_far(void) { return karvoiss_far(summaries[0].record, 20, summaries[1].record, 20).number; }
static uint32_t call_split(void) { return karvoiss_split(scene, length, again, sizeof again).number; }
static uint32_t call_cells(void) { return karvoiss_cells(scene, length).number; }
static uint32_t call_within(void) { return karvoiss_relate(scene, length, (const uint8_t *)"T*F**F***", 9).number; }
static uint32_t call_vectors(void) { return karvoiss_vectors(scene, length, 255, 15).number; }
static uint32_t call_areas(void) { return karvoiss_areas(scene, length).number; }

/* Two objects are laid together as the extension does it. */
static uint32_t call_joined(void)
{
    memcpy(again, f.bytes, f.length);
    memcpy(again + f.length, g.bytes, g.length);
    return karvoiss_cells(again, f.length + g.length).number;
}

struct call {
    const char *name, *sql;
    uint32_t (*asks)(void);
};

static const struct call calls[] = {
    {"object", "karvoiss_object(wkb)", call_object},
    {"summary", "karvoiss_summary(f)", call_summary},
    {"far", "karvoiss_far(s, t)", call_far},
    {"split", "karvoiss_split(scene)", call_split},
    {"cells", "karvoiss_cells(scene)", call_cells},
    {"cells of two", "karvoiss_cells(karvoiss_scene(f, g))", call_joined},
    {"relate", "karvoiss_relate(scene, 'T*F**F***')", call_within},
    {"within", "karvoiss_within(scene)", call_within},
    {"vectors", "karvoiss_vectors(scene)", call_vectors},
    {"areas", "karvoiss_area_both(scene)", call_areas},
};

enum { CALLS = sizeof calls / sizeof *calls };

static double best_call(const struct call *call, int count)
{
    double least = 1e30;
    uint32_t numbers = 0;

    for (int pass = 0; pass < PASSES; pass++) {
        double start = now(), taken;

        for (int k = 0; k < count; k++)
            numbers += call->asks();
        taken = (now() - start) / count;
        least = taken < least ? taken : least;
    }
    if (numbers != 0)
        fail(call->name, "refused");
    return least;
}

/* A table of so many rows, each with the two neighbours and what is made of them. */
static void fill_rows(int rows)
{
    sqlite3_stmt *insert;

    run("DROP TABLE IF EXISTS row");
    run("CREATE TABLE row (s BLOB, t BLOB, wkb BLOB, f BLOB, g BLOB, scene BLOB)");
    run("BEGIN");
    insert = prepared("INSERT INTO row VALUES (?, ?, ?, ?, ?, ?)");
    sqlite3_bind_blob(insert, 1, summaries[0].record, 20, SQLITE_STATIC);
    sqlite3_bind_blob(insert, 2, summaries[1].record, 20, SQLITE_STATIC);
    sqlite3_bind_blob(insert, 3, wkb.bytes, (int)wkb.length, SQLITE_STATIC);
    sqlite3_bind_blob(insert, 4, f.bytes, (int)f.length, SQLITE_STATIC);
    sqlite3_bind_blob(insert, 5, g.bytes, (int)g.length, SQLITE_STATIC);
    sqlite3_bind_blob(insert, 6, scene, (int)length, SQLITE_STATIC);
    for (int k = 0; k < rows; k++) {
        sqlite3_step(insert);
        sqlite3_reset(insert);
    }
    sqlite3_finalize(insert);
    run("COMMIT");
}

static void two_neighbours(int per_side)
{
    make_parcel(&wkb, 1, 0, per_side);
    read_parcel(&wkb, &g);
    make_parcel(&wkb, 0, 0, per_side);
    read_parcel(&wkb, &f);
    length = f.length + g.length;
    memcpy(scene, f.bytes, f.length);
    memcpy(scene + f.length, g.bytes, g.length);
    summaries[0] = karvoiss_summary(f.bytes, f.length);
    summaries[1] = karvoiss_summary(g.bytes, g.length);
}

static void time_calls(int per_side, int rows, double in_c[CALLS], double in_sql[CALLS])
{
    char text[256];

    two_neighbours(per_side);
    fill_rows(rows);
    for (int k = 0; k < CALLS; k++) {
        const int fewer = calls[k].asks == call_split && per_side > 16 ? 100 : rows;

        snprintf(text, sizeof text, "SELECT count(%s) FROM row WHERE rowid <= %d", calls[k].sql, fewer);
        in_c[k] = best_call(&calls[k], fewer);
        in_sql[k] = best_of(text) / fewer;
    }
}

static void print_calls(void)
{
    static const struct {
        int per_side, rows;
    } sizes[] = {{1, MOST_ROWS}, {16, 4000}, {128, 500}};
    double in_c[3][CALLS], in_sql[3][CALLS];

    for (int s = 0; s < 3; s++)
        time_calls(sizes[s].per_side, sizes[s].rows, in_c[s], in_sql[s]);
    printf("| microseconds, C and SQL | 4 + 4 segments | 64 + 64 | 512 + 512 |\n|---|---|---|---|\n");
    for (int k = 0; k < CALLS; k++) {
        printf("| `%s` ", calls[k].sql);
        for (int s = 0; s < 3; s++)
            printf("| %.3g, %.3g ", in_c[s][k] / 1e3, in_sql[s][k] / 1e3);
        printf("|\n");
    }
}

/* ---- A join ------------------------------------------------------------------ */

static struct object *parcels;

/* The shapes and the index over their boxes, each with its time. */
static void fill_shapes(void)
{
    sqlite3_stmt *insert;
    double start;

    run("CREATE TABLE given (id INTEGER PRIMARY KEY, wkb BLOB)");
    run("CREATE TABLE shape (id INTEGER PRIMARY KEY, summary BLOB GENERATED ALWAYS AS (karvoiss_summary(outline)) STORED, outline BLOB NOT NULL)");
    run("CREATE VIRTUAL TABLE box USING rtree_i32 (id, x_min, x_max, y_min, y_max)");
    run("BEGIN");
    insert = prepared("INSERT INTO given VALUES (?, ?)");
    for (int k = 0; k < PARCELS; k++) {
        make_parcel(&wkb, k % SIDE, k / SIDE, 16);
        read_parcel(&wkb, &parcels[k]);
        sqlite3_bind_int(insert, 1, k);
        sqlite3_bind_blob(insert, 2, wkb.bytes, (int)wkb.length, SQLITE_STATIC);
        sqlite3_step(insert);
        sqlite3_reset(insert);
    }
    sqlite3_finalize(insert);
    start = now();
    run("INSERT INTO shape (id, outline) SELECT id, karvoiss_object(wkb) FROM given");
    printf("| objects of well-known binary, stored with their summaries | %.3f s |\n", (now() - start) / 1e9);
    start = now();
    run("INSERT INTO box SELECT id, karvoiss_x_min(summary), karvoiss_x_max(summary), karvoiss_y_min(summary), karvoiss_y_max(summary) FROM shape");
    printf("| the index over their boxes | %.3f s |\n", (now() - start) / 1e9);
    run("COMMIT");
}

#define NEAR "box AS f JOIN box AS g ON g.x_min <= f.x_max AND g.x_max >= f.x_min AND g.y_min <= f.y_max AND g.y_max >= f.y_min AND g.id > f.id"

/* The cells of the same pairs by the library's calls alone: how many touch. */
static int64_t touching(double *taken)
{
    sqlite3_stmt *pairs = prepared("SELECT f.id, g.id FROM " NEAR);
    int64_t count = 0;

    *taken = 0;
    while (sqlite3_step(pairs) == SQLITE_ROW) {
        const struct object *first = &parcels[sqlite3_column_int(pairs, 0)], *second = &parcels[sqlite3_column_int(pairs, 1)];
        double start = now();
        karvoiss_cells_t m;

        memcpy(scene, first->bytes, first->length);
        memcpy(scene + first->length, second->bytes, second->length);
        m = karvoiss_cells(scene, first->length + second->length);
        count += m.number == 0 && m.cell[0][0] == 'F' && m.cell[1][1] != 'F';
        *taken += now() - start;
    }
    sqlite3_finalize(pairs);
    return count;
}

static void print_join(void)
{
    double taken, in_c;
    int64_t pairs, touch;

    parcels = malloc(PARCELS * sizeof *parcels);
    if (parcels == NULL)
        fail("parcels", "no memory");
    printf("| 10,000 parcels of 64 segments | |\n|---|---|\n");
    fill_shapes();
    pairs = asked("SELECT count(*) FROM " NEAR, &taken);
    printf("| the pairs whose boxes meet: %lld | %.3f s |\n", (long long)pairs, taken / 1e9);
    touch = asked("SELECT sum(karvoiss_bits(karvoiss_scene(a.outline, b.outline)) & 17 = 16) FROM " NEAR
                  " JOIN shape AS a ON a.id = f.id JOIN shape AS b ON b.id = g.id", &taken);
    printf("| the cells of these pairs in SQL: %lld touch | %.3f s, %.2f us a pair |\n", (long long)touch, taken / 1e9, taken / 1e3 / (double)pairs);
    if (touching(&in_c) != touch)
        fail("the join", "the library says otherwise");
    printf("| the same by the library's calls | %.3f s, %.2f us a pair |\n", in_c / 1e9, in_c / 1e3 / (double)pairs);
    asked("SELECT sum(coalesce(karvoiss_far_cells(f.summary, g.summary), 'F') = 'F') FROM shape AS f JOIN shape AS g ON g.id > f.id WHERE f.id < 100", &taken);
    printf("| summaries of 994,950 pairs, without the index | %.3f s, %.2f us a pair |\n", taken / 1e9, taken / 1e3 / 994950);
    free(parcels);
}

int main(int argc, char **argv)
{
    char *error = NULL;

    if (argc < 2 || sqlite3_open(":memory:", &db) != SQLITE_OK || sqlite3_enable_load_extension(db, 1) != SQLITE_OK
        || sqlite3_load_extension(db, argv[1], NULL, &error) != SQLITE_OK)
        fail("the extension", error != NULL ? error : "cannot be loaded");
    print_calls();
    printf("\n");
    print_join();
    sqlite3_close(db);
    return 0;
}
