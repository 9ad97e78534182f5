/* The extension for SQLite where memory runs out: SQLite's allocator is told to fail once, at the first allocation of a statement, at the second, and so on. Each time the statement
 * ends with the error that SQLite has for that, or, if SQLite could do without, with what it gives otherwise; nothing is kept, and nothing given back twice.
 *
 *     memory EXTENSION FILE      FILE has a statement on each line */
#include <sqlite3.h>

#include <stdio.h>
#include <stdlib.h>
#include <string.h>

enum { TEXT = 65536 };

static sqlite3_mem_methods real;

/* How many allocations go well before one fails; negative if none does. */
static int left = -1;

static int fails(void)
{
    return left >= 0 && left-- == 0;
}

static void *allocate(int size)
{
    return fails() ? NULL : real.xMalloc(size);
}

static void *reallocate(void *memory, int size)
{
    return fails() ? NULL : real.xRealloc(memory, size);
}

static _Noreturn void fail(const char *what, const char *why)
{
    fprintf(stderr, "sqlite: %s: %s\n", what, why);
    exit(1);
}

static sqlite3 *opened(const char *extension)
{
    sqlite3 *db;

    if (sqlite3_open(":memory:", &db) != SQLITE_OK || sqlite3_enable_load_extension(db, 1) != SQLITE_OK
        || sqlite3_load_extension(db, extension, "sqlite3_karvoiss_init", NULL) != SQLITE_OK)
        fail(extension, "cannot be loaded");
    return db;
}

/* What a statement that is prepared already gives, or its error, with its `after`-th allocation failing; whether one failed. */
static int run(sqlite3 *db, sqlite3_stmt *statement, int after, char answer[TEXT])
{
    int status, failed;

    left = after;
    status = sqlite3_step(statement);
    failed = after >= 0 && left < 0;
    left = -1;
    if (status == SQLITE_NOMEM)
        strcpy(answer, "no memory");
    else if (status == SQLITE_ROW)
        snprintf(answer, TEXT, "%d %s", sqlite3_column_type(statement, 0), (const char *)sqlite3_column_text(statement, 0));
    else
        snprintf(answer, TEXT, "%s", sqlite3_errmsg(db));
    sqlite3_reset(statement);
    return failed;
}

/* How often memory ran out. */
static int run_out(const char *extension, const char *text)
{
    static char expected[TEXT], found[TEXT];
    sqlite3 *db = opened(extension);
    sqlite3_stmt *statement;
    int after = 0;

    if (sqlite3_prepare_v2(db, text, -1, &statement, NULL) != SQLITE_OK)
        fail(text, sqlite3_errmsg(db));
    run(db, statement, -1, expected);
    for (; run(db, statement, after, found); after++)
        if (strcmp(found, "no memory") != 0 && strcmp(found, expected) != 0)
            fail(text, found);
    if (strcmp(found, expected) != 0)
        fail(text, "another answer after memory ran out");
    sqlite3_finalize(statement);
    sqlite3_close(db);
    return after;
}

int main(int argc, char **argv)
{
    static char text[TEXT];
    FILE *file = argc > 2 ? fopen(argv[2], "r") : NULL;
    int statements = 0, often = 0;
    sqlite3_mem_methods failing;

    if (file == NULL || sqlite3_config(SQLITE_CONFIG_GETMALLOC, &real) != SQLITE_OK)
        fail("sqlite", "name the extension and a file of statements");
    failing = real;
    failing.xMalloc = allocate;
    failing.xRealloc = reallocate;
    if (sqlite3_config(SQLITE_CONFIG_MALLOC, &failing) != SQLITE_OK || sqlite3_config(SQLITE_CONFIG_LOOKASIDE, 0, 0) != SQLITE_OK)
        fail("sqlite", "the allocator cannot be set");
    for (; fgets(text, sizeof text, file) != NULL; statements++)
        often += run_out(argv[1], text);
    fclose(file);
    printf("sqlite: %d statements, memory ran out %d times\n", statements, often);
    return statements > 0 && often >= statements ? 0 : 1;
}
