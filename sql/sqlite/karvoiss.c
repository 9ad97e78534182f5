/* Karvoiss from SQLite: a loadable extension over the archive, with no geometry of its own. It takes
 * SQLite's values for the questions of shared.h, and makes values of the answers. docs/SQL.md has the
 * functions in a table.
 *
 *     .load target/sqlite/karvoiss
 *
 * Each function gives NULL where an argument is NULL, an error where one has the wrong type, and an
 * error where the library refuses; karvoiss_try_... gives NULL where the library refuses. None keeps
 * state, so each may be asked from several connections at once. The library runs in the caller's
 * thread and needs there the stack that karvoiss.h states, most of it karvoiss_split.
 */
#include "../shared.h"

#include <sqlite3ext.h>
SQLITE_EXTENSION_INIT1

#include <string.h>

/* ---- A call -------------------------------------------------------------- */

/* A blob's or a text's bytes. */
struct bytes {
    const uint8_t *at;
    size_t length;
};

enum { MOST_ARGUMENTS = 3 };

/* What a function is asked: its arguments, the bytes of those that are blobs or texts, and the numbers
 * that are numbers. */
struct call {
    sqlite3_context *context;
    const struct function *function;
    struct bytes bytes[MOST_ARGUMENTS];
    sqlite3_int64 number[MOST_ARGUMENTS];
};

/* A function of SQL. `takes` has a letter for each argument: b a blob, t a text, i an integer. `answer`
 * sets the result; a refusal that it gives takes the result's place. `which` is for those that have
 * one answer in common. */
struct function {
    const char *name;
    const char *takes;
    sql_refusal_t (*answer)(struct call *call);
    int which;
    bool tries;
};

static const sql_refusal_t taken = {0};

/* An error with a text of sqlite3_mprintf, which is given back; null is for want of memory. */
static void give_error(struct call *call, char *text)
{
    if (text != NULL)
        sqlite3_result_error(call->context, text, -1);
    else
        sqlite3_result_error_nomem(call->context);
    sqlite3_free(text);
}

/* One argument; false where it has the wrong type, or cannot be had for want of memory, which the
 * result then says. */
static bool take(struct call *call, int k, sqlite3_value *value)
{
    static const char *const names[] = {[SQLITE_BLOB] = "a blob", [SQLITE_TEXT] = "a text", [SQLITE_INTEGER] = "an integer"};
    const char letter = call->function->takes[k];
    const int wanted = letter == 'b' ? SQLITE_BLOB : letter == 't' ? SQLITE_TEXT : SQLITE_INTEGER;

    if (sqlite3_value_type(value) != wanted) {
        give_error(call, sqlite3_mprintf("%s: argument %d is not %s", call->function->name, k + 1, names[wanted]));
        return false;
    }
    if (wanted == SQLITE_INTEGER) {
        call->number[k] = sqlite3_value_int64(value);
        return true;
    }
    call->bytes[k].at = wanted == SQLITE_BLOB ? sqlite3_value_blob(value) : sqlite3_value_text(value);
    call->bytes[k].length = (size_t)sqlite3_value_bytes(value);
    if (call->bytes[k].at == NULL && (wanted == SQLITE_TEXT || call->bytes[k].length > 0)) {
        sqlite3_result_error_nomem(call->context);
        return false;
    }
    return true;
}

/* A refusal as the result. */
static void refuse(struct call *call, sql_refusal_t refusal)
{
    char where[SQL_TEXT_ROOM], says[SQL_TEXT_ROOM];

    if (call->function->tries) {
        sqlite3_result_null(call->context);
        return;
    }
    sql_where(refusal, where);
    sql_says(refusal, says);
    give_error(call, sqlite3_mprintf("%s: %s: %s. %s", call->function->name, where, says, sql_hint(refusal.number)));
}

/* Every function of SQL comes in here. */
static void ask(sqlite3_context *context, int count, sqlite3_value **values)
{
    struct call call = {.context = context, .function = sqlite3_user_data(context)};
    sql_refusal_t refusal;

    for (int k = 0; k < count; k++)
        if (sqlite3_value_type(values[k]) == SQLITE_NULL)
            return;
    for (int k = 0; k < count; k++)
        if (!take(&call, k, values[k]))
            return;
    refusal = call.function->answer(&call);
    if (refusal.number != 0)
        refuse(&call, refusal);
}

/* ---- Results ------------------------------------------------------------- */

/* Room on the heap for a result, or for one that is made and not kept; null where there is no memory,
 * which the result then says. */
static uint8_t *room_for(struct call *call, size_t room)
{
    uint8_t *made = sqlite3_malloc64(room);

    if (made == NULL)
        sqlite3_result_error_nomem(call->context);
    return made;
}

/* A blob in memory of room_for, of which as much is kept as is needed. */
static void give_blob(struct call *call, uint8_t *made, size_t length)
{
    uint8_t *kept = length > 0 ? sqlite3_realloc64(made, length) : NULL;

    sqlite3_result_blob64(call->context, kept != NULL ? kept : made, length, sqlite3_free);
}

static void give_cells(struct call *call, const char cells[9])
{
    sqlite3_result_text(call->context, cells, 9, SQLITE_TRANSIENT);
}

/* ---- Objects and scenes -------------------------------------------------- */

static sql_refusal_t object(struct call *call)
{
    uint8_t *made = room_for(call, SQL_OBJECT_ROOM);
    size_t length;

    if (made == NULL)
        return taken;

    sql_refusal_t refusal = sql_object(call->bytes[0].at, call->bytes[0].length, made, &length);

    give_blob(call, made, length);
    return refusal;
}

static sql_refusal_t summary(struct call *call)
{
    uint8_t made[SQL_SUMMARY_LENGTH];
    sql_refusal_t refusal = sql_summary(call->bytes[0].at, call->bytes[0].length, made);

    sqlite3_result_blob(call->context, made, sizeof made, SQLITE_TRANSIENT);
    return refusal;
}

static sql_refusal_t scene(struct call *call)
{
    const struct bytes *f = &call->bytes[0], *g = &call->bytes[1];
    sql_refusal_t refusal = sql_two_objects(f->at, f->length, g->at, g->length);
    uint8_t *made = refusal.number == 0 ? room_for(call, f->length + g->length) : NULL;

    if (made != NULL) {
        memcpy(made, f->at, f->length);
        memcpy(made + f->length, g->at, g->length);
        sqlite3_result_blob64(call->context, made, f->length + g->length, sqlite3_free);
    }
    return refusal;
}

static sql_refusal_t split(struct call *call)
{
    uint8_t *made = room_for(call, SQL_SCENE_ROOM);
    size_t length;

    if (made == NULL)
        return taken;

    sql_refusal_t refusal = sql_split(call->bytes[0].at, call->bytes[0].length, made, &length);

    give_blob(call, made, length);
    return refusal;
}

/* ---- Questions about a scene --------------------------------------------- */

static sql_refusal_t cells(struct call *call)
{
    char made[9];
    sql_refusal_t refusal = sql_cells(call->bytes[0].at, call->bytes[0].length, made);

    give_cells(call, made);
    return refusal;
}

static sql_refusal_t bits(struct call *call)
{
    char made[9];
    sql_refusal_t refusal = sql_cells(call->bytes[0].at, call->bytes[0].length, made);

    sqlite3_result_int64(call->context, sql_bits(made));
    return refusal;
}

static sql_refusal_t relate(struct call *call)
{
    bool holds;
    sql_refusal_t refusal = sql_relate(call->bytes[0].at, call->bytes[0].length, (const char *)call->bytes[1].at,
                                       call->bytes[1].length, &holds);

    sqlite3_result_int(call->context, holds);
    return refusal;
}

static sql_refusal_t predicate(struct call *call)
{
    bool holds;
    sql_refusal_t refusal = sql_holds((sql_predicate_t)call->function->which, call->bytes[0].at, call->bytes[0].length, &holds);

    sqlite3_result_int(call->context, holds);
    return refusal;
}

static sql_refusal_t vectors(struct call *call)
{
    int64_t both;
    sql_refusal_t refusal = sql_vectors(call->bytes[0].at, call->bytes[0].length, &both);

    sqlite3_result_int64(call->context, both);
    return refusal;
}

static sql_refusal_t wanted_vectors(struct call *call)
{
    int64_t both;
    sql_refusal_t refusal = sql_wanted_vectors(call->bytes[0].at, call->bytes[0].length, call->number[1], call->number[2], &both);

    sqlite3_result_int64(call->context, both);
    return refusal;
}

static sql_refusal_t area(struct call *call)
{
    int64_t areas[3];
    sql_refusal_t refusal = sql_areas(call->bytes[0].at, call->bytes[0].length, areas);

    sqlite3_result_int64(call->context, areas[call->function->which]);
    return refusal;
}

/* ---- Questions about summaries ------------------------------------------- */

static sql_refusal_t box(struct call *call)
{
    int32_t sides[4];
    bool has_one;
    sql_refusal_t refusal = sql_box(call->bytes[0].at, call->bytes[0].length, &has_one, sides);

    if (has_one)
        sqlite3_result_int(call->context, sides[call->function->which]);
    return refusal;
}

static sql_refusal_t ask_far(const struct call *call, sql_far_t *told)
{
    return sql_far(call->bytes[0].at, call->bytes[0].length, call->bytes[1].at, call->bytes[1].length, told);
}

static sql_refusal_t far(struct call *call)
{
    sql_far_t told;
    sql_refusal_t refusal = ask_far(call, &told);

    sqlite3_result_int(call->context, !told.look);
    return refusal;
}

static sql_refusal_t far_cells(struct call *call)
{
    sql_far_t told;
    sql_refusal_t refusal = ask_far(call, &told);

    if (!told.look)
        give_cells(call, told.cells);
    return refusal;
}

static sql_refusal_t far_vectors(struct call *call)
{
    sql_far_t told;
    sql_refusal_t refusal = ask_far(call, &told);

    if (!told.look)
        sqlite3_result_int64(call->context, told.vectors);
    return refusal;
}

/* ---- Refusals without an error ------------------------------------------- */

/* The first argument is the scene, the object or the well-known binary; the call that is asked whether
 * it refuses it gives what `which` says. */
enum { NUMBER, PLACE };

static sql_refusal_t give_refusal(struct call *call, sql_refusal_t refusal)
{
    sqlite3_result_int64(call->context, call->function->which == NUMBER ? (sqlite3_int64)refusal.number : (sqlite3_int64)refusal.place);
    return taken;
}

/* Vectors of which no flag is wanted have the refusals of the cells, and cost no more than they. */
static sql_refusal_t refusal_of_scene(struct call *call)
{
    int64_t both;

    return give_refusal(call, sql_wanted_vectors(call->bytes[0].at, call->bytes[0].length, 0, 0, &both));
}

static sql_refusal_t refusal_of_summary(struct call *call)
{
    uint8_t made[SQL_SUMMARY_LENGTH];

    return give_refusal(call, sql_summary(call->bytes[0].at, call->bytes[0].length, made));
}

static sql_refusal_t refusal_of_object(struct call *call)
{
    uint8_t *made = room_for(call, SQL_OBJECT_ROOM);
    size_t length;

    if (made != NULL)
        give_refusal(call, sql_object(call->bytes[0].at, call->bytes[0].length, made, &length));
    sqlite3_free(made);
    return taken;
}

static sql_refusal_t refusal_of_split(struct call *call)
{
    uint8_t *made = room_for(call, SQL_SCENE_ROOM);
    size_t length;

    if (made != NULL)
        give_refusal(call, sql_split(call->bytes[0].at, call->bytes[0].length, made, &length));
    sqlite3_free(made);
    return taken;
}

static sql_refusal_t words(struct call *call)
{
    const sqlite3_int64 number = call->number[0];

    if (number >= 0 && number <= UINT32_MAX)
        sqlite3_result_text(call->context, sql_words((uint32_t)number), -1, SQLITE_STATIC);
    return taken;
}

/* ---- The table ----------------------------------------------------------- */

/* A function that may refuse, and the same with NULL for a refusal. */
#define BOTH(name, takes, answer, which)                                                                              \
    {"karvoiss_" name, takes, answer, which, false}, {"karvoiss_try_" name, takes, answer, which, true}

/* Number and place of what a function would refuse. */
#define REFUSAL(name, answer)                                                                                         \
    {"karvoiss_" name "number", "b", answer, NUMBER, false}, {"karvoiss_" name "place", "b", answer, PLACE, false}

static const struct function functions[] = {
    BOTH("object", "b", object, 0),
    BOTH("summary", "b", summary, 0),
    BOTH("x_min", "b", box, SQL_X_MIN),
    BOTH("y_min", "b", box, SQL_Y_MIN),
    BOTH("x_max", "b", box, SQL_X_MAX),
    BOTH("y_max", "b", box, SQL_Y_MAX),
    BOTH("far", "bb", far, 0),
    BOTH("far_cells", "bb", far_cells, 0),
    BOTH("far_vectors", "bb", far_vectors, 0),
    BOTH("scene", "bb", scene, 0),
    BOTH("split", "b", split, 0),
    BOTH("cells", "b", cells, 0),
    BOTH("bits", "b", bits, 0),
    BOTH("relate", "bt", relate, 0),
    BOTH("equals", "b", predicate, SQL_EQUALS),
    BOTH("disjoint", "b", predicate, SQL_DISJOINT),
    BOTH("intersects", "b", predicate, SQL_INTERSECTS),
    BOTH("touches", "b", predicate, SQL_TOUCHES),
    BOTH("within", "b", predicate, SQL_WITHIN),
    BOTH("contains", "b", predicate, SQL_CONTAINS),
    BOTH("coveredby", "b", predicate, SQL_COVERED_BY),
    BOTH("covers", "b", predicate, SQL_COVERS),
    BOTH("crosses", "b", predicate, SQL_CROSSES),
    BOTH("overlaps", "b", predicate, SQL_OVERLAPS),
    BOTH("vectors", "b", vectors, 0),
    BOTH("vectors", "bii", wanted_vectors, 0),
    BOTH("area_both", "b", area, SQL_BOTH),
    BOTH("area_f_only", "b", area, SQL_F_ONLY),
    BOTH("area_g_only", "b", area, SQL_G_ONLY),
    REFUSAL("", refusal_of_scene),
    REFUSAL("object_", refusal_of_object),
    REFUSAL("summary_", refusal_of_summary),
    REFUSAL("split_", refusal_of_split),
    {"karvoiss_words", "i", words, 0, false},
};

__attribute__((visibility("default")))
int sqlite3_karvoiss_init(sqlite3 *db, char **error, const sqlite3_api_routines *api)
{
    const int flags = SQLITE_UTF8 | SQLITE_DETERMINISTIC | SQLITE_INNOCUOUS;
    int status = SQLITE_OK;

    (void)error;
    SQLITE_EXTENSION_INIT2(api);
    for (size_t k = 0; k < sizeof functions / sizeof *functions && status == SQLITE_OK; k++) {
        const struct function *f = &functions[k];

        status = sqlite3_create_function_v2(db, f->name, (int)strlen(f->takes), flags, (void *)f, ask, NULL, NULL, NULL);
    }
    return status;
}
