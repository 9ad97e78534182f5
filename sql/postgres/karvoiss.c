/* karvoiss.c: the library's calls as functions of PostgreSQL, on bytea. Thin: each function takes the
 * bytes of its arguments, asks sql/shared.h, and hands on the value; karvoiss--1.0.sql declares them,
 * and docs/SQL.md says what each does.
 *
 * A refusal is an error of class 22K, its number being the last two digits of the SQLSTATE; the
 * function's try_ form gives null in its place. Lent buffers are the server's memory, so an error
 * that the server raises frees them. What is null is not asked (STRICT).
 */
#include "postgres.h"

#include "fmgr.h"
#include "miscadmin.h"
#include "utils/builtins.h"
#include "utils/geo_decls.h"

#include "shared.h"

#include <alloca.h>

PG_MODULE_MAGIC;

/* ---- The stack ----------------------------------------------------------- */

/* The server's check, from so many bytes deeper. */
static pg_noinline void check_depth(size_t bytes)
{
    volatile char *deep = alloca(bytes);

    deep[0] = 0;
    check_stack_depth();
    deep[0] = 1; /* so that the bytes are held over the check */
}

/* An error, as the server has it where max_stack_depth would be passed, if a call that needs so many
 * bytes would pass it. The steps are shorter than what the system has beyond max_stack_depth, at least
 * 512 kB, so that no step touches what is not there. */
static void want_stack(size_t need)
{
    const size_t step = 256 * 1024;

    for (size_t bytes = Min(need, step); bytes < need; bytes = Min(need, bytes + step))
        check_depth(bytes);
    check_depth(need);
}

/* ---- Arguments and values ------------------------------------------------ */

struct bytes {
    const uint8_t *at;
    size_t length;
};

static struct bytes bytes_of(FunctionCallInfo fcinfo, int argument)
{
    bytea *given = PG_GETARG_BYTEA_PP(argument);

    return (struct bytes){(const uint8_t *)VARDATA_ANY(given), VARSIZE_ANY_EXHDR(given)};
}

static Datum new_bytea(const void *bytes, size_t length)
{
    bytea *made = palloc(VARHDRSZ + length);

    SET_VARSIZE(made, VARHDRSZ + length);
    memcpy(VARDATA(made), bytes, length);
    return PointerGetDatum(made);
}

static Datum new_cells(const char cells[9])
{
    return PointerGetDatum(cstring_to_text_with_len(cells, 9));
}

/* What was answered: a refusal, or a value; null beside no refusal if there is none, as the box of an
 * empty object. */
struct answer {
    sql_refusal_t refusal;
    bool is_null;
    Datum value;
};

static struct answer some(sql_refusal_t refusal, Datum value)
{
    return (struct answer){refusal, false, value};
}

static struct answer some_or_null(sql_refusal_t refusal, bool is_null, Datum value)
{
    return (struct answer){refusal, is_null, value};
}

/* The bytes that a call has written, whose room goes back. */
static struct answer written_to(uint8_t *room, size_t written, sql_refusal_t refusal)
{
    struct answer answer = some(refusal, refusal.number == 0 ? new_bytea(room, written) : (Datum)0);

    pfree(room);
    return answer;
}

/* ---- Refusals ------------------------------------------------------------ */

/* The text as a sentence. */
static char *sentence(const char *text)
{
    char *made = psprintf("%s.", text);

    made[0] = pg_toupper((unsigned char)made[0]);
    return made;
}

static void raise_refusal(sql_refusal_t refusal)
{
    const char tens = (char)('0' + refusal.number / 10 % 10), ones = (char)('0' + refusal.number % 10);
    const char *hint = sql_hint(refusal.number);
    char says[SQL_TEXT_ROOM], where[SQL_TEXT_ROOM];

    sql_says(refusal, says);
    sql_where(refusal, where);
    ereport(ERROR, (errcode(MAKE_SQLSTATE('2', '2', 'K', tens, ones)), errmsg("%s", says),
                    errdetail("%s", sentence(where)), hint != NULL ? errhint("%s", hint) : 0));
}

static Datum value_or_error(FunctionCallInfo fcinfo, struct answer answer)
{
    if (answer.refusal.number != 0)
        raise_refusal(answer.refusal);
    fcinfo->isnull = answer.is_null;
    return answer.value;
}

static Datum value_or_null(FunctionCallInfo fcinfo, struct answer answer)
{
    fcinfo->isnull = answer.is_null || answer.refusal.number != 0;
    return answer.value;
}

/* A function and its try_ form, of the question ask_NAME. The names in C are not the library's. */
#define FUNCTIONS(name)                                                                             \
    PG_FUNCTION_INFO_V1(karvoiss_sql_##name);                                                       \
    Datum karvoiss_sql_##name(PG_FUNCTION_ARGS)                                                     \
    {                                                                                               \
        return value_or_error(fcinfo, ask_##name(fcinfo));                                          \
    }                                                                                               \
    PG_FUNCTION_INFO_V1(karvoiss_sql_try_##name);                                                   \
    Datum karvoiss_sql_try_##name(PG_FUNCTION_ARGS)                                                 \
    {                                                                                               \
        return value_or_null(fcinfo, ask_##name(fcinfo));                                           \
    }

/* Number and place of the refusal that the question ask_NAME has; zeros if it has none. */
#define REFUSALS(name)                                                                              \
    PG_FUNCTION_INFO_V1(karvoiss_sql_##name##_number);                                              \
    Datum karvoiss_sql_##name##_number(PG_FUNCTION_ARGS)                                            \
    {                                                                                               \
        PG_RETURN_INT32((int32)ask_##name(fcinfo).refusal.number);                                  \
    }                                                                                               \
    PG_FUNCTION_INFO_V1(karvoiss_sql_##name##_place);                                               \
    Datum karvoiss_sql_##name##_place(PG_FUNCTION_ARGS)                                             \
    {                                                                                               \
        PG_RETURN_INT64((int64)ask_##name(fcinfo).refusal.place);                                   \
    }

PG_FUNCTION_INFO_V1(karvoiss_sql_words);
Datum karvoiss_sql_words(PG_FUNCTION_ARGS)
{
    const int32 number = PG_GETARG_INT32(0);
    const char *words = number > 0 ? sql_words((uint32_t)number) : NULL;

    if (words == NULL)
        PG_RETURN_NULL();
    PG_RETURN_TEXT_P(cstring_to_text(words));
}

/* ---- Objects ------------------------------------------------------------- */

static struct answer ask_object(FunctionCallInfo fcinfo)
{
    struct bytes wkb = bytes_of(fcinfo, 0);
    size_t written;

    want_stack(KARVOISS_READ_WKB_STACK);
    uint8_t *room = palloc(SQL_OBJECT_ROOM);
    sql_refusal_t refusal = sql_object(wkb.at, wkb.length, room, &written);

    return written_to(room, written, refusal);
}
FUNCTIONS(object)
REFUSALS(object)

static struct answer ask_summary(FunctionCallInfo fcinfo)
{
    struct bytes object = bytes_of(fcinfo, 0);
    uint8_t summary[SQL_SUMMARY_LENGTH];

    want_stack(KARVOISS_SUMMARY_STACK);
    sql_refusal_t refusal = sql_summary(object.at, object.length, summary);

    return some(refusal, new_bytea(summary, sizeof summary));
}
FUNCTIONS(summary)
REFUSALS(summary)

/* ---- Summaries ----------------------------------------------------------- */

/* A side of a summary's box. */
static struct answer ask_side(FunctionCallInfo fcinfo, int side)
{
    struct bytes summary = bytes_of(fcinfo, 0);
    bool has_one;
    int32_t box[4] = {0};
    sql_refusal_t refusal = sql_box(summary.at, summary.length, &has_one, box);

    return some_or_null(refusal, !has_one, Int32GetDatum(box[side]));
}

static struct answer ask_x_min(FunctionCallInfo fcinfo)
{
    return ask_side(fcinfo, SQL_X_MIN);
}
FUNCTIONS(x_min)

static struct answer ask_y_min(FunctionCallInfo fcinfo)
{
    return ask_side(fcinfo, SQL_Y_MIN);
}
FUNCTIONS(y_min)

static struct answer ask_x_max(FunctionCallInfo fcinfo)
{
    return ask_side(fcinfo, SQL_X_MAX);
}
FUNCTIONS(x_max)

static struct answer ask_y_max(FunctionCallInfo fcinfo)
{
    return ask_side(fcinfo, SQL_Y_MAX);
}
FUNCTIONS(y_max)

/* The same box as the server's own type has it, for its indexes. A coordinate is a float without loss. */
static struct answer ask_box(FunctionCallInfo fcinfo)
{
    struct bytes summary = bytes_of(fcinfo, 0);
    bool has_one;
    int32_t sides[4] = {0};
    sql_refusal_t refusal = sql_box(summary.at, summary.length, &has_one, sides);
    BOX *box = palloc(sizeof *box);

    *box = (BOX){.low = {sides[SQL_X_MIN], sides[SQL_Y_MIN]}, .high = {sides[SQL_X_MAX], sides[SQL_Y_MAX]}};
    return some_or_null(refusal, !has_one, BoxPGetDatum(box));
}
FUNCTIONS(box)

static sql_refusal_t far_of(FunctionCallInfo fcinfo, sql_far_t *far)
{
    struct bytes first = bytes_of(fcinfo, 0), second = bytes_of(fcinfo, 1);

    return sql_far(first.at, first.length, second.at, second.length, far);
}

static struct answer ask_far(FunctionCallInfo fcinfo)
{
    sql_far_t far;
    sql_refusal_t refusal = far_of(fcinfo, &far);

    return some(refusal, BoolGetDatum(!far.look));
}
FUNCTIONS(far)

static struct answer ask_far_cells(FunctionCallInfo fcinfo)
{
    sql_far_t far;
    sql_refusal_t refusal = far_of(fcinfo, &far);

    return some_or_null(refusal, far.look, new_cells(far.cells));
}
FUNCTIONS(far_cells)

static struct answer ask_far_vectors(FunctionCallInfo fcinfo)
{
    sql_far_t far;
    sql_refusal_t refusal = far_of(fcinfo, &far);

    return some_or_null(refusal, far.look, Int64GetDatum(far.vectors));
}
FUNCTIONS(far_vectors)

/* ---- Scenes -------------------------------------------------------------- */

/* sql_two_objects leaves at most two objects' bytes, so the sum is small. */
static struct answer ask_scene(FunctionCallInfo fcinfo)
{
    struct bytes first = bytes_of(fcinfo, 0), second = bytes_of(fcinfo, 1);

    want_stack(KARVOISS_SUMMARY_STACK);
    sql_refusal_t refusal = sql_two_objects(first.at, first.length, second.at, second.length);
    if (refusal.number != 0)
        return some(refusal, (Datum)0);

    bytea *scene = palloc(VARHDRSZ + first.length + second.length);

    SET_VARSIZE(scene, VARHDRSZ + first.length + second.length);
    memcpy(VARDATA(scene), first.at, first.length);
    memcpy(VARDATA(scene) + first.length, second.at, second.length);
    return some(refusal, PointerGetDatum(scene));
}
FUNCTIONS(scene)

static struct answer ask_split(FunctionCallInfo fcinfo)
{
    struct bytes scene = bytes_of(fcinfo, 0);
    size_t written;

    want_stack(KARVOISS_SPLIT_STACK);
    uint8_t *room = palloc(SQL_SCENE_ROOM);
    sql_refusal_t refusal = sql_split(scene.at, scene.length, room, &written);

    return written_to(room, written, refusal);
}
FUNCTIONS(split)
REFUSALS(split)

static sql_refusal_t cells_of(FunctionCallInfo fcinfo, char cells[9])
{
    struct bytes scene = bytes_of(fcinfo, 0);

    want_stack(KARVOISS_CELLS_STACK);
    return sql_cells(scene.at, scene.length, cells);
}

static struct answer ask_cells(FunctionCallInfo fcinfo)
{
    char cells[9];
    sql_refusal_t refusal = cells_of(fcinfo, cells);

    return some(refusal, new_cells(cells));
}
FUNCTIONS(cells)
REFUSALS(cells)

static struct answer ask_bits(FunctionCallInfo fcinfo)
{
    char cells[9];
    sql_refusal_t refusal = cells_of(fcinfo, cells);

    return some(refusal, Int32GetDatum((int32)sql_bits(cells)));
}
FUNCTIONS(bits)

static struct answer ask_relate(FunctionCallInfo fcinfo)
{
    struct bytes scene = bytes_of(fcinfo, 0);
    text *pattern = PG_GETARG_TEXT_PP(1);
    bool holds;

    want_stack(KARVOISS_RELATE_STACK);
    sql_refusal_t refusal = sql_relate(scene.at, scene.length, VARDATA_ANY(pattern), VARSIZE_ANY_EXHDR(pattern), &holds);

    return some(refusal, BoolGetDatum(holds));
}
FUNCTIONS(relate)

static struct answer ask_holds(FunctionCallInfo fcinfo, sql_predicate_t predicate)
{
    struct bytes scene = bytes_of(fcinfo, 0);
    bool holds;

    want_stack(KARVOISS_CELLS_STACK);
    sql_refusal_t refusal = sql_holds(predicate, scene.at, scene.length, &holds);

    return some(refusal, BoolGetDatum(holds));
}

#define PREDICATE(name, predicate)                                                                  \
    static struct answer ask_##name(FunctionCallInfo fcinfo)                                        \
    {                                                                                               \
        return ask_holds(fcinfo, predicate);                                                        \
    }                                                                                               \
    FUNCTIONS(name)

PREDICATE(equals, SQL_EQUALS)
PREDICATE(disjoint, SQL_DISJOINT)
PREDICATE(intersects, SQL_INTERSECTS)
PREDICATE(touches, SQL_TOUCHES)
PREDICATE(within, SQL_WITHIN)
PREDICATE(contains, SQL_CONTAINS)
PREDICATE(coveredby, SQL_COVERED_BY)
PREDICATE(covers, SQL_COVERS)
PREDICATE(crosses, SQL_CROSSES)
PREDICATE(overlaps, SQL_OVERLAPS)

static struct answer ask_vectors(FunctionCallInfo fcinfo)
{
    struct bytes scene = bytes_of(fcinfo, 0);
    int64_t vectors;

    want_stack(KARVOISS_VECTORS_STACK);
    sql_refusal_t refusal = sql_vectors(scene.at, scene.length, &vectors);

    return some(refusal, Int64GetDatum(vectors));
}
FUNCTIONS(vectors)

static struct answer ask_wanted_vectors(FunctionCallInfo fcinfo)
{
    struct bytes scene = bytes_of(fcinfo, 0);
    int64_t vectors;

    want_stack(KARVOISS_VECTORS_STACK);
    sql_refusal_t refusal = sql_wanted_vectors(scene.at, scene.length, PG_GETARG_INT32(1), PG_GETARG_INT32(2), &vectors);

    return some(refusal, Int64GetDatum(vectors));
}
FUNCTIONS(wanted_vectors)

static struct answer ask_area(FunctionCallInfo fcinfo, int which)
{
    struct bytes scene = bytes_of(fcinfo, 0);
    int64_t areas[3];

    want_stack(KARVOISS_AREAS_STACK);
    sql_refusal_t refusal = sql_areas(scene.at, scene.length, areas);

    return some(refusal, Int64GetDatum(areas[which]));
}

static struct answer ask_area_both(FunctionCallInfo fcinfo)
{
    return ask_area(fcinfo, SQL_BOTH);
}
FUNCTIONS(area_both)

static struct answer ask_area_f_only(FunctionCallInfo fcinfo)
{
    return ask_area(fcinfo, SQL_F_ONLY);
}
FUNCTIONS(area_f_only)

static struct answer ask_area_g_only(FunctionCallInfo fcinfo)
{
    return ask_area(fcinfo, SQL_G_ONLY);
}
FUNCTIONS(area_g_only)
