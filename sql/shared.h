/* shared.h: what the extensions for SQLite and for PostgreSQL have in common, free of both: each
 * refusal in words, two objects laid together as a scene, what is asked of a scene or of two
 * summaries as one value, and the named predicates of OGC Simple Features.
 *
 * All geometry is the library's. Nothing here keeps state or allocates, and any bytes of any length
 * may be passed. The stack of a call is that of the library's call that it makes, as karvoiss.h
 * states it, and less than 256 bytes more.
 */
#ifndef KARVOISS_SQL_SHARED_H
#define KARVOISS_SQL_SHARED_H

#include "karvoiss.h"

/* Bytes that are enough for any object, and for any scene. */
enum { SQL_OBJECT_ROOM = 19459, SQL_SCENE_ROOM = 2 * SQL_OBJECT_ROOM, SQL_SUMMARY_LENGTH = 20 };

/* ---- Refusals ------------------------------------------------------------ */

/* Whether a question was refused: number 0 if not. `of` says what the bytes are that the place is
 * counted in, as "scene", and is null where the place says nothing; `value` is the number that was
 * read beside 25. */
typedef struct {
    uint32_t number;
    size_t place;
    const char *of;
    double value;
} sql_refusal_t;

/* Room that is enough for each of the two texts below, the zero at the end included. */
enum { SQL_TEXT_ROOM = 160 };

/* What is wrong, as "a ring's last point is not its first"; with 25 the number that was read. */
void sql_says(sql_refusal_t refusal, char text[SQL_TEXT_ROOM]);

/* Its number and place, as "refusal 26 at byte 18 of the well-known binary". */
void sql_where(sql_refusal_t refusal, char text[SQL_TEXT_ROOM]);

/* What is wrong, in the same words whatever was read; null for a number that no refusal has. */
const char *sql_words(uint32_t number);

/* What can be done about it; null for a number that no refusal has. */
const char *sql_hint(uint32_t number);

/* ---- Objects and scenes -------------------------------------------------- */

/* Whether two byte strings are an object each by their records: a type record, at most 1,024
 * elements of its kind, an end record, and nothing after it. Then one after the other they are the
 * bytes of a scene of these two and no others, which whoever is asked about it checks. Otherwise the
 * refusal that karvoiss_summary has; its place is counted in the two byte strings together. */
sql_refusal_t sql_two_objects(const uint8_t *first, size_t first_length, const uint8_t *second,
                              size_t second_length);

/* Is there an object, a summary, a scene? The refusals of karvoiss_read_wkb for any room that is
 * enough, of karvoiss_summary, of karvoiss_cells and of karvoiss_split. `object` has
 * SQL_OBJECT_ROOM bytes, `split` SQL_SCENE_ROOM, `summary` 20; what is written to them is given
 * its length beside no refusal. */
sql_refusal_t sql_object(const uint8_t *wkb, size_t length, uint8_t *object, size_t *written);
sql_refusal_t sql_summary(const uint8_t *object, size_t length, uint8_t summary[SQL_SUMMARY_LENGTH]);
sql_refusal_t sql_split(const uint8_t *scene, size_t length, uint8_t *split, size_t *written);

/* ---- Questions about a scene --------------------------------------------- */

/* The nine cells, row by row: II, IB, IE, BI, BB, BE, EI, EB, EE. No zero is put after them. */
sql_refusal_t sql_cells(const uint8_t *scene, size_t length, char cells[9]);

/* The cells that are not empty, as bits: II 1, IB 2, IE 4, BI 8, BB 16, BE 32, EI 64, EB 128, EE 256. */
uint32_t sql_bits(const char cells[9]);

sql_refusal_t sql_relate(const uint8_t *scene, size_t length, const char *pattern,
                         size_t pattern_length, bool *holds);

/* F's vector, and G's times 65,536. Without masks all flags of the pair of types are wanted. With
 * them those that they name; a mask below 0 or above 65,535 names a bit that has no flag. */
sql_refusal_t sql_vectors(const uint8_t *scene, size_t length, int64_t *vectors);
sql_refusal_t sql_wanted_vectors(const uint8_t *scene, size_t length, int64_t want_f, int64_t want_g,
                                 int64_t *vectors);

/* Twice the area in both, in F only and in G only. */
enum { SQL_BOTH, SQL_F_ONLY, SQL_G_ONLY };
sql_refusal_t sql_areas(const uint8_t *scene, size_t length, int64_t areas[3]);

/* The named predicates, by the header's table of patterns: each is decided from the nine cells. */
typedef enum {
    SQL_EQUALS,
    SQL_DISJOINT,
    SQL_INTERSECTS,
    SQL_TOUCHES,
    SQL_WITHIN,
    SQL_CONTAINS,
    SQL_COVERED_BY,
    SQL_COVERS,
    SQL_CROSSES,
    SQL_OVERLAPS,
    SQL_PREDICATES
} sql_predicate_t;

/* In small letters, as "coveredby". */
extern const char *const sql_predicate_names[SQL_PREDICATES];

sql_refusal_t sql_holds(sql_predicate_t predicate, const uint8_t *scene, size_t length, bool *holds);

/* ---- Questions about summaries ------------------------------------------- */

/* The box of a summary; an empty object has none. */
enum { SQL_X_MIN, SQL_Y_MIN, SQL_X_MAX, SQL_Y_MAX };
sql_refusal_t sql_box(const uint8_t *summary, size_t length, bool *has_one, int32_t box[4]);

/* What two summaries tell: `look`, or both vectors as sql_vectors has them and the nine cells. */
typedef struct {
    bool look;
    int64_t vectors;
    char cells[9];
} sql_far_t;

sql_refusal_t sql_far(const uint8_t *first, size_t first_length, const uint8_t *second,
                      size_t second_length, sql_far_t *far);

#endif
