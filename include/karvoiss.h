/* karvoiss.h: how two shapes lie to each other, exactly.
 *
 * A scene is a byte string of two objects, F then G. Each is points, a line or
 * a region, and either type may come first. The functions below read a scene and
 * answer a question about it, in the scene's order: what is said of F is said of
 * the object that the bytes have first. Two more make the summary of an object, and
 * say what two of these tell; two read an object from well-known binary, and
 * write it so; one splits two objects that cross into a scene; and two answer the
 * vectors question in portions, so that it may be put down. All are total: any
 * bytes of any length may be passed, nothing need be tested beforehand. They keep no
 * state, allocate nothing, and may be called from several threads at once. The bytes
 * passed are only read, but for the buffers of karvoiss_overlap, karvoiss_read_wkb,
 * karvoiss_write_wkb, karvoiss_split and karvoiss_walk_begin.
 *
 * `scene` points to `length` bytes; it may be null where `length` is 0.
 *
 * Two calls for map viewers take no scene: karvoiss_estimate and
 * karvoiss_in_window.
 *
 * Scene bytes
 * -----------
 * A record is one byte of kind and a body. Coordinates are signed 32-bit, low
 * byte first, from -10,000,000 to 10,000,000.
 *
 *   kind  body
 *   84    type: 1 byte: 1 points, 2 line, 3 region
 *   80    point: x, y
 *   76    line halfsegment: left x, left y, right x, right y, d (1 byte)
 *   82    region halfsegment: as 76, then ia (1 byte)
 *   69    end
 *
 * An object is a type record, 0 to 1,024 elements of its kind, and an end
 * record. A scene is two objects and no more, of any types in either order. One
 * object's bytes alone, which karvoiss_summary and karvoiss_write_wkb take and
 * karvoiss_read_wkb gives, are those that it has in a scene: two objects' bytes one
 * after the other are a scene.
 * Points are ordered by x, then y. A segment's left end comes before its right
 * end. It is stored as two halfsegments: d = 1, whose dominating point is the
 * left end, and d = 0, whose dominating point is the right end. Elements are
 * in strict order: by dominating point; at one point, right (d = 0) before left
 * (d = 1); on the same side, h before k where k's far end is strictly to the left
 * of the ray from the dominating point through h's far end. ia is 1 where the
 * region's interior is above the segment, or left of it if it is vertical.
 * Crossings are split beforehand: two segments share only common ends. Where those of F
 * and G do not, karvoiss_split splits them.
 *
 * Refusals
 * --------
 * Every result has a number and a place. Number 0: the scene was taken. Any
 * other number: it was turned away, every other result is 0, but each cell 'F' and
 * the number that was read beside 25, and `place` is a byte offset in the scene, the
 * object or the well-known binary as it was passed: the record or field at fault, the
 * earliest if several. Of a pair of records it is the earlier one, but for 10 the
 * later; so for 15 it is F's, the object's that comes first. For 23 it is a
 * position in the pattern.
 *
 *   1  bytes end before a record or inside it
 *   2  kind not allowed here
 *   3  type not 1 to 3; d or ia not 0 or 1
 *   4  coordinate outside the range
 *   5  left end not before right end
 *   6  element 1,025 of an object
 *   7  bytes after the second end
 *   8  never occurs since 0.3.0; before, F's type above G's
 *   9  a wanted bit has no flag (place 0; karvoiss_vectors and karvoiss_walk_begin
 *      only)
 *  10  element not strictly after the one before
 *  11  halfsegment with no partner of opposite d, equal ends and ia
 *  12  two segments of one object share a point that is not an end of both
 *  13  a region's end belongs to an odd number of its segments
 *  14  wrong ia
 *  15  unequal segments of F and G share a point that is not an end of both
 *  16  a type is not 3: the first such type record (karvoiss_overlap and
 *      karvoiss_areas only)
 *  17  the buffer is shorter than the count (place 0; karvoiss_overlap only)
 *  18  a bad summary (place is its index, from 0; karvoiss_far and
 *      karvoiss_in_window only)
 *  19  segments of F and G cross at a point that is not on the grid: F's record
 *      (karvoiss_split only)
 *  20  more than 1,024 points or 512 segments (place 0; karvoiss_read_wkb); an object
 *      that would have more than 1,024 elements once split, at its type record
 *      (karvoiss_split)
 *  21  the buffer is shorter than what is written (place 0; karvoiss_read_wkb,
 *      karvoiss_write_wkb, karvoiss_split and karvoiss_walk_begin only)
 *  22  the pattern has not nine characters (place 0; karvoiss_relate only)
 *  23  a character is none of T, F, *, 0, 1, 2: the position of the first
 *      such, from 0 (karvoiss_relate only)
 *  24  a field of well-known binary that is cut, has no allowed value or is left
 *      over (karvoiss_read_wkb); a region, which is not written (place 0;
 *      karvoiss_write_wkb); a walk's state that does not fit its ground (place 0;
 *      karvoiss_walk_portion)
 *  25  a coordinate that is not a whole number in range (karvoiss_read_wkb only)
 *  26  an open ring, at its count (karvoiss_read_wkb only)
 *  27  not a window (place 0; karvoiss_in_window only)
 *  28  more than 64 summaries (place 0; karvoiss_in_window only)
 *
 * 1 to 7 are found record by record; then 9 to 23 in this order, each over the
 * whole scene. karvoiss_summary has 1 to 7 and 10 to 14 over one object's bytes, 7
 * being bytes after its end; karvoiss_far has 18 alone, and
 * karvoiss_in_window 27, 28 and 18, in this order. karvoiss_read_wkb has 24, 25 and
 * 26, the earliest byte first, then 20, 10, 12, 13 and 21, each at place 0, and
 * karvoiss_write_wkb those of karvoiss_summary, then 24 and 21. karvoiss_split has 1 to 7,
 * 10 to 14, then 19, 20 and 21. karvoiss_walk_begin has those of karvoiss_vectors,
 * then 21, and karvoiss_walk_portion 24 alone. A number that is not in the table never
 * occurs.
 *
 * Since 0.3.0 either type may come first. Before, a scene whose first type was
 * above its second was refused with 8, and a caller had to exchange the objects
 * and to turn the answer. Scenes that were taken before have the answers that
 * they had.
 *
 * Since 0.11.0 coordinates run to 10,000,000 on either side of 0, in scenes and
 * in summaries; before, to 1,000,000, and what lies between was refused with 4,
 * in a summary with 18. What was taken before has the answer that it had.
 * karvoiss_estimate keeps 1,000,000.
 */
#ifndef KARVOISS_H
#define KARVOISS_H

#include <stdbool.h>
#include <stddef.h>
#include <stdint.h>

#ifdef __cplusplus
extern "C" {
#endif

/* The stack that each call needs at most, in bytes. No call recurses, and each
 * was measured on scenes of full size, of every pair of types in either order,
 * to need about 6,000 bytes, karvoiss_summary 25,520, since it copies its object,
 * karvoiss_far 160, karvoiss_estimate 40, karvoiss_in_window 216 and
 * karvoiss_walk_portion 329; karvoiss_read_wkb 104,328 and karvoiss_write_wkb 46,376,
 * since they build and check an object, and karvoiss_split 332,392; the numbers leave
 * room for other compilers.
 */
#define KARVOISS_VECTORS_STACK 11200
#define KARVOISS_CELLS_STACK 11200
#define KARVOISS_RELATE_STACK 11200
#define KARVOISS_OVERLAP_STACK 11200
#define KARVOISS_AREAS_STACK 11200
#define KARVOISS_SUMMARY_STACK 51200
#define KARVOISS_FAR_STACK 400
#define KARVOISS_ESTIMATE_STACK 256
#define KARVOISS_IN_WINDOW_STACK 512
#define KARVOISS_READ_WKB_STACK 334000
#define KARVOISS_WRITE_WKB_STACK 93000
#define KARVOISS_SPLIT_STACK 614400
#define KARVOISS_WALK_BEGIN_STACK 11200
#define KARVOISS_WALK_PORTION_STACK 1024

/* The topological feature vectors of F and G.
 *
 * A flag is set exactly if some element as named exists. Bits by the types of
 * F and G, bit 0 first:
 *
 *   1, 1  f: poi_disjoint, poi_shared
 *         g: poi_disjoint
 *   1, 2  f: poi_disjoint, poi_on_interior, poi_on_bound
 *         g: bound_poi_disjoint
 *   1, 3  f: poi_inside, poi_on_bound, poi_outside
 *         g: none
 *   2, 2  f: seg_shared, interior_poi_shared, seg_unshared, bound_on_interior,
 *            bound_shared, bound_disjoint
 *         g: seg_unshared, bound_on_interior, bound_disjoint
 *   2, 3  f: seg_inside, seg_shared, seg_outside, poi_shared, bound_inside,
 *            bound_shared, bound_disjoint
 *         g: seg_unshared
 *   3, 3  f: (0/1), (1/0), (1/2), (2/1), (0/2), (2/0), (1/1), bound_poi_shared
 *         g: (0/1), (1/0), (1/2), (2/1)
 *
 * With the higher type first each object has the flags that it has above, and
 * its vector stands where it stands:
 *
 *   2, 1  f: bound_poi_disjoint
 *         g: poi_disjoint, poi_on_interior, poi_on_bound
 *   3, 1  f: none
 *         g: poi_inside, poi_on_bound, poi_outside
 *   3, 2  f: seg_unshared
 *         g: seg_inside, seg_shared, seg_outside, poi_shared, bound_inside,
 *            bound_shared, bound_disjoint
 *
 * (m/n) is a segment with m of the two interiors below it and n above it, right
 * and left of it if it is vertical. A line's boundary points are the ends at
 * which an odd number of its segments end, as in OGC Simple Features: so the
 * end of three segments is one. Before 0.4.0 they were the ends of exactly one.
 *
 * want_f and want_g say which flags are wanted: flag k of F exactly if bit k of
 * want_f is set, and G's by want_g. A flag that is not wanted is 0, and a bit
 * that has no flag is refused with number 9. The flags of one call are those of
 * a call that wants all, under the two masks.
 *
 * Since 0.2.0 two zeros want nothing: of a scene that is taken both vectors are
 * 0, and the call costs its checks alone. Before, two zeros stood for all
 * flags. To ask for all flags, name those of the pair (65535 is refused with 9):
 *
 *   types  want_f  want_g
 *   1, 1        3       1
 *   1, 2        7       1
 *   1, 3        7       0
 *   2, 2       63       7
 *   2, 3      127       1
 *   3, 3      255      15
 *   2, 1        1       7
 *   3, 1        0       7
 *   3, 2        1     127
 *
 * An object's type is the second byte of its record of kind 84.
 */
typedef struct {
    uint32_t number;
    size_t place;
    uint16_t f;
    uint16_t g;
} karvoiss_vectors_t;

karvoiss_vectors_t karvoiss_vectors(const uint8_t *scene, size_t length,
                                    uint16_t want_f, uint16_t want_g);

/* The nine-intersection matrix: cell[r][c] says what the points amount to that lie
 * in part r of F and in part c of G. Parts: 0 interior, 1 boundary, 2 exterior. A
 * cell has one of four signs, characters as in OGC's DE-9IM strings; the nine of
 * them, row by row, are such a string.
 *
 *   'F'  70  empty: no point
 *   '0'  48  a finite number of points, and at least one
 *   '1'  49  all points of some segment of non-zero length, but of no triangle
 *            with area
 *   '2'  50  all points of some triangle with area
 *
 * Points, and the ends and corners of such segments and triangles, have fraction
 * coordinates, on the grid or off it. Each cell is exactly one of the four. Two
 * strips that share a fence have '1' in cell[1][1], and two that share a corner post
 * '0'. cell[2][2] of a scene that is taken is always '2'. With F and G exchanged,
 * cell[r][c] is what cell[c][r] was. A refusal has nine 'F'.
 *
 * Since 0.6.0. Before, a cell was a bool: true where it is '0', '1' or '2' now, and
 * false where it is 'F'. No cell is 0, so each of the four is true to C: who wrote
 * `if (m.cell[r][c])`, or compared a cell with true or false, must compare it with
 * 'F'. The struct has the size that it had, so a program that was compiled with an
 * older header links and goes wrong: compile it again.
 */
typedef struct {
    uint32_t number;
    size_t place;
    uint8_t cell[3][3];
} karvoiss_cells_t;

karvoiss_cells_t karvoiss_cells(const uint8_t *scene, size_t length);

/* Does an OGC relate pattern hold? Since 0.5.0.
 *
 * `pattern` points to `pattern_length` bytes, which are only read; it may be null
 * where `pattern_length` is 0. A pattern has nine characters, for the cells row by
 * row: II, IB, IE, BI, BB, BE, EI, EB, EE, rows by the part of F, columns by the
 * part of G (interior, boundary, exterior). F, 0, 1, 2: the cell has this sign, as
 * karvoiss_cells has it. T: any sign but F. *: any sign. `holds` is true exactly if
 * all nine cells fit. Small letters are refused with 23, and before 0.6.0 the digits
 * were. No terminating zero is asked for; if one is counted in, the pattern has ten
 * characters and is refused.
 *
 * A pattern that is refused is refused also where a cell misfits, and the scene
 * is always checked whole: of a scene that is turned away number and place are
 * those of karvoiss_cells, whatever the pattern. A call never takes more than
 * karvoiss_cells in flags: only those that the cells without * are read off are
 * looked for. `*********` costs the checks alone, and so does F for EE, which is
 * always 2.
 *
 * The named predicates of OGC Simple Features as patterns, by the types of F and
 * G; where several stand, any of them:
 *
 *   equals      any types        T*F**FFF*
 *   disjoint    any types        FF*FF****
 *   intersects  any types        T********  *T*******  ***T*****  ****T****
 *   touches     any but 1, 1     FT*******  F**T*****  F***T****
 *   within      any types        T*F**F***
 *   contains    any types        T*****FF*
 *   coveredBy   any types        T*F**F***  *TF**F***  **FT*F***  **F*TF***
 *   covers      any types        T*****FF*  *T****FF*  ***T**FF*  ****T*FF*
 *   crosses     1,2 1,3 2,3      T*T******
 *               2,1 3,1 3,2      T*****T**
 *               2,2              0********
 *   overlaps    1,1 3,3          T*T***T**
 *               2,2              1*T***T**
 *
 * Other pairs of types never cross or overlap, and points never touch points. Two
 * empty objects are disjoint, and equal by no pattern.
 */
typedef struct {
    uint32_t number;
    size_t place;
    bool holds;
} karvoiss_relate_t;

karvoiss_relate_t karvoiss_relate(const uint8_t *scene, size_t length,
                                  const uint8_t *pattern, size_t pattern_length);

/* The overlap list of two regions: each different segment, in the order of left
 * halfsegments, gives one byte 3m + n. m is the number of regions whose interior
 * adjoins it below (right, if it is vertical), n above (left).
 *
 * `list` points to `room` bytes that the list is written to; it may be null where
 * `room` is 0, and must not overlap the scene. Taken: the first `count` bytes are
 * the list and later bytes are as they were. Refused: `count` is 0 and all bytes
 * are as they were. 1,024 bytes are enough for any scene: two regions of 512
 * segments each.
 */
typedef struct {
    uint32_t number;
    size_t place;
    size_t count;
} karvoiss_overlap_t;

karvoiss_overlap_t karvoiss_overlap(const uint8_t *scene, size_t length,
                                    uint8_t *list, size_t room);

/* Shared and separate ground of two regions, in whole numbers: twice the area in
 * both, in F only, and in G only. They are exact. `both` and `f_only` sum to
 * twice F's own area, `both` and `g_only` to twice G's. With F and G exchanged,
 * `f_only` is what `g_only` was.
 *
 * Refused, with 16 last (at the first type record that is not 3): all three are
 * 0. Since 0.10.0.
 */
typedef struct {
    uint32_t number;
    size_t place;
    int64_t both;
    int64_t f_only;
    int64_t g_only;
} karvoiss_areas_t;

karvoiss_areas_t karvoiss_areas(const uint8_t *scene, size_t length);

/* The summary of one object, to be kept beside it: most pairs lie far apart, and two
 * summaries tell that without the outlines (karvoiss_far). Since 0.7.0.
 *
 * `object` points to the `length` bytes of one object; it may be null where `length`
 * is 0. Taken: `record` holds the summary. Refused, with 1 to 7 or 10 to 14:
 * `record` holds 20 zeros. A summary is a record of kind 83:
 *
 *   byte 0       83
 *   byte 1       the type: 1 points, 2 line, 3 region
 *   byte 2       1 if the object is empty, else 0
 *   bytes 3-6    least x      of all points and all ends of segments; signed 32-bit,
 *   bytes 7-10   least y      low byte first; four zeros if the object is empty
 *   bytes 11-14  greatest x
 *   bytes 15-18  greatest y
 *   byte 19      1 if the object's boundary has a point, else 0
 *
 * Points have no boundary. A line's boundary has a point exactly if there is an end at
 * which an odd number of its segments end, so a closed line's has none. A region's has
 * one exactly if it is not empty. The line (-1,2)-(3,-4) has the summary
 *
 *   53 02 00 ff ff ff ff fc ff ff ff 03 00 00 00 02 00 00 00 01   (hexadecimal)
 */
typedef struct {
    uint32_t number;
    size_t place;
    uint8_t record[20];
} karvoiss_summary_t;

karvoiss_summary_t karvoiss_summary(const uint8_t *object, size_t length);

/* What two summaries tell: both vectors with all flags of the pair of types, or that
 * the outlines must be looked at. Since 0.7.0.
 *
 * `first` and `second` point to the two summaries; either may be null where its
 * length is 0. If the boxes share no point, or an object is empty, `look` is false,
 * and `f` and `g` are the first's vector and the second's: of two objects that form
 * an accepted scene, what karvoiss_vectors gives for it with all flags wanted. Two
 * accepted objects whose boxes share no point always form one. Otherwise `look` is
 * true, both vectors are 0, and a scene of the two must be asked about. Boxes that
 * touch at an edge or at a corner share a point; the four zeros of an empty object
 * are no box.
 *
 * A bad summary is refused with 18 before anything else, place 0 if the first is bad
 * and 1 if the second is and the first is not; `look` is false then and both vectors
 * are 0. A summary is bad exactly if no accepted object has it:
 *
 *   its length is not 20, or byte 0 is not 83
 *   the type is not 1 to 3; byte 2 or byte 19 is not 0 or 1
 *   a coordinate is below -10,000,000 or above 10,000,000
 *   a least coordinate is above its greatest
 *   empty:   a coordinate that is not 0, or byte 19 is 1
 *   points, not empty:  byte 19 is 1
 *   line, not empty:    the box is one point; or it is flat, and byte 19 is 0
 *   region, not empty:  the box is flat; or byte 19 is 0
 *
 * Flat: least and greatest x are equal, or least and greatest y are. A summary that
 * karvoiss_summary made is never bad; the 20 zeros that it has beside a refusal are.
 *
 * The vectors of far objects, by what an object is beside the other's type. An empty
 * object has vector 0. "ends" is a line whose boundary has a point, byte 19.
 *
 *               beside points            beside a line             beside a region
 *   points      1 poi_disjoint           1 poi_disjoint            4 poi_outside
 *   line        0                        4 seg_unshared, or 1 (*)  4 seg_outside
 *   line, ends  1 bound_poi_disjoint     36 bound_disjoint too,    68 bound_disjoint
 *                                        or 5 (*)                  too
 *   region      0                        1 seg_unshared            3 (0/1), (1/0)
 *
 *   (*) of two lines the first has 4 or 36, the second 1 or 5
 *
 * The cells of a pair that is far follow from the types, from which object is empty,
 * and from the vectors: what of an object is not empty lies in the other's exterior.
 * Row by row they are the signs
 *
 *   F F i   F F b   j c 2
 *
 * with i, b for the interior and the boundary of the first, j, c for those of the
 * second:
 *
 *                                                         i or j  b or c
 *   empty                                                   F       F
 *   points                                                  0       F
 *   line whose vector has no bound_.. flag                  1       F
 *   line whose vector has bound_.. set: byte 19 is 1        1       0
 *   region                                                  2       1
 *
 * So a region and a line with ends, far apart, have FF2FF1102, a closed line and no
 * points FF1FFFFF2, and two empty objects FFFFFFFF2.
 */
typedef struct {
    uint32_t number;
    size_t place;
    bool look;
    uint16_t f;
    uint16_t g;
} karvoiss_far_t;

karvoiss_far_t karvoiss_far(const uint8_t *first, size_t first_length,
                            const uint8_t *second, size_t second_length);

/* Well-known binary (OGC WKB), as survey packages export it, into one object. Since
 * 0.12.0.
 *
 * `wkb` points to `length` bytes, which are only read; it may be null where `length`
 * is 0. `object` points to `room` bytes that the object is written to; it may be null
 * where `room` is 0, and must not overlap `wkb`. Taken: `length` of the result is the
 * object's, its bytes are the first ones of the buffer, and later bytes are as they
 * were. Refused: `length` is 0 and all bytes are as they were. 19,459 bytes are enough
 * for any object: 9,219 for points, 18,435 for a line.
 *
 * Read are MultiPoint, which becomes points, MultiLineString, a line, and
 * MultiPolygon, a region:
 *
 *   whole    order, type (4, 5 or 6), count, and so many parts; nothing after
 *   part     of 4: order, type (1), point
 *            of 5: order, type (2), count, and so many points
 *            of 6: order, type (3), count, and so many rings
 *   ring     count, and so many points
 *   point    x, y
 *
 *   order    1 byte: 0 high byte first, 1 low byte first; for its own type, counts
 *            and points: each part has an order of its own
 *   type     4 bytes, unsigned, and so is a count
 *   x, y     8 bytes: a 64-bit float
 *
 * A coordinate is a whole number from -10,000,000 to 10,000,000; -0.0 is 0. Two
 * neighbours in a part or ring that are not equal are a segment. Equal points and
 * equal segments, in either direction, are taken once, in regions too: two polygons
 * with a side in common have it once, and are refused with 13. A part of no points
 * and a polygon of no rings add nothing. Which ring is a hole follows from how the
 * rings lie, by the rule of odd counts, and ia is set accordingly. Segments that
 * cross are not split.
 *
 *  24  at the first byte of a field (an order, a type, a count, an x or a y) that is
 *      cut or missing (a missing one is at `length`), has no allowed value, or is left
 *      over. So, at their type, are single geometries and collections, and any with Z,
 *      M or SRID; and, at their count, a part of one point and a ring of fewer than
 *      four, none included
 *  25  at an x or a y that is not a whole number in range. `value` is the number that
 *      was read; of a NaN only that it is one: sign and payload are not kept
 *  26  at the count of a ring whose last point is not its first, compared as numbers:
 *      0.0 and -0.0 are equal, a NaN is equal to none. A ring that is cut before its
 *      last point ends is never refused with 26
 *  20  more than 1,024 different points, or 512 different segments
 *  10  two segments in one line have a common left end, or a common right end, as
 *      (0,0)-(2,0) and (0,0)-(4,0)
 *  12  two segments share a point that is not an end of both
 *  13  a region's end belongs to an odd number of its segments
 *  21  the buffer is shorter than the object
 *
 * 24, 25 and 26 by the earliest byte, 24 before 26 at one byte: so an open ring goes
 * before whatever is wrong inside it. The others after these, in this order, each at
 * place 0. `value` is 0 but for 25.
 */
typedef struct {
    uint32_t number;
    size_t place;
    size_t length;
    double value;
} karvoiss_read_wkb_t;

karvoiss_read_wkb_t karvoiss_read_wkb(const uint8_t *wkb, size_t length,
                                      uint8_t *object, size_t room);

/* One object, points or a line, as well-known binary. Since 0.12.0.
 *
 * `object` points to the `length` bytes of one object, which are only read; it may be
 * null where `length` is 0. `wkb` points to `room` bytes that are written to; it may be
 * null where `room` is 0, and must not overlap `object`. Taken: the first `length` of
 * the result are written and later bytes are as they were. Refused: `length` is 0 and
 * all bytes are as they were. 21,513 bytes are enough for any object: n points take
 * 9 + 21 n, n segments 9 + 41 n.
 *
 * Points are written as MultiPoint, and a line as MultiLineString with a part of two
 * points for each segment, left end first; low byte first throughout, in the order of
 * the elements. karvoiss_read_wkb makes the same object of it, byte for byte.
 *
 * Refused are what karvoiss_summary refuses, with the same number and place; then a
 * region, an empty one too, with 24, and a buffer that is too short with 21, both at
 * place 0.
 */
typedef struct {
    uint32_t number;
    size_t place;
    size_t length;
} karvoiss_write_wkb_t;

karvoiss_write_wkb_t karvoiss_write_wkb(const uint8_t *object, size_t length,
                                        uint8_t *wkb, size_t room);

/* A raw pair, two objects whose segments cross, touch or overlap, as a scene. Since
 * 0.13.0.
 *
 * `scene` points to `length` bytes, which are only read; it may be null where `length`
 * is 0. `split` points to `room` bytes that the scene is written to; it may be null
 * where `room` is 0, and must not overlap `scene`. Taken: `length` of the result is the
 * written scene's, its bytes are the first ones of the buffer, and later bytes are as
 * they were. Refused: `length`, `added_f` and `added_g` are 0 and all bytes are as they
 * were. 38,918 bytes are enough for any pair.
 *
 * Taken are two objects, in either order, that a scene may have but for 15: lines or
 * regions that are sound each by itself, however they meet. Each segment is cut at
 * every point, but its own ends, at which a segment of the other object crosses it or
 * ends on it; so a stretch in common is cut at both its ends. Nothing else is cut. A
 * piece of a region's segment has the ia of the segment. What is written is a scene that
 * every call takes, in the order of elements that all scenes have. Every point lies in the
 * interior, the boundary or the exterior of each object as it did, and twice each
 * region's area, by the shoelace sum, is what it was.
 *
 * `added_f` and `added_g` are the segments, not halfsegments, that F and G have more than
 * before: an object's number of cuts, each counted once however many segments meet there.
 * A scene that is split comes out as it is, with 0 and 0. So does one that holds
 * points, which have nothing to cut.
 *
 * Every segment of the one is held against every segment of the other: two objects of
 * full size take two to five milliseconds, the most where all of their segments cross or
 * start from one point.
 *
 * Refused are what karvoiss_cells refuses, but for 15, with the same number and place; then
 *
 *  19  a segment of F and one of G cross at a point whose x or y is not a whole number:
 *      at the earliest record of such a segment in F, the object that comes first
 *  20  more than 1,024 elements, 512 segments, of an object once split: at the type
 *      record of the first such object
 *  21  the buffer is shorter than the scene that is written (place 0)
 *
 * in this order, each over the whole pair. Objects that are read by karvoiss_read_wkb
 * and laid one after the other are such a pair, unless they cross off the grid.
 */
typedef struct {
    uint32_t number;
    size_t place;
    size_t added_f;
    size_t added_g;
    size_t length;
} karvoiss_split_t;

karvoiss_split_t karvoiss_split(const uint8_t *scene, size_t length,
                                uint8_t *split, size_t room);

/* A walk that may be put down: the vectors question in portions. Since 0.14.0.
 *
 * karvoiss_walk_begin checks a scene as karvoiss_vectors does, with the same masks and
 * the same refusals, and then 21; it takes no event yet. karvoiss_walk_portion takes as
 * many events as `events` says, or all that remain, and hands the walk's state back.
 *
 *     walk = karvoiss_walk_begin(scene, length, want_f, want_g, ground, sizeof ground);
 *     while (walk.number == 0 && !walk.done)
 *         walk = karvoiss_walk_portion(ground, sizeof ground, walk, 64);
 *
 * An event is an element of either object, in the order of elements, of both objects
 * merged: an element that both have is one event, halfsegments by their ends and d alone.
 * A point is never equal to a halfsegment, and comes after those whose dominating point it
 * is. Taking a point sets its flags; taking a left halfsegment those of its segment; taking
 * any halfsegment those of its dominating point. So a wanted flag is clear until an event of
 * some witness is taken, and set once all events of one are. `f` and `g` are the wanted
 * flags that are set so far, in the order of the objects in the scene. `done` is 1 exactly
 * if no event remains, even where all wanted flags are set before; `f` and `g` are then
 * those of karvoiss_vectors. A scene of n events in portions of k is done after n / k
 * calls, rounded up; one without events at the beginning. A portion of zero events, or one
 * after the end, gives the state back as it is, and portions add up: where a walk stands
 * depends on the scene, the masks and the number of events taken, and on nothing else.
 *
 * `ground` points to `room` bytes, in which the beginning lays the events: four bytes each,
 * what taking it sets. That is the walk's own copy of all that it asks of the scene, whose
 * bytes may go. The buffer must have four bytes for each element of both objects, though
 * events may be fewer, or it is refused with 21; KARVOISS_WALK_ROOM bytes are always enough.
 * It may be null where `room` is 0, and must not overlap `scene`. Refused: all bytes are as
 * they were. Taken: those behind the last event are. Portions only read it, so several walks
 * may share it, and an earlier state may be gone back to: a state is a value.
 *
 * Neither ground nor state need be tested, whatever they are. A state with a number above 0
 * comes back as it is. One that karvoiss_walk_begin and karvoiss_walk_portion did not make,
 * or over another ground, is refused with 24 at 0 where it does not fit the ground: where a
 * type is not 1 to 3, where it has more events than 2,048 or than the ground has four bytes
 * for, or more are taken than there are. All other fields are then 0. Else it takes what stands
 * in the ground. The fields after `done` are for the next portion: the types and masks as the
 * scene and the caller have them, whether the first type is above the second, how many
 * events there are and how many are taken.
 *
 * A portion costs what its events cost, some 2 nanoseconds each: none looks at an object. The
 * beginning takes what karvoiss_vectors takes, or a little more.
 *
 * Since 0.15.0 the ground has the events. In 0.14.0 it was the scene's bytes and 2,048 more, so
 * KARVOISS_WALK_ROOM was 40,966; a state had nine numbers of the scene, and was refused with 24
 * at a record of the ground that was at fault. Who calls as above is only built again.
 */
typedef struct {
    uint32_t number;
    size_t place;
    uint16_t f;
    uint16_t g;
    uint8_t done;
    uint8_t type_f;
    uint8_t type_g;
    uint8_t turned;
    uint16_t want_f;
    uint16_t want_g;
    size_t events;
    size_t taken;
} karvoiss_walk_t;

#define KARVOISS_WALK_ROOM 8192

karvoiss_walk_t karvoiss_walk_begin(const uint8_t *scene, size_t length,
                                    uint16_t want_f, uint16_t want_g,
                                    uint8_t *ground, size_t room);

karvoiss_walk_t karvoiss_walk_portion(const uint8_t *ground, size_t length,
                                      karvoiss_walk_t walk, size_t events);

/* The side of a point c against the segment from a to b, estimated in single
 * floats (since 0.8.0). It takes no scene and refuses nothing.
 *
 * The side value is (bx - ax) (cy - ay) - (by - ay) (cx - ax): above zero where c
 * is to the left of the ray from a through b. `estimate` is that value computed
 * in 32-bit floats, each operation rounded once to the nearest, ties to the even
 * one, and none fused with another: so a graphics core that does the same has
 * the same bits. It is a whole number, and within 524,288 of the exact value.
 *
 *   side   1  estimate above 524,288: c is to the left
 *         -1  estimate below -524,288: c is to the right
 *          0  close: the estimate does not tell
 *
 * 1 and -1 are certain: the exact value has that sign. a and b may be in any
 * order, and equal. An estimate of zero may be -0.0, as in a = b = (0,0),
 * c = (0,-5).
 *
 * Every coordinate must lie in -1,000,000 to 1,000,000, whatever range scenes
 * have; with one that does not, side is 0 and estimate is 0.0.
 */
typedef struct {
    float estimate;
    int32_t side;
} karvoiss_estimate_t;

karvoiss_estimate_t karvoiss_estimate(int32_t ax, int32_t ay, int32_t bx,
                                      int32_t by, int32_t cx, int32_t cy);

/* Which of these are in the window (since 0.9.0): the summaries, 20 bytes each
 * and one after the other, whose box shares a point with the window.
 *
 * `summaries` points to `length` bytes; it may be null where `length` is 0.
 * Bit k of `word` is set exactly if summary k was sent, is not empty, and some
 * point lies in its box and in the window, edges included. `hits` is the number
 * of such summaries, and of the set bits. Each float stands for its exact value:
 * a window that begins at the next float above 1.0 misses a box that ends at 1.
 * 0.0 and -0.0 are one number.
 *
 * Refusals, in this order; word and hits are then 0:
 *
 *  27  a number of the window is a NaN or an infinity, or a least is above its
 *      greatest; place 0
 *  28  more than 64 summaries, a cut one counting: `length` is above 1,280;
 *      place 0
 *  18  a bad summary, and one that is cut is bad; place is the index of the first
 */
typedef struct {
    float least_x;
    float least_y;
    float greatest_x;
    float greatest_y;
} karvoiss_window_t;

typedef struct {
    uint32_t number;
    size_t place;
    uint64_t word;
    uint32_t hits;
} karvoiss_in_window_t;

karvoiss_in_window_t karvoiss_in_window(karvoiss_window_t window,
                                        const uint8_t *summaries, size_t length);

#ifdef __cplusplus
}
#endif

#endif
