//! Scenes made by hand: document 01's twelve with their lines, its refusal table, traps of its wording, scenes with the higher type first, scenes that yes and
//! no do not tell apart, scenes at the corners of the range, and pictures of rare matrices. And objects with their summaries, pairs of summaries with what they tell, good summaries and bad ones.

use crate::mistakes::RIGHT;
use crate::picture;
use crate::plane::{Point, Segment, LIMIT};
use crate::scene::{half_record, object_bytes, point_record, scene_bytes, Half, Object, LINE, POINTS, REGION};
use crate::summary::{Summary, SUMMARY};

/// A name, the scene's bytes, and the line that `explore` must write.
pub struct Known {
    pub name: &'static str,
    pub bytes: Vec<u8>,
    pub line: &'static str,
}

pub fn points(points: &[Point]) -> Object {
    Object::of_points(points)
}

/// A line or a region through these chains of points; a ring is a chain that ends where it began.
pub fn drawn(kind: u8, chains: &[&[Point]]) -> Object {
    let segments: Vec<Segment> = chains.iter().flat_map(|chain| chain.windows(2).map(|pair| Segment::between(pair[0], pair[1]))).collect();
    Object::of_segments(kind, &segments)
}

pub fn line(chains: &[&[Point]]) -> Object {
    drawn(LINE, chains)
}

pub fn region(chains: &[&[Point]]) -> Object {
    drawn(REGION, chains)
}

pub fn rectangle(x: i64, y: i64, last_x: i64, last_y: i64) -> Vec<Point> {
    vec![(x, y), (last_x, y), (last_x, last_y), (x, last_y), (x, y)]
}

pub fn square(a: i64, b: i64) -> Object {
    region(&[&rectangle(a, a, b, b)])
}

/// Document 01's scene e, whose overlap list is 1 3 3 1 4 3 1.
pub fn scene_e() -> Vec<u8> {
    scene_bytes(&square(0, 2), &region(&[&rectangle(2, 0, 4, 2)]))
}

/// The twelve scenes, and the two beside them that document 01 says are taken.
pub fn twelve() -> Vec<Known> {
    let known = |name, f: Object, g: Object, line| Known { name, bytes: scene_bytes(&f, &g), line };
    let none = || points(&[]);
    let triangle: [Point; 4] = [(0, 0), (4, 0), (0, 3), (0, 0)];
    let split_square: [Point; 6] = [(0, 0), (4, 0), (4, 2), (4, 4), (0, 4), (0, 0)];
    let many: Vec<Point> = (0..1024).map(|i| (i / 32, i % 32)).collect();
    vec![
        known("a", points(&[(0, 0), (2, 2)]), line(&[&[(0, 0), (4, 0), (4, 3)]]), "ok 1 2 5 1 F00FFF102"),
        known("b", points(&[(2, 2), (4, 2), (5, 5)]), square(0, 4), "ok 1 3 7 0 000FFF212"),
        known("c", square(0, 4), square(1, 3), "ok 3 3 3 12 212FF1FF2"),
        known("d", square(0, 2), square(2, 4), "ok 3 3 131 3 FF2F01212"),
        Known { name: "e", bytes: scene_e(), line: "ok 3 3 195 3 FF2F11212" },
        known("f", square(0, 4), square(0, 4), "ok 3 3 176 0 2FFF1FFF2"),
        known("g", none(), none(), "ok 1 1 0 0 FFFFFFFF2"),
        known("h", none(), square(0, 4), "ok 1 3 0 0 FFFFFF212"),
        known("i", line(&[&[(0, 2), (2, 2), (4, 2)]]), line(&[&[(2, 0), (2, 2), (2, 4)]]), "ok 2 2 38 5 0F1FF0102"),
        known("j", line(&[&[(2, 2), (4, 2), (6, 2)]]), region(&[&split_square]), "ok 2 3 93 1 1010F0212"),
        known("k", none(), line(&[&triangle]), "ok 1 2 0 0 FFFFFF1F2"),
        known("l", points(&[(10_000_001, 0)]), none(), "no 4 2"),
        known("l with 10000000", points(&[(10_000_000, 0)]), none(), "ok 1 1 1 0 FF0FFFFF2"),
        known("1,024 points", points(&many), none(), "ok 1 1 1 0 FF0FFFFF2"),
    ]
}

fn half(left: Point, right: Point, d: bool, ia: bool) -> Half {
    Half { segment: Segment { left, right }, left: d, ia }
}

/// An object of these halfsegments as they stand, in no order but this.
pub fn as_given(kind: u8, halves: &[Half]) -> Object {
    Object { kind, halves: halves.to_vec(), places: vec![0; halves.len()], ..Object::default() }
}

/// Both halves of each segment, in order, with this ia.
fn with_ia(segments: &[(Point, Point, bool)]) -> Object {
    let mut halves: Vec<Half> = segments.iter().flat_map(|(p, q, ia)| [half(*p, *q, true, *ia), half(*p, *q, false, *ia)]).collect();
    halves.sort_by(Half::order);
    as_given(REGION, &halves)
}

/// A points object that has one point twice.
fn twice(x: i64, y: i64) -> Object {
    Object { points: vec![(x, y); 2], places: vec![0; 2], ..points(&[]) }
}

fn joined(parts: &[&[u8]]) -> Vec<u8> {
    parts.concat()
}

/// The refusal table's small examples, but for 8, which never occurs, and 9, 16 and 17, which belong to single questions.
pub fn refusal_table() -> Vec<Known> {
    let known = |name, bytes, line| Known { name, bytes, line };
    let scene = |name, f: Object, g: Object, line| Known { name, bytes: scene_bytes(&f, &g), line };
    let empty = |kind| as_given(kind, &[]);
    let many: Vec<u8> = (0..1025).flat_map(|i| point_record((i / 32, i % 32))).collect();
    let bottom_wrong = with_ia(&[((0, 0), (4, 0), false), ((0, 0), (0, 4), false), ((0, 4), (4, 4), false), ((4, 0), (4, 4), true)]);
    vec![
        known("1", vec![84, 1], "no 1 2"),
        known("2", vec![84, 1, 76], "no 2 2"),
        known("3", vec![84, 4], "no 3 0"),
        known("4", joined(&[&[84, 1], &point_record((10_000_001, 0))]), "no 4 2"),
        known("5", joined(&[&[84, 2], &half_record(LINE, &half((3, 0), (3, 0), true, false))]), "no 5 2"),
        known("6", joined(&[&[84, 1], &many]), "no 6 9218"),
        known("7", vec![84, 1, 69, 84, 1, 69, 0], "no 7 6"),
        known("10", joined(&[&[84, 1], &point_record((1, 1)), &point_record((1, 1)), &[69, 84, 1, 69]]), "no 10 11"),
        scene("11", as_given(LINE, &[half((0, 0), (4, 0), true, false)]), empty(LINE), "no 11 2"),
        scene("12", line(&[&[(0, 0), (4, 0)], &[(2, 0), (2, 3)]]), empty(LINE), "no 12 2"),
        scene("13", with_ia(&[((0, 0), (4, 0), true)]), empty(REGION), "no 13 2"),
        scene("14", bottom_wrong, empty(REGION), "no 14 2"),
        scene("15", line(&[&[(0, 2), (4, 2)]]), line(&[&[(2, 0), (2, 4)]]), "no 15 2"),
    ]
}

/// Byte strings on which a reader goes wrong that takes the refusals in another order or another place than document 01.
pub fn reading_traps() -> Vec<Known> {
    let known = |name, parts: &[&[u8]], line| Known { name, bytes: joined(parts), line };
    let scene = |name, f: Object, g: Object, line| Known { name, bytes: scene_bytes(&f, &g), line };
    let empty = |kind| as_given(kind, &[]);
    let many: Vec<u8> = (0..1024).flat_map(|i| point_record((i / 32, i % 32))).collect();
    let long_line = half_record(LINE, &half((0, 0), (4, 0), true, false));
    let wrong_d = joined(&[&half_record(LINE, &half((10_000_001, 0), (0, 0), true, false))[..17], &[2]]);
    let right_only = half((0, 0), (4, 0), false, false);
    vec![
        known("no byte", &[], "no 1 0"),
        known("a type record cut", &[&[84]], "no 1 0"),
        known("a point cut", &[&[84, 1, 80, 0, 0, 0, 0, 0, 0, 0]], "no 1 2"),
        known("cut before its d is seen", &[&[84, 2], &long_line[..17]], "no 1 2"),
        known("1,024 points, then nothing", &[&[84, 1], &many], "no 1 9218"),
        known("1,024 points and an end, then nothing", &[&[84, 1], &many, &[69]], "no 1 9219"),
        known("element 1,025, its kind alone", &[&[84, 1], &many, &[80]], "no 6 9218"),
        known("another kind in place 1,025", &[&[84, 1], &many, &[76]], "no 2 9218"),
        known("two type records", &[&[84, 1, 84, 1]], "no 2 2"),
        known("an end at once", &[&[69]], "no 2 0"),
        known("a type of 0", &[&[84, 0]], "no 3 0"),
        known("wrong d, wrong coordinate, wrong ends", &[&[84, 2], &wrong_d], "no 3 2"),
        known("wrong coordinate, wrong ends", &[&[84, 2], &half_record(LINE, &half((10_000_001, 0), (0, 0), true, false))], "no 4 2"),
        known("below the range", &[&[84, 1], &point_record((0, -10_000_001))], "no 4 2"),
        known("the smallest number", &[&[84, 1], &point_record((i32::MIN as i64, 0))], "no 4 2"),
        known("vertical, upside down", &[&[84, 2], &half_record(LINE, &half((0, 4), (0, 0), true, false))], "no 5 2"),
        known("a third object", &[&[84, 1, 69, 84, 1, 69, 84, 1, 69]], "no 7 6"),
        scene(
            "on one ray, the shorter first",
            as_given(LINE, &[half((0, 0), (2, 0), true, false), half((0, 0), (4, 0), true, false)]),
            empty(LINE),
            "no 10 20",
        ),
        scene(
            "unequal in ia alone",
            as_given(REGION, &[half((0, 0), (4, 0), true, false), half((0, 0), (4, 0), true, true)]),
            empty(REGION),
            "no 10 21",
        ),
        scene("a left before a right", as_given(LINE, &[half((4, 0), (8, 0), true, false), right_only]), empty(LINE), "no 10 20"),
        scene(
            "halves unequal in ia",
            as_given(REGION, &[half((0, 0), (4, 0), true, true), half((0, 0), (4, 0), false, false)]),
            empty(REGION),
            "no 11 2",
        ),
        scene("a right half alone", as_given(LINE, &[right_only]), empty(LINE), "no 11 2"),
        scene("10 in G before 11 in F", points(&[(0, 0)]), twice(1, 1), "no 10 23"),
        scene("10 of a line before 11", as_given(LINE, &[right_only]), as_given(LINE, &[right_only, right_only]), "no 10 41"),
        scene("crossing off the grid", line(&[&[(0, 0), (3, 1)], &[(0, 1), (3, 0)]]), empty(LINE), "no 12 2"),
        scene("the later segments cross", line(&[&[(0, 0), (1, 0)], &[(2, 0), (4, 2)], &[(2, 2), (4, 0)]]), empty(LINE), "no 12 38"),
        scene("12 in G before 15 in F", line(&[&[(0, 1), (9, 1)]]), line(&[&[(1, 0), (3, 2)], &[(1, 2), (3, 0)]]), "no 12 41"),
        scene("odd at a right half", with_ia(&[((0, 0), (4, 0), true), ((0, 0), (4, 2), false)]), empty(REGION), "no 13 40"),
        scene(
            "a vertical side with the wrong ia",
            with_ia(&[((0, 0), (4, 0), true), ((0, 0), (0, 4), true), ((0, 4), (4, 4), false), ((4, 0), (4, 4), true)]),
            empty(REGION),
            "no 14 21",
        ),
        scene("15 at the second segment of F", line(&[&[(0, 0), (1, 0), (5, 1)]]), line(&[&[(2, -5), (3, 5)]]), "no 15 38"),
        scene("one part of the other's segment", line(&[&[(0, 0), (2, 0)]]), line(&[&[(0, 0), (4, 0)]]), "no 15 2"),
        scene("on one line, end to end", line(&[&[(0, 0), (2, 0)]]), line(&[&[(2, 0), (4, 0)]]), "ok 2 2 52 5 FF1F00102"),
    ]
}

/// Scenes whose first type is above their second, with answers in the caller's order; and, of equal types, one that is not exchanged.
pub fn either_order() -> Vec<Known> {
    let known = |name, parts: &[&[u8]], line| Known { name, bytes: joined(parts), line };
    let scene = |name, f: Object, g: Object, line| Known { name, bytes: scene_bytes(&f, &g), line };
    let empty = |kind| as_given(kind, &[]);
    let none = || points(&[]);
    let split_square: [Point; 6] = [(0, 0), (4, 0), (4, 2), (4, 4), (0, 4), (0, 0)];
    let left = half((0, 0), (4, 0), true, false);
    let upright = || line(&[&[(2, 3), (2, 5)]]);
    vec![
        scene("a exchanged", line(&[&[(0, 0), (4, 0), (4, 3)]]), points(&[(0, 0), (2, 2)]), "ok 2 1 1 5 FF10F00F2"),
        scene("b exchanged", square(0, 4), points(&[(2, 2), (4, 2), (5, 5)]), "ok 3 1 0 7 0F20F10F2"),
        scene("h exchanged: no points second", square(0, 4), none(), "ok 3 1 0 0 FF2FF1FF2"),
        scene("j exchanged", region(&[&split_square]), line(&[&[(2, 2), (4, 2), (6, 2)]]), "ok 3 2 1 93 1020F1102"),
        scene("no line, no points", empty(LINE), none(), "ok 2 1 0 0 FFFFFFFF2"),
        scene("no region, no line", empty(REGION), empty(LINE), "ok 3 2 0 0 FFFFFFFF2"),
        scene("no region, a point", empty(REGION), points(&[(1, 1)]), "ok 3 1 0 4 FFFFFF0F2"),
        scene("no region, a line", empty(REGION), line(&[&[(0, 0), (4, 0)]]), "ok 3 2 0 68 FFFFFF102"),
        scene("a region, no line", square(0, 4), empty(LINE), "ok 3 2 1 0 FF2FF1FF2"),
        scene("a closed line, no points", line(&[&[(0, 0), (4, 0), (0, 3), (0, 0)]]), none(), "ok 2 1 0 0 FF1FFFFF2"),
        scene("the outline as a line second", square(0, 4), line(&[&rectangle(0, 0, 4, 4)]), "ok 3 2 0 10 FF21FFFF2"),
        scene("equal types, the second empty", line(&[&[(0, 0), (1, 0)]]), empty(LINE), "ok 2 2 36 0 FF1FF0FF2"),
        scene("equal types, the first empty", empty(LINE), line(&[&[(0, 0), (1, 0)]]), "ok 2 2 0 5 FFFFFF102"),
        known("7 before the types are compared", &[&[84, 2, 69, 84, 1, 69, 69]], "no 7 6"),
        scene("10 in both: the first one's", as_given(LINE, &[left, left]), twice(1, 1), "no 10 20"),
        scene("10 in the second before 11 in the first", as_given(LINE, &[left]), twice(1, 1), "no 10 32"),
        scene("11 in the first alone", as_given(LINE, &[left]), none(), "no 11 2"),
        scene("12 in the second, a line", square(0, 4), line(&[&[(9, 0), (13, 0)], &[(11, 0), (11, 3)]]), "no 12 157"),
        scene("13 in the first", with_ia(&[((0, 0), (4, 0), true)]), upright(), "no 13 2"),
        scene("15 in the square, given first", square(0, 4), upright(), "no 15 59"),
        scene("15 in the line, given first", upright(), square(0, 4), "no 15 2"),
    ]
}

/// Scenes on which a flag or a cell goes wrong that takes document 01's sentences loosely.
pub fn answer_traps() -> Vec<Known> {
    let scene = |name, f: Object, g: Object, line| Known { name, bytes: scene_bytes(&f, &g), line };
    let empty = |kind| as_given(kind, &[]);
    let triangle: [Point; 4] = [(0, 0), (4, 0), (0, 3), (0, 0)];
    // spokes from a hub, and how many of them; a closed line with a tail
    let spokes: [&[Point]; 5] = [&[(0, 0), (2, 2)], &[(2, 2), (4, 0)], &[(2, 2), (2, 5)], &[(2, 2), (5, 2)], &[(0, 4), (2, 2)]];
    let hub = |number: usize| line(&spokes[..number]);
    let cross: [&[Point]; 3] = [&[(0, 2), (2, 2)], &[(2, 2), (4, 2)], &[(2, 2), (3, 3)]];
    let lollipop: [&[Point]; 2] = [&[(0, 0), (4, 0), (2, 4), (0, 0)], &[(4, 0), (6, 0)]];
    let split_square: [Point; 6] = [(0, 0), (4, 0), (4, 2), (4, 4), (0, 4), (0, 0)];
    vec![
        scene("far from a closed line", points(&[(9, 9)]), line(&[&triangle]), "ok 1 2 1 0 FF0FFF1F2"),
        scene("at a hub of three", points(&[(2, 2)]), hub(3), "ok 1 2 4 1 F0FFFF102"),
        scene("at a hub of four", points(&[(2, 2)]), hub(4), "ok 1 2 2 1 0FFFFF102"),
        scene("at a hub of five", points(&[(2, 2)]), hub(5), "ok 1 2 4 1 F0FFFF102"),
        scene("at the end of a closed line's tail", points(&[(6, 0)]), line(&lollipop), "ok 1 2 4 1 F0FFFF102"),
        scene("i with a third segment in F", line(&cross), line(&[&[(2, 0), (2, 2), (2, 4)]]), "ok 2 2 44 5 FF10F0102"),
        scene("i with a third segment, exchanged", line(&[&[(2, 0), (2, 2), (2, 4)]]), line(&cross), "ok 2 2 36 7 F01FF0102"),
        scene("a hub beside a line under one of its spokes", line(&cross), line(&[&[(0, 0), (1, 0)]]), "ok 2 2 36 5 FF1FF0102"),
        scene(
            "a closed line, and the same with a diagonal",
            line(&[&rectangle(0, 0, 4, 4)]),
            line(&[&rectangle(0, 0, 4, 4), &[(0, 0), (4, 4)]]),
            "ok 2 2 3 3 10FFFF1F2",
        ),
        scene(
            "a hub inside, with its far ends at corners",
            line(&[&[(0, 0), (2, 2), (4, 4)], &[(2, 2), (4, 0)]]),
            square(0, 4),
            "ok 2 3 49 1 1FF00F212",
        ),
        scene(
            "a hub outside, with its far ends on the region",
            line(&[&[(4, 0), (6, 2), (4, 4)], &[(4, 2), (6, 2)]]),
            region(&[&split_square]),
            "ok 2 3 100 1 FF1F00212",
        ),
        scene("a hub at a corner, inside", line(&[&[(1, 1), (4, 2), (1, 3)], &[(1, 2), (4, 2)]]), region(&[&split_square]), "ok 2 3 49 1 1FF00F212"),
        scene("the outline with a diagonal", line(&[&rectangle(0, 0, 4, 4), &[(0, 0), (4, 4)]]), square(0, 4), "ok 2 3 43 0 11FF0F2F2"),
        scene("on an open segment", points(&[(2, 0)]), line(&[&triangle]), "ok 1 2 2 0 0FFFFF1F2"),
        scene("points and no line", points(&[(2, 0)]), empty(LINE), "ok 1 2 1 0 FF0FFFFF2"),
        scene("points and no region", points(&[(2, 0)]), empty(REGION), "ok 1 3 4 0 FF0FFFFF2"),
        scene("a line and no region", line(&[&[(0, 0), (4, 0)]]), empty(REGION), "ok 2 3 68 0 FF1FF0FF2"),
        scene("a closed line and no region", line(&[&triangle]), empty(REGION), "ok 2 3 4 0 FF1FFFFF2"),
        scene("a line that only ends on the region", line(&[&[(4, 2), (6, 2)]]), region(&[&split_square]), "ok 2 3 100 1 FF1F00212"),
        scene("a closed line far from the region", line(&[&[(9, 9), (12, 9), (9, 12), (9, 9)]]), square(0, 4), "ok 2 3 4 1 FF1FFF212"),
        scene("the outline as a line", line(&[&rectangle(0, 0, 4, 4)]), square(0, 4), "ok 2 3 10 0 F1FFFF2F2"),
        scene("no line, a region", empty(LINE), square(0, 4), "ok 2 3 0 1 FFFFFF212"),
        scene("a region, no region", square(0, 4), empty(REGION), "ok 3 3 3 0 FF2FF1FF2"),
        scene("inside, at a corner", region(&[&[(0, 0), (2, 1), (1, 2), (0, 0)]]), square(0, 4), "ok 3 3 140 3 2FF10F212"),
        scene("no line, no line", empty(LINE), empty(LINE), "ok 2 2 0 0 FFFFFFFF2"),
        scene("no region, no region", empty(REGION), empty(REGION), "ok 3 3 0 0 FFFFFFFF2"),
        scene(
            "a region that touches itself at a corner",
            region(&[&rectangle(0, 0, 2, 2), &rectangle(2, 2, 4, 4)]),
            empty(REGION),
            "ok 3 3 3 0 FF2FF1FF2",
        ),
        scene(
            "a hole that touches the outline at a corner",
            points(&[(1, 1)]),
            region(&[&rectangle(0, 0, 4, 4), &[(0, 0), (2, 1), (1, 2), (0, 0)]]),
            "ok 1 3 4 0 FF0FFF212",
        ),
        scene(
            "an island in a hole",
            points(&[(4, 4)]),
            region(&[&rectangle(0, 0, 8, 8), &rectangle(1, 1, 7, 7), &rectangle(3, 3, 5, 5)]),
            "ok 1 3 1 0 0FFFFF212",
        ),
        scene("limit to limit", square(-FAR, FAR), square(1 - FAR, FAR - 1), "ok 3 3 3 12 212FF1FF2"),
    ]
}

/// Scenes in twos: what their parts have in common is the same in yes and no, but of one it extends to a stretch and of the other to points. Then cells that are
/// no less than they seem, and two matrices that the maker hardly ever finds.
pub fn extents() -> Vec<Known> {
    let scene = |name, f: Object, g: Object, line| Known { name, bytes: scene_bytes(&f, &g), line };
    let strip = || region(&[&rectangle(0, 0, 9, 2)]);
    let split_strip = || region(&[&[(0, 0), (9, 0), (9, 2), (5, 2), (3, 2), (0, 2), (0, 0)]]);
    let cross: [&[Point]; 2] = [&[(0, 0), (2, 0), (4, 0), (6, 0)], &[(0, 2), (2, 2)]];
    let crossed: [&[Point]; 2] = [&[(2, -2), (2, 0), (2, 2), (2, 4)], &[(4, 0), (4, 2)]];
    vec![
        scene("strips that share a fence", strip(), region(&[&rectangle(0, 2, 9, 4)]), "ok 3 3 195 3 FF2F11212"),
        scene("strips that share a corner post", strip(), region(&[&rectangle(9, 2, 12, 4)]), "ok 3 3 131 3 FF2F01212"),
        scene("strips that share a piece of fence", split_strip(), region(&[&rectangle(3, 2, 5, 9)]), "ok 3 3 195 3 FF2F11212"),
        scene(
            "strips that share two posts",
            split_strip(),
            region(&[&[(3, 2), (2, 9), (0, 9), (3, 2)], &[(5, 2), (6, 9), (4, 9), (5, 2)]]),
            "ok 3 3 131 3 FF2F01212",
        ),
        scene("a line along a side", line(&[&[(0, 0), (4, 0)]]), square(0, 4), "ok 2 3 34 1 F1FF0F212"),
        scene("a path through a corner", line(&[&[(-1, 1), (0, 0), (1, -1)]]), square(0, 4), "ok 2 3 76 1 F01FF0212"),
        scene("a path that runs along a side", line(&[&[(-1, 0), (0, 0), (4, 0), (5, 0)]]), square(0, 4), "ok 2 3 78 1 F11FF0212"),
        scene("lines with a stretch in common", line(&[&[(0, 0), (2, 0), (4, 0)]]), line(&[&[(2, 0), (4, 0), (6, 0)]]), "ok 2 2 45 7 1010F0102"),
        scene("lines that cross, and end on each other", line(&cross), line(&crossed), "ok 2 2 46 7 0010F0102"),
        scene("inside along a side", region(&[&[(0, 0), (4, 0), (2, 2), (0, 0)]]), square(0, 4), "ok 3 3 152 3 2FF11F212"),
        scene("inside at a corner", region(&[&[(0, 0), (3, 1), (1, 3), (0, 0)]]), square(0, 4), "ok 3 3 140 3 2FF10F212"),
        scene("points on a line leave all of it but points", points(&[(0, 0), (1, 0), (4, 0)]), line(&[&[(0, 0), (4, 0)]]), "ok 1 2 6 0 00FFFF1F2"),
        scene("points in a square leave all of it but points", points(&[(1, 1), (4, 0)]), square(0, 4), "ok 1 3 3 0 00FFFF212"),
        scene(
            "rings that touch, each with the other line's chord",
            line(&[&rectangle(0, 0, 4, 4), &[(4, 8), (8, 4)]]),
            line(&[&rectangle(4, 4, 8, 8), &[(0, 4), (4, 0)]]),
            "ok 2 2 14 3 0010FF1F2",
        ),
    ]
}

/// The largest coordinate.
const FAR: i64 = 10_000_000;

/// One more than that, or less, in each coordinate of each kind of record.
fn out_of_range() -> Vec<Known> {
    let mut all = Vec::new();
    for beyond in [FAR + 1, -FAR - 1] {
        for k in 0..4 {
            let mut values = [0, 0, 4, 0];
            values[k] = beyond;
            let h = half((values[0], values[1]), (values[2], values[3]), true, false);
            all.push(Known { name: "a line out of range", bytes: joined(&[&[84, 2], &half_record(LINE, &h)]), line: "no 4 2" });
            all.push(Known { name: "a region out of range", bytes: joined(&[&[84, 3], &half_record(REGION, &h)]), line: "no 4 2" });
        }
        for p in [(beyond, 0), (0, beyond)] {
            all.push(Known { name: "a point out of range", bytes: joined(&[&[84, 1], &point_record(p)]), line: "no 4 2" });
        }
    }
    all
}

/// Scenes at the four corners of the range, and of points that one number for both coordinates, made with too little room for y, takes for one.
pub fn wide_ground() -> Vec<Known> {
    let scene = |name, f: Object, g: Object, line| Known { name, bytes: scene_bytes(&f, &g), line };
    let corners: [Point; 4] = [(-FAR, -FAR), (FAR, -FAR), (FAR, FAR), (-FAR, FAR)];
    // three of the corners, one left out: its longest side is slanting, the others are vertical and level
    let half_square = |out: usize| region(&[&[corners[(out + 1) % 4], corners[(out + 2) % 4], corners[(out + 3) % 4], corners[(out + 1) % 4]]]);
    let about = || points(&[&corners[..], &[(0, 0), (1, 0), (0, 1), (-1, 0), (0, -1)]].concat());
    let diagonals = [[corners[0], corners[2]], [corners[1], corners[3]]];
    let at_the_middle = diagonals.map(|[p, q]| [p, (0, 0), q]);
    let sliver: [Point; 4] = [(-FAR, -FAR), (FAR, -FAR), (FAR, FAR - 1), (-FAR, -FAR)];
    let split: [Point; 9] = [(-FAR, -FAR), (0, -FAR), (FAR, -FAR), (FAR, 0), (FAR, FAR), (0, FAR), (-FAR, FAR), (-FAR, 0), (-FAR, -FAR)];
    let diamond: [Point; 5] = [(0, -FAR), (FAR, 0), (0, FAR), (-FAR, 0), (0, -FAR)];
    let upright = |x: i64| line(&[&[(x, -FAR), (x, FAR)]]);
    let mut all = out_of_range();
    all.extend((0..4).map(|out| scene("about a half of the range", about(), half_square(out), "ok 1 3 7 0 000FFF212")));
    all.extend([
        scene("document 01's bytes of l", points(&[(1_000_001, 0)]), points(&[]), "ok 1 1 1 0 FF0FFFFF2"),
        scene("21 bits for y", points(&[(0, 2_097_152)]), points(&[(1, 0)]), "ok 1 1 1 1 FF0FFF0F2"),
        scene("24 bits for y", points(&[(0, 6_777_216)]), points(&[(1, -FAR)]), "ok 1 1 1 1 FF0FFF0F2"),
        scene("from 42 bits on", points(&[(-7_902_848, 0)]), points(&[(-7_902_848, 0)]), "ok 1 1 2 0 0FFFFFFF2"),
        scene("the corners twice", points(&corners), points(&corners), "ok 1 1 2 0 0FFFFFFF2"),
        scene("inside a half, beside its slanting side", points(&[(1, 0)]), half_square(3), "ok 1 3 1 0 0FFFFF212"),
        scene("outside a half, beside its slanting side", points(&[(0, 1)]), half_square(3), "ok 1 3 4 0 FF0FFF212"),
        scene("just below a slanting side", points(&[(FAR - 1, FAR - 2)]), region(&[&sliver]), "ok 1 3 1 0 0FFFFF212"),
        scene("just above a slanting side", points(&[(FAR - 1, FAR - 1)]), region(&[&sliver]), "ok 1 3 4 0 FF0FFF212"),
        scene("the diagonals", line(&[&diagonals[0]]), line(&[&diagonals[1]]), "no 15 2"),
        scene("the diagonals, split", line(&[&at_the_middle[0]]), line(&[&at_the_middle[1]]), "ok 2 2 38 5 0F1FF0102"),
        scene("to the middle of a vertical side", upright(FAR), line(&[&[(-FAR, -FAR), (FAR, 0)]]), "no 15 2"),
        scene("almost to the middle of a vertical side", upright(FAR), line(&[&[(-FAR, -FAR), (FAR - 1, 0)]]), "ok 2 2 36 5 FF1FF0102"),
        scene("a diagonal of the range", line(&[&diagonals[1]]), square(-FAR, FAR), "ok 2 3 33 1 1FFF0F212"),
        scene("a side of the range", upright(-FAR), square(-FAR, FAR), "ok 2 3 34 1 F1FF0F212"),
        scene("a vertical side beside a half", upright(FAR), half_square(2), "ok 2 3 100 1 FF1F00212"),
        scene("a diamond in the range", region(&[&split]), region(&[&diamond]), "ok 3 3 131 12 212F01FF2"),
        scene("two halves of the range", half_square(0), half_square(2), "ok 3 3 195 3 FF2F11212"),
    ]);
    all
}

/// A question for the vectors under two masks, and both vectors or the refusal.
pub struct Masked {
    pub name: &'static str,
    pub bytes: Vec<u8>,
    pub want_f: u16,
    pub want_g: u16,
    pub line: &'static str,
}

/// The table's 9, and what two zero masks want: nothing, with the refusals of any other masks but 9.
pub fn masked() -> Vec<Masked> {
    let ask = |name, bytes: &[u8], (want_f, want_g), line| Masked { name, bytes: bytes.to_vec(), want_f, want_g, line };
    let a = &twelve()[0].bytes;
    let none = [84, 1, 69, 84, 1, 69];
    let doubled = scene_bytes(&twice(1, 1), &points(&[]));
    let exchanged = |name: &str| either_order().into_iter().find(|known| known.name == name).expect("it is made above").bytes;
    let (a_exchanged, b_exchanged) = (&exchanged("a exchanged"), &exchanged("b exchanged"));
    let right_first = [half((0, 0), (4, 0), false, false), half((0, 0), (4, 0), true, false)];
    let unordered = &scene_bytes(&as_given(LINE, &right_first), &points(&[]));
    vec![
        ask("9", &none, (4, 0), "no 9 0"),
        ask("65535 for all flags", a, (65535, 65535), "no 9 0"),
        ask("nothing of a", a, (0, 0), "0 0"),
        ask("a flag of G alone", a, (0, 1), "0 1"),
        ask("a flag of F alone", a, (4, 0), "4 0"),
        ask("all flags of a", a, (7, 1), "5 1"),
        ask("nothing of a point twice", &doubled, (0, 0), "no 10 11"),
        ask("nothing of one byte", &[84], (0, 0), "no 1 0"),
        ask("line, points: one flag of each", a_exchanged, (1, 4), "1 4"),
        ask("line, points: all flags", a_exchanged, (1, 7), "1 5"),
        ask("line, points: a line has one flag", a_exchanged, (2, 0), "no 9 0"),
        ask("line, points: points have three", a_exchanged, (0, 8), "no 9 0"),
        ask("region, points: all flags", b_exchanged, (0, 7), "0 7"),
        ask("region, points: a region has none", b_exchanged, (1, 0), "no 9 0"),
        ask("line, points: 9 before 10", unordered, (2, 0), "no 9 0"),
        ask("line, points: 10, the masks being right", unordered, (1, 0), "no 10 20"),
    ]
}

/// A question for the overlap list into some room, and the list or the refusal.
pub struct Listed {
    pub name: &'static str,
    pub bytes: Vec<u8>,
    pub room: usize,
    pub line: &'static str,
}

/// The table's 16 and 17, the list that document 01 gives, and 16 in scenes whose first type is above their second.
pub fn listed() -> Vec<Listed> {
    let ask = |name, f: Object, g: Object, room, line| Listed { name, bytes: scene_bytes(&f, &g), room, line };
    let empty = |kind| as_given(kind, &[]);
    let none = || points(&[]);
    vec![
        ask("16", none(), none(), 0, "no 16 0"),
        ask("17", square(0, 4), empty(REGION), 3, "no 17 0"),
        Listed { name: "the list of e", bytes: scene_e(), room: 7, line: "1 3 3 1 4 3 1" },
        ask("16: neither is a region, the line comes first", empty(LINE), none(), 9, "no 16 0"),
        ask("16: no region, no points", empty(REGION), none(), 9, "no 16 3"),
        ask("16: no region, no line", empty(REGION), empty(LINE), 9, "no 16 3"),
        ask("16: a square, no line", square(0, 4), empty(LINE), 9, "no 16 155"),
        ask("16: no line, a square", empty(LINE), square(0, 4), 9, "no 16 0"),
        ask("10 before 16", square(0, 4), twice(1, 1), 9, "no 10 166"),
    ]
}

/// A question for the areas, and what it must answer.
pub struct Measured {
    pub name: &'static str,
    pub bytes: Vec<u8>,
    pub line: String,
}

/// Areas that a hand can count, and 16 at the first type record that is not 3.
pub fn measured() -> Vec<Measured> {
    let ask = |name, f: &Object, g: &Object, line: &str| Measured { name, bytes: scene_bytes(f, g), line: line.to_string() };
    let of_twelve = |name, letter: &str, line: &str| {
        let known = twelve().into_iter().find(|known| known.name == letter).expect("it is one of the twelve");
        Measured { name, bytes: known.bytes, line: line.to_string() }
    };
    let empty = |kind| as_given(kind, &[]);
    let holed = region(&[&rectangle(0, 0, 6, 6), &rectangle(2, 2, 4, 4)]);
    let all = square(-LIMIT, LIMIT);
    // split where they cross
    let lower = region(&[&[(0, 0), (4, 0), (4, 2), (4, 4), (2, 4), (0, 4), (0, 0)]]);
    let upper = region(&[&[(2, 2), (4, 2), (6, 2), (6, 6), (2, 6), (2, 4), (2, 2)]]);
    vec![
        of_twelve("areas of c", "c", "8 24 0"),
        of_twelve("areas of d", "d", "0 8 8"),
        of_twelve("areas of e", "e", "0 8 8"),
        of_twelve("areas of f", "f", "32 0 0"),
        of_twelve("areas of a", "a", "no 16 0"),
        of_twelve("areas of h", "h", "no 16 0"),
        of_twelve("areas of l", "l", "no 4 2"),
        ask("two squares that overlap", &lower, &upper, "8 24 24"),
        ask("a hole and its filling", &holed, &square(2, 4), "0 64 8"),
        ask("a square with a hole, and the whole square", &holed, &square(0, 6), "64 0 8"),
        ask("two triangles with one side", &region(&[&[(0, 0), (4, 0), (0, 4), (0, 0)]]), &region(&[&[(4, 0), (4, 4), (0, 4), (4, 0)]]), "0 16 16"),
        ask("the whole range twice", &all, &all, &format!("{} 0 0", 8 * LIMIT * LIMIT)),
        ask("the whole range and nothing", &all, &empty(REGION), &format!("0 {} 0", 8 * LIMIT * LIMIT)),
        ask("two empty regions", &empty(REGION), &empty(REGION), "0 0 0"),
        ask("16: a square, then points", &square(0, 4), &points(&[(1, 1)]), "no 16 155"),
        ask("16: a line, then a square", &empty(LINE), &square(0, 4), "no 16 0"),
        ask("10 before 16, of areas", &square(0, 4), &twice(1, 1), "no 10 166"),
    ]
}

/// One object's bytes, and its summary in hexadecimal or the refusal.
pub fn summarised() -> Vec<Known> {
    let known = |name, bytes: Vec<u8>, line| Known { name, bytes, line };
    let object = |name, object: Object, line| Known { name, bytes: object_bytes(&object), line };
    let empty = |kind| as_given(kind, &[]);
    let left = half((0, 0), (4, 0), true, false);
    let many: Vec<u8> = (0..1025).flat_map(|i| point_record((i / 32, i % 32))).collect();
    let bridged: [&[Point]; 3] = [&rectangle(0, 0, 2, 2), &[(2, 2), (4, 4)], &rectangle(4, 4, 6, 6)];
    vec![
        object("a line", line(&[&[(-1, 2), (3, -4)]]), "53 02 00 ff ff ff ff fc ff ff ff 03 00 00 00 02 00 00 00 01"),
        object("no points", points(&[]), "53 01 01 00 00 00 00 00 00 00 00 00 00 00 00 00 00 00 00 00"),
        object("no line", empty(LINE), "53 02 01 00 00 00 00 00 00 00 00 00 00 00 00 00 00 00 00 00"),
        object("no region", empty(REGION), "53 03 01 00 00 00 00 00 00 00 00 00 00 00 00 00 00 00 00 00"),
        object("a point at the origin", points(&[(0, 0)]), "53 01 00 00 00 00 00 00 00 00 00 00 00 00 00 00 00 00 00 00"),
        object("points", points(&[(4, 9), (5, -1), (7, 3)]), "53 01 00 04 00 00 00 ff ff ff ff 07 00 00 00 09 00 00 00 00"),
        object("a flat line", line(&[&[(1, 7), (2, 7), (5, 7)]]), "53 02 00 01 00 00 00 07 00 00 00 05 00 00 00 07 00 00 00 01"),
        object("a closed line", line(&[&[(0, 0), (4, 0), (0, 3), (0, 0)]]), "53 02 00 00 00 00 00 00 00 00 00 04 00 00 00 03 00 00 00 00"),
        object("two closed rings joined by a bridge", line(&bridged), "53 02 00 00 00 00 00 00 00 00 00 06 00 00 00 06 00 00 00 01"),
        object("a square", square(0, 4), "53 03 00 00 00 00 00 00 00 00 00 04 00 00 00 04 00 00 00 01"),
        object("limit to limit", square(-FAR, FAR), "53 03 00 80 69 67 ff 80 69 67 ff 80 96 98 00 80 96 98 00 01"),
        known("no byte", vec![], "no 1 0"),
        known("a type alone", vec![84, 1], "no 1 2"),
        known("another kind", vec![84, 1, 76], "no 2 2"),
        known("type 4", vec![84, 4], "no 3 0"),
        object("out of range", points(&[(FAR + 1, 0)]), "no 4 2"),
        known("ends the wrong way round", joined(&[&[84, 2], &half_record(LINE, &half((3, 0), (2, 0), true, false))]), "no 5 2"),
        known("1,025 points", joined(&[&[84, 1], &many]), "no 6 9218"),
        known("a byte after the end", vec![84, 1, 69, 0], "no 7 3"),
        known("a scene", vec![84, 1, 69, 84, 1, 69], "no 7 3"),
        object("a point twice", twice(1, 1), "no 10 11"),
        object("half a segment", as_given(LINE, &[left]), "no 11 2"),
        object("segments that cross", line(&[&[(0, 0), (2, 2)], &[(0, 2), (2, 0)]]), "no 12 2"),
        object("an open outline", with_ia(&[((0, 0), (4, 0), true)]), "no 13 2"),
        object("a triangle inside out", with_ia(&[((0, 0), (4, 0), false), ((0, 0), (2, 3), true), ((2, 3), (4, 0), true)]), "no 14 2"),
    ]
}

/// Two summaries, and `look`, both vectors or the refusal.
pub struct Told {
    pub name: &'static str,
    pub first: Vec<u8>,
    pub second: Vec<u8>,
    pub line: &'static str,
}

fn summary_of(object: &Object) -> Vec<u8> {
    Summary::of(object, &RIGHT).bytes().to_vec()
}

/// Pairs of summaries, and what they tell.
pub fn told() -> Vec<Told> {
    let pair = |name, f: &Object, g: &Object, line| Told { name, first: summary_of(f), second: summary_of(g), line };
    let empty = |kind| as_given(kind, &[]);
    let far_off = |by: i64| points(&[(by, by)]);
    let (round, ends, closed) = (square(-4, 4), line(&[&[(90, 90), (91, 95)]]), line(&[&[(90, 90), (95, 90), (90, 95), (90, 90)]]));
    let distant = region(&[&rectangle(200, 0, 201, 1)]);
    let mut pairs = vec![
        pair("no line, a region round the origin", &empty(LINE), &round, "0 1"),
        pair("a region round the origin, no line", &round, &empty(LINE), "1 0"),
        pair("no points twice", &points(&[]), &points(&[]), "0 0"),
        pair("no region, a point at the origin", &empty(REGION), &far_off(0), "0 4"),
        pair("a square and a point at its corner", &square(0, 4), &far_off(4), "look"),
        pair("a square and a point a step off its corner", &square(0, 4), &far_off(5), "0 4"),
        pair("squares that touch at a side", &square(0, 4), &region(&[&rectangle(4, 0, 8, 4)]), "look"),
        pair("squares a step apart", &square(0, 4), &region(&[&rectangle(5, 0, 8, 4)]), "3 3"),
        pair("one above the other, a step apart", &square(0, 4), &region(&[&rectangle(0, 5, 4, 9)]), "3 3"),
        pair("boxes that meet, outlines that do not", &square(0, 9), &far_off(5), "look"),
        pair("a box in the empty corner of another", &line(&[&[(0, 0), (9, 0), (9, 9)]]), &far_off(1), "look"),
        pair("points, points", &far_off(0), &far_off(50), "1 1"),
        pair("points, a line with ends", &far_off(0), &ends, "1 1"),
        pair("points, a closed line", &far_off(0), &closed, "1 0"),
        pair("a closed line, points", &closed, &far_off(0), "0 1"),
        pair("points, a region", &far_off(50), &round, "4 0"),
        pair("a line with ends, a closed line", &line(&[&[(0, 0), (1, 1)]]), &closed, "36 1"),
        pair("a closed line, a line with ends", &closed, &line(&[&[(0, 0), (1, 1)]]), "4 5"),
        pair("a line with ends, a region", &ends, &round, "68 1"),
        pair("a region, a closed line", &round, &closed, "1 4"),
        pair("a region, a region", &round, &distant, "3 3"),
        pair("a line with ends, no points", &ends, &points(&[]), "1 0"),
        pair("no points, a closed line", &points(&[]), &closed, "0 0"),
    ];
    let cut = summary_of(&round)[..19].to_vec();
    pairs.push(Told { name: "19 bytes twice", first: cut.clone(), second: cut, line: "no 18 0" });
    pairs
}

/// The summary of a point that is far from what `judged` has.
pub fn a_point() -> Vec<u8> {
    summary_of(&points(&[(FAR - 1, 1 - FAR)]))
}

/// Good summaries and bad ones: for each way of being bad, the nearest that are bad and the nearest that are not.
pub fn judged() -> Vec<(String, Vec<u8>, bool)> {
    const GOOD: bool = true;
    const BAD: bool = false;
    let summary = |kind, empty, least: Point, greatest: Point, boundary| Summary { kind, empty, least, greatest, boundary };
    let (origin, limit) = ((0, 0), FAR);
    let region = summary(REGION, false, (-1, -2), (3, 4), true).bytes().to_vec();
    let mut all = Vec::new();

    // length and single bytes: the region's, with something else in one place
    let mut with = |name: &str, at: usize, byte: u8, verdict: bool| {
        let mut record = region.clone();
        record[at] = byte;
        all.push((format!("{name} {byte}"), record, verdict));
    };
    [(82, BAD), (SUMMARY, GOOD), (84, BAD)].into_iter().for_each(|(byte, verdict)| with("kind", 0, byte, verdict));
    [(0, BAD), (2, GOOD), (3, GOOD), (4, BAD), (255, BAD)].into_iter().for_each(|(byte, verdict)| with("type", 1, byte, verdict));
    [(0, GOOD), (2, BAD), (255, BAD)].into_iter().for_each(|(byte, verdict)| with("empty byte", 2, byte, verdict));
    [(1, GOOD), (2, BAD), (255, BAD)].into_iter().for_each(|(byte, verdict)| with("boundary byte", 19, byte, verdict));
    for length in 0..20 {
        all.push((format!("{length} bytes"), region[..length].to_vec(), BAD));
    }
    all.push(("21 bytes".to_string(), [&region[..], &[0]].concat(), BAD));

    let mut add = |name: &str, summary: Summary, verdict: bool| all.push((name.to_string(), summary.bytes().to_vec(), verdict));
    for (past, verdict) in [(0, GOOD), (1, BAD)] {
        add("least x at the limit", summary(POINTS, false, (-limit - past, 0), origin, false), verdict);
        add("least y at the limit", summary(POINTS, false, (0, -limit - past), origin, false), verdict);
        add("greatest x at the limit", summary(POINTS, false, origin, (limit + past, 0), false), verdict);
        add("greatest y at the limit", summary(POINTS, false, origin, (0, limit + past), false), verdict);
        add("least x above", summary(POINTS, false, (5 + past, 0), (5, 9), false), verdict);
        add("least y above", summary(POINTS, false, (0, 5 + past), (9, 5), false), verdict);
        add("least x above, a region", summary(REGION, false, (4 + 2 * past, 0), (5, 9), true), verdict);
        for kind in [POINTS, LINE, REGION] {
            add("empty, least x", summary(kind, true, (-past, 0), origin, false), verdict);
            add("empty, least y", summary(kind, true, (0, -past), origin, false), verdict);
            add("empty, greatest x", summary(kind, true, origin, (past, 0), false), verdict);
            add("empty, greatest y", summary(kind, true, origin, (0, past), false), verdict);
            add("empty, boundary", summary(kind, true, origin, origin, past == 1), verdict);
        }
        add("points, boundary", summary(POINTS, false, (1, 1), (5, 5), past == 1), verdict);
        add("a line, wide by one", summary(LINE, false, (7 + past, 7), (8, 7), true), verdict);
        add("a line, high by one", summary(LINE, false, (7, 7 + past), (7, 8), true), verdict);
        add("a line without a boundary, high by one", summary(LINE, false, (7, 7 + past), (9, 8), false), verdict);
        add("a line without a boundary, wide by one", summary(LINE, false, (7 + past, 7), (8, 9), false), verdict);
        add("a region, high by one", summary(REGION, false, (7, 7 + past), (9, 8), true), verdict);
        add("a region, wide by one", summary(REGION, false, (7 + past, 7), (8, 9), true), verdict);
        add("a region, boundary", summary(REGION, false, (7, 7), (9, 9), past == 0), verdict);
    }
    add("a line that is a point, without a boundary", summary(LINE, false, (7, 7), (7, 7), false), BAD);
    add("a region that is a point", summary(REGION, false, (7, 7), (7, 7), true), BAD);
    add("a flat line with a boundary", summary(LINE, false, (7, 7), (9, 7), true), GOOD);
    add("an upright line with a boundary", summary(LINE, false, (7, 7), (7, 9), true), GOOD);
    add("a line with a boundary", summary(LINE, false, (7, 7), (9, 9), true), GOOD);
    add("one point", summary(POINTS, false, (7, 7), (7, 7), false), GOOD);
    add("flat points", summary(POINTS, false, (7, 7), (9, 7), false), GOOD);
    all
}

/// Every scene made by hand that has a known line, but for the pictures.
pub fn known() -> Vec<Known> {
    [twelve(), refusal_table(), reading_traps(), answer_traps(), either_order(), extents(), wide_ground()].into_iter().flatten().collect()
}

/// A cell picture's matrix, for pictures of faces alone: one letter each, lines from above parted by a slash.
pub struct Drawn {
    pub kinds: (u8, u8),
    pub matrix: &'static str,
    pub lines: Vec<String>,
}

impl Drawn {
    pub fn bytes(&self) -> Vec<u8> {
        let lines: Vec<&str> = self.lines.iter().map(String::as_str).collect();
        let (f, g) = picture::objects(self.kinds, &lines);
        scene_bytes(&f, &g)
    }
}

/// The 33 matrices of two regions in yes and no, four of those that differ from one of them in that the outlines share no stretch, and the rarest of a line and a
/// region.
pub fn drawn_matrices() -> Vec<Drawn> {
    let faces = |(matrix, cells): &(&'static str, &str)| {
        let mut lines = vec![String::new()];
        for row in cells.split('/') {
            lines.push(row.chars().flat_map(|face| [' ', face]).collect());
            lines.push(String::new());
        }
        Drawn { kinds: (REGION, REGION), matrix, lines }
    };
    let edges = |(matrix, lines): &(&'static str, &[&str])| {
        let lines = lines.iter().map(|line| line.to_string()).collect();
        Drawn { kinds: (LINE, REGION), matrix, lines }
    };
    REGION_PICTURES.iter().map(faces).chain(LINE_REGION_PICTURES.iter().map(edges)).collect()
}

const REGION_PICTURES: [(&str, &str); 37] = [
    ("FF2FF1212", "g.f"),
    ("FF2F1F212", ".g./gfg/.g."),
    ("FF2F112F2", ".f./fgf/.f."),
    ("FF2F11212", "gf"),
    ("2FFF1FFF2", "b"),
    ("2FFF1F212", "b.g"),
    ("2FF1FF212", "ggg/gbg/ggg"),
    ("2FF11F2F2", ".b./bgb/.b."),
    ("2FF11F212", "bg"),
    ("2F2F1F212", "b.ggg/..gfg/..ggg"),
    ("2F2F11FF2", "b.f"),
    ("2F2F112F2", "b.fff/..fgf/..fff"),
    ("2F2F11212", "b.gf"),
    ("2F21F1212", "ggg.f/gbg../ggg.."),
    ("2F211F2F2", "bbbbb/bgggb/bgfgb/bgggb/bbbbb"),
    ("2F211F212", "bg./gfg/.g."),
    ("2F21112F2", ".b./fgf/.f."),
    ("2F2111212", "bgf"),
    ("212FF1FF2", "fff/fbf/fff"),
    ("212FF1212", "fff.g/fbf../fff.."),
    ("212F1FFF2", ".b./bfb/.b."),
    ("212F1F2F2", "bbbbb/bfffb/bfgfb/bfffb/bbbbb"),
    ("212F1F212", ".b./gfg/.g."),
    ("212F11FF2", "bf"),
    ("212F112F2", "bf./fgf/.f."),
    ("212F11212", "bfg"),
    ("2121FF212", "ggggg/gbbbg/gbfbg/gbbbg/ggggg"),
    ("2121F12F2", "fffff/fbbbf/fbgbf/fbbbf/fffff"),
    ("2121F1212", "fff.ggg/fbf.gbg/fff.ggg"),
    ("21211F2F2", "bbbbb/bgbfb/bbbbb"),
    ("21211F212", "gb./gfg/.g."),
    ("2121112F2", "fb./fgf/.f."),
    ("212111212", "gbf"),
    ("212F01212", "fff.f./fbf..g/fff..."),
    ("2F2101212", "ggg.f./gbg..g/ggg..."),
    ("21210F212", "ggggg.ggggg/gbbbg.gbggg/gbfbg.gg.gg/gbbbg.ggggg/ggggg......"),
    ("2121012F2", "fffff.fffff/fbbbf.fbfff/fbgbf.ff.ff/fbbbf.fffff/fffff......"),
];

const LINE_REGION_PICTURES: [(&str, &[&str]); 6] = [
    ("1F1F00212", &["+ + + + +", " g g     ", "+f+f+ + +", " g g     ", "+ + + +f+"]),
    ("1F100F212", &["+ + + + +", " g g g   ", "+ +f+ +f+", " g g g  f", "+ + + +f+"]),
    ("1F1000212", &["+ + + + +f+", " g g g     ", "+ +f+ +f+ +", " g g g  f  ", "+ + + +f+ +"]),
    ("1010FF212", &["+ + + + +", " g g g   ", "+ + +f+f+", " g g g  f", "+ + +f+f+", " g g g   ", "+ + + + +"]),
    ("1010F0212", &["+ + + + +f+", " g g g     ", "+ + +f+f+ +", " g g g  f  ", "+ + +f+f+ +", " g g g     ", "+ + + + + +"]),
    ("101000212", &["+ + + +f+", " g g g   ", "+ + +f+f+", " g g g  f", "+ + +f+f+", " g g g   ", "+ + + + +"]),
];
