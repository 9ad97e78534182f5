//! Raw pairs made by hand, with what must be added to each and how long the scene is, or the refusal, and of some what must be written.

use crate::byhand::{as_given, line, points, rectangle, refusal_table, region, square, twelve};
use crate::plane::{Point, Segment, LIMIT};
use crate::scene::{half_record, object_bytes, point_record, scene_bytes, Half, Object, LINE, REGION};

/// A name, the bytes, the room if it is not just enough, the line without the bytes that `reference split` gives, and what must be written, if it is given.
pub struct Known {
    pub name: &'static str,
    pub bytes: Vec<u8>,
    pub room: Option<usize>,
    pub line: String,
    pub written: Option<Vec<u8>>,
}

type Chain<'a> = &'a [Point];

fn pair(name: &'static str, f: &Object, g: &Object, line: &str) -> Known {
    Known { name, bytes: scene_bytes(f, g), room: None, line: line.to_string(), written: None }
}

fn into(room: usize, known: Known) -> Known {
    Known { room: Some(room), ..known }
}

fn written(f: &Object, g: &Object, known: Known) -> Known {
    Known { written: Some(scene_bytes(f, g)), ..known }
}

/// Two lines.
fn lines(name: &'static str, f: &[Chain], g: &[Chain], line_of: &str) -> Known {
    pair(name, &line(f), &line(g), line_of)
}

fn teeth(number: i64) -> Object {
    let all: Vec<[Point; 2]> = (1..=number).map(|i| [(i, 0), (i, 1)]).collect();
    line(&all.iter().map(|tooth| &tooth[..]).collect::<Vec<_>>())
}

fn upright(number: i64) -> Object {
    let all: Vec<[Point; 2]> = (1..=number).map(|i| [(i, 0), (i, 100)]).collect();
    line(&all.iter().map(|s| &s[..]).collect::<Vec<_>>())
}

fn level(number: i64) -> Object {
    let all: Vec<[Point; 2]> = (1..=number).map(|i| [(0, i), (100, i)]).collect();
    line(&all.iter().map(|s| &s[..]).collect::<Vec<_>>())
}

/// The plain cases, and what each number of the paper asks.
fn of_the_paper() -> Vec<Known> {
    let crossing = || lines("a crossing", &[&[(0, 2), (4, 2)]], &[&[(2, 0), (2, 4)]], "1 1 150");
    let of_crossing = [line(&[&[(0, 2), (2, 2), (4, 2)]]), line(&[&[(2, 0), (2, 2), (2, 4)]])];
    let corners = [(0, 0), (4, 0), (4, 2), (4, 4), (2, 4), (0, 4), (0, 0)];
    let others = [(2, 2), (4, 2), (6, 2), (6, 6), (2, 6), (2, 4), (2, 2)];
    let stretches: [Chain; 3] = [&[(1, 0), (3, 0)], &[(5, -2), (5, 2)], &[(8, 0), (8, 3)]];
    let cut_by_three = line(&[&[(0, 0), (1, 0), (3, 0), (5, 0), (8, 0), (12, 0)]]);
    let three_cut = line(&[&[(1, 0), (3, 0)], &[(5, -2), (5, 0), (5, 2)], &[(8, 0), (8, 3)]]);
    let long = line(&[&[(0, 0), (1000, 0)]]);
    vec![
        written(&of_crossing[0], &of_crossing[1], crossing()),
        into(149, Known { name: "a crossing into a byte less", line: "no 21 0".to_string(), ..crossing() }),
        into(151, Known { name: "a crossing into a byte more", ..crossing() }),
        into(0, Known { name: "a crossing into nothing", line: "no 21 0".to_string(), ..crossing() }),
        written(&region(&[&corners]), &region(&[&others]), pair("squares 0..4 and 2..6", &square(0, 4), &square(2, 6), "2 2 462")),
        pair(
            "a square with a hole, and a bar through both",
            &region(&[&rectangle(0, 0, 12, 12), &rectangle(4, 4, 8, 8)]),
            &region(&[&rectangle(-2, 5, 14, 7)]),
            "8 8 1070",
        ),
        written(&cut_by_three, &three_cut, lines("a stretch, a crossing and a touch", &[&[(0, 0), (12, 0)]], &stretches, "4 1 330")),
        written(&cut_by_three, &three_cut, pair("the same split again", &cut_by_three, &three_cut, "0 0 330")),
        lines("at (3, 1)", &[&[(0, 0), (6, 2)]], &[&[(3, 0), (3, 2)]], "1 1 150"),
        lines("the same, and at a third", &[&[(0, 0), (6, 2)]], &[&[(3, 0), (3, 2)], &[(2, 0), (2, 2)]], "no 19 2"),
        lines("y at a half", &[&[(0, 0), (4, 1)]], &[&[(2, 0), (2, 3)]], "no 19 2"),
        lines("x at a half", &[&[(0, 0), (1, 4)]], &[&[(0, 2), (3, 2)]], "no 19 2"),
        lines("the second of F", &[&[(0, 5), (1, 5)], &[(0, 0), (4, 1)]], &[&[(2, 0), (2, 3)]], "no 19 2"),
        lines("the second of F by place", &[&[(0, 0), (1, 0)], &[(3, 0), (7, 1)]], &[&[(5, 0), (5, 3)]], "no 19 38"),
        pair("of a region and a line", &square(0, 4), &line(&[&[(-1, 0), (1, 1)]]), "no 19 21"),
        pair("of a line and a region", &line(&[&[(-1, 0), (1, 1)]]), &square(0, 4), "no 19 2"),
        pair("511 teeth", &long, &teeth(511), "511 0 36834"),
        pair("512 teeth", &long, &teeth(512), "no 20 0"),
        pair("512 teeth first", &teeth(512), &long, "no 20 18435"),
        into(0, pair("512 teeth into nothing", &long, &teeth(512), "no 20 0")),
        pair("22 by 22", &upright(22), &level(22), "484 484 36438"),
        pair("23 by 23", &upright(23), &level(23), "no 20 0"),
    ]
}

/// Pairs on which a splitter goes wrong that cuts too much or too little, and the corners of the range.
fn traps() -> Vec<Known> {
    let l = LIMIT;
    let fan: Vec<[Point; 2]> = (1..=512).map(|i| [(0, 0), (i, 1000)]).collect();
    let fan: Vec<Chain> = fan.iter().map(|s| &s[..]).collect();
    let too_many = |y: i64| {
        let mut all = teeth(511).segments();
        all.push(Segment { left: (2000, y), right: (2002, y + 1) });
        Object::of_segments(LINE, &all)
    };
    let off_and_long = line(&[&[(0, 0), (1000, 0)], &[(2001, -5), (2001, 5)]]);
    let copied = |name, f: &Object, g: &Object| written(f, g, pair(name, f, g, &format!("0 0 {}", scene_bytes(f, g).len())));
    let parted = [
        line(&[&[(0, 0), (1, 0), (3, 0), (5, 0), (7, 0), (9, 0), (12, 0)]]),
        line(&[&[(1, 0), (3, 0)], &[(5, 0), (7, 0)], &[(9, 0), (12, 0), (14, 0)]]),
    ];
    let with_zeros = |segments: &[(Point, Point, bool)]| {
        let mut halves: Vec<Half> = Vec::new();
        for (p, q, ia) in segments {
            halves.extend([true, false].map(|left| Half { segment: Segment { left: *p, right: *q }, left, ia: *ia }));
        }
        halves.sort_by(Half::order);
        as_given(REGION, &halves)
    };
    let bottom_wrong = with_zeros(&[((0, 0), (4, 0), false), ((0, 0), (0, 4), false), ((0, 4), (4, 4), false), ((4, 0), (4, 4), true)]);
    vec![
        lines("a touch cuts one", &[&[(0, 0), (4, 0)]], &[&[(2, 0), (2, 3)]], "1 0 114"),
        lines("a common end cuts none", &[&[(0, 0), (4, 0)]], &[&[(4, 0), (4, 3)]], "0 0 78"),
        lines("equal segments", &[&[(0, 0), (4, 0)]], &[&[(0, 0), (4, 0)]], "0 0 78"),
        lines("one line, end to end", &[&[(0, 0), (4, 0)]], &[&[(4, 0), (6, 0)]], "0 0 78"),
        lines("one within the other", &[&[(0, 0), (9, 3)]], &[&[(3, 1), (6, 2)]], "2 0 150"),
        lines("one within the other from an end", &[&[(0, 0), (9, 3)]], &[&[(0, 0), (6, 2)]], "1 0 114"),
        lines("upright stretches", &[&[(0, 0), (0, 9)]], &[&[(0, -3), (0, 4)]], "1 1 150"),
        written(
            &parted[0],
            &parted[1],
            lines("stretches", &[&[(0, 0), (12, 0)]], &[&[(1, 0), (3, 0)], &[(5, 0), (7, 0)], &[(9, 0), (14, 0)]], "5 1 366"),
        ),
        pair("512 segments at one cut", &line(&[&[(-1000, 0), (1000, 0)]]), &line(&fan), "1 0 18510"),
        pair("20 is G's alone", &too_many(5), &off_and_long, "no 20 18435"),
        pair("19 before 20", &off_and_long, &too_many(0), "no 19 38"),
        lines("the range's diagonals", &[&[(-l, -l), (l, l)]], &[&[(-l, l), (l, -l)]], "1 1 150"),
        lines("the range's diagonals, an end moved by one", &[&[(-l, -l), (l, l)]], &[&[(-l, l), (l, 1 - l)]], "no 19 2"),
        lines("the range's diagonals, both ends moved by one", &[&[(-l, -l), (l, l)]], &[&[(-l, l - 1), (l, 1 - l)]], "1 1 150"),
        lines("across the range", &[&[(-l, 0), (l, 0)]], &[&[(1 - l, -l), (l - 1, l)]], "1 1 150"),
        pair("a line through a square, which comes second", &line(&[&[(-2, 2), (6, 2)]]), &square(0, 4), "2 2 342"),
        pair("a line through a square, which comes first", &square(0, 4), &line(&[&[(-2, 2), (6, 2)]]), "2 2 342"),
        pair("a square in a square that shares its side", &square(0, 4), &region(&[&rectangle(0, 1, 2, 3)]), "2 0 386"),
        copied("points", &points(&[(0, 0), (2, 2)]), &square(0, 4)),
        copied("points second", &line(&[&[(0, 0), (4, 0)]]), &points(&[(2, 0)])),
        into(0, pair("points into nothing", &points(&[]), &points(&[]), "no 21 0")),
        copied("no lines", &line(&[]), &line(&[])),
        copied("a square and no line", &square(0, 4), &line(&[])),
        pair("a wrong ia before all else", &bottom_wrong, &line(&[&[(-1, 0), (1, 1)]]), "no 14 2"),
        pair("a line that crosses itself", &line(&[&[(0, 0), (4, 4)], &[(0, 4), (4, 0)]]), &square(0, 4), "no 12 2"),
    ]
}

/// Where a copy is refused, what comes before it goes first.
fn refused_first() -> Vec<Known> {
    let twice = [&[84, 1][..], &point_record((1, 1)), &point_record((1, 1)), &[69, 84, 1, 69]].concat();
    let alone = half_record(LINE, &Half { segment: Segment { left: (0, 0), right: (4, 0) }, left: true, ia: false });
    let unpaired = [&[84, 2][..], &alone, &[69], &object_bytes(&line(&[&[(2, -1), (2, 1)]]))].concat();
    let known = |name, bytes, line: &str| Known { name, bytes, room: None, line: line.to_string(), written: None };
    vec![
        into(0, known("a point twice, into nothing", twice.clone(), "no 10 11")),
        known("a point twice", twice, "no 10 11"),
        known("a half alone that crosses", unpaired, "no 11 2"),
        known("no byte", Vec::new(), "no 1 0"),
    ]
}

/// Scenes that are split already: document 01's twelve, as they are; and its refusals but for 15.
fn of_document_one() -> Vec<Known> {
    let mut all = Vec::new();
    for known in twelve() {
        let taken = known.line.starts_with("ok");
        let (line, written) = if taken { (format!("0 0 {}", known.bytes.len()), Some(known.bytes.clone())) } else { (known.line.to_string(), None) };
        all.push(Known { name: known.name, bytes: known.bytes, room: None, line, written });
    }
    for known in refusal_table() {
        let line = if known.name == "15" { "1 1 150" } else { known.line };
        all.push(Known { name: known.name, bytes: known.bytes, room: None, line: line.to_string(), written: None });
    }
    all
}

pub fn known() -> Vec<Known> {
    [of_the_paper(), traps(), refused_first(), of_document_one()].into_iter().flatten().collect()
}
