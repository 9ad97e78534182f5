//! Well-known binary made by hand, with what it must be read as, and objects with what must be written.

use crate::byhand::{line, points, rectangle, region, square};
use crate::plane::{Point, LIMIT};
use crate::scene::{object_bytes, Object, LINE, POINTS, REGION};
use crate::wkb_maker::{encoded, Numbers, Shape};

/// A name, the bytes, and the line that `reference read` or `reference write` gives.
pub struct Known {
    pub name: &'static str,
    pub bytes: Vec<u8>,
    pub line: String,
}

pub fn hexadecimal(bytes: &[u8]) -> String {
    bytes.iter().map(|byte| format!("{byte:02x}")).collect()
}

/// The bytes of hexadecimal digits, spaces passed over.
fn of_hexadecimal(digits: &str) -> Vec<u8> {
    let digits: Vec<u8> = digits.bytes().filter(u8::is_ascii_hexdigit).map(|b| (b as char).to_digit(16).expect("a digit") as u8).collect();
    digits.chunks(2).map(|pair| 16 * pair[0] + pair[1]).collect()
}

fn low() -> impl FnMut() -> bool {
    || false
}

/// High byte first and low byte first in turn.
fn in_turn() -> impl FnMut() -> bool {
    let mut high_first = false;
    move || {
        high_first = !high_first;
        high_first
    }
}

fn shape(kind: u8, parts: &[&[&[Numbers]]]) -> Shape {
    Shape { kind, parts: parts.iter().map(|part| part.iter().map(|path| path.to_vec()).collect()).collect() }
}

fn bytes(kind: u8, parts: &[&[&[Numbers]]]) -> Vec<u8> {
    encoded(&shape(kind, parts), &mut low())
}

fn ring(points: &[Point]) -> Vec<Numbers> {
    points.iter().map(|p| (p.0 as f64, p.1 as f64)).collect()
}

fn with(mut bytes: Vec<u8>, at: usize, other: &[u8]) -> Vec<u8> {
    bytes[at..at + other.len()].copy_from_slice(other);
    bytes
}

fn less(mut bytes: Vec<u8>, by: usize) -> Vec<u8> {
    bytes.truncate(bytes.len() - by);
    bytes
}

fn more(mut bytes: Vec<u8>, byte: u8) -> Vec<u8> {
    bytes.push(byte);
    bytes
}

/// What is read.
pub fn read() -> Vec<Known> {
    of_words().into_iter().chain(of_geos()).collect()
}

/// The examples of Paper 9's words, and the nearest to each of them.
fn of_words() -> Vec<Known> {
    let no = |name, bytes: Vec<u8>, line: &str| Known { name, bytes, line: format!("no {line}") };
    let ok = |name, bytes: Vec<u8>, object: Object| Known { name, bytes, line: hexadecimal(&object_bytes(&object)) };
    let nan = f64::NAN;
    let limit = LIMIT as f64;
    let of_points = |points: &[Numbers]| encoded(&Shape { kind: POINTS, parts: points.iter().map(|p| vec![vec![*p]]).collect() }, &mut low());
    let of_line = |parts: &[&[Numbers]]| bytes(LINE, &parts.iter().map(std::slice::from_ref).collect::<Vec<_>>());
    let of_rings = |rings: &[&[Numbers]]| bytes(REGION, &[rings]);
    let grid = |count: i64| -> Vec<Numbers> { (0..count).map(|i| ((i / 40) as f64, (i % 40) as f64)).collect() };
    let zigzag = |count: i64| -> Vec<Numbers> { (0..=count).map(|i| (i as f64, (i % 2) as f64)).collect() };
    let open: [Numbers; 4] = [(0.5, 0.0), (4.0, 0.0), (4.0, 4.0), (0.0, 4.0)];
    let (four, hole) = (ring(&rectangle(0, 0, 4, 4)), ring(&rectangle(1, 1, 3, 3)));
    let beside = ring(&rectangle(4, 0, 8, 4));
    let segment: &[Numbers] = &[(0.0, 0.0), (4.0, 0.0)];
    let a_point = of_points(&[(2.0, 3.0)]);
    let a_line = of_line(&[segment]);
    let a_square = of_rings(&[&four]);
    let mixed = |kind, parts: &[&[&[Numbers]]]| encoded(&shape(kind, parts), &mut in_turn());
    vec![
        no("no byte", vec![], "24 0"),
        no("an order alone", vec![1], "24 1"),
        no("a type cut", vec![1, 4], "24 1"),
        no("order 2", with(a_point.clone(), 0, &[2]), "24 0"),
        no("no count", vec![1, 4, 0, 0, 0], "24 5"),
        no("a count cut", vec![1, 4, 0, 0, 0, 1, 0, 0], "24 5"),
        no("one point and no more", vec![1, 4, 0, 0, 0, 1, 0, 0, 0], "24 9"),
        no("four billion points and no more", vec![1, 4, 0, 0, 0, 255, 255, 255, 255], "24 9"),
        no("four billion rings, one of them there", with(a_square.clone(), 14, &[255; 4]), "24 102"),
        no("y cut", less(a_point.clone(), 1), "24 22"),
        no("y missing", less(a_point.clone(), 8), "24 22"),
        no("x cut", less(a_point.clone(), 9), "24 14"),
        no("no points, and a byte", more(of_points(&[]), 0), "24 9"),
        no("a point, and a byte", more(a_point.clone(), 7), "24 30"),
        no("a point with SRID", with(a_point.clone(), 1, &[4, 0, 0, 32]), "24 1"),
        no("a point with Z", with(a_point.clone(), 1, &[4, 0, 0, 128]), "24 1"),
        no("a point with Z below", with(a_point.clone(), 10, &[1, 0, 0, 128]), "24 10"),
        no("a point with Z, the ISO's way", with(a_point.clone(), 1, &1004u32.to_le_bytes()), "24 1"),
        no("a collection", with(of_points(&[]), 1, &[7]), "24 1"),
        no("a single point", a_point[9..].to_vec(), "24 1"),
        no("a line among points", with(a_point.clone(), 10, &[2]), "24 10"),
        no("another order below", with(a_point.clone(), 9, &[0]), "24 10"),
        no("order 3 below", with(a_point.clone(), 9, &[3]), "24 9"),
        no("a part of one point", of_line(&[segment, &[(7.0, 7.0)]]), "24 55"),
        no("a ring of none", of_rings(&[&[]]), "24 18"),
        no("a ring of three", of_rings(&[&[(0.0, 0.0), (4.0, 0.0), (0.0, 0.0)]]), "24 18"),
        no("an open ring of two", of_rings(&[&segment]), "24 18"),
        no("an open ring with a fraction", of_rings(&[&open]), "26 18"),
        no("the same less its last byte", less(of_rings(&[&open]), 1), "25 22 0.5"),
        no("the same of whole numbers, less its last byte", less(of_rings(&[&[(0.0, 0.0), open[1], open[2], open[3]]]), 1), "24 78"),
        no("first and last NaN", of_rings(&[&[(nan, 0.0), open[1], open[2], (nan, 0.0)]]), "26 18"),
        no("first and last infinite", of_rings(&[&[(f64::INFINITY, 0.0), open[1], open[2], (f64::INFINITY, 0.0)]]), "25 22 inf"),
        no("first and last 0.5", of_rings(&[&[open[0], open[1], open[2], open[0]]]), "25 22 0.5"),
        no("an open ring, then a short one", of_rings(&[&open, &segment]), "26 18"),
        no("a short ring, then an open one", of_rings(&[&segment, &open]), "24 18"),
        no("an open ring, and a byte", more(of_rings(&[&open]), 0), "26 18"),
        no("a closed ring, then an open one", of_rings(&[&four, &open]), "26 102"),
        no("y is no whole number", of_points(&[(0.0, 0.0), (1.0, 2.5)]), "25 43 2.5"),
        no("a point that is empty elsewhere", of_points(&[(nan, nan)]), "25 14 NaN"),
        no("the least number above 0", of_points(&[(5e-324, 0.0)]), "25 14 5e-324"),
        no("beyond the limit", of_points(&[(limit + 1.0, 0.0)]), "25 14 10000001.0"),
        no("half a step beyond the limit", of_points(&[(0.0, -limit - 0.5)]), "25 22 -10000000.5"),
        ok("at the limits", of_points(&[(limit, -limit), (-limit, limit)]), points(&[(-LIMIT, LIMIT), (LIMIT, -LIMIT)])),
        ok("minus zero", of_points(&[(-0.0, 1.0), (0.0, 1.0)]), points(&[(0, 1)])),
        ok("no points", of_points(&[]), points(&[])),
        ok("no line", of_line(&[]), line(&[])),
        ok("no region", bytes(REGION, &[]), region(&[])),
        ok("a part of none", of_line(&[&[], segment, &[]]), line(&[&[(0, 0), (4, 0)]])),
        ok("a polygon of none", bytes(REGION, &[&[], &[&four]]), square(0, 4)),
        ok("points twice", of_points(&[(2.0, 2.0), (0.0, 0.0), (2.0, 2.0)]), points(&[(0, 0), (2, 2)])),
        ok("equal neighbours", of_line(&[&[(0.0, 0.0), (0.0, 0.0), (4.0, 0.0), (4.0, 0.0)]]), line(&[&[(0, 0), (4, 0)]])),
        ok("a part of equal points", of_line(&[&[(1.0, 1.0), (1.0, 1.0)]]), line(&[])),
        ok("back and forth", of_line(&[&[(0.0, 0.0), (4.0, 0.0), (0.0, 0.0)], segment]), line(&[&[(0, 0), (4, 0)]])),
        ok("a ring of equal points", of_rings(&[&[(1.0, 1.0); 4]]), region(&[])),
        ok("closed by 0.0 and -0.0", of_rings(&[&[(0.0, -0.0), (4.0, 0.0), (0.0, 3.0), (-0.0, 0.0)]]), region(&[&[(0, 0), (4, 0), (0, 3), (0, 0)]])),
        ok("a square with a hole", of_rings(&[&four, &hole]), region(&[&rectangle(0, 0, 4, 4), &rectangle(1, 1, 3, 3)])),
        ok("a square in another", bytes(REGION, &[&[&four], &[&hole]]), region(&[&rectangle(0, 0, 4, 4), &rectangle(1, 1, 3, 3)])),
        ok("a square twice", bytes(REGION, &[&[&four], &[&four]]), square(0, 4)),
        ok("orders in turn, points", mixed(POINTS, &[&[&[(2.0, 3.0)]], &[&[(4.0, -5.0)]]]), points(&[(2, 3), (4, -5)])),
        ok("orders in turn, a line", mixed(LINE, &[&[segment], &[&[(4.0, 0.0), (4.0, 3.0)]]]), line(&[&[(0, 0), (4, 0), (4, 3)]])),
        ok("orders in turn, a region", mixed(REGION, &[&[&four, &hole]]), region(&[&rectangle(0, 0, 4, 4), &rectangle(1, 1, 3, 3)])),
        no("squares with a common side", bytes(REGION, &[&[&four], &[&beside]]), "13 0"),
        no("in one line from one end", of_line(&[&[(0.0, 0.0), (2.0, 0.0)], segment]), "10 0"),
        no("in one line to one end", of_line(&[&[(2.0, 0.0), (4.0, 0.0)], segment]), "10 0"),
        no("in one line, overlapping", of_line(&[segment, &[(2.0, 0.0), (6.0, 0.0)]]), "12 0"),
        no("crossing", of_line(&[&[(0.0, 0.0), (2.0, 2.0)], &[(0.0, 2.0), (2.0, 0.0)]]), "12 0"),
        ok("1,024 points three times over", of_points(&[grid(1024), grid(1024), grid(1024)].concat()), points(&grid_points(1024))),
        no("1,025 points", of_points(&grid(1025)), "20 0"),
        no("1,025 points, and a byte", more(of_points(&grid(1025)), 0), "24 21534"),
        ok("512 segments", of_line(&[&zigzag(512), &zigzag(512)]), line(&[&zigzag_points(512)])),
        no("513 segments", of_line(&[&zigzag(513)]), "20 0"),
        no("513 segments, two from one end", of_line(&[&zigzag(512), &[(0.0, 0.0), (2.0, 2.0)]]), "20 0"),
        ok("a segment", a_line, line(&[&[(0, 0), (4, 0)]])),
        ok("a square", a_square, square(0, 4)),
    ]
}

/// What GEOS 3.11.1 wrote of shapes given as well-known text, in either byte order, with SRID and with Z.
fn of_geos() -> Vec<Known> {
    let no = |name, digits: &str, line: &str| Known { name, bytes: of_hexadecimal(digits), line: format!("no {line}") };
    let ok = |name, digits: &str, object: Object| Known { name, bytes: of_hexadecimal(digits), line: hexadecimal(&object_bytes(&object)) };
    let island: &[Point] = &[(3, 3), (5, 3), (3, 5), (3, 3)];
    let nested = || region(&[&rectangle(0, 0, 9, 9), &rectangle(1, 1, 8, 8), island]);
    let paths = || line(&[&[(0, 0), (4, 0), (4, 3)], &[(1, 1), (2, 2)]]);
    vec![
        ok(
            "GEOS, MULTIPOINT (2 3, -4 5), high byte first",
            "000000000400000002 000000000140000000000000004008000000000000 0000000001C0100000000000004014000000000000",
            points(&[(-4, 5), (2, 3)]),
        ),
        ok(
            "GEOS, MULTIPOINT (2 3, -4 5), low byte first",
            "010400000002000000 010100000000000000000000400000000000000840 010100000000000000000010C00000000000001440",
            points(&[(-4, 5), (2, 3)]),
        ),
        ok("GEOS, MULTIPOINT EMPTY", "000000000400000000", points(&[])),
        ok(
            "GEOS, MULTILINESTRING ((0 0, 4 0, 4 3), (1 1, 2 2)), high byte first",
            "000000000500000002 000000000200000003 00000000000000000000000000000000 40100000000000000000000000000000 40100000000000004008000000000000
             000000000200000002 3FF00000000000003FF0000000000000 40000000000000004000000000000000",
            paths(),
        ),
        ok(
            "GEOS, MULTILINESTRING ((0 0, 4 0, 4 3), (1 1, 2 2)), low byte first",
            "010500000002000000 010200000003000000 00000000000000000000000000000000 00000000000010400000000000000000 00000000000010400000000000000840
             010200000002000000 000000000000F03F000000000000F03F 00000000000000400000000000000040",
            paths(),
        ),
        ok(
            "GEOS, MULTILINESTRING (EMPTY, (0 0, 4 0))",
            "010500000002000000 010200000000000000 010200000002000000 00000000000000000000000000000000 00000000000010400000000000000000",
            line(&[&[(0, 0), (4, 0)]]),
        ),
        ok(
            "GEOS, an island in a hole, high byte first",
            "000000000600000002 000000000300000002
             00000005 00000000000000000000000000000000 40220000000000000000000000000000 40220000000000004022000000000000 00000000000000004022000000000000 00000000000000000000000000000000
             00000005 3FF00000000000003FF0000000000000 3FF00000000000004020000000000000 40200000000000004020000000000000 40200000000000003FF0000000000000 3FF00000000000003FF0000000000000
             000000000300000001 00000004 40080000000000004008000000000000 40140000000000004008000000000000 40080000000000004014000000000000 40080000000000004008000000000000",
            nested(),
        ),
        ok(
            "GEOS, an island in a hole, low byte first",
            "010600000002000000 010300000002000000
             05000000 00000000000000000000000000000000 00000000000022400000000000000000 00000000000022400000000000002240 00000000000000000000000000002240 00000000000000000000000000000000
             05000000 000000000000F03F000000000000F03F 000000000000F03F0000000000002040 00000000000020400000000000002040 0000000000002040000000000000F03F 000000000000F03F000000000000F03F
             010300000001000000 04000000 00000000000008400000000000000840 00000000000014400000000000000840 00000000000008400000000000001440 00000000000008400000000000000840",
            nested(),
        ),
        ok(
            "GEOS, MULTIPOLYGON (EMPTY, ((3 3, 5 3, 3 5, 3 3)))",
            "000000000600000002 000000000300000000 000000000300000001 00000004 40080000000000004008000000000000 40140000000000004008000000000000
             40080000000000004014000000000000 40080000000000004008000000000000",
            region(&[island]),
        ),
        no("GEOS, with SRID 4326, high byte first", "0020000004000010E600000001 000000000140000000000000004008000000000000", "24 1"),
        no("GEOS, with SRID 4326, low byte first", "0104000020E610000001000000 010100000000000000000000400000000000000840", "24 1"),
        no("GEOS, MULTIPOINT Z (2 3 4)", "010400008001000000 0101000080000000000000004000000000000008400000000000001040", "24 1"),
        no("GEOS, POINT (2 3)", "010100000000000000000000400000000000000840", "24 1"),
        no("GEOS, GEOMETRYCOLLECTION (MULTIPOINT (2 3))", "010700000001000000 010400000001000000 010100000000000000000000400000000000000840", "24 1"),
        no(
            "GEOS, MULTIPOLYGON (((0 0, 9 0, 9 9.5, 0 0)))",
            "000000000600000001 000000000300000001 00000004 00000000000000000000000000000000 40220000000000000000000000000000
             40220000000000004023000000000000 00000000000000000000000000000000",
            "25 62 9.5",
        ),
    ]
}

fn grid_points(count: i64) -> Vec<Point> {
    (0..count).map(|i| (i / 40, i % 40)).collect()
}

fn zigzag_points(count: i64) -> Vec<Point> {
    (0..=count).map(|i| (i, i % 2)).collect()
}

/// What is written.
pub fn written() -> Vec<Known> {
    let known = |name, object: Object, line: &str| Known { name, bytes: object_bytes(&object), line: line.replace(' ', "") };
    let wrong_ia = {
        let mut object = square(0, 4);
        object.halves.iter_mut().for_each(|h| h.ia = !h.ia);
        object
    };
    let no = |name, bytes: Vec<u8>, line: &str| Known { name, bytes, line: format!("no {line}") };
    vec![
        known("no points", points(&[]), "01 04000000 00000000"),
        known("no line", line(&[]), "01 05000000 00000000"),
        known("a point", points(&[(0, -1)]), "01 04000000 01000000 01 01000000 0000000000000000 000000000000f0bf"),
        known(
            "a segment",
            line(&[&[(3, 0), (1, 2)]]),
            "01 05000000 01000000 01 02000000 02000000 000000000000f03f 0000000000000040 0000000000000840 0000000000000000",
        ),
        no("no region", object_bytes(&region(&[])), "24 0"),
        no("a square", object_bytes(&square(0, 4)), "24 0"),
        no("a square inside out", object_bytes(&wrong_ia), "14 2"),
        no("no byte", vec![], "1 0"),
        no("a byte after the end", vec![84, 1, 69, 0], "7 3"),
        no("segments that cross", object_bytes(&line(&[&[(0, 0), (2, 2)], &[(0, 2), (2, 0)]])), "12 2"),
    ]
}
