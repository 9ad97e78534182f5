//! The families of scenes that are measured: for each the outlines of F and of G with some number of segments. All coordinates are even, so
//! that every midpoint is whole; circles are made with the four operations alone, so that a family is the same on every machine.

use crate::maker::in_either_order;
use crate::plane::{Point, Segment};
use crate::scene::{Object, LINE, POINTS};

/// The outlines of F and of G with n segments each, or a few less. The flag says that a region is wanted: some outlines are closed only then.
type Outlines = fn(n: usize, region: bool) -> [Vec<Segment>; 2];

pub struct Family {
    pub name: &'static str,
    pub says: &'static str,
    outlines: Outlines,
    /// One ring each: a line leaves out the last segment, so that it has two ends.
    one_ring: bool,
}

const fn family(name: &'static str, says: &'static str, outlines: Outlines, one_ring: bool) -> Family {
    Family { name, says, outlines, one_ring }
}

pub const FAMILIES: [Family; 12] = [
    family("far", "two stars side by side", far, true),
    family("nested", "a star inside a star", nested, true),
    family("corner", "two stars that touch at a corner", corner, true),
    family("border", "two bands on both sides of a zigzag border", border, true),
    family("crossing", "two bands whose zigzags cross at every other corner", crossing, true),
    family("equal", "the same star twice", equal, true),
    family("combs", "two combs with their teeth between each other", combs, true),
    family("chessboard", "the black and the white squares of a board", chessboard, false),
    family("rings", "nested squares, F's and G's in turn", rings, false),
    family("squares", "two grids of small squares between each other", squares, false),
    family("fan", "segments, or triangles, from one point in all directions, F's and G's in turn", fan, false),
    family("parallel", "long segments, or bars, side by side, F's and G's in turn", parallel, false),
];

impl Family {
    /// A scene of this family: objects of the given types, each from an outline of n segments. With the higher type first it holds the same two objects
    /// as with the lower one first.
    pub fn scene(&self, kinds: (u8, u8), n: usize) -> (Object, Object) {
        in_either_order(kinds, |kinds| self.ascending(kinds, n))
    }

    fn ascending(&self, kinds: (u8, u8), n: usize) -> (Object, Object) {
        let object = |which: usize, kind: u8| {
            let outline = std::mem::take(&mut (self.outlines)(n, kind != LINE)[which]);
            match kind {
                POINTS => Object::of_points(&ends_and_midpoints(&outline, 2 * n)),
                LINE if self.one_ring => Object::of_segments(kind, &outline[..outline.len() - 1]),
                _ => Object::of_segments(kind, &outline),
            }
        };
        (object(0, kinds.0), object(1, kinds.1))
    }
}

/// The ends of an outline, then its midpoints, as far as there is room.
fn ends_and_midpoints(outline: &[Segment], most: usize) -> Vec<Point> {
    let mut points: Vec<Point> = outline.iter().flat_map(|s| [s.left, s.right]).collect();
    points.sort();
    points.dedup();
    points.extend(outline.iter().map(middle));
    points.truncate(most);
    points
}

pub fn middle(s: &Segment) -> Point {
    ((s.left.0 + s.right.0) / 2, (s.left.1 + s.right.1) / 2)
}

pub fn ring(corners: &[Point]) -> Vec<Segment> {
    (0..corners.len()).map(|i| Segment::between(corners[i], corners[(i + 1) % corners.len()])).collect()
}

fn square(low: Point, wide: i64) -> Vec<Segment> {
    rectangle(low, (low.0 + wide, low.1 + wide))
}

fn rectangle(low: Point, high: Point) -> Vec<Segment> {
    ring(&[low, (high.0, low.1), high, (low.0, high.1)])
}

fn moved(path: &[Point], by: Point) -> Vec<Point> {
    path.iter().map(|p| (p.0 + by.0, p.1 + by.1)).collect()
}

/// Direction k of m, a multiple of 4, at some distance from the origin.
fn around(k: usize, m: usize, distance: i64) -> Point {
    let t = (k % (m / 4)) as f64 / (m / 4) as f64;
    let even = |share: f64| 2 * (share * distance as f64 / 2.0).round() as i64;
    let (x, y) = (even((1.0 - t * t) / (1.0 + t * t)), even(2.0 * t / (1.0 + t * t)));
    [(x, y), (-y, x), (-x, -y), (y, -x)][k / (m / 4) % 4]
}

/// A star of n corners, every other one further in.
fn star(n: usize, centre: Point, reach: i64) -> Vec<Segment> {
    let corners: Vec<Point> = (0..n).map(|k| around(k, n, if k % 2 == 0 { reach } else { reach * 3 / 5 })).collect();
    ring(&moved(&corners, centre))
}

fn far(n: usize, _: bool) -> [Vec<Segment>; 2] {
    [star(n, (-500_000, 0), 200_000), star(n, (500_000, 0), 200_000)]
}

fn nested(n: usize, _: bool) -> [Vec<Segment>; 2] {
    [star(n, (0, 0), 200_000), star(n, (0, 0), 600_000)]
}

fn corner(n: usize, _: bool) -> [Vec<Segment>; 2] {
    [star(n, (-400_000, 0), 400_000), star(n, (400_000, 0), 400_000)]
}

fn equal(n: usize, _: bool) -> [Vec<Segment>; 2] {
    [star(n, (0, 0), 600_000), star(n, (0, 0), 600_000)]
}

/// A path with corners at even steps on the axis and at odd steps as high as `height` says.
fn zigzag(n: usize, height: impl Fn(usize) -> i64) -> Vec<Point> {
    (0..n / 2).map(|i| (2_000 * i as i64, if i % 2 == 0 { 0 } else { height(i) })).collect()
}

/// The band between a path and itself moved up or down: the path forth, then back.
fn band(path: &[Point], up: i64) -> Vec<Segment> {
    let back = moved(path, (0, up)).into_iter().rev();
    ring(&path.iter().copied().chain(back).collect::<Vec<_>>())
}

fn border(n: usize, _: bool) -> [Vec<Segment>; 2] {
    let path = zigzag(n, |_| 1_000);
    [band(&path, -40_000), band(&path, 40_000)]
}

fn crossing(n: usize, _: bool) -> [Vec<Segment>; 2] {
    let height = |i: usize| if i % 4 == 1 { 1_000 } else { -1_000 };
    // the last corner is at an odd step: F's band goes on from there to its own side
    let up = 40 * height(n / 2 - 1);
    [band(&zigzag(n, height), up), band(&zigzag(n, |i| -height(i)), -up)]
}

/// A comb of n / 4 teeth, from a point on, its teeth towards `up`.
fn comb(n: usize, (x, y): Point, up: i64) -> Vec<Segment> {
    let mut corners = vec![(x, y)];
    for tooth in 0..n as i64 / 4 {
        let at = x + 800 * tooth;
        corners.extend([(at, y + 200 * up), (at + 200, y + 200 * up), (at + 200, y + 20 * up), (at + 800, y + 20 * up)]);
    }
    corners.truncate(n - 1);
    corners.push((corners[n - 2].0, y));
    ring(&corners)
}

fn combs(n: usize, _: bool) -> [Vec<Segment>; 2] {
    [comb(n, (0, 0), 1_000), comb(n, (400, 250_000), -1_000)]
}

fn chessboard(n: usize, _: bool) -> [Vec<Segment>; 2] {
    // n / 4 squares of either colour
    let wide = (1..).find(|wide| wide * wide >= n / 2).unwrap_or(1);
    let of_colour = |colour: usize| {
        let all = (0..n / 2).map(|i| (i / wide, i % wide)).filter(|(x, y)| (x + y) % 2 == colour);
        all.flat_map(|(x, y)| square((100 * x as i64, 100 * y as i64), 100)).collect()
    };
    [of_colour(0), of_colour(1)]
}

fn rings(n: usize, _: bool) -> [Vec<Segment>; 2] {
    let of = |first: i64| (0..n as i64 / 4).map(|k| 100 * k + first).flat_map(|reach| square((-reach, -reach), 2 * reach)).collect();
    [of(50), of(100)]
}

fn squares(n: usize, _: bool) -> [Vec<Segment>; 2] {
    let count = (n as i64 / 4).min(121);
    let side = (1..).find(|side| side * side >= count).unwrap_or(1);
    let of = |first: i64| (0..count).flat_map(|i| square((first + 120 * (i / side), first + 120 * (i % side)), 40)).collect();
    [of(0), of(60)]
}

fn fan(n: usize, region: bool) -> [Vec<Segment>; 2] {
    if region {
        let corner = |k: usize| around(k, n / 3 * 4, 900_000);
        let triangle = |k: usize| ring(&[(0, 0), corner(k), corner(k + 1)]);
        return [0, 2].map(|first| (0..n / 3).flat_map(|k| triangle(4 * k + first)).collect());
    }
    // shorter than the triangles, and in no direction of theirs
    [1, 3].map(|first| (0..n).map(|k| Segment::between((0, 0), around(4 * k + first, 4 * n, 600_000))).collect())
}

fn parallel(n: usize, region: bool) -> [Vec<Segment>; 2] {
    if region {
        let bar = |low: i64| rectangle((-950_000, low), (950_000, low + 200));
        return [100, 500].map(|first| (0..n as i64 / 4).flat_map(|k| bar(800 * k + first)).collect());
    }
    // shorter than the bars, and some of them inside
    let long = |y: i64| Segment::between((-900_000, y), (900_000, y));
    [200, 0].map(|first| (0..n as i64).map(|k| long(400 * k + first)).collect())
}
