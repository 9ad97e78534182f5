//! Raw pairs that take long to split: many crossings, on the grid or off it in the last record alone; segments that nowhere cross though their boxes do; fans and touches; and
//! pairs of full size that are sound, or refused for a fault near the end of an object, or of both.

use crate::clock;
use crate::faults;
use crate::library;
use crate::plane::{Point, Segment, LIMIT};
use crate::random::Random;
use crate::rows::{self, kind_name, FULL};
use crate::scene::{read_scene, scene_bytes, Object, LINE, MOST, POINTS};
use crate::split_maker::overlaid;

/// What a call may take at most, in microseconds.
const MOST_TIME: f64 = 5_000.0;

/// As many bytes as any scene has.
const ROOM: usize = 38_918;

/// Random pairs that are looked through.
const RANDOM: u64 = 2_000;

const SEGMENTS: i64 = MOST as i64 / 2;

/// Splits each of them, and says how long that takes and how it ends. True if none takes longer than it may.
pub fn run() -> bool {
    let mut scene = vec![0; ROOM];
    let mut slowest = (0.0, String::new());
    for (name, bytes) in all() {
        // the slow ones once more and longer, so that what else the machine does counts less
        let mut time = clock::roughly(|| library::split(&bytes, &mut scene));
        if time > MOST_TIME / 2.0 {
            time = time.min(clock::best(|| library::split(&bytes, &mut scene)));
        }
        let split = library::split(&bytes, &mut scene);
        println!("slow-pair {name} {} {} {} {time:.0}", split.number, split.added_f, split.added_g);
        if time > slowest.0 {
            slowest = (time, name);
        }
    }
    println!("slowest-pair {} {:.0}", slowest.1, slowest.0);
    slowest.0 <= MOST_TIME
}

fn all() -> Vec<(String, Vec<u8>)> {
    let mut pairs: Vec<(String, Vec<u8>)> = lines().into_iter().map(|(name, f, g)| (name.to_string(), scene_bytes(&line(&f), &line(&g)))).collect();
    let with_segments = |kinds: (u8, u8)| kinds.0 != POINTS && kinds.1 != POINTS;
    pairs.extend(rows::all().into_iter().filter(|row| row.size == FULL && with_segments(row.kinds)).map(|row| (row.name(), row.bytes)));
    for fault in faults::all() {
        let (f, g) = read_scene(&fault.bytes).expect("the faults are not of reading");
        if with_segments((f.kind, g.kind)) {
            let number = library::cells_as_given(&fault.bytes).number;
            pairs.push((format!("{}-first-{number}", fault.name), scene_bytes(&f, &f)));
            pairs.push((format!("{}-second-{number}", fault.name), scene_bytes(&g, &g)));
            pairs.push((format!("{}-{number}", fault.name), fault.bytes));
        }
    }
    pairs.extend((0..RANDOM).map(|seed| {
        let (f, g) = overlaid(&mut Random::new(seed), (LINE + (seed % 2) as u8, LINE + (seed / 2 % 2) as u8));
        (format!("random-{}-{}-{seed}", kind_name(f.kind), kind_name(g.kind)), scene_bytes(&f, &g))
    }));
    pairs
}

fn line(segments: &[(Point, Point)]) -> Object {
    Object::of_segments(LINE, &segments.iter().map(|(p, q)| Segment::between(*p, *q)).collect::<Vec<_>>())
}

type Ends = Vec<(Point, Point)>;

/// As many segments of F as of G in two directions, which all cross, each at a grid point; the last of F off the grid, if that is asked.
fn lattice(one: Point, other: Point, is_last_off: bool) -> (Ends, Ends) {
    let start = (-LIMIT / 2, -LIMIT / 2);
    let at = |i: i64, k: i64| (start.0 + i * one.0 + k * other.0, start.1 + i * one.1 + k * other.1);
    let mut f: Ends = (0..SEGMENTS).map(|k| (at(-1, k), at(SEGMENTS, k))).collect();
    let g = (0..SEGMENTS).map(|i| (at(i, -1), at(i, SEGMENTS))).collect();
    if is_last_off {
        f.sort();
        f.last_mut().expect("there are some").1 .1 += 1;
    }
    (f, g)
}

/// Segments beside each other, F's and G's in turn, each as long as the others and further up by a step.
fn beside(way: Point, step: i64) -> (Ends, Ends) {
    let start = (-way.0 / 2, -way.1 / 2 - step * SEGMENTS);
    let at = |i: i64| ((start.0, start.1 + i * step), (start.0 + way.0, start.1 + way.1 + i * step));
    ((0..SEGMENTS).map(|i| at(2 * i)).collect(), (0..SEGMENTS).map(|i| at(2 * i + 1)).collect())
}

/// Segments from p to points beside each other, F's and G's in turn.
fn fans(p: Point, far: i64) -> (Ends, Ends) {
    let to = |i: i64| (p, (far, -LIMIT + 9_000 * i));
    ((0..SEGMENTS).map(|i| to(2 * i)).collect(), (0..SEGMENTS).map(|i| to(2 * i + 1)).collect())
}

/// Short segments one over the other, and upright ones far to the right: the lines of the short ones pass through some of those and beside others.
fn pointing(random: &mut Random) -> (Ends, Ends) {
    let short = |random: &mut Random, i: i64| {
        let p = (-LIMIT, -LIMIT + 30_000 * i);
        (p, (p.0 + 10_000, p.1 + random.between(-9_000, 9_000)))
    };
    let upright = |random: &mut Random, i: i64| {
        let y = random.between(-LIMIT, LIMIT - 1);
        ((10_000 * i, y), (10_000 * i, random.between(y + 1, LIMIT)))
    };
    ((0..SEGMENTS).map(|i| short(random, i)).collect(), (0..SEGMENTS).map(|i| upright(random, i)).collect())
}

/// Segments from one point; and a short one of the other object through that, with others from its lower end.
fn fan_on_a_segment() -> (Ends, Ends) {
    let (middle, low, high) = ((-LIMIT, 0), (-LIMIT, -1), (-LIMIT, 1));
    let f = (0..SEGMENTS).map(|i| (middle, (LIMIT, 9_000 * i))).collect();
    let others = (1..SEGMENTS - 1).map(|i| (low, (LIMIT, -9_000 * i)));
    (f, others.chain([(low, high)]).collect())
}

/// Segments one over the other, each with ends of the other object's on it.
fn touched(rows: i64, ends: i64) -> (Ends, Ends) {
    let f = (0..rows).map(|k| ((0, 10 * k), (1000, 10 * k))).collect();
    let g = (0..rows).flat_map(|k| (1..=ends).map(move |i| ((i, 10 * k), (i, 10 * k + 3)))).collect();
    (f, g)
}

fn lines() -> Vec<(&'static str, Ends, Ends)> {
    let mut lines = Vec::new();
    let mut add = |name: &'static str, (f, g): (Ends, Ends)| lines.push((name, f, g));
    add("grid", lattice((19_000, 0), (0, 19_000), false));
    add("grid-last-off", lattice((19_000, 0), (0, 19_000), true));
    add("slanted", lattice((18_797, 211), (-307, 18_911), false));
    add("slanted-last-off", lattice((18_797, 211), (-307, 18_911), true));
    // a way across and a way up that take Euclid the most steps
    add("beside", beside((14_930_352, 9_227_465), 7_000));
    add("beside-flat", beside((2 * LIMIT, 1), 1));
    add("fans", fans((-LIMIT, -LIMIT), LIMIT));
    add("pointing", pointing(&mut Random::new(1)));
    add("fan-on-a-segment", fan_on_a_segment());
    add("touched-2", touched(2, 255));
    add("touched-16", touched(16, 31));
    add("teeth-511", touched(1, 511));
    add("teeth-512", touched(1, 512));
    lines
}
