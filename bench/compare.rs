//! The peer's nine cells against ours, scene by scene, with what each extends to. Every difference must be one that the known fault of that version of GEOS
//! predicts for just this scene; docs/BENCH.md describes the fault.

use crate::cells::{signs, Matrix};
use crate::flags::line_boundary;
use crate::geos::{bench_geos_from_bytes, Geos, Parts};
use crate::library;
use crate::maker::{full, small};
use crate::pieces::Extent;
use crate::plane::{inside, Fraction, Point};
use crate::random::Random;
use crate::rows::{self, EITHER_ORDER};
use crate::scene::{read_scene, scene_bytes, Half, Object, LINE};

/// Random scenes of each pair of types: small ones, and ones of full size.
const SMALL: u64 = 4_000;
const FULL: u64 = 40;

/// The scenes of one pair: those with our cells, those where the known fault shows, those where GEOS gives something else than predicted.
#[derive(Default)]
struct Tally {
    agree: usize,
    known: usize,
    unexplained: usize,
}

/// Compares the rows and the random scenes; writes a line for each pair of types. True if nothing is left unexplained.
pub fn run(geos: &Geos) -> bool {
    let version = Geos::version();
    let mut good = true;
    for kinds in EITHER_ORDER {
        let mut tally = Tally::default();
        for row in rows::all().iter().filter(|row| row.kinds == kinds) {
            one(geos, &version, &row.name(), &row.bytes, &mut tally);
        }
        for seed in 0..SMALL + FULL {
            let mut random = Random::new(seed);
            let (f, g) = if seed < SMALL { small(&mut random, kinds) } else { full(&mut random, kinds) };
            one(geos, &version, &format!("seed {seed} of {kinds:?}"), &scene_bytes(&f, &g), &mut tally);
        }
        let Tally { agree, known, unexplained } = tally;
        println!("compared {} {} {agree} {known} {unexplained}", kinds.0, kinds.1);
        good &= unexplained == 0;
    }
    good
}

fn one(geos: &Geos, version: &str, name: &str, bytes: &[u8], tally: &mut Tally) {
    let (f, g) = read_scene(bytes).expect("the maker writes scenes");
    let ours = library::cells(bytes).expect("cells have one of four signs");
    assert_eq!(ours.number, 0, "{name} is refused");
    let its = bench_geos_from_bytes(geos, bytes, &[Parts::of(&f), Parts::of(&g)]);
    let predicted = with_fault(version, &f, &g, &ours.cell);
    if its != Some(predicted) {
        tally.unexplained += 1;
        let its = its.map_or("none".to_string(), |its| signs(&its));
        eprintln!("{version} on {name}: {its}, predicted {}, ours {}", signs(&predicted), signs(&ours.cell));
    } else if predicted == ours.cell {
        tally.agree += 1;
    } else {
        tally.known += 1;
    }
}

/// The cells that a version of GEOS is expected to give for a scene whose right cells are known. Before 3.13 they are the right ones.
fn with_fault(version: &str, f: &Object, g: &Object, right: &Matrix) -> Matrix {
    let mut cells = *right;
    if version.starts_with("3.13") {
        if skips_boundary(f, g) {
            cells[1][2] = Extent::Empty;
        }
        if skips_boundary(g, f) {
            cells[2][1] = Extent::Empty;
        }
    }
    cells
}

/// 3.13: once an end of one part is found outside the other object, be it boundary or not, parts beside its box are passed over.
/// True if no boundary point outside is looked at for that reason.
fn skips_boundary(line: &Object, other: &Object) -> bool {
    if line.kind != LINE || other.is_empty() {
        return false;
    }
    let boundary = boundary_outside(line, other);
    let its_box = Box::of(other);
    let mut found_outside = false;
    for s in line.segments() {
        if found_outside && its_box.is_beside(&Box::round([s.left, s.right].into_iter())) {
            continue;
        }
        if [s.left, s.right].iter().any(|end| boundary.contains(end)) {
            return false;
        }
        found_outside |= [s.left, s.right].iter().any(|end| is_outside(*end, other));
    }
    true
}

/// The boundary points of a line that lie outside the other object; none if it is no line.
pub fn boundary_outside(line: &Object, other: &Object) -> Vec<Point> {
    if line.kind != LINE {
        return Vec::new();
    }
    line_boundary(line).into_iter().filter(|p| is_outside(*p, other)).collect()
}

fn is_outside(p: Point, object: &Object) -> bool {
    let (at, segments) = (Fraction::whole(p), object.segments());
    let on = object.points.contains(&p) || segments.iter().any(|s| s.has(&at));
    !on && (object.kind == LINE || !inside(&segments, &at))
}

/// The smallest upright box round some points; one round none lies beside every box.
struct Box {
    low: Point,
    high: Point,
}

impl Box {
    fn round(points: impl Iterator<Item = Point>) -> Box {
        let start = Box { low: (i64::MAX, i64::MAX), high: (i64::MIN, i64::MIN) };
        points.fold(start, |b, p| Box { low: (b.low.0.min(p.0), b.low.1.min(p.1)), high: (b.high.0.max(p.0), b.high.1.max(p.1)) })
    }

    fn of(object: &Object) -> Box {
        Box::round(object.points.iter().copied().chain(object.halves.iter().map(Half::dominating)))
    }

    fn is_beside(&self, other: &Box) -> bool {
        other.high.0 < self.low.0 || self.high.0 < other.low.0 || other.high.1 < self.low.1 || self.high.1 < other.low.1
    }
}
