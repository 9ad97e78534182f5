//! The measurements: scenes of all families, our answers and times beside those of GEOS, and the table and the picture made of them.
//! The scenes come from here and from the reference's maker; nothing of the crates takes part but the archive's exported functions.
//!
//! bench/run builds this once, runs it with each version of GEOS, and writes docs/BENCH.md and docs/bench.svg.

mod binary;
mod clock;
mod compare;
mod faults;
mod geos;
mod ground;
mod noding;
mod picture;
mod report;
mod results;
mod rows;
mod shapes;
mod slow_pairs;

// the reference's modules, as they stand
#[allow(dead_code)]
#[path = "../tests/reference/areas.rs"]
mod areas;
#[allow(dead_code)]
#[path = "../tests/reference/cells.rs"]
mod cells;
#[allow(dead_code)]
#[path = "../tests/reference/check.rs"]
mod check;
#[allow(dead_code)]
#[path = "../tests/reference/damage.rs"]
mod damage;
#[allow(dead_code)]
#[path = "../tests/reference/flags.rs"]
mod flags;
#[allow(dead_code)]
#[path = "../tests/reference/judge.rs"]
mod judge;
#[allow(dead_code)]
#[path = "../tests/reference/library.rs"]
mod library;
#[allow(dead_code)]
#[path = "../tests/reference/maker.rs"]
mod maker;
#[allow(dead_code)]
#[path = "../tests/reference/mistakes.rs"]
mod mistakes;
#[allow(dead_code)]
#[path = "../tests/reference/pieces.rs"]
mod pieces;
#[allow(dead_code)]
#[path = "../tests/reference/plan.rs"]
mod plan;
#[allow(dead_code)]
#[path = "../tests/reference/plane.rs"]
mod plane;
#[allow(dead_code)]
#[path = "../tests/reference/random.rs"]
mod random;
#[allow(dead_code)]
#[path = "../tests/reference/scene.rs"]
mod scene;
#[allow(dead_code)]
#[path = "../tests/reference/split.rs"]
mod split;
#[allow(dead_code)]
#[path = "../tests/reference/split_maker.rs"]
mod split_maker;
#[allow(dead_code)]
#[path = "../tests/reference/summary.rs"]
mod summary;
#[allow(dead_code)]
#[path = "../tests/reference/walk.rs"]
mod walk;

#[path = "../tests/reference/wkb.rs"]
mod wkb;
#[allow(dead_code)]
#[path = "../tests/reference/wkb_maker.rs"]
mod wkb_maker;

use cells::Matrix;
use compare::boundary_outside;
use damage::damaged;
use flags::all_flags;
use geos::{bench_geos_from_bytes, Geos, Pair, Parts};
use maker::full;
use random::Random;
use rows::{Row, EITHER_ORDER};
use scene::{read_scene, scene_bytes};
use std::ffi::CStr;
use std::hint::black_box;
use std::path::Path;
use std::process::exit;

const USAGE: &str = "usage: bench compare           GEOS's cells against ours; fails if a difference is unexplained
       bench time               times of every row, ours and GEOS's
       bench peer               GEOS's times alone
       bench ours               our times alone, for bench/against
       bench turns              times of many different scenes asked one after another, ours and GEOS's
       bench summaries          times of summaries and of what two of them tell, beside the full answer and GEOS's relate
       bench areas              GEOS's areas of two regions against ours within its rounding, and times of both
       bench wkb                shapes through GEOS's well-known binary and ours, and times of reading, ours and GEOS's
       bench split              raw pairs in GEOS against the same split, and times of splitting, ours and GEOS's noding
       bench slow-pairs         our times for raw pairs that take long to split; fails if one takes more than 5 ms
       bench slowest            our times for scenes with a fault, and the slowest of many random scenes
       bench make DIR           writes the scenes of full size, a file each
       bench count ours FILE..  asks for the cells of each scene once, for callgrind
       bench count geos FILE..  the same of GEOS
       bench count-patterns     asks every row once for its cells, its own pattern and \"within\", for callgrind, and writes the rows' names
       bench report DIR         makes docs/BENCH.md and docs/bench.svg from the runs' outputs in DIR";

/// Passes over all rows: GEOS's, long ones, and ours. A row's ratios are between times of one pass after the other, so each question meets the same
/// moments of the machine; in each of ours the row's questions are asked in turn, some rounds of short batches, so that one moment covers a round of all.
const PASSES: usize = 3;
const OUR_PASSES: usize = 10;
const ROUNDS: usize = 5;

/// Random scenes of each pair that are asked in turn.
const IN_TURN: u64 = 40;

/// Random scenes of each pair that are looked through for the slowest, each as it is and damaged.
const LOOKED_THROUGH: u64 = 100;

fn main() {
    let arguments: Vec<String> = std::env::args().skip(1).collect();
    let arguments: Vec<&str> = arguments.iter().map(String::as_str).collect();
    let good = match arguments[..] {
        ["compare"] => {
            println!("version {}", Geos::version());
            compare::run(&Geos::new())
        }
        ["time"] => time(true),
        ["peer"] => time(false),
        ["ours"] => ours(),
        ["turns"] => turns(),
        ["summaries"] => summaries(),
        ["areas"] => {
            println!("version {}", Geos::version());
            ground::run(&Geos::new())
        }
        ["wkb"] => {
            println!("version {}", Geos::version());
            binary::run(&Geos::new())
        }
        ["split"] => {
            println!("version {}", Geos::version());
            noding::run(&Geos::new())
        }
        ["slow-pairs"] => slow_pairs::run(),
        ["slowest"] => slowest(),
        ["make", directory] => make(directory),
        ["count", who, ref files @ ..] => count(who, files),
        ["count-patterns"] => count_patterns(),
        ["report", directory] => report::write(Path::new(directory)).is_ok(),
        _ => {
            eprintln!("{USAGE}");
            exit(2);
        }
    };
    exit(if good { 0 } else { 1 });
}

/// The scene's objects in parts for GEOS. A line's parts that hold a boundary point outside the other object come first: a set of parts has no
/// order, and this one keeps the fault of 3.13 from showing.
fn parts(bytes: &[u8]) -> [Parts; 2] {
    let (f, g) = read_scene(bytes).expect("the rows are scenes");
    [(&f, &g), (&g, &f)].map(|(own, other)| Parts::with_first(own, &boundary_outside(own, other)))
}

/// Our cells of a scene that is sound.
fn right_cells(bytes: &[u8]) -> Matrix {
    let right = library::cells(bytes).expect("cells have one of four signs");
    assert_eq!(right.number, 0, "a sound scene is refused");
    right.cell
}

/// Our times for one scene: the cells, the vectors with all flags wanted, the vectors under two zero masks, the checks alone, a pattern that asks all nine cells
/// and holds, and a pattern that asks whether F lies within G.
const OURS: usize = 6;

/// GEOS's: the cells from the bytes, relate alone, the pattern of "within" from the bytes.
const ITS: usize = 3;

/// A row with its best times so far: ours, then GEOS's.
struct Timed {
    row: Row,
    parts: [Parts; 2],
    verdict: &'static str,
    best: [f64; OURS + ITS],
}

impl Timed {
    fn new(geos: &Geos, row: Row) -> Timed {
        let parts = parts(&row.bytes);
        let verdict = if bench_geos_from_bytes(geos, &row.bytes, &parts) == Some(right_cells(&row.bytes)) { "right" } else { "wrong" };
        Timed { row, parts, verdict, best: [f64::MAX; OURS + ITS] }
    }

    fn take(&mut self, which: usize, time: f64) {
        self.best[which] = self.best[which].min(time);
    }

    fn our_pass(&mut self) {
        our_times(&self.row).into_iter().enumerate().for_each(|(which, time)| self.take(which, time));
    }

    fn pass(&mut self, geos: &Geos) {
        self.take(OURS, clock::best(|| bench_geos_from_bytes(geos, &self.row.bytes, &self.parts)));
        let built = Pair::build(geos, &self.row.bytes, &self.parts);
        self.take(OURS + 1, clock::best(|| built.relate()));
        self.take(OURS + 2, clock::best(|| geos::pattern_from_bytes(geos, &self.row.bytes, &self.parts, WITHIN_FOR_C)));
    }
}

/// The least time of each question in some rounds of all of them.
fn our_times(Row { kinds, bytes, .. }: &Row) -> [f64; OURS] {
    let (all_f, all_g) = all_flags(kinds.0, kinds.1);
    let own = own_pattern(bytes);
    let mut best = [f64::MAX; OURS];
    for _ in 0..ROUNDS {
        let times = [
            clock::shortly(|| library::cells_as_given(bytes)),
            clock::shortly(|| library::vectors(bytes, all_f, all_g)),
            clock::shortly(|| library::vectors(bytes, 0, 0)),
            clock::shortly(|| library::overlap(bytes, &mut [])),
            clock::shortly(|| library::relate(bytes, &own)),
            clock::shortly(|| library::relate(bytes, WITHIN)),
        ];
        best = least(best, times);
    }
    best
}

fn least(one: [f64; OURS], other: [f64; OURS]) -> [f64; OURS] {
    std::array::from_fn(|which| one[which].min(other[which]))
}

const WITHIN: &[u8] = b"T*F**F***";
const WITHIN_FOR_C: &CStr = c"T*F**F***";

/// The pattern that asks for each cell what it is.
fn own_pattern(bytes: &[u8]) -> Vec<u8> {
    right_cells(bytes).iter().flatten().map(|cell| if cell.is_empty() { b'F' } else { b'T' }).collect()
}

/// Times as the outputs have them.
fn columns(times: &[f64]) -> String {
    times.iter().map(|time| format!("{time:.3}")).collect::<Vec<_>>().join(" ")
}

/// All rows, ours alone. An archive of before 0.3.0 refuses a first type above the second: such a row has no time then. One of before 0.6.0 has cells
/// of other signs, which are not looked at here.
fn ours() -> bool {
    let is_taken = |row: &Row| library::cells_as_given(&row.bytes).number == 0;
    let mut rows: Vec<(Row, [f64; OURS])> = rows::all().into_iter().filter(is_taken).map(|row| (row, [f64::MAX; OURS])).collect();
    for _ in 0..OUR_PASSES {
        for (row, best) in &mut rows {
            *best = least(*best, our_times(row));
        }
    }
    for (row, best) in &rows {
        println!("row {} {}", row.name(), columns(best));
    }
    true
}

/// Passes over all rows, so that a row's batches lie some time apart.
fn time(with_ours: bool) -> bool {
    let geos = Geos::new();
    println!("version {}", Geos::version());
    let mut rows: Vec<Timed> = rows::all().into_iter().map(|row| Timed::new(&geos, row)).collect();
    if with_ours {
        for _ in 0..OUR_PASSES {
            rows.iter_mut().for_each(Timed::our_pass);
        }
    }
    for _ in 0..PASSES {
        rows.iter_mut().for_each(|timed| timed.pass(&geos));
    }
    for Timed { row, verdict, best, .. } in &rows {
        println!("row {} {} {verdict}", row.name(), columns(best));
    }
    true
}

/// Different random scenes of full size, asked one after another: a scene that is asked again and again is one whose branches the processor knows.
fn turns() -> bool {
    let geos = Geos::new();
    for kinds in EITHER_ORDER {
        let scene = |seed| {
            let (f, g) = full(&mut Random::new(seed), kinds);
            scene_bytes(&f, &g)
        };
        let all = (0..IN_TURN).map(scene).map(|bytes| (parts(&bytes), bytes));
        let scenes: Vec<([Parts; 2], Vec<u8>)> =
            all.filter(|(parts, bytes)| bench_geos_from_bytes(&geos, bytes, parts) == Some(right_cells(bytes))).collect();
        let ours = |(_, bytes): &(_, Vec<u8>)| black_box(library::cells_as_given(bytes)).number == 0;
        let its = |(parts, bytes): &([Parts; 2], Vec<u8>)| black_box(bench_geos_from_bytes(&geos, bytes, parts)).is_some();
        let mean = |total: f64| total / scenes.len() as f64;
        let again = mean(scenes.iter().map(|scene| clock::best(|| ours(scene))).sum());
        let in_turn = mean(clock::best(|| scenes.iter().all(ours)));
        let its = mean(clock::best(|| scenes.iter().all(its)));
        println!("turn {} {} {} {again:.3} {in_turn:.3} {its:.3}", kinds.0, kinds.1, scenes.len());
    }
    true
}

/// The rows of the family whose objects lie side by side: both summaries from the objects' bytes, what the two tell, the full answer, and GEOS's relate on
/// geometries that are built already, which knows their boxes too.
fn summaries() -> bool {
    let geos = Geos::new();
    for row in rows::all().into_iter().filter(|row| row.family == rows::APART) {
        let (bytes, (all_f, all_g)) = (&row.bytes, all_flags(row.kinds.0, row.kinds.1));
        let (_, second) = read_scene(bytes).expect("the rows are scenes");
        let (f, g) = bytes.split_at(second.start);
        let [one, other] = [f, g].map(|object| library::summary(object).record);
        let full = library::vectors(bytes, all_f, all_g);
        let told = library::far(&one, &other).expect("look is 0 or 1");
        assert_eq!((told.number, told.look, told.f, told.g), (0, false, full.f, full.g), "{} is not told apart", row.name());
        let parts = parts(bytes);
        let built = Pair::build(&geos, bytes, &parts);
        let right = if built.relate() == Some(right_cells(bytes)) { "right" } else { "wrong" };
        let mut best = [f64::MAX; 4];
        for _ in 0..PASSES {
            let times = [
                clock::best(|| (library::summary(f), library::summary(g))),
                clock::best(|| library::far(black_box(&one), black_box(&other))),
                clock::best(|| library::vectors(bytes, all_f, all_g)),
                clock::best(|| built.relate()),
            ];
            best.iter_mut().zip(times).for_each(|(best, time)| *best = best.min(time));
        }
        println!("summary {} {} {} {} {right}", row.kinds.0, row.kinds.1, row.size, columns(&best));
    }
    true
}

/// Scenes with a fault, then random scenes of full size, each as it is and damaged: the word that the outputs have for it, name and bytes.
fn other_scenes() -> Vec<(&'static str, String, Vec<u8>)> {
    let mut scenes: Vec<_> = faults::all().into_iter().map(|fault| ("fault", fault.name, fault.bytes)).collect();
    for kinds in EITHER_ORDER {
        for seed in 0..LOOKED_THROUGH {
            let mut random = Random::new(seed);
            let (f, g) = full(&mut random, kinds);
            scenes.push(("any", format!("seed-{seed}-{}{}", kinds.0, kinds.1), scene_bytes(&f, &g)));
            scenes.push(("any", format!("seed-{seed}-{}{}-damaged", kinds.0, kinds.1), damaged(&mut random, &f, &g)));
        }
    }
    scenes
}

fn slowest() -> bool {
    let scenes = other_scenes();
    let mut times = vec![f64::MAX; scenes.len()];
    for _ in 0..PASSES {
        times.iter_mut().zip(&scenes).for_each(|(time, (_, _, bytes))| *time = time.min(clock::roughly(|| library::cells_as_given(bytes))));
    }
    for ((word, name, bytes), time) in scenes.iter().zip(times) {
        let number = library::cells_as_given(bytes).number;
        assert!(*word != "fault" || number != 0, "{name} has no fault");
        println!("{word} {name} {number} {time:.3}");
    }
    true
}

fn make(directory: &str) -> bool {
    let full_size = rows::all().into_iter().filter(|row| row.size == rows::FULL);
    full_size.map(|row| std::fs::write(Path::new(directory).join(row.name()), &row.bytes)).all(|written| written.is_ok())
}

fn count(who: &str, files: &[&str]) -> bool {
    let geos = Geos::new();
    for file in files {
        let bytes = std::fs::read(file).expect("the scene can be read");
        let right = match who {
            "ours" => library::cells_as_given(&bytes).number == 0,
            _ => bench_geos_from_bytes(&geos, &bytes, &parts(&bytes)).is_some(),
        };
        assert!(right, "{file} is not answered");
    }
    true
}

/// A row's three calls: its cells, of which its own pattern is made, that pattern, and "within".
fn count_patterns() -> bool {
    rows::all().iter().all(|row| {
        println!("{}", row.name());
        let own = own_pattern(&row.bytes);
        let holds = library::relate(&row.bytes, &own).is_ok_and(|answer| answer.holds);
        holds && library::relate(&row.bytes, WITHIN).is_ok_and(|answer| answer.number == 0)
    })
}
