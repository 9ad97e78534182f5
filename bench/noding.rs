//! Splitting beside GEOS's noding: the matrix that GEOS gives for many raw pairs against that of the pair split, and times of splitting beside its noding, from the same bytes.

use crate::cells::signs;
use crate::clock;
use crate::compare::boundary_outside;
use crate::geos::{bench_geos_from_bytes, noded_from_bytes, Geos, Pair, Parts};
use crate::library;
use crate::plane::{Point, Segment};
use crate::random::Random;
use crate::rows::{full_pair, kind_name};
use crate::scene::{read_scene, scene_bytes, Object, LINE, MOST, REGION};
use crate::split_maker::overlaid;

/// Raw pairs that are compared; those that cross off the grid are passed over.
const PAIRS: usize = 10_000;

const PASSES: usize = 3;

/// As many bytes as any scene has.
const ROOM: usize = 38_918;

const KINDS: [(u8, u8); 4] = [(LINE, LINE), (LINE, REGION), (REGION, LINE), (REGION, REGION)];

/// Compares, then measures. True if GEOS gives no pair another matrix than we the pair split, and finds as many segments in each row.
pub fn run(geos: &Geos) -> bool {
    let alike = compare(geos);
    time(geos) && alike
}

fn parts(bytes: &[u8]) -> [Parts; 2] {
    let (f, g) = read_scene(bytes).expect("the maker writes scenes");
    [(&f, &g), (&g, &f)].map(|(own, other)| Parts::with_first(own, &boundary_outside(own, other)))
}

fn compare(geos: &Geos) -> bool {
    let (mut same, mut off_grid, mut other) = (0, 0, 0);
    let mut scene = vec![0; ROOM];
    for seed in 0.. {
        if same + other == PAIRS {
            break;
        }
        let mut random = Random::new(seed);
        let (f, g) = overlaid(&mut random, KINDS[seed as usize % 4]);
        let bytes = scene_bytes(&f, &g);
        let split = library::split(&bytes, &mut scene);
        if split.number == 19 {
            off_grid += 1;
        }
        if split.number != 0 || split.added_f + split.added_g == 0 {
            continue;
        }
        let ours = library::cells(&scene[..split.length]).expect("cells have one of four signs");
        assert_eq!(ours.number, 0, "seed {seed}: what is split is refused");
        let its = bench_geos_from_bytes(geos, &bytes, &parts(&bytes));
        if its == Some(ours.cell) {
            same += 1;
        } else {
            other += 1;
            eprintln!("seed {seed}: {}, ours {}", its.map_or("none".to_string(), |its| signs(&its)), signs(&ours.cell));
        }
    }
    println!("split-compared {same} {other} {off_grid}");
    other == 0
}

/// A line or a region of these chains of points.
fn object(kind: u8, chains: &[Vec<Point>]) -> Object {
    let segments: Vec<Segment> = chains.iter().flat_map(|chain| chain.windows(2).map(|pair| Segment::between(pair[0], pair[1]))).collect();
    Object::of_segments(kind, &segments)
}

/// Bars of one direction: 22 segments of a line, or ten rectangles of a region.
fn bars(kind: u8, at: fn(i64, i64) -> Point) -> Object {
    let chains: Vec<Vec<Point>> = match kind {
        LINE => (0..22).map(|i| vec![at(2 * i, -2), at(2 * i, 46)]).collect(),
        _ => (0..10).map(|i| [(0, -2), (2, -2), (2, 46), (0, 46), (0, -2)].map(|(x, y)| at(4 * i + x, y)).to_vec()).collect(),
    };
    object(kind, &chains)
}

/// 250 segments to and fro between two heights, closed beyond one of them if it is a region.
fn saw(kind: u8, low: i64, high: i64, base: i64) -> Object {
    let mut chain: Vec<Point> = (0..=250).map(|i| (4 * i, if i % 2 == 0 { low } else { high })).collect();
    if kind == REGION {
        chain.extend([(1001, base), (-1, base), (0, low)]);
    }
    object(kind, &[chain])
}

fn comb(teeth: i64) -> Object {
    object(LINE, &(1..=teeth).map(|i| vec![(i, 0), (i, 3)]).collect::<Vec<_>>())
}

/// Raw pairs that are cut often, once in each segment, on one side alone, and not at all.
fn rows() -> Vec<(String, Vec<u8>)> {
    let mut rows = Vec::new();
    let mut row =
        |family: &str, f: Object, g: Object| rows.push((format!("{family} {} {}", kind_name(f.kind), kind_name(g.kind)), scene_bytes(&f, &g)));
    for (f, g) in KINDS {
        row("bars", bars(f, |across, along| (across, along)), bars(g, |across, along| (along, across)));
        row("saws", saw(f, 0, 4, -10), saw(g, 4, 0, 14));
        let (f, g) = full_pair((f, g));
        row("split", f, g);
    }
    row("teeth", object(LINE, &[vec![(0, 0), (1000, 0)]]), comb(MOST as i64 / 2 - 1));
    rows
}

/// For each row: our splitting, GEOS's build, validity and noding, and its noding alone. True if both find as many segments, those of both objects once.
fn time(geos: &Geos) -> bool {
    let mut good = true;
    let rows = rows();
    let mut best = vec![[f64::MAX; 3]; rows.len()];
    let mut scene = vec![0; ROOM];
    for _ in 0..PASSES {
        for ((_, bytes), best) in rows.iter().zip(&mut best) {
            let parts = parts(bytes);
            let built = Pair::build(geos, bytes, &parts);
            let times = [
                clock::best(|| library::split(bytes, &mut scene)),
                clock::best(|| noded_from_bytes(geos, bytes, &parts)),
                clock::best(|| built.noded()),
            ];
            best.iter_mut().zip(times).for_each(|(best, time)| *best = best.min(time));
        }
    }
    for ((name, bytes), [ours, whole, alone]) in rows.iter().zip(&best) {
        let split = library::split(bytes, &mut scene);
        assert_eq!(split.number, 0, "{name} is refused");
        let (f, g) = read_scene(&scene[..split.length]).expect("what is split is a scene");
        let mut all = [f.segments(), g.segments()].concat();
        all.sort();
        all.dedup();
        let its = noded_from_bytes(geos, bytes, &parts(bytes));
        if its != Some(all.len()) {
            good = false;
            eprintln!("{name}: {its:?} segments, ours {}", all.len());
        }
        println!("split {name} {} {ours:.3} {whole:.3} {alone:.3}", split.added_f + split.added_g);
    }
    good
}
