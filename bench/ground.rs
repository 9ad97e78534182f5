//! The areas of two regions beside GEOS: its overlays on many pairs, within its rounding, and times beside our overlap list and its intersection.

use crate::clock;
use crate::geos::{shared_area_from_bytes, Geos, Pair, Parts};
use crate::library;
use crate::maker::{full, small};
use crate::random::Random;
use crate::rows;
use crate::scene::{read_scene, scene_bytes, MOST, REGION};

/// Random pairs of regions: small ones, and ones of full size.
const SMALL: u64 = 9_960;
const FULL: u64 = 40;

/// What an area by GEOS may be off, as a share of the two regions' areas: it computes in doubles, and may move vertices a little.
const ROUNDING: f64 = 1e-9;

const PASSES: usize = 3;

fn parts(bytes: &[u8]) -> [Parts; 2] {
    let (f, g) = read_scene(bytes).expect("the maker writes scenes");
    [Parts::of(&f), Parts::of(&g)]
}

/// Compares, then measures. True if every pair that GEOS answers has our areas within its rounding.
pub fn run(geos: &Geos) -> bool {
    let good = compare(geos);
    time(geos);
    good
}

fn compare(geos: &Geos) -> bool {
    let (mut agree, mut none, mut off, mut most) = (0, 0, 0, 0.0f64);
    for seed in 0..SMALL + FULL {
        let mut random = Random::new(seed);
        let (f, g) = if seed < SMALL { small(&mut random, (REGION, REGION)) } else { full(&mut random, (REGION, REGION)) };
        let bytes = scene_bytes(&f, &g);
        let ours = library::areas(&bytes);
        assert_eq!(ours.number, 0, "seed {seed} is refused");
        let own = ours.areas.iter().sum::<i64>() as f64;
        let Some(its) = Pair::build(geos, &bytes, &parts(&bytes)).areas() else {
            none += 1;
            continue;
        };
        let apart = ours.areas.iter().zip(its).map(|(ours, its)| (*ours as f64 - its).abs()).fold(0.0, f64::max);
        most = most.max(if own > 0.0 { apart / own } else { apart });
        if apart <= ROUNDING * own {
            agree += 1;
        } else {
            off += 1;
            eprintln!("seed {seed}: {its:?}, ours {:?}", ours.areas);
        }
    }
    println!("areas-compared {agree} {none} {off} {most:.3e}");
    off == 0
}

/// For each row of two regions: our areas, our overlap list, GEOS's intersection and area from the bytes, and alone.
fn time(geos: &Geos) {
    let rows: Vec<rows::Row> = rows::all().into_iter().filter(|row| row.kinds == (REGION, REGION)).collect();
    let mut best = vec![[f64::MAX; 4]; rows.len()];
    let mut list = vec![0; MOST];
    for _ in 0..PASSES {
        for (row, best) in rows.iter().zip(&mut best) {
            let parts = parts(&row.bytes);
            let built = Pair::build(geos, &row.bytes, &parts);
            let times = [
                clock::best(|| library::areas(&row.bytes)),
                clock::best(|| library::overlap(&row.bytes, &mut list)),
                clock::best(|| shared_area_from_bytes(geos, &row.bytes, &parts)),
                clock::best(|| built.shared_area()),
            ];
            best.iter_mut().zip(times).for_each(|(best, time)| *best = best.min(time));
        }
    }
    for (row, times) in rows.iter().zip(&best) {
        println!("areas {} {}", row.name(), times.map(|time| format!("{time:.3}")).join(" "));
    }
}
