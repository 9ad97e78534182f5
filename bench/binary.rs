//! Well-known binary beside GEOS: what its writer writes is read by us, what ours writes is read by it, on many shapes; and the times of reading one object of full size
//! with all checks, beside its reader with its validity test.

use crate::clock;
use crate::geos::{Geos, Parts, Shape};
use crate::library;
use crate::maker::{full, small};
use crate::random::Random;
use crate::rows::{kind_name, FULL, RANDOM};
use crate::scene::{object_bytes, read_one, Object, LINE, MOST, POINTS, REGION};
use crate::shapes::FAMILIES;
use crate::wkb_maker::{cut_up, encoded};

const KINDS: [u8; 3] = [POINTS, LINE, REGION];

/// Random shapes: small ones, and ones of full size.
const SMALL: u64 = 9_940;
const LARGE: u64 = 60;

const PASSES: usize = 3;

/// More bytes than any object has, and than any that we write has.
const ROOM: usize = 24 * MOST;

/// Compares, then measures. True if every shape is read as the object that it was made of, and every one that is written is equal in GEOS.
pub fn run(geos: &Geos) -> bool {
    let good = compare(geos);
    time(geos);
    good
}

/// An object as GEOS holds it: a line in paths as long as they come, a region in polygons that are valid.
fn shape<'a>(geos: &'a Geos, object: &Object, random: &mut Random) -> Shape<'a> {
    if object.kind == LINE {
        let wkb = encoded(&cut_up(random, object), &mut || random.once_in(2));
        return Shape::read(geos, &wkb).expect("GEOS reads what the maker writes");
    }
    let bytes = object_bytes(object);
    Shape::build(geos, &bytes, &Parts::of(&read_one(&bytes).expect("the maker writes objects")))
}

fn compare(geos: &Geos) -> bool {
    let (mut read, mut back, mut wrong) = (0, 0, 0);
    for seed in 0..SMALL + LARGE {
        let mut random = Random::new(seed);
        let kind = KINDS[seed as usize % 3];
        let make = if seed < SMALL { small } else { full };
        let object = make(&mut random, (kind, kind)).0;
        let (bytes, shape) = (object_bytes(&object), shape(geos, &object, &mut random));
        let mut buffer = vec![0; ROOM];
        for wkb in [shape.wkb(true), shape.wkb(false), shape.mixed_wkb(&mut || random.once_in(2))] {
            let answer = library::read_wkb(&wkb, &mut buffer);
            let is_same = answer.number == 0 && buffer[..answer.length] == bytes;
            *(if is_same { &mut read } else { &mut wrong }) += 1;
        }
        if kind != REGION {
            let written = library::write_wkb(&bytes, &mut buffer);
            let is_equal = written.number == 0 && Shape::read(geos, &buffer[..written.length]).is_some_and(|other| other.equals(&shape));
            *(if is_equal { &mut back } else { &mut wrong }) += 1;
        }
        if wrong > 0 {
            eprintln!("seed {seed}: not the same");
            break;
        }
    }
    println!("wkb-compared {} {read} {back} {wrong}", SMALL + LARGE);
    wrong == 0
}

/// For each family and type, at full size: our reading, and GEOS's with its validity test.
fn time(geos: &Geos) {
    let mut rows: Vec<(String, Vec<u8>)> = Vec::new();
    for kind in KINDS {
        let mut random = Random::new(1);
        let mut row =
            |family: &str, object: Object| rows.push((format!("{family} {}", kind_name(kind)), shape(geos, &object, &mut random).wkb(false)));
        FAMILIES.iter().for_each(|family| row(family.name, family.scene((kind, kind), FULL).0));
        row(RANDOM, crate::rows::full_pair((kind, kind)).0);
    }
    let mut best = vec![[f64::MAX; 2]; rows.len()];
    let mut object = vec![0; ROOM];
    for _ in 0..PASSES {
        for ((name, wkb), best) in rows.iter().zip(&mut best) {
            assert_eq!(library::read_wkb(wkb, &mut object).number, 0, "{name} is refused");
            assert!(Shape::read(geos, wkb).is_some_and(|shape| shape.is_valid()), "{name} is not valid");
            let times =
                [clock::best(|| library::read_wkb(wkb, &mut object)), clock::best(|| Shape::read(geos, wkb).is_some_and(|shape| shape.is_valid()))];
            best.iter_mut().zip(times).for_each(|(best, time)| *best = best.min(time));
        }
    }
    for ((name, _), [ours, its]) in rows.iter().zip(&best) {
        println!("wkb {name} {ours:.3} {its:.3}");
    }
}
