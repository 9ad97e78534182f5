//! What a comparison has reached: refusals by number, flags set and clear, matrices of non-empty objects. A run that reaches too little
//! fails, however well everything agreed.

use crate::areas::Areas;
use crate::cells::Matrix;
use crate::flags::flag_counts;
use crate::judge::Judgement;
use crate::maker::{DESCENDING, PAIRS};
use crate::plane::{Point, LIMIT};
use crate::scene::{Object, LINE, MOST, POINTS};
use crate::summary::FarAnswer;
use std::collections::{BTreeMap, BTreeSet};

/// The refusals that can occur.
const NUMBERS: [u32; 18] = [1, 2, 3, 4, 5, 6, 7, 9, 10, 11, 12, 13, 14, 15, 16, 17, 22, 23];

/// The numbers that reading and writing well-known binary can have, 0 for taken.
const READ: [u32; 9] = [0, 10, 12, 13, 20, 21, 24, 25, 26];
const WRITTEN: [u32; 15] = [0, 1, 2, 3, 4, 5, 6, 7, 10, 11, 12, 13, 14, 21, 24];

/// The numbers that splitting can have, 0 for taken.
const SPLIT: [u32; 16] = [0, 1, 2, 3, 4, 5, 6, 7, 10, 11, 12, 13, 14, 19, 20, 21];

/// How often each refusal must have been met, and scenes of full size, and scenes at the limits of the range.
const LEAST: usize = 50;

/// The matrices of pairs of non-empty objects in yes and no, in the order of PAIRS. They are those of the source's Table 1(b) but for two: since a line's boundary is
/// by odd counts, two lines have 98 instead of 82, and a line and a region 51 instead of 43. A pair given the other way round has as many.
const MATRICES: [usize; 6] = [5, 14, 7, 98, 51, 33];

/// The same with what each cell extends to. Where two outlines, two lines or a line and an outline have a point in common, it may be a stretch or not.
const EXTENTS: [usize; 6] = [5, 14, 7, 130, 67, 41];

/// The pairs of objects of which summaries tell something: points are empty or not, a line is empty, closed or has a boundary, a region is empty or not.
const ROWS: usize = 7 * 7;

/// The numbers of a line's segments that must have ended at one point: hubs.
const HUBS: std::ops::RangeInclusive<usize> = 3..=7;

const FLAG_NAMES: [(&str, &str); 6] = [
    ("poi_disjoint poi_shared", "poi_disjoint"),
    ("poi_disjoint poi_on_interior poi_on_bound", "bound_poi_disjoint"),
    ("poi_inside poi_on_bound poi_outside", ""),
    ("seg_shared interior_poi_shared seg_unshared bound_on_interior bound_shared bound_disjoint", "seg_unshared bound_on_interior bound_disjoint"),
    ("seg_inside seg_shared seg_outside poi_shared bound_inside bound_shared bound_disjoint", "seg_unshared"),
    ("(0/1) (1/0) (1/2) (2/1) (0/2) (2/0) (1/1) bound_poi_shared", "(0/1) (1/0) (1/2) (2/1)"),
];

#[derive(Default)]
pub struct Tally {
    pub scenes: usize,
    pub questions: usize,
    /// Pairs of objects that were asked about in both orders, with answers that agree.
    pub both_ways: usize,
    /// Scenes that were taken and asked about with every coordinate times ten too, with the same answers.
    pub tenfold: usize,
    taken: usize,
    full_size: usize,
    at_limit: usize,
    refusals: BTreeMap<u32, usize>,
    /// Scenes in which so many segments of a line end at one point.
    hubs: BTreeMap<usize, usize>,
    /// Scenes of two regions, by which of the three parts have an area: in both, in F only, in G only.
    parts: BTreeMap<[bool; 3], usize>,
    pairs: BTreeMap<(u8, u8), Pair>,
    /// What two good summaries told: of boxes that share no point, of an empty object, and "look".
    told: [usize; 3],
    /// The pairs of objects that something was told of: by type, emptiness and boundary.
    rows: BTreeSet<[(u8, u8, u8); 2]>,
    /// Bad summaries, by the place that 18 names.
    bad_summaries: [usize; 2],
    pub wkb: Wkb,
    pub split: Split,
    pub walks: Walks,
}

/// Well-known binary: how often reading and writing had each number, and what was written and read as the same object again.
#[derive(Default)]
pub struct Wkb {
    read: BTreeMap<u32, usize>,
    written: BTreeMap<u32, usize>,
    pub back: usize,
}

impl Wkb {
    pub fn read(&mut self, number: u32) {
        *self.read.entry(number).or_default() += 1;
    }

    pub fn written(&mut self, number: u32) {
        *self.written.entry(number).or_default() += 1;
    }

    fn report(&self, complete: bool) -> Vec<String> {
        let mut wrong = Vec::new();
        for (what, times, numbers) in [("read", &self.read, &READ[..]), ("written", &self.written, &WRITTEN)] {
            let times = |number: &u32| *times.get(number).unwrap_or(&0);
            println!(
                "well-known binary {what}: {}",
                numbers.iter().map(|number| format!("{number}: {}", times(number))).collect::<Vec<_>>().join("  ")
            );
            let rare = numbers.iter().filter(|number| complete && times(number) < LEAST);
            wrong.extend(rare.map(|number| format!("well-known binary {what}: {number} came fewer than {LEAST} times")));
        }
        println!("well-known binary written and read back: {}", self.back);
        wrong
    }
}

/// Walks: how many were begun and refused, how many events the begun ones have, how many states were looked at, and how many have the first type above the second.
#[derive(Default)]
pub struct Walks {
    pub begun: usize,
    pub refused: usize,
    pub events: usize,
    pub states: usize,
    pub descending: usize,
}

/// Raw pairs: how often splitting had each number, and of those taken how often something was added to neither object, to F, to G and to both, how many hold points, and how
/// many have an object of 1,024 elements once split.
#[derive(Default)]
pub struct Split {
    numbers: BTreeMap<u32, usize>,
    added: [usize; 4],
    copied: usize,
    full: usize,
}

impl Split {
    pub fn answered(&mut self, number: u32) {
        *self.numbers.entry(number).or_default() += 1;
    }

    pub fn taken(&mut self, f: &Object, g: &Object, added: [usize; 2]) {
        self.added[(added[0] > 0) as usize + 2 * (added[1] > 0) as usize] += 1;
        self.copied += (f.kind == POINTS || g.kind == POINTS) as usize;
        self.full += [f, g].iter().any(|object| object.halves.len() == MOST) as usize;
    }

    fn report(&self, complete: bool) -> Vec<String> {
        let times = |number: &u32| *self.numbers.get(number).unwrap_or(&0);
        println!("split: {}", SPLIT.map(|number| format!("{number}: {}", times(&number))).join("  "));
        let [neither, f, g, both] = self.added;
        println!(
            "taken: {neither} with no cut, {f} in F alone, {g} in G alone, {both} in both; {} with points, {} of full size",
            self.copied, self.full
        );
        let rare = SPLIT.iter().filter(|number| complete && times(number) < LEAST);
        let mut wrong: Vec<String> = rare.map(|number| format!("split: {number} came fewer than {LEAST} times")).collect();
        if complete && [neither, f, g, both, self.copied].iter().any(|times| *times < LEAST) || complete && self.full < 10 {
            wrong.push("split: too few of a kind".to_string());
        }
        wrong
    }
}

/// What a run must have reached to be right.
#[derive(Clone, Copy, PartialEq, Eq)]
pub enum Reach {
    Nothing,
    Hubs,
    Regions,
    Summaries,
    Everything,
}

#[derive(Default)]
struct Pair {
    taken: usize,
    /// Of each flag of F, then of G: scenes in which it was set, and clear.
    flags: Vec<[usize; 2]>,
    /// The matrices of yes and no, and those of extents.
    matrices: BTreeSet<[[bool; 3]; 3]>,
    extents: BTreeSet<Matrix>,
}

impl Tally {
    /// Counts a byte string once, for all questions but their own refusals. The exchanged scene is one of its own.
    pub fn scene(&mut self, judgement: &Judgement) {
        self.scenes += 1;
        if let Some(refusal) = judgement.early.or(judgement.late) {
            self.refusal(refusal.number);
            return;
        }
        let (f, g) = (&judgement.f, &judgement.g);
        self.taken += 1;
        self.full_size += (f.places.len() == MOST || g.places.len() == MOST) as usize;
        self.at_limit += (reaches_limit(f) || reaches_limit(g)) as usize;
        let sizes: BTreeSet<usize> = [f, g].into_iter().filter(|object| object.kind == LINE).flat_map(end_counts).collect();
        sizes.into_iter().for_each(|size| *self.hubs.entry(size).or_default() += 1);
        if judgement.no_region.is_none() {
            self.areas(judgement.areas);
        }
        let (of_f, of_g) = flag_counts(f.kind, g.kind);
        let pair = self.pairs.entry((f.kind, g.kind)).or_default();
        pair.taken += 1;
        pair.flags.resize((of_f + of_g) as usize, [0, 0]);
        let bits = judgement.vectors.0 as u32 | (judgement.vectors.1 as u32) << of_f;
        for (i, counts) in pair.flags.iter_mut().enumerate() {
            counts[if bits >> i & 1 == 1 { 0 } else { 1 }] += 1;
        }
        if !f.is_empty() && !g.is_empty() {
            pair.matrices.insert(judgement.cells.map(|row| row.map(|cell| !cell.is_empty())));
            pair.extents.insert(judgement.cells);
        }
    }

    /// Counts two regions by which of their parts have an area.
    pub fn areas(&mut self, areas: Areas) {
        *self.parts.entry(areas.map(|area| area != 0)).or_default() += 1;
    }

    /// Counts what two good summaries told.
    pub fn told(&mut self, answer: &FarAnswer, first: &[u8], second: &[u8]) {
        let is_empty = first[2] == 1 || second[2] == 1;
        self.told[if answer.look { 2 } else { is_empty as usize }] += 1;
        if !answer.look {
            self.rows.insert([first, second].map(|record| (record[1], record[2], record[19])));
        }
    }

    /// Counts a refusal with 18.
    pub fn bad_summary(&mut self, place: usize) {
        self.bad_summaries[place.min(1)] += 1;
    }

    /// Counts a refusal.
    pub fn refusal(&mut self, number: u32) {
        *self.refusals.entry(number).or_default() += 1;
    }

    /// Prints the counts of well-known binary alone; gives what is wrong with them.
    pub fn report_wkb(&self, complete: bool) -> Vec<String> {
        println!("{} strings of well-known binary, {} questions", self.scenes, self.questions);
        self.wkb.report(complete)
    }

    /// Prints the counts of walks alone; gives what is wrong with them.
    pub fn report_walks(&self, complete: bool) -> Vec<String> {
        let Walks { begun, refused, events, states, descending } = self.walks;
        println!("{} scenes, {begun} walks begun and {refused} refused, {events} events, {states} states, {descending} walks with the first type above the second", self.scenes);
        let few = complete && begun.min(refused).min(descending) < LEAST;
        few.then(|| "walks: too few of a kind".to_string()).into_iter().collect()
    }

    /// Prints the counts of raw pairs alone; gives what is wrong with them.
    pub fn report_split(&self, complete: bool) -> Vec<String> {
        println!("{} raw pairs, {} questions", self.scenes, self.questions);
        self.split.report(complete)
    }

    /// Prints the counts; gives what is wrong with them.
    pub fn report(&self, reach: Reach) -> Vec<String> {
        let complete = reach == Reach::Everything;
        let mut wrong = Vec::new();
        println!(
            "{} scenes, {} pairs both ways, {} taken ({} with 1,024 elements, {} at the limits), {} questions, {} taken scenes times ten",
            self.scenes, self.both_ways, self.taken, self.full_size, self.at_limit, self.questions, self.tenfold
        );
        let times = |number| *self.refusals.get(&number).unwrap_or(&0);
        println!("refusals: {}", NUMBERS.iter().map(|number| format!("{}: {}", number, times(*number))).collect::<Vec<_>>().join("  "));
        for number in NUMBERS {
            if complete && times(number) < LEAST {
                wrong.push(format!("refusal {number} came fewer than {LEAST} times"));
            }
        }
        if times(8) > 0 {
            wrong.push("refusal 8 came, which never occurs".to_string());
        }
        let hubs = |size| *self.hubs.get(&size).unwrap_or(&0);
        println!("hubs, by segments: {}", HUBS.map(|size| format!("{size}: {}", hubs(size))).collect::<Vec<_>>().join("  "));
        for size in HUBS {
            if matches!(reach, Reach::Hubs | Reach::Everything) && hubs(size) < LEAST {
                wrong.push(format!("hubs of {size} segments came fewer than {LEAST} times"));
            }
        }
        let parts = |number: u32| [4, 2, 1].map(|bit| number & bit != 0);
        let name = |which: [bool; 3]| which.map(|there| if there { '1' } else { '0' }).iter().collect::<String>();
        let times = |which| *self.parts.get(&which).unwrap_or(&0);
        let shown: Vec<String> = (0..8).map(parts).map(|which| format!("{}: {}", name(which), times(which))).collect();
        println!("areas of two regions, by those that are not 0 (both, F only, G only): {}", shown.join("  "));
        for which in (0..8).map(parts).filter(|which| times(*which) < LEAST) {
            if matches!(reach, Reach::Regions | Reach::Everything) {
                wrong.push(format!("areas with {} came fewer than {LEAST} times", name(which)));
            }
        }
        let ([apart, empty, look], [first, second]) = (self.told, self.bad_summaries);
        println!(
            "summaries: {apart} told apart, {empty} with an empty object, {look} look, {} rows of {ROWS}; 18 at 0: {first}, at 1: {second}",
            self.rows.len()
        );
        if matches!(reach, Reach::Summaries | Reach::Everything) {
            if [apart, empty, look, first, second].iter().any(|times| *times < LEAST) {
                wrong.push(format!("summaries: something was told or refused fewer than {LEAST} times"));
            }
            if self.rows.len() != ROWS {
                wrong.push(format!("summaries: {} rows instead of {ROWS}", self.rows.len()));
            }
        }
        let none = Pair::default();
        for kinds in PAIRS.iter().chain(&DESCENDING) {
            let pair = self.pairs.get(kinds).unwrap_or(&none);
            let (all, all_extents, names) = expected(*kinds);
            let (types, found, extents) = (format!("types {}, {}", kinds.0, kinds.1), pair.matrices.len(), pair.extents.len());
            println!("{types}: {} taken, {found} matrices of {all}, with extents {extents} of {all_extents}", pair.taken);
            for (found, all, of) in [(found, all, "yes and no"), (extents, all_extents, "extents")] {
                if found > all || (complete && found < all) {
                    wrong.push(format!("{types}: {found} matrices of {of} for non-empty objects instead of {all}"));
                }
            }
            let counts = |bit: usize| pair.flags.get(bit).copied().unwrap_or([0, 0]);
            let shown: Vec<String> = names.iter().enumerate().map(|(bit, name)| format!("{name} {}/{}", counts(bit)[0], counts(bit)[1])).collect();
            println!("    set/clear: {}", shown.join(", "));
            for (bit, name) in names.iter().enumerate() {
                if complete && counts(bit).contains(&0) {
                    wrong.push(format!("{types}: {name} was never {}", if counts(bit)[0] == 0 { "set" } else { "clear" }));
                }
            }
        }
        if complete && (self.full_size < LEAST || self.at_limit < LEAST || self.tenfold < LEAST) {
            wrong.push("too few scenes of full size, at the limits or times ten".to_string());
        }
        wrong
    }
}

/// How many matrices a pair of types has, in yes and no and with extents, and its flags by name: F's, then G's.
fn expected(kinds: (u8, u8)) -> (usize, usize, Vec<String>) {
    let ascending = (kinds.0.min(kinds.1), kinds.0.max(kinds.1));
    let i = PAIRS.iter().position(|pair| *pair == ascending).expect("every pair is there, one way round");
    let (of_f, of_g) = if kinds == ascending { FLAG_NAMES[i] } else { (FLAG_NAMES[i].1, FLAG_NAMES[i].0) };
    let names = |text: &str, object: &str| text.split_whitespace().map(|name| format!("{object} {name}")).collect::<Vec<_>>();
    (MATRICES[i], EXTENTS[i], [names(of_f, "F"), names(of_g, "G")].concat())
}

/// How many segments of a line end at each of its ends.
fn end_counts(line: &Object) -> Vec<usize> {
    let mut counts: BTreeMap<Point, usize> = BTreeMap::new();
    line.halves.iter().for_each(|h| *counts.entry(h.dominating()).or_default() += 1);
    counts.into_values().collect()
}

fn reaches_limit(object: &Object) -> bool {
    let far = |v: i64| v.abs() == LIMIT;
    let ends = object.halves.iter().map(|h| h.dominating());
    object.points.iter().copied().chain(ends).any(|p| far(p.0) || far(p.1))
}
