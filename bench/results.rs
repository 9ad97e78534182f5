//! What the runs wrote, read back: times by row and version, counts of instructions, the comparison, scenes in turn, the faults, the areas, well-known binary, splitting.

use std::collections::HashMap;
use std::path::Path;

/// Microseconds; `right` says that this version's cells are ours.
#[derive(Clone, Copy)]
pub struct Peer {
    pub whole: f64,
    pub relate: f64,
    pub pattern: f64,
    pub right: bool,
}

#[derive(Clone, Copy)]
pub struct Times {
    pub cells: f64,
    pub vectors: f64,
    pub nothing: f64,
    pub check: f64,
    /// A pattern that asks all nine cells and holds, and one that asks whether F lies within G.
    pub nine: f64,
    pub within: f64,
    pub new: Peer,
    pub old: Peer,
}

impl Times {
    /// Our cells against the newer GEOS from the same bytes, if that is right.
    pub fn ratio(&self) -> Option<f64> {
        self.new.right.then_some(self.cells / self.new.whole)
    }

    /// The same against the faster of the two versions, of those that are right.
    pub fn ratio_to_faster(&self) -> Option<f64> {
        [self.new, self.old].iter().filter(|peer| peer.right).map(|peer| self.cells / peer.whole).max_by(f64::total_cmp)
    }
}

/// A scene with a fault, or a random one: its name, the number it was refused with, 0 if none, and our time.
pub struct Other {
    pub name: String,
    pub number: u32,
    pub time: f64,
}

/// Different scenes of one pair of types: the mean time of one that is asked again and again, ours in turn, and GEOS's in turn.
pub struct Turns {
    pub kinds: (u8, u8),
    pub scenes: usize,
    pub again: f64,
    pub ours: f64,
    pub geos: f64,
}

/// A pair of objects side by side: both summaries, what they tell, the full answer, and GEOS's relate on built geometries, if its cells are right.
pub struct Summaries {
    pub kinds: (u8, u8),
    pub size: usize,
    pub made: f64,
    pub told: f64,
    pub full: f64,
    pub relate: Option<f64>,
}

/// One pair of types in the comparison with one version.
pub struct Compared {
    pub kinds: (u8, u8),
    pub agree: usize,
    pub known: usize,
    pub unexplained: usize,
}

/// A row of two regions: our areas, our overlap list, GEOS's intersection and area from the same bytes, and alone.
pub struct Ground {
    pub name: String,
    pub areas: f64,
    pub list: f64,
    pub whole: f64,
    pub alone: f64,
}

/// Pairs of regions: those to which GEOS gives our areas within its rounding, those that it raises an exception for, others; and its largest
/// difference, as a share of the two regions' areas.
pub struct GroundCompared {
    pub agree: usize,
    pub none: usize,
    pub off: usize,
    pub most: f64,
}

/// An object of full size read from well-known binary: ours, and GEOS's reader with its validity test.
pub struct Binary {
    pub family: String,
    pub kind: String,
    pub ours: f64,
    pub its: f64,
}

/// Shapes; the strings that GEOS wrote of them and we read as the same object; those that we wrote and are equal in GEOS; others.
pub struct BinaryCompared {
    pub shapes: usize,
    pub read: usize,
    pub back: usize,
    pub wrong: usize,
}

/// A raw pair: the segments added by splitting, our splitting, GEOS's noding from the same bytes, and alone.
pub struct Noding {
    pub name: String,
    pub kinds: String,
    pub added: usize,
    pub ours: f64,
    pub whole: f64,
    pub alone: f64,
}

/// Raw pairs: those to which GEOS gives the matrix that we give the pair split, and others; and those passed over, since they cross off the grid.
pub struct NodingCompared {
    pub same: usize,
    pub other: usize,
    pub off_grid: usize,
}

pub struct Results {
    pub processor: String,
    pub versions: [String; 2],
    pub times: HashMap<String, Times>,
    pub counts: [HashMap<String, u64>; 2],
    /// The instructions of a row's cells, of its own pattern and of "within".
    pub pattern_counts: HashMap<String, [u64; 3]>,
    pub compared: [Vec<Compared>; 2],
    pub turns: Vec<Turns>,
    pub summaries: Vec<Summaries>,
    pub faults: Vec<Other>,
    pub random: Vec<Other>,
    pub ground: Vec<Ground>,
    pub ground_compared: GroundCompared,
    pub binary: Vec<Binary>,
    pub binary_compared: BinaryCompared,
    pub noding: Vec<Noding>,
    pub noding_compared: NodingCompared,
}

/// The lines of a file that begin with a word, as the words after it.
fn lines(directory: &Path, file: &str, first: &str) -> Vec<Vec<String>> {
    let path = directory.join(file);
    let text = std::fs::read_to_string(&path).unwrap_or_else(|error| panic!("{}: {error}", path.display()));
    let words = text.lines().map(|line| line.split_whitespace().map(str::to_string).collect::<Vec<_>>());
    words.filter(|words| words.first().is_some_and(|word| word == first)).map(|words| words[1..].to_vec()).collect()
}

fn number<T: std::str::FromStr>(word: &str) -> T {
    word.parse().unwrap_or_else(|_| panic!("not a number: {word}"))
}

fn peer(words: &[String]) -> Peer {
    Peer { whole: number(&words[7]), relate: number(&words[8]), pattern: number(&words[9]), right: words[10] == "right" }
}

fn times(directory: &Path) -> HashMap<String, Times> {
    let old: HashMap<String, Peer> = lines(directory, "time-old", "row").iter().map(|words| (words[0].clone(), peer(words))).collect();
    let new = lines(directory, "time-new", "row");
    new.iter()
        .map(|words| {
            let [cells, vectors, nothing, check, nine, within] = [1, 2, 3, 4, 5, 6].map(|column| number(&words[column]));
            (words[0].clone(), Times { cells, vectors, nothing, check, nine, within, new: peer(words), old: old[&words[0]] })
        })
        .collect()
}

fn counts(directory: &Path, file: &str) -> HashMap<String, u64> {
    lines(directory, file, "count").iter().map(|words| (words[0].clone(), number(&words[1]))).collect()
}

fn pattern_counts(directory: &Path) -> HashMap<String, [u64; 3]> {
    lines(directory, "count-patterns", "count").iter().map(|words| (words[0].clone(), [1, 2, 3].map(|column| number(&words[column])))).collect()
}

fn compared(directory: &Path, file: &str) -> Vec<Compared> {
    let all = lines(directory, file, "compared");
    let numbers = all.iter().map(|words| words.iter().map(|word| number(word)).collect::<Vec<usize>>());
    numbers.map(|n| Compared { kinds: (n[0] as u8, n[1] as u8), agree: n[2], known: n[3], unexplained: n[4] }).collect()
}

fn others(directory: &Path, first: &str) -> Vec<Other> {
    let all = lines(directory, "slowest", first);
    all.iter().map(|words| Other { name: words[0].clone(), number: number(&words[1]), time: number(&words[2]) }).collect()
}

fn turns(directory: &Path) -> Vec<Turns> {
    let all = lines(directory, "turns", "turn");
    let one = |words: &Vec<String>| Turns {
        kinds: (number(&words[0]), number(&words[1])),
        scenes: number(&words[2]),
        again: number(&words[3]),
        ours: number(&words[4]),
        geos: number(&words[5]),
    };
    all.iter().map(one).collect()
}

fn summaries(directory: &Path) -> Vec<Summaries> {
    let all = lines(directory, "summaries", "summary");
    let one = |words: &Vec<String>| {
        let [made, told, full, relate] = [3, 4, 5, 6].map(|column| number(&words[column]));
        let relate = (words[7] == "right").then_some(relate);
        Summaries { kinds: (number(&words[0]), number(&words[1])), size: number(&words[2]), made, told, full, relate }
    };
    all.iter().map(one).collect()
}

fn ground(directory: &Path) -> Vec<Ground> {
    let one = |words: &Vec<String>| {
        let [areas, list, whole, alone] = [1, 2, 3, 4].map(|column| number(&words[column]));
        Ground { name: words[0].clone(), areas, list, whole, alone }
    };
    lines(directory, "areas", "areas").iter().map(one).collect()
}

fn ground_compared(directory: &Path) -> GroundCompared {
    let words = &lines(directory, "areas", "areas-compared")[0];
    GroundCompared { agree: number(&words[0]), none: number(&words[1]), off: number(&words[2]), most: number(&words[3]) }
}

fn binary(directory: &Path) -> Vec<Binary> {
    let one = |words: &Vec<String>| Binary { family: words[0].clone(), kind: words[1].clone(), ours: number(&words[2]), its: number(&words[3]) };
    lines(directory, "wkb", "wkb").iter().map(one).collect()
}

fn binary_compared(directory: &Path) -> BinaryCompared {
    let words = &lines(directory, "wkb", "wkb-compared")[0];
    BinaryCompared { shapes: number(&words[0]), read: number(&words[1]), back: number(&words[2]), wrong: number(&words[3]) }
}

fn noding(directory: &Path) -> Vec<Noding> {
    let one = |words: &Vec<String>| {
        let [ours, whole, alone] = [4, 5, 6].map(|column| number(&words[column]));
        Noding { name: words[0].clone(), kinds: format!("{}, {}", words[1], words[2]), added: number(&words[3]), ours, whole, alone }
    };
    lines(directory, "split", "split").iter().map(one).collect()
}

fn noding_compared(directory: &Path) -> NodingCompared {
    let words = &lines(directory, "split", "split-compared")[0];
    NodingCompared { same: number(&words[0]), other: number(&words[1]), off_grid: number(&words[2]) }
}

pub fn read(directory: &Path) -> Results {
    let version = |file: &str| lines(directory, file, "version")[0][0].split('-').next().unwrap_or_default().to_string();
    Results {
        processor: lines(directory, "processor", "processor")[0].join(" "),
        versions: [version("time-new"), version("time-old")],
        times: times(directory),
        counts: [counts(directory, "count-ours"), counts(directory, "count-geos")],
        pattern_counts: pattern_counts(directory),
        compared: [compared(directory, "compared-new"), compared(directory, "compared-old")],
        turns: turns(directory),
        summaries: summaries(directory),
        faults: others(directory, "fault"),
        random: others(directory, "any"),
        ground: ground(directory),
        ground_compared: ground_compared(directory),
        binary: binary(directory),
        binary_compared: binary_compared(directory),
        noding: noding(directory),
        noding_compared: noding_compared(directory),
    }
}
