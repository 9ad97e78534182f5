//! The measured part of docs/BENCH.md, everything after its marker, written from the runs' outputs.

use crate::picture;
use crate::results::{
    read, Binary, BinaryCompared, Compared, Ground, GroundCompared, Noding, NodingCompared, Other, Results, Summaries, Times, Turns,
};
use crate::rows::{kind_name, name, EITHER_ORDER, FULL, RANDOM, SIZES};
use crate::scene::{LINE, POINTS, REGION};
use crate::shapes::{Family, FAMILIES};
use std::fmt::Write as _;
use std::io;
use std::path::Path;

const DOCUMENT: &str = "docs/BENCH.md";
const PICTURE: &str = "docs/bench.svg";
const MARKER: &str = "<!-- What follows is written by make bench. -->";

/// Writes the document's measured part and the picture.
pub fn write(directory: &Path) -> io::Result<()> {
    let results = read(directory);
    let document = std::fs::read_to_string(DOCUMENT)?;
    let by_hand = document.split(MARKER).next().unwrap_or_default();
    std::fs::write(DOCUMENT, format!("{by_hand}{MARKER}\n\n{}", measured(&results)))?;
    std::fs::write(PICTURE, picture::svg(&results))
}

pub fn families() -> Vec<&'static str> {
    FAMILIES.iter().map(|family| family.name).chain([RANDOM]).collect()
}

/// The rows of one size, by family and pair.
pub fn rows(results: &Results, size: usize) -> Vec<(&'static str, (u8, u8), Times)> {
    let mut rows = Vec::new();
    for family in families() {
        rows.extend(EITHER_ORDER.iter().filter_map(|kinds| results.times.get(&name(family, *kinds, size)).map(|times| (family, *kinds, *times))));
    }
    rows
}

fn measured(results: &Results) -> String {
    let [new, old] = &results.versions;
    [
        format!("Last run: one core of {}, GEOS {new} and {old}, times in microseconds.\n", results.processor),
        summary(results),
        growth(results),
        either_order(results),
        patterns(results),
        table(results),
        in_turn(results),
        summaries(results),
        ground(results),
        binary(results),
        noding(results),
        faults(results),
        comparison(results),
    ]
    .join("\n")
}

fn median(values: &[f64]) -> f64 {
    let mut sorted = values.to_vec();
    sorted.sort_by(f64::total_cmp);
    (sorted[(sorted.len() - 1) / 2] + sorted[sorted.len() / 2]) / 2.0
}

/// The largest, with its name.
fn worst(values: &[(String, f64)]) -> &(String, f64) {
    values.iter().max_by(|a, b| a.1.total_cmp(&b.1)).expect("there are rows")
}

fn pair_name((f, g): (u8, u8)) -> String {
    format!("{}, {}", kind_name(f), kind_name(g))
}

/// What a row is called in a sentence.
fn title(family: &str, kinds: (u8, u8)) -> String {
    format!("{family} ({})", pair_name(kinds))
}

/// A row's ratio, if it has one.
type Ratio<'a> = &'a dyn Fn(&str, &Times) -> Option<f64>;

fn summary(results: &Results) -> String {
    let rows = rows(results, FULL);
    let line = |what: &str, ratio: Ratio| {
        let all = rows.iter().filter_map(|(family, kinds, times)| Some((title(family, *kinds), ratio(&name(family, *kinds, FULL), times)?)));
        let all: Vec<(String, f64)> = all.collect();
        let ratios: Vec<f64> = all.iter().map(|(_, ratio)| *ratio).collect();
        let slower = ratios.iter().filter(|ratio| **ratio > 1.0).count();
        let (name, most) = worst(&all);
        format!("| {what} | {} | {:.3} | {most:.2}, {name} | {slower} |\n", all.len(), median(&ratios))
    };
    let [new, old] = &results.versions;
    let mut text = String::from(
        "### Ratios at 512 segments\n\n| our cells against | rows | median | worst | rows where we are slower |\n|---|---|---|---|---|\n",
    );
    let counted = |row: &str, times: &Times| {
        let [ours, its] = [0, 1].map(|which| results.counts[which].get(row));
        times.new.right.then_some(*ours? as f64 / *its? as f64)
    };
    text += &line(&format!("GEOS {new}: build, validity, relate"), &|_, times| times.ratio());
    text += &line("the same, counted in instructions", &counted);
    text += &line(&format!("GEOS {old}: build, validity, relate"), &|_, times| times.old.right.then_some(times.cells / times.old.whole));
    text += &line("the faster of the two: build, validity, relate", &|_, times| times.ratio_to_faster());
    text += &line(&format!("GEOS {new}: relate alone"), &|_, times| times.new.right.then_some(times.cells / times.new.relate));
    let wrong: Vec<String> = rows.iter().filter(|(_, _, times)| !times.new.right).map(|(family, kinds, _)| title(family, *kinds)).collect();
    let excluded = if wrong.is_empty() { "none".to_string() } else { wrong.join("; ") };
    let _ = write!(text, "\nLeft out, since GEOS {new} gives other cells: {excluded}.\n\n");
    text + "![Our time against GEOS, by family and pair of types](bench.svg)\n"
}

fn growth(results: &Results) -> String {
    let mut text = String::from(
        "### Sizes\n\nOur cells by the number of segments an object: the slowest pair of types of each family, and the largest growth of a pair.\n\n\
         | family | what it is | 16 | 128 | 512 | 128 to 512 |\n|---|---|---|---|---|---|\n",
    );
    let time = |family: &str, kinds: (u8, u8), size: usize| results.times[&name(family, kinds, size)].cells;
    let most = |values: [f64; 9]| values.into_iter().fold(0.0, f64::max);
    for Family { name: family, says, .. } in &FAMILIES {
        let [small, middle, large] = SIZES.map(|size| most(EITHER_ORDER.map(|kinds| time(family, kinds, size))));
        let growth = most(EITHER_ORDER.map(|kinds| time(family, kinds, 512) / time(family, kinds, 128)));
        let _ = writeln!(text, "| {family} | {says} | {small:.2} | {middle:.1} | {large:.0} | {growth:.1} |");
    }
    text
}

/// Patterns beside the cells in every row, and beside GEOS's pattern from the same bytes; and both patterns beside the cells in instructions.
fn patterns(results: &Results) -> String {
    let new = &results.versions[0];
    let mut text = format!(
        "### Patterns\n\n(p) `karvoiss_relate` with the pattern of the row's own cells, which asks all nine and holds; (w) with `T*F**F***`, \"within\". Neither should take longer than (a), the cells. \
         Beside GEOS {new} from the same bytes: build, validity, `GEOSRelatePattern` with the same pattern as (w).\n\n\
         | ratio | segments | rows | median | most | rows above 1.05 |\n|---|---|---|---|---|---|\n"
    );
    for size in SIZES {
        text += &pattern_line(results, "(p)/(a)", size, 1.05, &|_, times| Some(times.nine / times.cells));
        text += &pattern_line(results, "(w)/(a)", size, 1.05, &|_, times| Some(times.within / times.cells));
        text += &pattern_line(results, "(w)/GEOS", size, 1.05, &|_, times| times.new.right.then_some(times.within / times.new.pattern));
    }
    text += "\nThe same in instructions, one call each, which do not depend on the machine's moments:\n\n| ratio | segments | rows | median | most | rows above 1 |\n|---|---|---|---|---|---|\n";
    let counted = |row: &str, which: usize| results.pattern_counts.get(row).map(|counts| counts[which] as f64 / counts[0] as f64);
    for size in SIZES {
        text += &pattern_line(results, "(p)/(a)", size, 1.0, &|row, _| counted(row, 1));
        text += &pattern_line(results, "(w)/(a)", size, 1.0, &|row, _| counted(row, 2));
    }
    text
}

/// A ratio over the rows of one size: the median, the largest, and how many rows are above a limit.
fn pattern_line(results: &Results, what: &str, size: usize, limit: f64, ratio: Ratio) -> String {
    let all: Vec<(String, f64)> = rows(results, size)
        .iter()
        .filter_map(|(family, kinds, times)| Some((title(family, *kinds), ratio(&name(family, *kinds, size), times)?)))
        .collect();
    let ratios: Vec<f64> = all.iter().map(|(_, ratio)| *ratio).collect();
    let above = ratios.iter().filter(|ratio| **ratio > limit).count();
    let (name, most) = worst(&all);
    format!("| {what} | {size} | {} | {:.3} | {most:.3}, {name} | {above} |\n", all.len(), median(&ratios))
}

fn ground(results: &Results) -> String {
    let mut text = String::from("### Areas of two regions\n\n| our areas against | rows | median | least | most |\n|---|---|---|---|---|\n");
    let mut line = |what: &str, ratio: fn(&Ground) -> f64| {
        let all: Vec<(String, f64)> = results.ground.iter().map(|row| (row.name.clone(), ratio(row))).collect();
        let ratios: Vec<f64> = all.iter().map(|(_, ratio)| *ratio).collect();
        let (least_name, least) = all.iter().min_by(|a, b| a.1.total_cmp(&b.1)).expect("there are rows");
        let (most_name, most) = worst(&all);
        let _ = writeln!(text, "| {what} | {} | {:.3} | {least:.3}, {least_name} | {most:.3}, {most_name} |", all.len(), median(&ratios));
    };
    let new = &results.versions[0];
    line("our overlap list", |row| row.areas / row.list);
    line(&format!("GEOS {new}: build, validity, intersection, area"), |row| row.areas / row.whole);
    line(&format!("GEOS {new}: intersection and area alone"), |row| row.areas / row.alone);
    let GroundCompared { agree, none, off, most } = results.ground_compared;
    let _ = write!(
        text,
        "\nBy the overlays of GEOS {new} the three areas of {agree} random pairs are ours within a billionth of the two regions' areas, the largest difference {most:.1e} of them; \
         {none} pairs raised an exception, {off} differ.\n"
    );
    text
}

fn binary(results: &Results) -> String {
    let new = &results.versions[0];
    let mut text = format!(
        "### Well-known binary\n\nAn object of full size read with all checks, over GEOS {new}: its reader and its validity test, which asks next to nothing of points and lines. At most 0.2 \
         was wanted.\n\n| type | rows | ours | GEOS {new} | median ratio | least | most |\n|---|---|---|---|---|---|---|\n"
    );
    for kind in [POINTS, LINE, REGION].map(kind_name) {
        let rows: Vec<&Binary> = results.binary.iter().filter(|row| row.kind == kind).collect();
        let all: Vec<(String, f64)> = rows.iter().map(|row| (row.family.clone(), row.ours / row.its)).collect();
        let ratios: Vec<f64> = all.iter().map(|(_, ratio)| *ratio).collect();
        let [ours, its] = [|row: &&Binary| row.ours, |row: &&Binary| row.its].map(|time| short(median(&rows.iter().map(time).collect::<Vec<_>>())));
        let (least_name, least) = all.iter().min_by(|a, b| a.1.total_cmp(&b.1)).expect("there are rows");
        let (most_name, most) = worst(&all);
        let _ = writeln!(
            text,
            "| {kind} | {} | {ours} | {its} | {:.3} | {least:.3}, {least_name} | {most:.3}, {most_name} |",
            all.len(),
            median(&ratios)
        );
    }
    let BinaryCompared { shapes, read, back, wrong } = results.binary_compared;
    let _ = write!(
        text,
        "\nOf {shapes} random shapes GEOS wrote {read} strings, in either byte order and in orders mixed, that we read as the object that the shape was made of, and {back} that we wrote are equal in \
         GEOS; {wrong} differ.\n"
    );
    text
}

fn noding(results: &Results) -> String {
    let new = &results.versions[0];
    let mut text = format!(
        "### Splitting\n\nA raw pair split, over GEOS {new} from the same bytes: build, validity and noding; and noding alone, on geometries that are built. Added: the segments of both objects that were not there \
         before.\n\n| raw pair | types | added | ours | GEOS {new} | ratio | noding alone | ratio |\n|---|---|---|---|---|---|---|---|\n"
    );
    for Noding { name, kinds, added, ours, whole, alone } in &results.noding {
        let [own, all, part] = [ours, whole, alone].map(|time| short(*time));
        let _ = writeln!(text, "| {name} | {kinds} | {added} | {own} | {all} | {:.3} | {part} | {:.3} |", ours / whole, ours / alone);
    }
    let NodingCompared { same, other, off_grid } = results.noding_compared;
    let _ = write!(
        text,
        "\nOf {} random raw pairs that are cut GEOS {new} gives {same} the matrix that we give the pair split; {other} differ. {off_grid} more cross off the grid.\n",
        same + other
    );
    text
}

/// What a row measures, by its name.
type Measured<'a> = &'a dyn Fn(&str) -> Option<f64>;

/// A measure of a row whose first type is above the second, over that of the same two objects the other way round.
fn over_ascending(family: &str, (f, g): (u8, u8), size: usize, measured: Measured) -> Option<f64> {
    let [descending, ascending] = [(f, g), (g, f)].map(|kinds| measured(&name(family, kinds, size)));
    (f > g).then_some(descending? / ascending?)
}

fn either_order(results: &Results) -> String {
    let mut text = String::from(
        "### Either order\n\nThe higher type first, over the same two objects with the lower type first. At most a tenth apart was wanted.\n\n\
         | ours | segments | rows | median | least | most | rows more than a tenth apart |\n|---|---|---|---|---|---|---|\n",
    );
    let mut line = |what: &str, size: usize, measured: Measured| {
        let ratio = |(family, kinds, _): &(&str, (u8, u8), Times)| Some((title(family, *kinds), over_ascending(family, *kinds, size, measured)?));
        let all: Vec<(String, f64)> = rows(results, size).iter().filter_map(ratio).collect();
        let ratios: Vec<f64> = all.iter().map(|(_, ratio)| *ratio).collect();
        let apart = ratios.iter().filter(|ratio| **ratio > 1.1 || **ratio < 1.0 / 1.1).count();
        let (least_name, least) = all.iter().min_by(|a, b| a.1.total_cmp(&b.1)).expect("there are rows");
        let (most_name, most) = worst(&all);
        let extremes = format!("{least:.2}, {least_name} | {most:.2}, {most_name}");
        let _ = writeln!(text, "| {what} | {size} | {} | {:.3} | {extremes} | {apart} |", all.len(), median(&ratios));
    };
    let times = &results.times;
    for size in SIZES {
        line("(a) cells", size, &|row| Some(times.get(row)?.cells));
    }
    line("(a) counted in instructions", FULL, &|row| results.counts[0].get(row).map(|count| *count as f64));
    line("(v) vectors", FULL, &|row| Some(times.get(row)?.vectors));
    line("(z) vectors under two zero masks", FULL, &|row| Some(times.get(row)?.nothing));
    line("(k) check alone", FULL, &|row| Some(times.get(row)?.check));
    text
}

fn short(time: f64) -> String {
    if time < 100.0 {
        format!("{time:.1}")
    } else {
        format!("{time:.0}")
    }
}

fn table(results: &Results) -> String {
    let [new, old] = &results.versions;
    let mut text = format!(
        "### Every row at 512 segments\n\n(a) our cells from bytes; (v) our vectors, all flags wanted; (z) our vectors under two zero masks; (k) our check alone; (b) GEOS from the same bytes, \
         the objects in the same order; (c) GEOS relate alone. A time in brackets belongs to other cells than ours. \"Turned\", where the higher type comes first: (a) over (a) of the row above, \
         which holds the same two objects.\n\n\
         | family | types | (a) | turned | (v) | (z) | (k) | (b) {new} | (c) {new} | (b) {old} | (c) {old} | (a)/(b) {new} | instructions (a) | (b) {new} |\n\
         |---|---|---|---|---|---|---|---|---|---|---|---|---|---|\n"
    );
    for (family, kinds, times) in rows(results, FULL) {
        let peer = |time: f64, right: bool| if right { short(time) } else { format!("({})", short(time)) };
        let peers = [times.new, times.old].map(|p| format!("{} | {}", peer(p.whole, p.right), peer(p.relate, p.right)));
        let ratio = times.ratio().map_or("-".to_string(), |ratio| format!("{ratio:.3}"));
        let counted = |which: usize| results.counts[which].get(&name(family, kinds, FULL)).map_or("-".to_string(), |count| millions(*count));
        let turned =
            over_ascending(family, kinds, FULL, &|row| Some(results.times.get(row)?.cells)).map_or(String::new(), |ratio| format!("{ratio:.2}"));
        let [cells, rest] = [short(times.cells), [times.vectors, times.nothing, times.check].map(short).join(" | ")];
        let ours = format!("{cells} | {turned} | {rest}");
        let _ =
            writeln!(text, "| {family} | {} | {ours} | {} | {} | {ratio} | {} | {} |", pair_name(kinds), peers[0], peers[1], counted(0), counted(1));
    }
    let over: Vec<(String, f64)> =
        rows(results, FULL).iter().map(|(family, kinds, times)| (title(family, *kinds), times.nothing / times.check)).collect();
    let (name, most) = worst(&over);
    let ratios: Vec<f64> = over.iter().map(|(_, ratio)| *ratio).collect();
    let _ = writeln!(
        text,
        "\nTwo zero masks against the check alone, (z)/(k): {:.2} in the median row, {most:.2} in the worst, {name}.",
        median(&ratios)
    );
    text
}

fn millions(count: u64) -> String {
    format!("{:.2} M", count as f64 / 1e6)
}

fn in_turn(results: &Results) -> String {
    let new = &results.versions[0];
    let mut text = format!(
        "### Scenes in turn\n\nDifferent random scenes of full size, our cells: the mean over them of one scene asked again and again, as in the rows above, and \
         of all asked one after another, as a store would; and GEOS {new} from the same bytes, one after another.\n\n\
         | types | scenes | again and again | in turn | GEOS {new} in turn | ratio in turn |\n|---|---|---|---|---|---|\n"
    );
    for Turns { kinds, scenes, again, ours, geos } in &results.turns {
        let times = [again, ours, geos].map(|time| short(*time)).join(" | ");
        let _ = writeln!(text, "| {} | {scenes} | {times} | {:.3} |", pair_name(*kinds), ours / geos);
    }
    text
}

fn summaries(results: &Results) -> String {
    let new = &results.versions[0];
    let mut text = format!(
        "### Summaries\n\nThe family far. Both summaries from the objects' bytes; what the two tell, in nanoseconds; the full answer, our vectors with all flags wanted; and GEOS {new} \
         relate alone, on geometries that are built. Below 100 nanoseconds for a pair of summaries was wanted.\n\n\
         | types | segments | both summaries | told, ns | full answer | full answer / told | GEOS {new} relate | relate / told |\n|---|---|---|---|---|---|---|---|\n"
    );
    for Summaries { kinds, size, made, told, full, relate } in &results.summaries {
        let peer = relate.map_or("- | -".to_string(), |relate| format!("{} | {:.0}", short(relate), relate / told));
        let _ = writeln!(
            text,
            "| {} | {size} | {} | {:.0} | {} | {:.0} | {peer} |",
            pair_name(*kinds),
            short(*made),
            told * 1000.0,
            short(*full),
            full / told
        );
    }
    let slowest = results.summaries.iter().map(|row| row.told * 1000.0).fold(0.0, f64::max);
    let _ = writeln!(text, "\nThe slowest pair of summaries: {slowest:.0} nanoseconds.");
    text
}

fn faults(results: &Results) -> String {
    let mut text = String::from(
        "### Scenes that are turned away, and the slowest input\n\nScenes of full size with a fault near the end of an object, in every family and pair of types: \
         our slowest answer by the refusal's number.\n\n| number | scenes | slowest | scene |\n|---|---|---|---|\n",
    );
    for number in 10..=15 {
        let of_number: Vec<&Other> = results.faults.iter().filter(|fault| fault.number == number).collect();
        if let Some(slowest) = of_number.iter().max_by(|a, b| a.time.total_cmp(&b.time)) {
            let _ = writeln!(text, "| {number} | {} | {} | {} |", of_number.len(), short(slowest.time), slowest.name);
        }
    }
    let rows = results.times.iter().map(|(name, times)| (name.clone(), times.cells));
    let others = results.faults.iter().chain(&results.random).map(|other| (format!("{}, number {}", other.name, other.number), other.time));
    let all: Vec<(String, f64)> = rows.chain(others).collect();
    let (name, time) = worst(&all);
    let _ = write!(text, "\nThe slowest of these, of all rows, and of {} random scenes of full size, half of them damaged: ", results.random.len());
    let _ = writeln!(text, "{name}, {} microseconds.", short(*time));
    text
}

fn comparison(results: &Results) -> String {
    let mut text = String::from(
        "### The comparison of cells\n\nThe rows above in all sizes, and random scenes: those with our cells, those where the known fault of 3.13 shows, just \
         as predicted, and those where GEOS gives something else.\n\n\
         | GEOS | types | same cells | known fault | unexplained |\n|---|---|---|---|---|\n",
    );
    for (version, all) in results.versions.iter().zip(&results.compared) {
        for Compared { kinds, agree, known, unexplained } in all {
            let _ = writeln!(text, "| {version} | {} | {agree} | {known} | {unexplained} |", pair_name(*kinds));
        }
    }
    text
}
