//! The reference: a program written apart from the crates, which answers the same questions and is compared with them.
//! It has its own reader, its own checks, flags by brute force and cells from sample points; it shares nothing with what it checks.
//!
//! Alone:            rustc -O --edition 2021 -o target/reference/reference tests/reference/main.rs
//! With the archive: the same with --cfg library -L native=DIR -l static=karvoiss, DIR being where libkarvoiss.a is.

mod areas;
mod byhand;
mod cells;
mod check;
mod compare;
mod damage;
mod drawing;
mod exchange;
mod fences;
mod flags;
mod judge;
mod library;
mod maker;
mod mistakes;
mod notation;
mod picture;
mod pieces;
mod plan;
mod plane;
mod random;
mod scaled;
mod scene;
mod split;
mod split_byhand;
mod split_maker;
mod summary;
mod tally;
mod walk;
mod wkb;
mod wkb_byhand;
mod wkb_maker;

use compare::{ask, ask_areas, ask_by_hand, ask_split, ask_split_by_hand, ask_walk, ask_walks_by_hand, ask_wkb, ask_wkb_by_hand, Case};
use judge::{judge, VectorsAnswer};
use mistakes::{Rules, MISTAKES, RIGHT};
use plane::Point;
use random::Random;
use split::Splitting;
use std::io::{Read, Write};
use std::process::exit;
use std::time::{Duration, Instant};
use summary::{far, FarAnswer, Summary};
use tally::{Reach, Tally};
use wkb::{Reading, Slip, Writing};
use wkb_byhand::hexadecimal;

const USAGE: &str = "usage: reference answer < scene    the line that explore writes
       reference list < scene      the overlap list, or its refusal
       reference areas < scene     the areas, or their refusal
       reference summary < object  the 20 bytes of its summary, or its refusal
       reference read < wkb        the object that well-known binary is read as in hexadecimal, or the refusal
       reference write < object    the well-known binary of an object in hexadecimal, or the refusal
       reference split < scene     the segments added to F and to G, the length and the scene that a pair is split into in hexadecimal, or the refusal
       reference vectors < text    the lines that the program test_vectors writes
       reference draw < scene      the scene as bytes, words and a drawing
       reference scene SEED        writes the scene that a seed names
       reference object SEED       writes an object that a seed names
       reference wkb SEED          writes the well-known binary that a seed names
       reference raw SEED          writes the raw pair that a seed names
       reference many WHAT COUNT   writes what the seeds 1 to COUNT name, scene, object, wkb or raw, each after its length in 4 bytes, low byte first
       reference listed SEED COUNT a line for each of what COUNT seeds from SEED on name, its sort, scene, raw, wkb or object, and its bytes in hexadecimal
       reference self              the scenes made by hand against their known answers
       reference compare             the fixed run: all must agree, and it must reach enough
           --scenes N, --seed N      another number of scenes, another seed
           --hubs                    scenes alone in which a line has a hub, of three to seven segments
           --regions                 scenes of two regions, and of these the areas alone
           --beside                  objects side by side alone, for what their summaries tell
           --wkb                     well-known binary alone, read, written and read back
           --split                   raw pairs alone, and what they are split into
           --walk                    scenes alone, walked over in portions
           --seconds N               fresh seeds for so long instead
           --mistake NAME            with a mistake in the reference: must disagree
           --trace                   names each scene before it is asked about
       reference compare --mistakes  runs every mistake: each must be caught";

/// The fixed run: its seed, its scenes, and the scenes in which a mistake must have been caught.
const SEED: u64 = 2;
const SCENES: u64 = 100_000;
const SCENES_PER_MISTAKE: u64 = 5_000;

fn main() {
    let arguments: Vec<String> = std::env::args().skip(1).collect();
    let arguments: Vec<&str> = arguments.iter().map(String::as_str).collect();
    let good = match arguments[..] {
        ["answer"] => {
            println!("{}", judge(&input(), &RIGHT).line());
            true
        }
        ["list"] => {
            println!("{}", list_line(&input(), scene::MOST));
            true
        }
        ["areas"] => {
            println!("{}", areas_line(&input()));
            true
        }
        ["summary"] => {
            println!("{}", summary_line(&input()));
            true
        }
        ["read"] => {
            println!("{}", read_line(&input()));
            true
        }
        ["write"] => {
            println!("{}", write_line(&input()));
            true
        }
        ["split"] => {
            println!("{}", split_line(&input(), None));
            true
        }
        ["vectors"] => answer_cases(&String::from_utf8_lossy(&input())),
        ["draw"] => {
            print!("{}", drawing::scene_text(&input()));
            true
        }
        ["object", seed] => std::io::stdout().write_all(&Case::object_of_seed(number(seed))).is_ok(),
        ["wkb", seed] => std::io::stdout().write_all(&Case::wkb_of_seed(number(seed)).bytes).is_ok(),
        ["raw", seed] => std::io::stdout().write_all(&Case::raw_of_seed(number(seed)).bytes).is_ok(),
        ["scene", seed] => std::io::stdout().write_all(&Case::of_seed(number(seed)).bytes).is_ok(),
        ["many", what, count] => write_many(maker(what), number(count)).is_ok(),
        ["listed", seed, count] => {
            (0..number(count)).for_each(|n| list(number(seed) + n));
            true
        }
        ["self"] => self_test(),
        ["compare", "--mistakes"] => all_mistakes(),
        ["compare", ref rest @ ..] => compare(rest),
        _ => usage(),
    };
    exit(if good { 0 } else { 1 });
}

fn usage() -> ! {
    eprintln!("{USAGE}");
    exit(2);
}

fn number(text: &str) -> u64 {
    text.parse().unwrap_or_else(|_| usage())
}

fn input() -> Vec<u8> {
    let mut bytes = Vec::new();
    std::io::stdin().read_to_end(&mut bytes).expect("standard input cannot be read");
    bytes
}

/// What makes bytes of a seed.
fn maker(what: &str) -> fn(u64) -> Vec<u8> {
    match what {
        "scene" => |seed| Case::of_seed(seed).bytes,
        "object" => Case::object_of_seed,
        "wkb" => |seed| Case::wkb_of_seed(seed).bytes,
        "raw" => |seed| Case::raw_of_seed(seed).bytes,
        _ => usage(),
    }
}

/// What a seed names, a line for each sort.
fn list(seed: u64) {
    println!("scene {}", hexadecimal(&Case::of_seed(seed).bytes));
    println!("raw {}", hexadecimal(&Case::raw_of_seed(seed).bytes));
    println!("wkb {}", hexadecimal(&Case::wkb_of_seed(seed).bytes));
    println!("object {}", hexadecimal(&Case::object_of_seed(seed)));
}

/// What is made of the seeds 1 to `count`, each after its length.
fn write_many(made: fn(u64) -> Vec<u8>, count: u64) -> std::io::Result<()> {
    let mut out = std::io::BufWriter::new(std::io::stdout());
    for seed in 1..=count {
        let bytes = made(seed);
        out.write_all(&(bytes.len() as u32).to_le_bytes())?;
        out.write_all(&bytes)?;
    }
    out.flush()
}

/// The overlap list into so much room, or `no`, number and place.
fn list_line(bytes: &[u8], room: usize) -> String {
    let mut list = vec![0; room];
    let answer = judge(bytes, &RIGHT).overlap(&mut list);
    if answer.number != 0 {
        return format!("no {} {}", answer.number, answer.place);
    }
    list[..answer.count].iter().map(u8::to_string).collect::<Vec<_>>().join(" ")
}

/// The areas in both, in F only and in G only, or `no`, number and place.
fn areas_line(bytes: &[u8]) -> String {
    let answer = judge(bytes, &RIGHT).areas();
    match (answer.number, answer.areas) {
        (0, [both, f_only, g_only]) => format!("{both} {f_only} {g_only}"),
        (number, _) => format!("no {number} {}", answer.place),
    }
}

/// The bytes in hexadecimal, or `no`, number and place.
fn summary_line(bytes: &[u8]) -> String {
    let answer = summary::summary(bytes, &RIGHT);
    match answer.number {
        0 => answer.record.map(|byte| format!("{byte:02x}")).join(" "),
        number => format!("no {number} {}", answer.place),
    }
}

/// The object's bytes in hexadecimal, or `no`, number, place and, beside 25, the number that was read.
fn read_line(bytes: &[u8]) -> String {
    let reading = Reading::of(bytes, &RIGHT);
    let mut object = vec![0; reading.bytes.len()];
    let answer = reading.answer(&mut object);
    match answer.number {
        0 => hexadecimal(&object),
        25 => format!("no 25 {} {:?}", answer.place, answer.value.0),
        number => format!("no {number} {}", answer.place),
    }
}

/// The well-known binary in hexadecimal, or `no`, number and place.
fn write_line(bytes: &[u8]) -> String {
    match Writing::of(bytes, &RIGHT).0 {
        Ok(wkb) => hexadecimal(&wkb),
        Err(refusal) => format!("no {} {}", refusal.number, refusal.place),
    }
}

/// The segments added to F and to G, the length and the bytes in hexadecimal, into just enough room or another, or `no`, number and place.
fn split_line(bytes: &[u8], room: Option<usize>) -> String {
    let splitting = Splitting::of(bytes, &RIGHT);
    let mut split = vec![0; room.unwrap_or(splitting.bytes.len())];
    let answer = splitting.answer(&mut split);
    match answer.number {
        0 => format!("{} {} {} {}", answer.added_f, answer.added_g, answer.length, hexadecimal(&split[..answer.length])),
        number => format!("no {number} {}", answer.place),
    }
}

/// `look`, both vectors, or `no`, number and place.
fn far_line(answer: &FarAnswer) -> String {
    match answer.number {
        0 if answer.look => "look".to_string(),
        0 => format!("{} {}", answer.f, answer.g),
        number => format!("no {number} {}", answer.place),
    }
}

/// Both vectors, or `no`, number and place.
fn vectors_line(answer: &VectorsAnswer) -> String {
    match answer.number {
        0 => format!("{} {}", answer.f, answer.g),
        number => format!("no {number} {}", answer.place),
    }
}

/// A line for each case.
fn answer_cases(text: &str) -> bool {
    let cases = notation::cases(text).unwrap_or_else(|case| {
        eprintln!("this case cannot be read: {case}");
        exit(1)
    });
    for case in cases {
        println!("{}: {}", case.label, vectors_line(&judge(&case.bytes, &RIGHT).vectors(case.want_f, case.want_g)));
    }
    true
}

/// The scenes made by hand against what document 01, or a hand, says of them.
fn self_test() -> bool {
    let (mut passed, mut failed) = (0, 0);
    let mut check = |name: &str, expected: &str, answer: String| {
        if expected == answer {
            passed += 1;
        } else {
            failed += 1;
            println!("{name}: {answer} instead of {expected}");
        }
    };
    for known in byhand::known() {
        check(known.name, known.line, judge(&known.bytes, &RIGHT).line());
    }
    for drawn in byhand::drawn_matrices() {
        let line = judge(&drawn.bytes(), &RIGHT).line();
        check("a picture", drawn.matrix, line.rsplit(' ').next().unwrap_or_default().to_string());
    }
    for masked in byhand::masked() {
        check(masked.name, masked.line, vectors_line(&judge(&masked.bytes, &RIGHT).vectors(masked.want_f, masked.want_g)));
    }
    for listed in byhand::listed() {
        check(listed.name, listed.line, list_line(&listed.bytes, listed.room));
    }
    for measured in byhand::measured() {
        check(measured.name, &measured.line, areas_line(&measured.bytes));
    }
    for known in byhand::summarised() {
        check(known.name, known.line, summary_line(&known.bytes));
    }
    for told in byhand::told() {
        check(told.name, told.line, far_line(&far(&told.first, &told.second, &RIGHT)));
    }
    let point = byhand::a_point();
    for (name, record, is_good) in byhand::judged() {
        let numbers = [far(&record, &point, &RIGHT), far(&point, &record, &RIGHT)].map(|answer| (answer.number, answer.place));
        check(&name, if is_good { "good" } else { "bad" }, if numbers == [(0, 0), (0, 0)] { "good" } else { "bad" }.to_string());
        check(&name, if is_good { "[(0, 0), (0, 0)]" } else { "[(18, 0), (18, 1)]" }, format!("{numbers:?}"));
    }
    for summary in small_summaries() {
        check(
            &format!("{summary:?}"),
            if summary.is_good() { "made" } else { "not made" },
            summary.some_object(&RIGHT).map_or("not made", |_| "made").to_string(),
        );
    }
    for known in wkb_byhand::read() {
        check(known.name, &known.line, read_line(&known.bytes));
    }
    for known in wkb_byhand::written() {
        check(known.name, &known.line, write_line(&known.bytes));
    }
    for known in split_byhand::known() {
        let answer = split_line(&known.bytes, known.room);
        let mut words: Vec<&str> = answer.split(' ').collect();
        words.truncate(3);
        check(known.name, &known.line, words.join(" "));
        if let Some(written) = known.written {
            check(known.name, &hexadecimal(&written), answer.rsplit(' ').next().unwrap_or_default().to_string());
        }
    }
    println!("self-test: {passed} passed, {failed} failed");
    failed == 0
}

/// Every summary with coordinates of -1 to 1: the good ones are those that some object has.
fn small_summaries() -> Vec<Summary> {
    let places: Vec<Point> = (-1..=1).flat_map(|x| (-1..=1).map(move |y| (x, y))).collect();
    let mut all = Vec::new();
    for kind in 1..=3 {
        for (least, greatest) in places.iter().flat_map(|least| places.iter().map(move |greatest| (*least, *greatest))) {
            for (empty, boundary) in [(false, false), (false, true), (true, false), (true, true)] {
                all.push(Summary { kind, empty, least, greatest, boundary });
            }
        }
    }
    all
}

/// What a comparison is of.
#[derive(Clone, Copy, PartialEq, Eq)]
enum Of {
    Scenes,
    Wkb,
    RawPairs,
    Walks,
}

/// A comparison: what was made by hand, well-known binary, raw pairs or walks alone or with scenes all of it, then those of a seed, a number of them or as many as there is time for.
struct Run {
    rules: Rules,
    by_hand: bool,
    of: Of,
    made: fn(u64) -> Case,
    asks: fn(&Case, &Rules, &mut Tally) -> Result<(), String>,
    seed: u64,
    scenes: u64,
    until: Option<Instant>,
    trace: bool,
}

impl Run {
    fn go(&self, tally: &mut Tally) -> Result<(), String> {
        let by_hand = if self.by_hand && self.of == Of::Scenes { Case::all_by_hand() } else { Vec::new() };
        let mut seeds = Random::new(self.seed);
        let of_seed = (0..self.scenes).map(|_| (self.made)(seeds.next()));
        if self.by_hand && matches!(self.of, Of::Scenes | Of::Walks) {
            ask_walks_by_hand(&self.rules, tally)?;
        }
        if self.by_hand && matches!(self.of, Of::Scenes | Of::Wkb) {
            ask_wkb_by_hand(&self.rules, tally)?;
        }
        if self.by_hand && matches!(self.of, Of::Scenes | Of::RawPairs) {
            ask_split_by_hand(&self.rules, tally)?;
        }
        if self.by_hand && self.of == Of::Scenes {
            ask_by_hand(&self.rules, tally)?;
        }
        for case in by_hand.into_iter().chain(of_seed) {
            if self.until.is_some_and(|end| Instant::now() >= end) {
                break;
            }
            if self.trace {
                eprintln!("{}", case.from);
            }
            (self.asks)(&case, &self.rules, tally)?;
        }
        Ok(())
    }
}

fn compare(arguments: &[&str]) -> bool {
    let start = Instant::now();
    let mut run =
        Run { rules: RIGHT, by_hand: true, of: Of::Scenes, made: Case::of_seed, asks: ask, seed: SEED, scenes: SCENES, until: None, trace: false };
    let mut reach = Reach::Everything;
    let mut seed = None;
    let mut arguments = arguments.iter();
    while let Some(argument) = arguments.next() {
        let mut value = || arguments.next().unwrap_or_else(|| usage());
        match *argument {
            "--scenes" => run.scenes = number(value()),
            "--seed" => seed = Some(number(value())),
            "--hubs" => {
                (run.by_hand, run.made, reach) = (false, Case::hub_of_seed, Reach::Hubs);
            }
            "--regions" => {
                (run.by_hand, run.made, run.asks, reach) = (false, Case::regions_of_seed, ask_areas, Reach::Regions);
            }
            "--beside" => {
                (run.by_hand, run.made, reach) = (false, Case::side_by_side_of_seed, Reach::Summaries);
            }
            "--wkb" => {
                (run.of, run.made, run.asks) = (Of::Wkb, Case::wkb_of_seed, ask_wkb);
            }
            "--split" => {
                (run.of, run.made, run.asks) = (Of::RawPairs, Case::raw_of_seed, ask_split);
            }
            "--walk" => {
                (run.of, run.made, run.asks) = (Of::Walks, Case::of_seed, ask_walk);
            }
            "--seconds" => {
                run.until = Some(start + Duration::from_secs(number(value())));
                run.scenes = u64::MAX;
                run.seed = std::time::SystemTime::now().duration_since(std::time::UNIX_EPOCH).map_or(0, |since| since.as_nanos() as u64);
            }
            "--mistake" => {
                let name = value();
                let mistake = MISTAKES.iter().find(|mistake| mistake.name == *name).unwrap_or_else(|| usage());
                println!("with a mistake put into the reference: {}", mistake.says);
                run.rules = mistake.rules;
            }
            "--trace" => run.trace = true,
            _ => usage(),
        }
    }
    run.seed = seed.unwrap_or(run.seed);
    println!("comparing with {}, seed {}", library::NAME, run.seed);
    let mut tally = Tally::default();
    let outcome = run.go(&mut tally);
    // a run that was cut short, by a disagreement or by the clock, need not have reached everything
    let complete = outcome.is_ok() && run.until.is_none();
    let wrong = match run.of {
        Of::Scenes => tally.report(if complete { reach } else { Reach::Nothing }),
        Of::Wkb => tally.report_wkb(complete),
        Of::RawPairs => tally.report_split(complete),
        Of::Walks => tally.report_walks(complete),
    };
    wrong.iter().for_each(|what| println!("WRONG: {what}"));
    if let Err(what) = &outcome {
        println!("{what}");
    }
    println!("compare: {} in {:.1} s", if outcome.is_ok() { "all answers agree" } else { "DISAGREEMENT" }, start.elapsed().as_secs_f64());
    outcome.is_ok() && wrong.is_empty()
}

/// Runs every mistake over random scenes alone until it is caught.
fn all_mistakes() -> bool {
    println!("mistakes put into the reference, compared with {}", library::NAME);
    let mut caught_all = true;
    for mistake in &MISTAKES {
        let mut tally = Tally::default();
        let (of, made, asks): (Of, fn(u64) -> Case, fn(&Case, &Rules, &mut Tally) -> Result<(), String>) = match mistake.rules {
            Rules { wkb, .. } if wkb != Slip::None => (Of::Wkb, Case::wkb_of_seed, ask_wkb),
            Rules { split, .. } if split != split::Slip::None => (Of::RawPairs, Case::raw_of_seed, ask_split),
            Rules { walk, .. } if walk != walk::Slip::None => (Of::Walks, Case::of_seed, ask_walk),
            _ => (Of::Scenes, Case::of_seed, ask),
        };
        let run = Run { rules: mistake.rules, by_hand: false, of, made, asks, seed: SEED, scenes: SCENES_PER_MISTAKE, until: None, trace: false };
        let caught = run.go(&mut tally).is_err();
        let verdict = format!("{} {} scenes", if caught { "caught after" } else { "NOT CAUGHT in" }, tally.scenes);
        caught_all &= caught;
        println!("{:20} {verdict} ({})", mistake.name, mistake.says);
    }
    println!("mistakes: {}", if caught_all { "all caught" } else { "NOT ALL CAUGHT" });
    caught_all
}
