//! How two shapes lie to each other, in words and as JSON; and whether a predicate or a pattern holds.

use crate::answer::{self, Taken};
use crate::bytes::Kind;
use crate::grid::{Grid, thousands};
use crate::json::quoted;
use crate::library::{self, Areas};
use crate::listing::{self, NAMES};
use crate::two::Asked;
use crate::{predicate, relation};

/// What is said of one of the two.
struct Side {
    name: Option<String>,
    kind: Kind,
    elements: usize,
    words: String,
}

fn sides(asked: &Asked) -> [Side; 2] {
    let listing = listing::read(&asked.given);
    [0, 1].map(|object| {
        let kind = listing.kind(object).unwrap_or(Kind::Points);
        let elements = if kind == Kind::Points { listing.points(object).len() } else { listing.segments(object).len() };
        Side { name: asked.names.as_ref().map(|names| names[object].clone()), kind, elements, words: listing.summary(object) }
    })
}

pub fn words(asked: &Asked, taken: &Taken, grid: &Grid) -> String {
    let side = |(side, letter): (&Side, &str)| {
        let name = side.name.as_ref().map(|name| format!("{name}, ")).unwrap_or_default();
        format!("{letter}: {name}{}\n", side.words)
    };
    let heading: String = sides(asked).iter().zip(NAMES).map(side).collect();
    let relation = relation::of(taken);
    let holding = predicate::holding(taken.kinds, &taken.cells).join(", ");
    let name = predicate::name(taken.kinds, &taken.cells);
    let areas = areas(asked, taken).map(|areas| area_words(&areas, grid)).unwrap_or_default();
    format!("{heading}\n{}  {name}\n\n{}\nOf the OGC's predicates: {holding}.\n{areas}{}", answer::matrix(&taken.cells), relation, added(asked))
}

fn added(asked: &Asked) -> String {
    match asked.added {
        [0, 0] => String::new(),
        [f, g] => format!("Split where they meet: {} more in F, {g} in G.\n", segments(f)),
    }
}

fn segments(count: usize) -> String {
    format!("{} segment{}", thousands(count as u64), if count == 1 { "" } else { "s" })
}

/// Of two regions.
fn areas(asked: &Asked, taken: &Taken) -> Option<Areas> {
    if taken.kinds == [Kind::Region; 2] { library::areas(&asked.scene).ok() } else { None }
}

fn area_words(areas: &Areas, grid: &Grid) -> String {
    let [both, f_only, g_only] = areas_of(areas, grid);
    format!("Areas: {both} in both, {f_only} in F only, {g_only} in G only.\n")
}

/// In both, in F only and in G only. On the grid exactly; of a file that was scaled, in squares of its unit, as floats have them.
pub fn areas_of(areas: &Areas, grid: &Grid) -> [String; 3] {
    let half = |twice: i64| format!("{}{}", twice / 2, if twice % 2 == 1 { ".5" } else { "" });
    let area = |twice: i64| if grid.moves() { grid.area(twice as f64 / 2.0).to_string() } else { half(twice) };
    [areas.both, areas.f_only, areas.g_only].map(area)
}

pub fn json(asked: &Asked, taken: &Taken, grid: &Grid) -> String {
    let side = |side: &Side| {
        let name = side.name.as_ref().map(|name| format!("\"name\": {}, ", quoted(name))).unwrap_or_default();
        let elements = if side.kind == Kind::Points { "points" } else { "segments" };
        format!("{{{name}\"type\": \"{}\", \"{elements}\": {}}}", side.kind.name(), side.elements)
    };
    let [f, g] = sides(asked).map(|of| side(&of));
    let holding: Vec<String> = predicate::holding(taken.kinds, &taken.cells).into_iter().map(quoted).collect();
    let areas = areas(asked, taken).map(|areas| {
        let [both, f_only, g_only] = areas_of(&areas, grid);
        format!(",\n \"areas\": {{\"both\": {both}, \"f_only\": {f_only}, \"g_only\": {g_only}}}")
    });
    format!(
        "{{\"f\": {f},\n \"g\": {g},\n \"matrix\": \"{}\",\n \"relation\": \"{}\",\n \"predicates\": [{}],\n \"says\": {},\n \"added\": {{\"f\": {}, \"g\": {}}}{}}}\n",
        answer::matrix(&taken.cells),
        predicate::name(taken.kinds, &taken.cells),
        holding.join(", "),
        quoted(&relation::of(taken)),
        asked.added[0],
        asked.added[1],
        areas.unwrap_or_default()
    )
}

/// Whether it is so, and in words by which pattern; or what is wrong with the question.
pub fn is(asked: &Asked, question: &Question) -> Result<(bool, String), String> {
    let kinds = answer::kinds(&asked.scene).ok_or("the scene has no types")?;
    let (name, patterns) = match question {
        Question::Pattern(pattern) => {
            let holds = library::relate(&asked.scene, pattern).map_err(|no| of_pattern(pattern, no.number, no.place))?;
            return Ok((holds, if holds { "yes".to_string() } else { "no".to_string() }));
        }
        Question::Predicate(name) => (name, predicate::patterns(name, kinds).unwrap_or(&[])),
    };
    let by = predicate::by(patterns, &asked.scene).map_err(|no| format!("refused, {}", no.number))?;
    Ok(match by {
        Some(pattern) => (true, format!("yes: {name}, by {pattern}")),
        None if patterns.is_empty() => (false, format!("no: {} and {} are never said to be \"{name}\"", a(kinds[0]), a(kinds[1]))),
        None => (false, format!("no: {name} takes {}", patterns.join(" or "))),
    })
}

pub enum Question {
    Predicate(&'static str),
    Pattern(String),
}

fn a(kind: Kind) -> &'static str {
    ["points", "a line", "a region"][kind as usize]
}

/// 22 and 23 in words.
fn of_pattern(pattern: &str, number: u32, place: usize) -> String {
    match number {
        22 => format!("--pattern {pattern} has {} characters: a pattern has nine, for the cells row by row (22)", pattern.len()),
        23 => format!("--pattern {pattern}: character {} is none of T, F, *, 0, 1 and 2 (23)", place + 1),
        number => format!("refused, {number}"),
    }
}
