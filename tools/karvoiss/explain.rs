//! An answer in words: what a planner would call it, the nine cells as a table, the flags by name; or the refusal and what to do about it.

use crate::answer::{Answer, Cell, Taken};
use crate::flags;
use crate::listing::{self, Listing, NAMES};
use crate::two::Asked;
use crate::{predicate, refusals, relation, show};

pub fn words(asked: &Asked, answer: &Answer) -> String {
    let listing = listing::read(&asked.scene);
    let [f, g] = [0, 1].map(|object| asked.label(object, &listing.summary(object)));
    let answer = match answer {
        Answer::Taken(taken) => accepted(taken),
        Answer::Refused { number, place } => refused(*number, *place, &listing, asked.scene.len()),
    };
    format!("F: {f}\nG: {g}\n\n{answer}")
}

fn accepted(taken: &Taken) -> String {
    let name = predicate::name(taken.kinds, &taken.cells);
    format!("{name}\n  {}\n\n{}\n{}", relation::of(taken), table(taken), flag_lists(taken))
}

fn table(taken: &Taken) -> String {
    let parts = ["interior", "boundary", "exterior"];
    let heading = format!("{:12}{:>12}{:>12}{:>12}\n", "", "G interior", "G boundary", "G exterior");
    let row = |(part, row): (&str, [Cell; 3])| {
        let [interior, boundary, exterior] = row.map(Cell::words);
        format!("{:12}{interior:>12}{boundary:>12}{exterior:>12}\n", format!("F {part}"))
    };
    heading + &parts.into_iter().zip(taken.cells).map(row).collect::<String>()
}

fn flag_lists(taken: &Taken) -> String {
    let list = |object: usize| {
        let flags = flags::of(taken.kinds)[object];
        let width = flags.iter().map(|flag| flag.name.len()).max().unwrap_or(0);
        let (set, clear): (Vec<_>, Vec<_>) = flags::set(flags, taken.vectors[object]).partition(|(_, set)| *set);
        let lines: String = set.iter().map(|(flag, _)| format!("  {:width$}  {}\n", flag.name, flag.says(taken.kinds))).collect();
        let rest: Vec<&str> = clear.iter().map(|(flag, _)| flag.name).collect();
        let not_set = if rest.is_empty() { String::new() } else { format!("  not set: {}\n", rest.join(", ")) };
        let none = if flags.is_empty() { ": it has none" } else { "" };
        format!("Flags of {} ({}){none}\n{lines}{not_set}", NAMES[object], taken.vectors[object])
    };
    format!("{}{}", list(0), list(1))
}

fn refused(number: u32, place: usize, listing: &Listing, length: usize) -> String {
    let refusal = refusals::of(number);
    let advice = if refusal.advice.is_empty() { String::new() } else { format!("{}\n", refusal.advice) };
    format!("refused: {} (number {number}).\nAt byte {place}: {}.\n{advice}", refusal.says, found(place, listing, length))
}

/// The record at a place, in words.
pub fn found(place: usize, listing: &Listing, length: usize) -> String {
    match listing.at(place) {
        Some(row) => {
            let row = &listing.rows[row];
            format!("{}, {}", show::whereabouts(row), show::signs(&row.record))
        }
        None if place == length => "the end of the bytes".to_string(),
        None => "what is no record".to_string(),
    }
}
