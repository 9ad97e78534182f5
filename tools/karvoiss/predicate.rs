//! The named predicates of OGC Simple Features as relate patterns, by the types of F and G, as include/karvoiss.h has them. Where a predicate is several patterns,
//! any of them. Two lines cross or overlap by the dimension of what their interiors share, which the digits ask for. Whether a pattern holds of a scene the library says; where its cells
//! are known already, as in a register, they are held against the pattern.

use crate::answer::{Cell, Cells};
use crate::bytes::Kind;
use crate::library::{self, No};

pub const NAMES: [&str; 10] = ["equals", "disjoint", "intersects", "touches", "within", "contains", "coveredBy", "covers", "crosses", "overlaps"];

/// What a predicate asks of a pair of types: one of some patterns. None if there is no such predicate.
pub fn patterns(name: &str, kinds: [Kind; 2]) -> Option<&'static [&'static str]> {
    let any = |patterns: &'static [&'static str]| Some(patterns);
    let two_lines = kinds == [Kind::Line; 2];
    match name {
        "equals" => any(&["T*F**FFF*"]),
        "disjoint" => any(&["FF*FF****"]),
        "intersects" => any(&["T********", "*T*******", "***T*****", "****T****"]),
        "touches" if kinds == [Kind::Points; 2] => any(&[]),
        "touches" => any(&["FT*******", "F**T*****", "F***T****"]),
        "within" => any(&["T*F**F***"]),
        "contains" => any(&["T*****FF*"]),
        "coveredBy" => any(&["T*F**F***", "*TF**F***", "**FT*F***", "**F*TF***"]),
        "covers" => any(&["T*****FF*", "*T****FF*", "***T**FF*", "****T*FF*"]),
        "crosses" if two_lines => any(&["0********"]),
        "crosses" if kinds[0] < kinds[1] => any(&["T*T******"]),
        "crosses" if kinds[0] > kinds[1] => any(&["T*****T**"]),
        "overlaps" if two_lines => any(&["1*T***T**"]),
        "overlaps" if kinds[0] == kinds[1] => any(&["T*T***T**"]),
        "crosses" | "overlaps" => any(&[]),
        _ => None,
    }
}

/// Do the nine cells fit, row by row?
fn fits(pattern: &str, cells: &Cells) -> bool {
    let one = |(c, cell): (char, &Cell)| match c {
        '*' => true,
        'T' => !cell.is_empty(),
        sign => cell.sign() == sign,
    };
    pattern.chars().zip(cells.iter().flatten()).all(one)
}

/// Whether cells that the library gave are those of a predicate.
pub fn holds(name: &str, kinds: [Kind; 2], cells: &Cells) -> bool {
    patterns(name, kinds).is_some_and(|patterns| patterns.iter().any(|pattern| fits(pattern, cells)))
}

/// The predicates that hold.
pub fn holding(kinds: [Kind; 2], cells: &Cells) -> Vec<&'static str> {
    NAMES.into_iter().filter(|name| holds(name, kinds, cells)).collect()
}

/// Those that say more go first: what is within is also covered, and a line along a region's boundary is covered by the region and is said to touch it.
const BY_RANK: [&str; 10] = ["equals", "disjoint", "within", "contains", "crosses", "overlaps", "touches", "coveredBy", "covers", "intersects"];

/// What the pair is called: of the predicates that hold the one that says most.
pub fn name(kinds: [Kind; 2], cells: &Cells) -> &'static str {
    BY_RANK.into_iter().find(|name| holds(name, kinds, cells)).unwrap_or("intersects")
}

/// The name in the document's letters, whatever letters were written.
pub fn named(word: &str) -> Option<&'static str> {
    NAMES.into_iter().find(|name| name.eq_ignore_ascii_case(word))
}

/// The first pattern that the library finds to hold.
pub fn by(patterns: &[&'static str], scene: &[u8]) -> Result<Option<&'static str>, No> {
    for pattern in patterns {
        if library::relate(scene, pattern)? {
            return Ok(Some(pattern));
        }
    }
    Ok(None)
}

#[cfg(test)]
mod tests {
    use super::*;
    use crate::answer::noted;

    /// The predicates that hold.
    fn hold(line: &str) -> Vec<&'static str> {
        let taken = noted(line);
        holding(taken.kinds, &taken.cells)
    }

    #[test]
    fn sample_scenes() {
        assert_eq!(hold("1 2 5 1 F00FFF102"), ["intersects", "touches"]);
        assert_eq!(hold("1 3 7 0 000FFF212"), ["intersects", "crosses"]);
        assert_eq!(hold("3 1 0 7 0F20F10F2"), ["intersects", "crosses"]);
        assert_eq!(hold("3 3 3 12 212FF1FF2"), ["intersects", "contains", "covers"]);
        assert_eq!(hold("3 3 12 3 2FF1FF212"), ["intersects", "within", "coveredBy"]);
        assert_eq!(hold("3 3 131 3 FF2F01212"), ["intersects", "touches"]);
        assert_eq!(hold("3 3 176 0 2FFF1FFF2"), ["equals", "intersects", "within", "contains", "coveredBy", "covers"]);
        assert_eq!(hold("3 3 143 15 212101212"), ["intersects", "overlaps"]);
        assert_eq!(hold("1 1 0 0 FFFFFFFF2"), ["disjoint"]);
        assert_eq!(hold("3 3 3 3 FF2FF1212"), ["disjoint"]);
    }

    #[test]
    fn two_lines() {
        assert_eq!(hold("2 2 38 5 0F1FF0102"), ["intersects", "crosses"]);
        assert_eq!(hold("2 2 37 5 1F1FF0102"), ["intersects", "overlaps"]);
        assert_eq!(hold("2 2 44 5 FF10F0102"), ["intersects", "touches"]);
    }

    #[test]
    fn the_one_that_says_most() {
        let called = |line: &str| {
            let taken = noted(line);
            name(taken.kinds, &taken.cells)
        };
        let lines =
            ["1 2 5 1 F00FFF102", "1 3 7 0 000FFF212", "3 3 3 12 212FF1FF2", "3 3 131 3 FF2F01212", "3 3 176 0 2FFF1FFF2", "1 1 0 0 FFFFFFFF2"];
        assert_eq!(lines.map(called), ["touches", "crosses", "contains", "touches", "equals", "disjoint"]);
        let lines =
            ["2 2 38 5 0F1FF0102", "2 2 37 5 1F1FF0102", "2 3 34 1 F1FF0F212", "1 3 2 0 F0FFFF212", "3 3 140 3 2FF10F212", "3 3 143 15 212101212"];
        assert_eq!(lines.map(called), ["crosses", "overlaps", "touches", "touches", "within", "overlaps"]);
    }

    #[test]
    fn by_name() {
        assert_eq!((named("COVEREDBY"), named("beside")), (Some("coveredBy"), None));
        assert_eq!((patterns("beside", [Kind::Line; 2]), patterns("touches", [Kind::Points; 2])), (None, Some(&[][..])));
    }
}
