//! The library's refusals in words, with what to do about each.

use crate::bytes::LIMIT;

/// Why something is not taken: the library's number, the place in the file if one is known, and words.
#[derive(Clone, PartialEq, Debug)]
pub struct Refused {
    pub number: u32,
    pub at: Option<usize>,
    pub says: String,
}

pub struct Words {
    pub says: &'static str,
    pub advice: &'static str,
}

pub fn of(number: u32) -> Words {
    let (says, advice) = match number {
        1 => ("the bytes end before a record or inside it", BYTES),
        2 => ("a record of this kind is not allowed here", BYTES),
        3 => ("a type that is not 1 to 3, or a d or ia that is not 0 or 1", BYTES),
        4 => ("a coordinate is outside the range", "Move the objects into the range, -10000000 to 10000000."),
        5 => ("the left end of a segment is not before its right end", BYTES),
        6 => ("an object has more than 1,024 elements", "Leave out elements: an object has at most 1,024 points or 512 segments."),
        7 => ("there are bytes after the second object", BYTES),
        10 => (
            "an element is not strictly after the one before it",
            "Two segments run along each other from a common end: split the longer one where the shorter ends. In bytes that `karvoiss make` did not make, elements may be out of order.",
        ),
        11 => ("a halfsegment has no partner", BYTES),
        12 => ("two segments of one object share a point that is not an end of both", "Split both segments at the points they share."),
        13 => (
            "an end in a region belongs to an odd number of its segments",
            "Each polygon's outline must close, and no two polygons of one region may have an edge in common.",
        ),
        14 => ("ia is wrong: the interior is on the other side of the segment", BYTES),
        15 => (
            "unequal segments of F and G share a point that is not an end of both",
            "Split both segments at the points they share; `karvoiss make --split` does.",
        ),
        19 => (
            "a segment of F crosses one of G at a point that is not on the grid",
            "Move one of their ends, or enlarge both objects by the same whole number.",
        ),
        20 => ("there are more than 1,024 different points or 512 different segments", ""),
        24 => (
            "cut, left over, or nothing that is allowed here",
            "A part has two points or more, a ring four or more, and nothing may follow the last part.",
        ),
        25 => ("a coordinate is not a whole number in range", ""),
        26 => ("this ring's last point is not its first", ""),
        _ => ("an unknown refusal", ""),
    };
    Words { says, advice }
}

const BYTES: &str = "The bytes themselves are at fault: `karvoiss make` makes none like these.";

/// What is wrong with one shape, in a clause; `value` is the number that was read where it is 25.
pub fn sentence(number: u32, value: f64) -> String {
    match number {
        10 => "two of its segments lie along each other from a common end: split the longer one where the shorter ends".to_string(),
        12 => "two of its segments cross, touch or overlap elsewhere than at their ends: split them where they meet".to_string(),
        13 => "a point is the end of an odd number of its segments: outlines must close, and polygons of one shape may share no edge".to_string(),
        20 => "it has more than 1,024 different points or 512 different segments".to_string(),
        25 if value.is_nan() => "NaN is not a number".to_string(),
        25 => format!("{} is outside the range, -{LIMIT} to {LIMIT}", shown(value)),
        _ => of(number).says.to_string(),
    }
}

fn shown(value: f64) -> String {
    if value == 0.0 || (1e-6..1e15).contains(&value.abs()) { value.to_string() } else { format!("{value:e}") }
}

#[cfg(test)]
mod tests {
    use super::*;

    #[test]
    fn range_in_words() {
        assert!(of(4).advice.contains(&format!("-{LIMIT} to {LIMIT}")));
        assert_eq!([10000001.0, 1e300, f64::INFINITY].map(shown), ["10000001", "1e300", "inf"]);
    }
}
