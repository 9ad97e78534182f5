//! A listing of records back to scene bytes, whether they are a scene or not: the way to bytes that the library refuses, for tests and samples. A record is written as
//! `karvoiss show` lists it: "type 2", "P(0,0)", "L(0,0,4,0,1)", "R(0,0,4,0,1,1)", "end". Before it a byte offset may stand, after it anything.

use crate::bytes::{self, Half, Point, Record, Segment};
use crate::shape::Fault;

/// The text begins as a listing does.
pub fn is_listing(text: &str) -> bool {
    let mut lines = text.lines().filter(|line| !is_passed_over(line));
    lines.next().is_some_and(|line| without_offset(line).starts_with("type "))
}

pub fn read(text: &str) -> Result<Vec<u8>, Fault> {
    let mut bytes = Vec::new();
    let mut at = 0;
    for line in text.split_inclusive('\n') {
        if !is_passed_over(line) {
            let record = record(without_offset(line)).ok_or(Fault { at, message: format!("no record: \"{}\"", line.trim()) })?;
            bytes::write(&record, &mut bytes);
        }
        at += line.len();
    }
    Ok(bytes)
}

/// Empty lines, comments, and the heading of a listing.
fn is_passed_over(line: &str) -> bool {
    let line = line.trim();
    line.is_empty() || line.starts_with('#') || line.starts_with("byte")
}

fn without_offset(line: &str) -> &str {
    line.trim_start_matches(['>', ' ', '\t']).trim_start_matches(|c: char| c.is_ascii_digit()).trim_start()
}

fn record(line: &str) -> Option<Record> {
    let mut words = line.split_whitespace();
    let word = words.next()?;
    match word {
        "end" => return Some(Record::End),
        "type" => return Some(Record::Type(words.next()?.parse().ok()?)),
        _ => {}
    }
    let (letter, fields) = word.strip_suffix(')')?.split_once('(')?;
    let numbers: Vec<i32> = fields.split(',').map(|field| field.parse().ok()).collect::<Option<_>>()?;
    let byte = |number: &i32| u8::try_from(*number).ok();
    match (letter, &numbers[..]) {
        ("P", [x, y]) => Some(Record::Point(point(*x, *y))),
        ("L", [a, b, x, y, d]) => Some(Record::Line(half([*a, *b, *x, *y], byte(d)?))),
        ("R", [a, b, x, y, d, ia]) => Some(Record::Region(half([*a, *b, *x, *y], byte(d)?), byte(ia)?)),
        _ => None,
    }
}

fn point(x: i32, y: i32) -> Point {
    Point { x: x.into(), y: y.into() }
}

fn half([a, b, x, y]: [i32; 4], d: u8) -> Half {
    Half { segment: Segment { left: point(a, b), right: point(x, y) }, d }
}

#[cfg(test)]
mod tests {
    use super::*;
    use crate::show;

    #[test]
    fn listed_and_read_back() {
        let text = "# out of range\ntype 1\nP(10000001,0)\nend\n type 3\nR(0,0,4,0,1,1)\n> 30  L(0,0,4,0,0)  right half\nend\n";
        let bytes = read(text).unwrap();
        assert_eq!(bytes[..11], [84, 1, 80, 0x81, 0x96, 0x98, 0, 0, 0, 0, 0]);
        assert_eq!(read(&show::all(&bytes)).unwrap(), bytes);
        assert!(is_listing(text) && is_listing(&show::all(&bytes)) && !is_listing("POINT (0 0)"));
        for record in ["P(1)", "P(2147483648,0)", "L(0,0,1,1,256)", "R(0,0,1,1,1)", "Q(0,0)", "type 256"] {
            assert_eq!(read(&format!("type 1\n{record}\n")), Err(Fault { at: 7, message: format!("no record: \"{record}\"") }));
        }
    }
}
