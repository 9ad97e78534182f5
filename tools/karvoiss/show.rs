//! Scene bytes as a listing, one record to a line with its byte offset, or as well-known text again.

use crate::bytes::{self, Half, Kind, Point, Record};
use crate::grid::Grid;
use crate::listing::{self, Listing, NAMES, Rest, Row};
use crate::{library, rings, wkt};

pub fn all(bytes: &[u8]) -> String {
    let listing = listing::read(bytes);
    let lines = lines(&listing, 0, listing.rows.len(), None);
    format!("{HEADING}\n{lines}{}", rest(&listing, bytes))
}

/// The record that a byte lies in, with its neighbours.
pub fn at(bytes: &[u8], byte: usize) -> Result<String, String> {
    let listing = listing::read(bytes);
    if let Some(found) = listing.at(byte) {
        let (from, to) = (found.saturating_sub(3), (found + 4).min(listing.rows.len()));
        let lines = lines(&listing, from, to, Some(found));
        return Ok(format!("byte {byte}: {}\n{HEADING}\n{lines}", whereabouts(&listing.rows[found])));
    }
    if byte > bytes.len() {
        return Err(format!("there is no byte {byte}: the scene has {}", bytes.len()));
    }
    if byte == bytes.len() && listing.stop == byte {
        return Ok(format!("byte {byte}: the end of the bytes, where no record begins\n"));
    }
    Ok(format!("byte {byte}: in what cannot be read\n{HEADING}\n{}", rest(&listing, bytes)))
}

/// "F, halfsegment 3", "G's type".
pub fn whereabouts(row: &Row) -> String {
    let object = NAMES[row.object];
    match (row.record, row.element) {
        (Record::Type(_), _) => format!("{object}'s type"),
        (Record::Point(_), Some(n)) => format!("{object}, point {n}"),
        (_, Some(n)) => format!("{object}, halfsegment {n}"),
        _ => format!("{object}'s end"),
    }
}

const HEADING: &str = "   byte  record";

fn lines(listing: &Listing, from: usize, to: usize, mark: Option<usize>) -> String {
    let rows = &listing.rows[from..to];
    let width = rows.iter().filter(|row| row.element.is_some()).map(|row| signs(&row.record).len()).max().unwrap_or(0);
    let line = |(i, row): (usize, &Row)| {
        let arrow = if mark == Some(from + i) { '>' } else { ' ' };
        let line = format!("{arrow}{:>6}  {:width$}  {}", row.offset, signs(&row.record), remarks(row, listing));
        format!("{}\n", line.trim_end())
    };
    rows.iter().enumerate().map(line).collect()
}

/// A record as document 01 writes it.
pub fn signs(record: &Record) -> String {
    let half = |h: &Half| format!("{},{},{},{},{}", h.segment.left.x, h.segment.left.y, h.segment.right.x, h.segment.right.y, h.d);
    match record {
        Record::Type(byte) => format!("type {byte}"),
        Record::Point(p) => format!("P{p}"),
        Record::Line(h) => format!("L({})", half(h)),
        Record::Region(h, ia) => format!("R({},{ia})", half(h)),
        Record::End => "end".to_string(),
    }
}

fn remarks(row: &Row, listing: &Listing) -> String {
    let mut remarks = vec![meaning(row, listing)];
    if !row.fits {
        remarks.push("not allowed here".to_string());
    }
    if !ends(&row.record).iter().all(|p| p.in_range()) {
        remarks.push("out of range".to_string());
    }
    remarks.retain(|remark| !remark.is_empty());
    remarks.join("; ")
}

fn ends(record: &Record) -> Vec<Point> {
    match (record, record.half()) {
        (Record::Point(p), _) => vec![*p],
        (_, Some(half)) => vec![half.segment.left, half.segment.right],
        _ => Vec::new(),
    }
}

/// What a record says, in words.
pub fn meaning(row: &Row, listing: &Listing) -> String {
    let object = NAMES[row.object];
    match row.record {
        Record::Type(byte) => match Kind::of(byte) {
            Some(kind) => format!("{object}: {}", kind.name()),
            None => format!("{object}: no such type"),
        },
        Record::Point(_) => String::new(),
        Record::Line(half) => halfsegment(&half),
        Record::Region(half, ia) => format!("{}, {}", halfsegment(&half), interior(&half, ia)),
        Record::End => format!("end of {object}: {}", listing.summary(row.object)),
    }
}

fn halfsegment(half: &Half) -> String {
    match half.d {
        1 => format!("left half of {}", half.segment),
        0 => format!("right half of {}", half.segment),
        d => format!("{} with d {d}", half.segment),
    }
}

fn interior(half: &Half, ia: u8) -> String {
    match (ia, half.segment.vertical()) {
        (1, false) => "interior above".to_string(),
        (0, false) => "interior below".to_string(),
        (1, true) => "interior left".to_string(),
        (0, true) => "interior right".to_string(),
        _ => format!("ia {ia}"),
    }
}

fn rest(listing: &Listing, bytes: &[u8]) -> String {
    let left = bytes.len() - listing.stop;
    let what = match listing.rest {
        Rest::Nothing => return String::new(),
        Rest::Missing => "the bytes end here, before the second end".to_string(),
        Rest::Cut => {
            let kind = bytes[listing.stop];
            format!("cut: a record of kind {kind} has {} bytes, here are {left}", bytes::length(kind).unwrap_or(0))
        }
        Rest::Unknown => format!("no record has kind {}; {left} bytes from here are unread", bytes[listing.stop]),
        Rest::More => format!("after the second end: bytes to the number of {left}"),
    };
    format!(" {:>6}  {what}\n", listing.stop)
}

/// Well-known text of which `karvoiss make` makes the same bytes, if there is one.
pub fn text(bytes: &[u8]) -> Result<String, String> {
    let listing = listing::read(bytes);
    let second = bytes::second(bytes);
    let object = |object: usize, bytes: &[u8]| {
        let none = format!("{} has no text: it is no object that is taken; see `karvoiss show`", NAMES[object]);
        library::summary(bytes).ok().and_then(|_| object_text(&listing, object)).ok_or(none)
    };
    let text = format!("{}\n{}\n", object(0, &bytes[..second])?, object(1, &bytes[second..])?);
    let read = wkt::read(&text, &mut Grid::as_it_stands()).map_err(|fault| fault.message)?;
    let made: Vec<u8> = read.into_iter().filter_map(|item| item.object.ok()).flatten().collect();
    if made == bytes { Ok(text) } else { Err("no text makes these bytes: they are no scene; see `karvoiss show`".to_string()) }
}

/// Of an object that is taken.
fn object_text(listing: &Listing, object: usize) -> Option<String> {
    let point = |p: &Point| format!("{} {}", p.x, p.y);
    let path = |points: &[Point]| format!("({})", points.iter().map(point).collect::<Vec<_>>().join(", "));
    let (name, parts): (&str, Vec<String>) = match listing.kind(object)? {
        Kind::Points => ("MULTIPOINT", listing.points(object).iter().map(|p| path(&[*p])).collect()),
        Kind::Line => ("MULTILINESTRING", listing.segments(object).iter().map(|s| path(&[s.left, s.right])).collect()),
        Kind::Region => {
            let records: Vec<Record> = listing.object(object).filter(|row| row.element.is_some()).map(|row| row.record).collect();
            let polygon = |rings: &Vec<Vec<Point>>| format!("({})", rings.iter().map(|ring| path(ring)).collect::<Vec<_>>().join(", "));
            ("MULTIPOLYGON", rings::polygons(&records)?.iter().map(polygon).collect())
        }
    };
    Some(match parts.len() {
        0 => format!("{name} EMPTY"),
        _ => format!("{name} ({})", parts.join(", ")),
    })
}
