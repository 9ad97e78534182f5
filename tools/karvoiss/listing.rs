//! The records of scene bytes with their offsets, told apart by object, as far as they can be read.

use crate::bytes::{self, Kind, Point, Record, Segment};

pub struct Row {
    pub offset: usize,
    pub record: Record,
    /// 0 for F, 1 for G.
    pub object: usize,
    /// Points and halfsegments are counted from 1 in each object.
    pub element: Option<usize>,
    /// The record's kind has a place here.
    pub fits: bool,
}

/// What follows the last row.
#[derive(PartialEq, Debug)]
pub enum Rest {
    Nothing,
    /// The bytes end where a record should begin.
    Missing,
    Cut,
    Unknown,
    /// Bytes after the second end.
    More,
}

pub struct Listing {
    pub rows: Vec<Row>,
    pub rest: Rest,
    /// Where the rest begins.
    pub stop: usize,
}

pub const NAMES: [&str; 2] = ["F", "G"];

/// A sentence about F and G with the names of the two exchanged.
pub fn exchanged(sentence: &str) -> String {
    let other = |letter: char| match letter {
        'F' => 'G',
        'G' => 'F',
        letter => letter,
    };
    sentence.chars().map(other).collect()
}

pub fn read(bytes: &[u8]) -> Listing {
    let mut listing = Listing { rows: Vec::new(), rest: Rest::Nothing, stop: 0 };
    for object in 0..2 {
        let mut kind = None;
        let mut count = 0;
        for place in 0.. {
            let offset = listing.stop;
            let Some(record) = bytes::read(&bytes[offset..]) else {
                listing.rest = unread(&bytes[offset..]);
                return listing;
            };
            let (fits, element) = match record {
                Record::Type(byte) => {
                    kind = kind.or(Kind::of(byte));
                    (place == 0, None)
                }
                Record::End => (place > 0, None),
                _ => {
                    count += 1;
                    (place > 0 && kind.is_some_and(|k| record.fits(k)), Some(count))
                }
            };
            let row = Row { offset, record, object, element, fits };
            listing.stop += record.length();
            listing.rows.push(row);
            if record == Record::End {
                break;
            }
        }
    }
    if listing.stop < bytes.len() {
        listing.rest = Rest::More;
    }
    listing
}

fn unread(bytes: &[u8]) -> Rest {
    match bytes.first() {
        None => Rest::Missing,
        Some(kind) if bytes::length(*kind).is_some() => Rest::Cut,
        Some(_) => Rest::Unknown,
    }
}

impl Listing {
    pub fn object(&self, object: usize) -> impl Iterator<Item = &Row> {
        self.rows.iter().filter(move |row| row.object == object)
    }

    pub fn kind(&self, object: usize) -> Option<Kind> {
        self.object(object).find_map(|row| match row.record {
            Record::Type(byte) => Kind::of(byte),
            _ => None,
        })
    }

    pub fn points(&self, object: usize) -> Vec<Point> {
        let point = |row: &Row| match row.record {
            Record::Point(p) => Some(p),
            _ => None,
        };
        self.object(object).filter_map(point).collect()
    }

    /// The different segments, in order.
    pub fn segments(&self, object: usize) -> Vec<Segment> {
        let mut segments: Vec<Segment> = self.object(object).filter_map(|row| row.record.half()).map(|half| half.segment).collect();
        segments.sort();
        segments.dedup();
        segments
    }

    pub fn empty(&self, object: usize) -> bool {
        self.object(object).all(|row| row.element.is_none())
    }

    /// The row that a byte belongs to.
    pub fn at(&self, byte: usize) -> Option<usize> {
        self.rows.iter().position(|row| (row.offset..row.offset + row.record.length()).contains(&byte))
    }

    /// "region, 4 segments", for headings.
    pub fn summary(&self, object: usize) -> String {
        let count = |n: usize, what: &str| format!("{n} {what}{}", if n == 1 { "" } else { "s" });
        match self.kind(object) {
            None => "not read".to_string(),
            Some(Kind::Points) => match self.points(object).len() {
                0 => "points, none".to_string(),
                n => count(n, "point"),
            },
            Some(kind) => match self.segments(object).len() {
                0 => format!("{}, empty", kind.name()),
                n => format!("{}, {}", kind.name(), count(n, "segment")),
            },
        }
    }
}
