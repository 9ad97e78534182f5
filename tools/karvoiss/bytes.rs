//! Scene bytes: records to bytes and back. Reading goes by the kind byte alone and keeps whatever it can, so that bytes that are refused can still be
//! listed and drawn. Points and segments are what the records hold; nothing is computed of them here.

/// Coordinates run from -LIMIT to LIMIT.
pub const LIMIT: i64 = 10_000_000;

#[derive(Clone, Copy, PartialEq, Eq, PartialOrd, Ord, Hash, Debug)]
pub struct Point {
    pub x: i64,
    pub y: i64,
}

impl Point {
    pub fn in_range(self) -> bool {
        self.x.abs() <= LIMIT && self.y.abs() <= LIMIT
    }
}

impl std::fmt::Display for Point {
    fn fmt(&self, f: &mut std::fmt::Formatter) -> std::fmt::Result {
        write!(f, "({},{})", self.x, self.y)
    }
}

#[derive(Clone, Copy, PartialEq, Eq, PartialOrd, Ord, Hash, Debug)]
pub struct Segment {
    pub left: Point,
    pub right: Point,
}

impl Segment {
    pub fn vertical(&self) -> bool {
        self.left.x == self.right.x
    }
}

impl std::fmt::Display for Segment {
    fn fmt(&self, f: &mut std::fmt::Formatter) -> std::fmt::Result {
        write!(f, "{}-{}", self.left, self.right)
    }
}

/// One of the two halfsegments of a segment; `d` is 1 for the left one.
#[derive(Clone, Copy, PartialEq, Eq, Debug)]
pub struct Half {
    pub segment: Segment,
    pub d: u8,
}

impl Half {
    pub fn dominating(&self) -> Point {
        if self.d == 1 { self.segment.left } else { self.segment.right }
    }

    pub fn far(&self) -> Point {
        if self.d == 1 { self.segment.right } else { self.segment.left }
    }
}

#[derive(Clone, Copy, PartialEq, Eq, PartialOrd, Debug)]
pub enum Kind {
    Points,
    Line,
    Region,
}

impl Kind {
    pub fn of(byte: u8) -> Option<Kind> {
        [Kind::Points, Kind::Line, Kind::Region].into_iter().find(|k| k.byte() == byte)
    }

    pub fn byte(self) -> u8 {
        self as u8 + 1
    }

    pub fn name(self) -> &'static str {
        ["points", "line", "region"][self as usize]
    }
}

#[derive(Clone, Copy, PartialEq, Debug)]
pub enum Record {
    Type(u8),
    Point(Point),
    Line(Half),
    Region(Half, u8),
    End,
}

impl Record {
    pub fn half(&self) -> Option<Half> {
        match self {
            Record::Line(half) | Record::Region(half, _) => Some(*half),
            _ => None,
        }
    }

    fn kind_byte(&self) -> u8 {
        match self {
            Record::Type(_) => 84,
            Record::Point(_) => 80,
            Record::Line(_) => 76,
            Record::Region(..) => 82,
            Record::End => 69,
        }
    }

    pub fn length(&self) -> usize {
        length(self.kind_byte()).unwrap_or(0)
    }

    /// The record has a place among the elements of such an object.
    pub fn fits(&self, kind: Kind) -> bool {
        matches!((self, kind), (Record::Point(_), Kind::Points) | (Record::Line(_), Kind::Line) | (Record::Region(..), Kind::Region))
    }
}

/// Length of a record with its kind byte.
pub fn length(kind_byte: u8) -> Option<usize> {
    Some(match kind_byte {
        84 => 2,
        80 => 9,
        76 => 18,
        82 => 19,
        69 => 1,
        _ => return None,
    })
}

pub fn write(record: &Record, out: &mut Vec<u8>) {
    out.push(record.kind_byte());
    match record {
        Record::Type(byte) => out.push(*byte),
        Record::Point(p) => write_point(*p, out),
        Record::Line(half) => write_half(half, out),
        Record::Region(half, ia) => {
            write_half(half, out);
            out.push(*ia);
        }
        Record::End => {}
    }
}

fn write_point(p: Point, out: &mut Vec<u8>) {
    out.extend((p.x as i32).to_le_bytes());
    out.extend((p.y as i32).to_le_bytes());
}

fn write_half(half: &Half, out: &mut Vec<u8>) {
    write_point(half.segment.left, out);
    write_point(half.segment.right, out);
    out.push(half.d);
}

/// The record at the start of the bytes, unless its kind is unknown or it is cut.
pub fn read(bytes: &[u8]) -> Option<Record> {
    let body = bytes.get(1..length(*bytes.first()?)?)?;
    Some(match bytes[0] {
        84 => Record::Type(body[0]),
        80 => Record::Point(read_point(body)),
        76 => Record::Line(read_half(body)),
        82 => Record::Region(read_half(body), body[17]),
        _ => Record::End,
    })
}

fn read_point(body: &[u8]) -> Point {
    let number = |at: usize| i32::from_le_bytes([body[at], body[at + 1], body[at + 2], body[at + 3]]) as i64;
    Point { x: number(0), y: number(4) }
}

fn read_half(body: &[u8]) -> Half {
    Half { segment: Segment { left: read_point(body), right: read_point(&body[8..]) }, d: body[16] }
}

/// An object's bytes, of records that are in order already.
pub fn object(kind: Kind, elements: &[Record]) -> Vec<u8> {
    let mut bytes = Vec::new();
    write(&Record::Type(kind.byte()), &mut bytes);
    elements.iter().for_each(|record| write(record, &mut bytes));
    write(&Record::End, &mut bytes);
    bytes
}

/// Where the second object of a scene begins: behind the first end record, or at the end of what can be read.
pub fn second(scene: &[u8]) -> usize {
    let mut at = 0;
    while let Some(record) = read(&scene[at..]) {
        at += record.length();
        if record == Record::End {
            break;
        }
    }
    at
}
