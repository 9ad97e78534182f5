//! The reference's reader: a scene's bytes as two objects, or refusals 1 to 7, record by record. Its writer makes bytes of objects.

use crate::plane::{interior_above, turn, Point, Segment, LIMIT};
use std::cmp::Ordering;

pub const TYPE: u8 = 84;
pub const POINT: u8 = 80;
pub const LINE_HALF: u8 = 76;
pub const REGION_HALF: u8 = 82;
pub const END: u8 = 69;

pub const POINTS: u8 = 1;
pub const LINE: u8 = 2;
pub const REGION: u8 = 3;

/// The most elements of an object.
pub const MOST: usize = 1024;

#[derive(Clone, Copy, PartialEq, Eq, Debug)]
pub struct Refusal {
    pub number: u32,
    pub place: usize,
}

pub fn refuse<T>(number: u32, place: usize) -> Result<T, Refusal> {
    Err(Refusal { number, place })
}

/// A halfsegment; `left` is d = 1. A line's ia is always false.
#[derive(Clone, Copy, PartialEq, Eq, Debug)]
pub struct Half {
    pub segment: Segment,
    pub left: bool,
    pub ia: bool,
}

impl Half {
    pub fn dominating(&self) -> Point {
        if self.left {
            self.segment.left
        } else {
            self.segment.right
        }
    }

    pub fn far(&self) -> Point {
        if self.left {
            self.segment.right
        } else {
            self.segment.left
        }
    }

    /// Document 01's order of halfsegments; equal for those that it does not order.
    pub fn order(&self, other: &Half) -> Ordering {
        let here = self.dominating();
        here.cmp(&other.dominating()).then(self.left.cmp(&other.left)).then_with(|| 0.cmp(&turn(here, self.far(), other.far())))
    }
}

/// An object as it was read; each element with the offset of its record, which is all zeros in an object that was made.
#[derive(Clone, Debug, Default)]
pub struct Object {
    pub kind: u8,
    pub start: usize,
    pub points: Vec<Point>,
    pub halves: Vec<Half>,
    pub places: Vec<usize>,
}

impl Object {
    pub fn is_empty(&self) -> bool {
        self.points.is_empty() && self.halves.is_empty()
    }

    /// Its different segments, in the order of their left halfsegments if the object is in order.
    pub fn segments(&self) -> Vec<Segment> {
        self.halves.iter().filter(|h| h.left).map(|h| h.segment).collect()
    }

    pub fn of_points(points: &[Point]) -> Object {
        let mut points = points.to_vec();
        points.sort();
        points.dedup();
        Object { kind: POINTS, places: vec![0; points.len()], points, ..Object::default() }
    }

    /// A line or a region of these segments, in order and with the right ia.
    pub fn of_segments(kind: u8, segments: &[Segment]) -> Object {
        let mut halves = Vec::new();
        for s in segments {
            let ia = kind == REGION && interior_above(segments, s);
            halves.push(Half { segment: *s, left: true, ia });
            halves.push(Half { segment: *s, left: false, ia });
        }
        halves.sort_by(Half::order);
        Object { kind, places: vec![0; halves.len()], halves, ..Object::default() }
    }

    /// The object's records, each as its bytes.
    pub fn records(&self) -> Vec<Vec<u8>> {
        let mut records = vec![vec![TYPE, self.kind]];
        records.extend(self.points.iter().map(|p| point_record(*p)));
        records.extend(self.halves.iter().map(|h| half_record(self.kind, h)));
        records.push(vec![END]);
        records
    }
}

fn push_coordinates(record: &mut Vec<u8>, points: &[Point]) {
    for p in points {
        record.extend_from_slice(&(p.0 as i32).to_le_bytes());
        record.extend_from_slice(&(p.1 as i32).to_le_bytes());
    }
}

pub fn point_record(p: Point) -> Vec<u8> {
    let mut record = vec![POINT];
    push_coordinates(&mut record, &[p]);
    record
}

pub fn half_record(kind: u8, h: &Half) -> Vec<u8> {
    let mut record = vec![if kind == REGION { REGION_HALF } else { LINE_HALF }];
    push_coordinates(&mut record, &[h.segment.left, h.segment.right]);
    record.push(h.left as u8);
    if kind == REGION {
        record.push(h.ia as u8);
    }
    record
}

pub fn object_bytes(object: &Object) -> Vec<u8> {
    object.records().concat()
}

pub fn scene_bytes(f: &Object, g: &Object) -> Vec<u8> {
    [object_bytes(f), object_bytes(g)].concat()
}

/// The signed 32-bit number that begins at an offset, low byte first.
fn coordinate(bytes: &[u8], at: usize) -> i64 {
    let mut value = 0i64;
    for i in (0..4).rev() {
        value = value * 256 + bytes[at + i] as i64;
    }
    if value >= 1 << 31 {
        value - (1 << 32)
    } else {
        value
    }
}

/// The body's length, if the kind is one of the five.
pub fn body_length(kind: u8) -> Option<usize> {
    match kind {
        TYPE => Some(1),
        POINT => Some(8),
        LINE_HALF => Some(17),
        REGION_HALF => Some(18),
        END => Some(0),
        _ => None,
    }
}

pub fn points_of(body: &[u8], count: usize) -> Vec<Point> {
    (0..count).map(|i| (coordinate(body, 8 * i), coordinate(body, 8 * i + 4))).collect()
}

fn in_range(p: &Point) -> bool {
    -LIMIT <= p.0 && p.0 <= LIMIT && -LIMIT <= p.1 && p.1 <= LIMIT
}

/// Reads one object from an offset; gives it and the offset after its end record.
fn read_object(bytes: &[u8], start: usize) -> Result<(Object, usize), Refusal> {
    let mut object = Object { start, ..Object::default() };
    let mut at = start;
    loop {
        let Some(&kind) = bytes.get(at) else { return refuse(1, bytes.len()) };
        let element = match object.kind {
            0 => TYPE,
            POINTS => POINT,
            LINE => LINE_HALF,
            _ => REGION_HALF,
        };
        let first = object.kind == 0;
        if !(kind == element || (kind == END && !first)) {
            return refuse(2, at);
        }
        if kind == END {
            return Ok((object, at + 1));
        }
        if !first && object.places.len() == MOST {
            return refuse(6, at);
        }
        let length = body_length(kind).unwrap_or(0);
        let Some(body) = bytes.get(at + 1..at + 1 + length) else { return refuse(1, at) };
        if first {
            if !(1..=3).contains(&body[0]) {
                return refuse(3, at);
            }
            object.kind = body[0];
        } else if kind == POINT {
            let points = points_of(body, 1);
            if !in_range(&points[0]) {
                return refuse(4, at);
            }
            object.points.push(points[0]);
            object.places.push(at);
        } else {
            let (d, ia) = (body[16], if kind == REGION_HALF { body[17] } else { 0 });
            if d > 1 || ia > 1 {
                return refuse(3, at);
            }
            let ends = points_of(body, 2);
            if !ends.iter().all(in_range) {
                return refuse(4, at);
            }
            if ends[0] >= ends[1] {
                return refuse(5, at);
            }
            object.halves.push(Half { segment: Segment { left: ends[0], right: ends[1] }, left: d == 1, ia: ia == 1 });
            object.places.push(at);
        }
        at += 1 + length;
    }
}

/// Reads one object that has all the bytes, or refuses it with 1 to 7.
pub fn read_one(bytes: &[u8]) -> Result<Object, Refusal> {
    let (object, after) = read_object(bytes, 0)?;
    if after < bytes.len() {
        return refuse(7, after);
    }
    Ok(object)
}

/// Reads a scene, or refuses it with 1 to 7.
pub fn read_scene(bytes: &[u8]) -> Result<(Object, Object), Refusal> {
    let (f, after_f) = read_object(bytes, 0)?;
    let (g, after_g) = read_object(bytes, after_f)?;
    if after_g < bytes.len() {
        return refuse(7, after_g);
    }
    Ok((f, g))
}
