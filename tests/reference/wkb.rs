//! Well-known binary, by document 02's Paper 9: one object read from it, and points and lines written. Fields are read from the first byte on, and every fault that
//! is met is noted; which one is answered is decided afterwards, by the earliest byte. Points and segments are gathered in sets.

use crate::check;
use crate::mistakes::Rules;
use crate::plane::{Point, Segment, LIMIT};
use crate::scene::{object_bytes, read_one, refuse, Object, Refusal, LINE, MOST, POINTS, REGION};
use std::collections::BTreeSet;

/// A way of getting Paper 9 wrong.
#[derive(Clone, Copy, PartialEq, Eq, Debug)]
pub enum Slip {
    None,
    OuterOrder,
    ClosedByBits,
    ClosedByNan,
    CutAtX,
    CutAtEnd,
    LeftOver,
    MaskedType,
    OpenAfterPoints,
    OpenWhereCut,
    OpenBeforeShort,
    EmptyRing,
    OnePoint,
    MinusZero,
    NoValue,
    Narrow,
    CountedWithEqual,
    Directed,
    Cancelled,
    TwelveForTen,
    PlaceOfRecord,
    WrittenEarly,
    ShortFirst,
    RightFirst,
    RegionFirst,
    EmptyRegion,
}

/// A float, compared bit by bit, but that any NaN is as good as another.
#[derive(Clone, Copy, Debug, Default)]
pub struct Value(pub f64);

impl PartialEq for Value {
    fn eq(&self, other: &Value) -> bool {
        self.0.to_bits() == other.0.to_bits() || self.0.is_nan() && other.0.is_nan()
    }
}

#[derive(Clone, Copy, PartialEq, Debug, Default)]
pub struct ReadAnswer {
    pub number: u32,
    pub place: usize,
    pub length: usize,
    pub value: Value,
}

#[derive(Clone, Copy, PartialEq, Eq, Debug, Default)]
pub struct WriteAnswer {
    pub number: u32,
    pub place: usize,
    pub length: usize,
}

/// `found` is the byte that it is found at, which decides which fault goes first.
struct Fault {
    found: usize,
    number: u32,
    place: usize,
    value: f64,
}

/// Nothing can be read any more: a 24 is noted.
struct Stop;

type Numbers = (f64, f64);

/// What the fields stand for so far: the kind of the object, and the paths of its points, parts or rings.
struct Fields<'a> {
    bytes: &'a [u8],
    at: usize,
    slip: Slip,
    faults: Vec<Fault>,
    kind: u8,
    paths: Vec<Vec<Numbers>>,
}

impl Fields<'_> {
    fn note(&mut self, number: u32, place: usize, value: f64) {
        self.faults.push(Fault { found: place, number, place, value });
    }

    fn stop<T>(&mut self, place: usize) -> Result<T, Stop> {
        self.note(24, place, 0.0);
        Err(Stop)
    }

    /// The next field as a number of so many bytes, high byte first or not.
    fn field(&mut self, length: usize, high_first: bool) -> Result<u64, Stop> {
        let Some(field) = self.bytes.get(self.at..self.at + length) else {
            let place = if self.slip == Slip::CutAtEnd { self.bytes.len() } else { self.at };
            return self.stop(place);
        };
        self.at += length;
        let add = |value: u64, byte: &u8| value * 256 + *byte as u64;
        Ok(if high_first { field.iter().fold(0, add) } else { field.iter().rev().fold(0, add) })
    }

    /// A byte order, and a type that is one of some. Gives whether the high byte comes first, and the type.
    fn header(&mut self, allowed: &[u64], outer: Option<bool>) -> Result<(bool, u64), Stop> {
        let order = self.field(1, true)?;
        if order > 1 {
            return self.stop(self.at - 1);
        }
        let high_first = outer.filter(|_| self.slip == Slip::OuterOrder).unwrap_or(order == 0);
        let mut kind = self.field(4, high_first)?;
        if self.slip == Slip::MaskedType {
            kind &= 0xff;
        }
        if !allowed.contains(&kind) {
            return self.stop(self.at - 4);
        }
        Ok((high_first, kind))
    }

    fn coordinate(&mut self, high_first: bool) -> Result<f64, Stop> {
        let value = f64::from_bits(self.field(8, high_first)?);
        let limit = if self.slip == Slip::Narrow { 1e6 } else { LIMIT as f64 };
        let is_whole = value.fract() == 0.0 && value.abs() <= limit;
        if !is_whole || self.slip == Slip::MinusZero && value.to_bits() == (-0.0f64).to_bits() {
            self.note(25, self.at - 8, value);
        }
        Ok(value)
    }

    fn point(&mut self, high_first: bool) -> Result<Numbers, Stop> {
        let (start, x) = (self.at, self.coordinate(high_first)?);
        if self.slip == Slip::CutAtX && self.bytes.len() < self.at + 8 {
            return self.stop(start);
        }
        Ok((x, self.coordinate(high_first)?))
    }

    /// So many points: those that are there, and whether all are.
    fn points(&mut self, count: u64, high_first: bool) -> (Vec<Numbers>, Result<(), Stop>) {
        let mut points = Vec::new();
        for _ in 0..count {
            match self.point(high_first) {
                Ok(point) => points.push(point),
                Err(stop) => return (points, Err(stop)),
            }
        }
        (points, Ok(()))
    }

    fn part(&mut self, high_first: bool) -> Result<(), Stop> {
        let (start, count) = (self.at, self.field(4, high_first)?);
        if count == 1 && self.slip != Slip::OnePoint {
            return self.stop(start);
        }
        let (points, all) = self.points(count, high_first);
        self.paths.push(points);
        all
    }

    fn ring(&mut self, high_first: bool) -> Result<(), Stop> {
        let (start, count) = (self.at, self.field(4, high_first)?);
        if count < 4 && !(count == 0 && self.slip == Slip::EmptyRing) {
            self.note(24, start, 0.0);
            if self.slip != Slip::OpenBeforeShort {
                return Err(Stop);
            }
        }
        let (points, all) = self.points(count, high_first);
        if let (Some(first), Some(last)) = (points.first(), points.last()) {
            if !self.closes(*first, *last) && (all.is_ok() || self.slip == Slip::OpenWhereCut) {
                let found = if self.slip == Slip::OpenAfterPoints { self.at } else { start };
                self.faults.push(Fault { found, number: 26, place: start, value: 0.0 });
            }
        }
        self.paths.push(points);
        all
    }

    fn closes(&self, first: Numbers, last: Numbers) -> bool {
        let equal = |a: f64, b: f64| match self.slip {
            Slip::ClosedByBits => a.to_bits() == b.to_bits(),
            Slip::ClosedByNan => a == b || a.is_nan() && b.is_nan(),
            _ => a == b,
        };
        equal(first.0, last.0) && equal(first.1, last.1)
    }

    fn all(&mut self) -> Result<(), Stop> {
        let (outer, kind) = self.header(&[4, 5, 6], None)?;
        self.kind = kind as u8 - 3;
        for _ in 0..self.field(4, outer)? {
            let (high_first, _) = self.header(&[kind - 3], Some(outer))?;
            match self.kind {
                POINTS => {
                    let point = self.point(high_first)?;
                    self.paths.push(vec![point]);
                }
                LINE => self.part(high_first)?,
                _ => {
                    for _ in 0..self.field(4, high_first)? {
                        self.ring(high_first)?;
                    }
                }
            }
        }
        if self.at < self.bytes.len() && self.slip != Slip::LeftOver {
            return self.stop(self.at);
        }
        Ok(())
    }

    /// The object, as it stands, of the different points or segments, or 20.
    fn object(&self) -> Result<Object, Refusal> {
        let whole = |p: &Numbers| (p.0 as i64, p.1 as i64);
        if self.kind == POINTS {
            let all: Vec<Point> = self.paths.iter().flatten().map(whole).collect();
            let different: BTreeSet<Point> = all.iter().copied().collect();
            let counted = if self.slip == Slip::CountedWithEqual { all.len() } else { different.len() };
            return if counted > MOST { refuse(20, 0) } else { Ok(Object::of_points(&all)) };
        }
        let steps = self.paths.iter().flat_map(|path| path.windows(2)).map(|step| (whole(&step[0]), whole(&step[1])));
        let all: Vec<(Point, Point)> = steps.filter(|(p, q)| p != q).collect();
        let directed: BTreeSet<(Point, Point)> = all.iter().copied().collect();
        let mut different: Vec<Segment> = directed.iter().map(|(p, q)| Segment::between(*p, *q)).collect();
        different.sort();
        if self.slip != Slip::Directed {
            different.dedup();
        }
        if self.slip == Slip::Cancelled && self.kind == REGION {
            different.retain(|s| all.iter().filter(|(p, q)| Segment::between(*p, *q) == *s).count() % 2 == 1);
        }
        let counted = if self.slip == Slip::CountedWithEqual { all.len() } else { different.len() };
        if 2 * counted > MOST {
            return refuse(20, 0);
        }
        Ok(Object::of_segments(self.kind, &different))
    }
}

/// What a byte string is read as: a refusal that the bytes have by themselves, or an object's bytes and what is wrong with that object.
pub struct Reading {
    early: Option<ReadAnswer>,
    late: Option<Refusal>,
    pub bytes: Vec<u8>,
    slip: Slip,
}

impl Reading {
    pub fn of(wkb: &[u8], rules: &Rules) -> Reading {
        let slip = rules.wkb;
        let refused = |early| Reading { early: Some(early), late: None, bytes: Vec::new(), slip };
        let mut fields = Fields { bytes: wkb, at: 0, slip, faults: Vec::new(), kind: 0, paths: Vec::new() };
        let _ = fields.all();
        let order = |fault: &&Fault| (fault.found, if slip == Slip::OpenBeforeShort { 100 - fault.number } else { fault.number });
        if let Some(first) = fields.faults.iter().min_by_key(order) {
            let value = if first.number == 25 && slip != Slip::NoValue { first.value } else { 0.0 };
            return refused(ReadAnswer { number: first.number, place: first.place, length: 0, value: Value(value) });
        }
        match fields.object() {
            Err(Refusal { number, place }) => refused(ReadAnswer { number, place, ..ReadAnswer::default() }),
            Ok(object) => {
                let bytes = object_bytes(&object);
                let with_places = read_one(&bytes).expect("what was made can be read");
                Reading { early: None, late: check::alone(&with_places, rules), bytes, slip }
            }
        }
    }

    /// The answer, with the object written into the lent buffer.
    pub fn answer(&self, lent: &mut [u8]) -> ReadAnswer {
        if let Some(early) = self.early {
            return early;
        }
        let refused = |number, place| ReadAnswer { number, place, ..ReadAnswer::default() };
        let room = lent.get_mut(..self.bytes.len());
        let is_short = room.is_none();
        if let (Some(room), true) = (room, self.late.is_none() || self.slip == Slip::WrittenEarly) {
            room.copy_from_slice(&self.bytes);
        }
        match self.late {
            Some(_) if self.slip == Slip::ShortFirst && is_short => refused(21, 0),
            Some(Refusal { number: 10, .. }) if self.slip == Slip::TwelveForTen => refused(12, 0),
            Some(Refusal { number, place }) => refused(number, if self.slip == Slip::PlaceOfRecord { place } else { 0 }),
            None if is_short => refused(21, 0),
            None => ReadAnswer { length: self.bytes.len(), ..ReadAnswer::default() },
        }
    }
}

fn low_first(bytes: &mut Vec<u8>, kind: u32, count: Option<usize>, points: &[Point]) {
    bytes.push(1);
    bytes.extend(kind.to_le_bytes());
    bytes.extend(count.into_iter().flat_map(|count| (count as u32).to_le_bytes()));
    bytes.extend(points.iter().flat_map(|p| [p.0, p.1]).flat_map(|v| (v as f64).to_le_bytes()));
}

/// Points, or the segments of a line.
fn written(object: &Object, slip: Slip) -> Vec<u8> {
    let segments = object.segments();
    let mut bytes = Vec::new();
    low_first(&mut bytes, object.kind as u32 + 3, Some(object.points.len() + segments.len()), &[]);
    object.points.iter().for_each(|p| low_first(&mut bytes, 1, None, &[*p]));
    for s in segments {
        let ends = if slip == Slip::RightFirst { [s.right, s.left] } else { [s.left, s.right] };
        low_first(&mut bytes, 2, Some(2), &ends);
    }
    bytes
}

/// What an object's bytes are written as, or their refusal.
pub struct Writing(pub Result<Vec<u8>, Refusal>);

impl Writing {
    pub fn of(object: &[u8], rules: &Rules) -> Writing {
        let slip = rules.wkb;
        Writing(read_one(object).and_then(|object| {
            let no_region = object.kind != REGION || slip == Slip::EmptyRegion && object.is_empty();
            match check::alone(&object, rules) {
                Some(refusal) if no_region || slip != Slip::RegionFirst => Err(refusal),
                _ if no_region => Ok(written(&object, slip)),
                _ => refuse(24, 0),
            }
        }))
    }

    /// The answer, with the well-known binary written into the lent buffer.
    pub fn answer(&self, lent: &mut [u8]) -> WriteAnswer {
        let refused = |Refusal { number, place }| WriteAnswer { number, place, length: 0 };
        match &self.0 {
            Err(refusal) => refused(*refusal),
            Ok(bytes) if lent.len() < bytes.len() => refused(Refusal { number: 21, place: 0 }),
            Ok(bytes) => {
                lent[..bytes.len()].copy_from_slice(bytes);
                WriteAnswer { length: bytes.len(), ..WriteAnswer::default() }
            }
        }
    }
}
