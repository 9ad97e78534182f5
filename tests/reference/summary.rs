//! Summaries, by document 02's Paper 2: one object's bytes to a record of 20, and what two records tell. The record is found by looking at every coordinate and
//! every end. What far objects have for vectors is not looked up: for each record an object is made that has it, and the flags of the two are found by brute
//! force, as those of a scene are.

use crate::check;
use crate::flags::vectors;
use crate::mistakes::Rules;
use crate::plane::{Point, Segment, LIMIT};
use crate::scene::{points_of, read_one, Object, Refusal, LINE, POINTS, REGION};

/// The kind of the record, and its bytes.
pub const SUMMARY: u8 = 83;
pub const LENGTH: usize = 20;

#[derive(Clone, Copy, PartialEq, Eq, Debug)]
pub struct Summary {
    pub kind: u8,
    pub empty: bool,
    pub least: Point,
    pub greatest: Point,
    pub boundary: bool,
}

#[derive(Clone, Copy, PartialEq, Eq, Debug, Default)]
pub struct SummaryAnswer {
    pub number: u32,
    pub place: usize,
    pub record: [u8; LENGTH],
}

#[derive(Clone, Copy, PartialEq, Eq, Debug, Default)]
pub struct FarAnswer {
    pub number: u32,
    pub place: usize,
    pub look: bool,
    pub f: u16,
    pub g: u16,
}

/// All points that the elements name, both ends of each segment.
pub fn corners(object: &Object) -> Vec<Point> {
    object.points.iter().copied().chain(object.halves.iter().flat_map(|h| [h.segment.left, h.segment.right])).collect()
}

/// Whether the boundary has a point, given the boundary points of a line.
pub fn has_boundary(object: &Object, of_line: &[Point]) -> bool {
    match object.kind {
        POINTS => false,
        LINE => !of_line.is_empty(),
        _ => !object.is_empty(),
    }
}

impl Summary {
    pub fn of(object: &Object, rules: &Rules) -> Summary {
        let named = (rules.corners)(object);
        let among = |choose: fn(i64, i64) -> i64, axis: fn(&Point) -> i64| named.iter().map(axis).reduce(choose).unwrap_or(0);
        let (x, y): (fn(&Point) -> i64, fn(&Point) -> i64) = (|p| p.0, |p| p.1);
        let of_line = if object.kind == LINE { (rules.line_boundary)(object) } else { Vec::new() };
        Summary {
            kind: object.kind,
            empty: object.is_empty(),
            least: (among(i64::min, x), among(i64::min, y)),
            greatest: (among(i64::max, x), among(i64::max, y)),
            boundary: (rules.has_boundary)(object, &of_line),
        }
    }

    pub fn bytes(&self) -> [u8; LENGTH] {
        let mut bytes = vec![SUMMARY, self.kind, self.empty as u8];
        for coordinate in [self.least.0, self.least.1, self.greatest.0, self.greatest.1] {
            bytes.extend((coordinate as i32).to_le_bytes());
        }
        bytes.push(self.boundary as u8);
        bytes.try_into().expect("a summary has 20 bytes")
    }

    /// The summary that some bytes hold, if they are a good one.
    pub fn read(bytes: &[u8], rules: &Rules) -> Option<Summary> {
        let [kind, boundary] = [*bytes.first()?, *bytes.last()?];
        if bytes.len() != LENGTH || kind != SUMMARY || !(1..=3).contains(&bytes[1]) || bytes[2] > 1 || boundary > 1 {
            return None;
        }
        let points = points_of(&bytes[3..19], 2);
        let summary = Summary { kind: bytes[1], empty: bytes[2] == 1, least: points[0], greatest: points[1], boundary: boundary == 1 };
        (rules.is_good)(&summary).then_some(summary)
    }

    fn is_in_range(&self) -> bool {
        [self.least.0, self.least.1, self.greatest.0, self.greatest.1].iter().all(|v| v.abs() <= LIMIT)
    }

    pub fn is_flat(&self) -> bool {
        self.least.0 == self.greatest.0 || self.least.1 == self.greatest.1
    }

    /// The sentences of document 02, one after the other: none of them calls it bad.
    pub fn is_good(&self) -> bool {
        let Summary { kind, empty, least, greatest, boundary } = *self;
        let range_is_wrong = !self.is_in_range();
        let least_is_above = least.0 > greatest.0 || least.1 > greatest.1;
        let breaks_empty_rule = empty && ((least, greatest) != ((0, 0), (0, 0)) || boundary);
        let bad_points = kind == POINTS && boundary;
        let bad_line = kind == LINE && !empty && (least == greatest || self.is_flat() && !boundary);
        let bad_region = kind == REGION && !empty && (self.is_flat() || !boundary);
        !(range_is_wrong || least_is_above || breaks_empty_rule || bad_points || bad_line || bad_region)
    }

    /// Whether some point lies in both boxes, edges included: then the point that is the greater of the leasts is one.
    pub fn shares_a_point(&self, other: &Summary) -> bool {
        let p = (self.least.0.max(other.least.0), self.least.1.max(other.least.1));
        let has = |s: &Summary| s.least.0 <= p.0 && p.0 <= s.greatest.0 && s.least.1 <= p.1 && p.1 <= s.greatest.1;
        has(self) && has(other)
    }

    /// An object that has this summary, if there is one of the few shapes that are tried: corners of the box, its diagonal, a triangle in it.
    pub fn some_object(&self, rules: &Rules) -> Option<Object> {
        let (low, high) = (self.least, self.greatest);
        let corner = (high.0, low.1);
        let ring = [Segment::between(low, corner), Segment::between(corner, high), Segment::between(low, high)];
        let diagonal = &ring[2..];
        let shapes: [Object; 4] = [
            Object::of_segments(self.kind, &[]),
            Object::of_points(&[low, high]),
            Object::of_segments(LINE, diagonal),
            Object::of_segments(self.kind.max(LINE), if self.is_flat() { diagonal } else { &ring }),
        ];
        let is_object = |object: &Object| check::alone(object, rules).is_none() && object.segments().iter().all(|s| s.left < s.right);
        shapes.into_iter().find(|object| is_object(object) && Summary::of(object, rules) == *self)
    }
}

/// The summary of one object's bytes, or a refusal 1 to 7 or 10 to 14 over them alone.
pub fn summary(bytes: &[u8], rules: &Rules) -> SummaryAnswer {
    let checked = read_one(bytes).and_then(|object| check::alone(&object, rules).map_or(Ok(object), Err));
    match checked {
        Ok(object) => SummaryAnswer { number: 0, place: 0, record: Summary::of(&object, rules).bytes() },
        Err(Refusal { number, place }) => SummaryAnswer { number, place, ..SummaryAnswer::default() },
    }
}

/// What two summaries tell.
pub fn far(first: &[u8], second: &[u8], rules: &Rules) -> FarAnswer {
    let bad = |place| FarAnswer { number: 18, place, ..FarAnswer::default() };
    let Some(f) = Summary::read(first, rules) else { return bad(0) };
    let Some(g) = Summary::read(second, rules) else { return bad(1) };
    let mut answer = FarAnswer::default();
    if (rules.are_far)(&f, &g) {
        let [some_f, some_g] = [f, g].map(|summary| summary.some_object(rules));
        if let (Some(some_f), Some(some_g)) = (some_f, some_g) {
            (answer.f, answer.g) = vectors(&some_f, &some_g, rules);
        }
    } else {
        answer.look = true;
    }
    (rules.spoil_far)(&mut answer, &f, &g);
    answer
}

/// "The boxes share no point or an object is empty."
pub fn are_far(f: &Summary, g: &Summary) -> bool {
    f.empty || g.empty || !f.shares_a_point(g)
}
