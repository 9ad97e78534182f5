//! A raw pair split on the grid, by document 02's Paper 3. What two segments have in common is found as fractions: the point where their lines meet, or both ends of a
//! stretch. All of it is gathered for each segment of both objects, and only then is it asked what lies off the grid, how many pieces there are and where they stand.

use crate::check;
use crate::mistakes::Rules;
use crate::plane::{Point, Segment};
use crate::scene::{read_scene, scene_bytes, Half, Object, Refusal, LINE, MOST, POINTS};
use std::cmp::Ordering;

/// A way of getting Paper 3 wrong.
#[derive(Clone, Copy, PartialEq, Eq, Debug)]
pub enum Slip {
    None,
    XAlone,
    Rounded,
    Narrow,
    OneEnd,
    NoTouch,
    CutTwice,
    FAlone,
    SourceOrder,
    IaTurned,
    Halfsegments,
    InOrderOfTypes,
    NineteenInSecond,
    NineteenAtLower,
    TwentyFirst,
    TwentyAtStart,
    TwentyEarly,
    ShortFirst,
    ShortEarly,
    WrittenEarly,
    RestCleared,
    Fifteen,
    CopiedUnchecked,
}

#[derive(Clone, Copy, PartialEq, Eq, Debug, Default)]
pub struct SplitAnswer {
    pub number: u32,
    pub place: usize,
    pub added_f: usize,
    pub added_g: usize,
    pub length: usize,
}

/// The point (x / over, y / over) in lowest terms, over above 0.
#[derive(Clone, Copy, PartialEq, Eq, Debug)]
pub struct Exact {
    x: i128,
    y: i128,
    pub over: i128,
}

impl Exact {
    fn new(x: i128, y: i128, over: i128) -> Exact {
        let common = divisor(divisor(x, y), over) * over.signum();
        Exact { x: x / common, y: y / common, over: over / common }
    }

    fn whole(p: Point) -> Exact {
        Exact { x: p.0 as i128, y: p.1 as i128, over: 1 }
    }

    fn is_off(&self, slip: Slip) -> bool {
        match slip {
            Slip::XAlone => self.x % self.over != 0,
            Slip::Rounded => false,
            _ => self.over != 1,
        }
    }

    /// Itself, if it is on the grid.
    fn point(&self) -> Point {
        (self.x.div_euclid(self.over) as i64, self.y.div_euclid(self.over) as i64)
    }
}

impl Ord for Exact {
    fn cmp(&self, other: &Exact) -> Ordering {
        (self.x * other.over).cmp(&(other.x * self.over)).then_with(|| (self.y * other.over).cmp(&(other.y * self.over)))
    }
}

impl PartialOrd for Exact {
    fn partial_cmp(&self, other: &Exact) -> Option<Ordering> {
        Some(self.cmp(other))
    }
}

fn divisor(a: i128, b: i128) -> i128 {
    let (mut a, mut b) = (a.abs(), b.abs());
    while b != 0 {
        (a, b) = (b, a % b);
    }
    a
}

/// The points that decide what two segments have in common: none, one, or both ends of a stretch, which is the whole of equal ones.
pub fn in_common(a: &Segment, b: &Segment, slip: Slip) -> Vec<Exact> {
    if a.right.0 < b.left.0 || b.right.0 < a.left.0 {
        return Vec::new();
    }
    let between = |p: Point, q: Point| ((q.0 - p.0) as i128, (q.1 - p.1) as i128);
    let cross = |p: (i128, i128), q: (i128, i128)| p.0 * q.1 - p.1 * q.0;
    let (along_a, along_b, apart) = (between(a.left, a.right), between(b.left, b.right), between(a.left, b.left));
    let whole = cross(along_a, along_b);
    if whole == 0 {
        let (from, to) = (a.left.max(b.left), a.right.min(b.right));
        return match cross(along_a, apart) == 0 && from < to {
            true if slip == Slip::OneEnd => vec![Exact::whole(from)],
            true => vec![Exact::whole(from), Exact::whole(to)],
            false => Vec::new(),
        };
    }
    // the shares of a and of b at which their lines meet, as parts of `whole`
    let (of_a, of_b, whole) = (cross(apart, along_b) * whole.signum(), cross(apart, along_a) * whole.signum(), whole.abs());
    if !(0..=whole).contains(&of_a) || !(0..=whole).contains(&of_b) {
        return Vec::new();
    }
    let step = |along: i128| if slip == Slip::Narrow { (along as i64).wrapping_mul(of_a as i64) as i128 } else { along * of_a };
    let meeting = Exact::new(a.left.0 as i128 * whole + step(along_a.0), a.left.1 as i128 * whole + step(along_a.1), whole);
    let is_touch = [of_a, of_b].iter().any(|share| *share == 0 || *share == whole);
    match slip == Slip::NoTouch && is_touch {
        true => Vec::new(),
        false => vec![meeting],
    }
}

/// A segment of an object and the points in it at which it is to be cut, in order.
struct Cut {
    segment: Segment,
    ia: bool,
    place: usize,
    points: Vec<Exact>,
}

impl Cut {
    fn add(&mut self, p: Exact) {
        if ![self.segment.left, self.segment.right].map(Exact::whole).contains(&p) {
            self.points.push(p);
        }
    }

    fn pieces(&self) -> Vec<Segment> {
        let mut ends = vec![self.segment.left];
        ends.extend(self.points.iter().map(Exact::point));
        ends.push(self.segment.right);
        ends.windows(2).map(|pair| Segment { left: pair[0], right: pair[1] }).collect()
    }
}

fn uncut(object: &Object) -> Vec<Cut> {
    let halves = object.halves.iter().zip(&object.places).filter(|(h, _)| h.left);
    halves.map(|(h, place)| Cut { segment: h.segment, ia: h.ia, place: *place, points: Vec::new() }).collect()
}

/// The least number by which every coordinate must be multiplied for all crossings to lie on the grid.
pub fn common_denominator(f: &[Segment], g: &[Segment]) -> i128 {
    let mut all = 1i128;
    for (a, b) in f.iter().flat_map(|a| g.iter().map(move |b| (a, b))) {
        for p in in_common(a, b, Slip::None) {
            all = (all / divisor(all, p.over)).saturating_mul(p.over);
        }
    }
    all
}

/// The object with its segments in pieces.
fn in_pieces(object: &Object, cuts: &[Cut], slip: Slip) -> Object {
    let turned = |ia: bool, pieces: usize| ia != (slip == Slip::IaTurned && pieces > 1);
    let halves_of = |cut: &Cut, left: bool| {
        let pieces = cut.pieces();
        let ia = object.kind != LINE && turned(cut.ia, pieces.len());
        pieces.into_iter().map(move |segment| Half { segment, left, ia }).collect::<Vec<_>>()
    };
    let mut halves: Vec<Half> = Vec::new();
    for h in &object.halves {
        let cut = cuts.iter().find(|cut| cut.segment == h.segment).expect("each segment has its cuts");
        halves.extend(halves_of(cut, h.left));
    }
    if slip != Slip::SourceOrder {
        halves.sort_by(Half::order);
    }
    Object { kind: object.kind, places: vec![0; halves.len()], halves, ..Object::default() }
}

/// What a byte string is split into, with the segments added to F and to G; or its refusal, but for 21.
#[derive(Default)]
pub struct Splitting {
    refusal: Option<Refusal>,
    added: [usize; 2],
    pub bytes: Vec<u8>,
    source: usize,
    slip: Option<Slip>,
}

impl Splitting {
    pub fn of(scene: &[u8], rules: &Rules) -> Splitting {
        let found = Splitting { source: scene.len(), slip: Some(rules.split), ..Splitting::default() };
        match read_scene(scene) {
            Err(refusal) => Splitting { refusal: Some(refusal), ..found },
            Ok((f, g)) => found.of_objects(scene, &f, &g, rules),
        }
    }

    fn of_objects(self, scene: &[u8], f: &Object, g: &Object, rules: &Rules) -> Splitting {
        let slip = rules.split;
        let copy = f.kind == POINTS || g.kind == POINTS;
        let refusal = check::later(f, g, rules).filter(|refusal| refusal.number != 15 || slip == Slip::Fifteen);
        if refusal.is_some() && !(copy && slip == Slip::CopiedUnchecked) {
            return Splitting { refusal, ..self };
        }
        if copy {
            return Splitting { bytes: scene.to_vec(), ..self };
        }
        let [mut of_f, mut of_g] = [f, g].map(uncut);
        for a in &mut of_f {
            for b in &mut of_g {
                for p in in_common(&a.segment, &b.segment, slip) {
                    a.add(p);
                    b.add(p);
                }
            }
        }
        if slip == Slip::FAlone {
            of_g.iter_mut().for_each(|cut| cut.points.clear());
        }
        let mut added = [0; 2];
        for (cuts, added) in [&mut of_f, &mut of_g].into_iter().zip(&mut added) {
            let met: usize = cuts.iter().map(|cut| cut.points.len()).sum();
            for cut in cuts.iter_mut() {
                cut.points.sort();
                cut.points.dedup();
            }
            let cut: usize = cuts.iter().map(|cut| cut.points.len()).sum();
            *added = match slip {
                Slip::CutTwice => met,
                Slip::Halfsegments => 2 * cut,
                _ => cut,
            };
        }
        let off = |cuts: &[Cut]| cuts.iter().find(|cut| cut.points.iter().any(|p| p.is_off(slip))).map(|cut| cut.place);
        let off_in = match slip {
            Slip::NineteenInSecond => off(&of_g),
            Slip::NineteenAtLower if f.kind > g.kind => off(&of_g),
            _ => off(&of_f),
        };
        let nineteen = off_in.map(|place| Refusal { number: 19, place });
        let passes = |cuts: &[Cut]| 2 * cuts.iter().map(|cut| cut.points.len() + 1).sum::<usize>() > MOST - (slip == Slip::TwentyEarly) as usize;
        let start = if slip == Slip::TwentyAtStart { 0 } else { g.start };
        let twenty = passes(&of_f).then_some(0).or(passes(&of_g).then_some(start)).map(|place| Refusal { number: 20, place });
        let refusal = if slip == Slip::TwentyFirst { twenty.or(nineteen) } else { nineteen.or(twenty) };
        if refusal.is_some() {
            return Splitting { refusal, ..self };
        }
        if slip == Slip::InOrderOfTypes && f.kind > g.kind {
            added.swap(0, 1);
        }
        let bytes = scene_bytes(&in_pieces(f, &of_f, slip), &in_pieces(g, &of_g, slip));
        Splitting { added, bytes, ..self }
    }

    /// The answer, with the scene written into the lent buffer.
    pub fn answer(&self, lent: &mut [u8]) -> SplitAnswer {
        let (slip, length) = (self.slip.unwrap_or(Slip::None), self.bytes.len());
        let refused = |number, place| SplitAnswer { number, place, ..SplitAnswer::default() };
        match self.refusal {
            Some(Refusal { number: 19.., .. }) if slip == Slip::ShortFirst && lent.len() < self.source => return refused(21, 0),
            Some(Refusal { number, place }) => return refused(number, place),
            None => (),
        }
        if lent.len() < length + (slip == Slip::ShortEarly) as usize {
            if slip == Slip::WrittenEarly {
                let room = lent.len();
                lent.copy_from_slice(&self.bytes[..room]);
            }
            return refused(21, 0);
        }
        lent[..length].copy_from_slice(&self.bytes);
        if slip == Slip::RestCleared {
            lent[length..].fill(0);
        }
        let [added_f, added_g] = self.added;
        SplitAnswer { added_f, added_g, length, ..SplitAnswer::default() }
    }
}
