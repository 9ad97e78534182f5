//! The walk that may be put down, by document 02's words: the events of a scene in the merged order, and for each flag the windows: it may be set once an event of some witness
//! is taken, and must be once all events of one are. Of a witness only the events of its own object are counted, which asks more of both.

use crate::flags::line_boundary;
use crate::plane::{inside, Fraction, Point, Segment};
use crate::scene::{Half, Object, LINE, POINTS};
use std::cmp::Ordering;

/// What is told of a walk beside its vectors.
#[derive(Clone, Copy, PartialEq, Eq, Debug, Default)]
pub struct Told {
    pub number: u32,
    pub place: usize,
    pub f: u16,
    pub g: u16,
    pub done: u8,
    pub events: usize,
    pub taken: usize,
}

/// A way of getting it wrong.
#[derive(Clone, Copy, PartialEq, Eq)]
pub enum Slip {
    None,
    PointFirst,
    EqualTwice,
    DoneByFlags,
    EndsAtLeft,
    OnlyWhenAll,
    RoundedDown,
    ByType,
    NoneIsOne,
}

/// An event: the element of F that it is, and that of G.
pub type Event = (Option<usize>, Option<usize>);

/// Some element, as the order sees it.
fn place(object: &Object, i: usize) -> (Point, Option<Half>) {
    if object.kind == POINTS {
        (object.points[i], None)
    } else {
        (object.halves[i].dominating(), Some(object.halves[i]))
    }
}

fn order(a: &(Point, Option<Half>), b: &(Point, Option<Half>), slip: Slip) -> Ordering {
    let points_first = slip == Slip::PointFirst;
    a.0.cmp(&b.0).then(match (&a.1, &b.1) {
        (Some(h), Some(k)) => h.order(k),
        (None, None) => Ordering::Equal,
        (None, Some(_)) if points_first => Ordering::Less,
        (Some(_), None) if points_first => Ordering::Greater,
        (None, Some(_)) => Ordering::Greater,
        (Some(_), None) => Ordering::Less,
    })
}

fn number_of_elements(object: &Object) -> usize {
    object.points.len() + object.halves.len()
}

/// How many bytes the ground may need: four for each element, though equal ones are one event.
pub fn room(f: &Object, g: &Object) -> usize {
    4 * (number_of_elements(f) + number_of_elements(g))
}

/// The events in their order.
pub fn events(f: &Object, g: &Object, slip: Slip) -> Vec<Event> {
    let (all_f, all_g) = (number_of_elements(f), number_of_elements(g));
    let (mut i, mut j, mut events) = (0, 0, Vec::new());
    while i < all_f || j < all_g {
        let next = match (i < all_f, j < all_g) {
            (true, false) => Ordering::Less,
            (false, _) => Ordering::Greater,
            (true, true) => order(&place(f, i), &place(g, j), slip),
        };
        let equal = next == Ordering::Equal && slip != Slip::EqualTwice;
        let event = match next {
            _ if equal => (Some(i), Some(j)),
            Ordering::Greater => (None, Some(j)),
            _ => (Some(i), None),
        };
        i += event.0.is_some() as usize;
        j += event.1.is_some() as usize;
        events.push(event);
    }
    events
}

/// A witness of a flag of an object, by the flag's bit: the elements whose events are its own.
type Witness = (u32, Vec<usize>);

fn of_points(object: &Object, test: impl Fn(Point) -> Vec<bool>) -> Vec<Witness> {
    let all = object.points.iter().enumerate();
    all.flat_map(|(i, p)| bits(test(*p)).into_iter().map(move |bit| (bit, vec![i]))).collect()
}

fn of_segments(object: &Object, test: impl Fn(&Half) -> Vec<bool>) -> Vec<Witness> {
    let left = object.halves.iter().filter(|h| h.left);
    left.flat_map(|h| bits(test(h)).into_iter().map(|bit| (bit, elements(object, |k| k.segment == h.segment)))).collect()
}

/// Of each end of each segment, with the segment.
fn of_ends(object: &Object, slip: Slip, test: impl Fn(&Segment, Point) -> Vec<bool>) -> Vec<Witness> {
    let at = |h: &Half| {
        let v = h.dominating();
        if slip == Slip::EndsAtLeft {
            elements(object, |k| k.left && k.segment.has_end(v))
        } else {
            elements(object, |k| k.dominating() == v)
        }
    };
    object.halves.iter().flat_map(|h| bits(test(&h.segment, h.dominating())).into_iter().map(move |bit| (bit, at(h)))).collect()
}

fn bits(flags: Vec<bool>) -> Vec<u32> {
    (0..).zip(flags).filter(|(_, set)| *set).map(|(bit, _)| bit).collect()
}

fn elements(object: &Object, which: impl Fn(&Half) -> bool) -> Vec<usize> {
    (0..object.halves.len()).filter(|i| which(&object.halves[*i])).collect()
}

fn from_bit(bit: u32, witnesses: Vec<Witness>) -> Vec<Witness> {
    witnesses.into_iter().map(|(b, own)| (b + bit, own)).collect()
}

/// The witnesses of an object's flags beside the other; `lower` says that its type is the lower one, or that of equal ones it is given first.
fn witnesses(own: &Object, other: &Object, lower: bool, slip: Slip) -> Vec<Witness> {
    let segments = other.segments();
    let bound = if own.kind == LINE { line_boundary(own) } else { Vec::new() };
    let its_bound = if other.kind == LINE { line_boundary(other) } else { Vec::new() };
    let on = |p: Point| segments.iter().any(|s| s.has(&Fraction::whole(p)));
    let within = |p: Point| inside(&segments, &Fraction::whole(p));
    let is_its = |s: &Segment| segments.contains(s);
    let (kinds, first) = ((own.kind, other.kind), lower);
    match kinds {
        (POINTS, POINTS) if first => of_points(own, |p| vec![!other.points.contains(&p), other.points.contains(&p)]),
        (POINTS, POINTS) => of_points(own, |p| vec![!other.points.contains(&p)]),
        (POINTS, LINE) => of_points(own, |p| vec![!on(p), on(p) && !its_bound.contains(&p), its_bound.contains(&p)]),
        (LINE, POINTS) => of_ends(own, slip, |_, v| vec![bound.contains(&v) && !other.points.contains(&v)]),
        (POINTS, _) => of_points(own, |p| vec![within(p), on(p), !within(p) && !on(p)]),
        (_, POINTS) => Vec::new(),
        (LINE, LINE) => {
            let mut all = of_segments(own, |h| if first { vec![is_its(&h.segment), false, !is_its(&h.segment)] } else { vec![!is_its(&h.segment)] });
            let own_ends = |v: Point| [bound.contains(&v) && on(v) && !its_bound.contains(&v), bound.contains(&v) && !on(v)];
            all.extend(of_ends(own, slip, |_, v| {
                let [on_interior, disjoint] = own_ends(v);
                let shared = bound.contains(&v) && its_bound.contains(&v);
                let inner = on(v) && !bound.contains(&v) && !its_bound.contains(&v);
                if first {
                    vec![false, inner, false, on_interior, shared, disjoint]
                } else {
                    vec![false, on_interior, disjoint]
                }
            }));
            all
        }
        (LINE, _) => {
            let mut all = of_segments(own, |h| {
                let in_interior = inside(&segments, &h.segment.midpoint());
                vec![!is_its(&h.segment) && in_interior, is_its(&h.segment), !is_its(&h.segment) && !in_interior]
            });
            all.extend(of_ends(own, slip, |s, v| {
                let joins = segments.iter().any(|t| t != s && t.has_end(v));
                let is_bound = bound.contains(&v);
                vec![false, false, false, joins && !is_bound, is_bound && within(v), joins && is_bound, is_bound && !within(v) && !on(v)]
            }));
            all
        }
        (_, LINE) => of_segments(own, |h| vec![!is_its(&h.segment)]),
        _ => {
            let in_interior = |h: &Half| inside(&segments, &h.segment.midpoint());
            let in_exterior = |h: &Half| !in_interior(h) && !segments.iter().any(|s| s.has(&h.segment.midpoint()));
            let mut all =
                of_segments(own, |h| vec![h.ia && in_exterior(h), !h.ia && in_exterior(h), h.ia && in_interior(h), !h.ia && in_interior(h)]);
            if first {
                let equal = |h: &Half, test: &dyn Fn(bool, bool) -> bool| other.halves.iter().any(|k| k.segment == h.segment && test(h.ia, k.ia));
                all.extend(from_bit(4, of_segments(own, |h| vec![equal(h, &|a, b| a && b), equal(h, &|a, b| !a && !b), equal(h, &|a, b| a != b)])));
                all.extend(from_bit(7, of_ends(own, slip, |s, v| vec![segments.iter().any(|t| t != s && t.has_end(v))])));
            }
            all
        }
    }
}

/// The events of a scene that is taken, and the windows of its flags: for F and for G the witnesses, by how many events are taken when the first of theirs is, and the last.
pub struct Walk {
    pub total: usize,
    windows: [Vec<(u32, usize, usize)>; 2],
}

impl Walk {
    pub fn of(f: &Object, g: &Object, slip: Slip) -> Walk {
        let events = events(f, g, slip);
        let taken = |which: fn(&Event) -> Option<usize>, object: &Object| {
            let mut when = vec![0; number_of_elements(object)];
            for (n, event) in events.iter().enumerate() {
                if let Some(i) = which(event) {
                    when[i] = n + 1;
                }
            }
            when
        };
        let window = |witnesses: Vec<Witness>, when: Vec<usize>| {
            let times = |own: &[usize]| own.iter().map(|i| when[*i]).collect::<Vec<_>>();
            let bounds = |times: Vec<usize>| {
                let last = times.iter().copied().max().unwrap_or(0);
                (if slip == Slip::OnlyWhenAll { last } else { times.iter().copied().min().unwrap_or(0) }, last)
            };
            witnesses.into_iter().map(|(bit, own)| (bit, bounds(times(&own)))).map(|(bit, (first, last))| (bit, first, last)).collect()
        };
        let f_first = f.kind <= g.kind;
        let of_f = window(witnesses(f, g, f_first, slip), taken(|event| event.0, f));
        let of_g = window(witnesses(g, f, !f_first, slip), taken(|event| event.1, g));
        Walk { total: events.len(), windows: if slip == Slip::ByType && !f_first { [of_g, of_f] } else { [of_f, of_g] } }
    }

    /// After n events: the flags that may be set, and those that must be, of F and of G.
    pub fn after(&self, n: usize) -> [(u16, u16); 2] {
        let gathered = |window: &[(u32, usize, usize)]| {
            window.iter().fold((0, 0), |(may, must), (bit, first, last)| (may | ((*first <= n) as u16) << bit, must | ((*last <= n) as u16) << bit))
        };
        [gathered(&self.windows[0]), gathered(&self.windows[1])]
    }

    /// What is told after n events must be this: so many taken of so many, done, and every wanted flag in its window.
    pub fn check(&self, n: usize, want: [u16; 2], told: &Told, slip: Slip) -> Result<(), String> {
        let found = [told.f, told.g];
        let by_flags = found == want;
        let done = if slip == Slip::DoneByFlags { by_flags } else { n == self.total };
        if (told.number, told.place) != (0, 0) || (told.taken, told.events) != (n, self.total) || told.done != done as u8 {
            return Err(format!("after {n} of {} events: {told:?}", self.total));
        }
        for (object, (may, must)) in self.after(n).into_iter().enumerate() {
            let (may, must) = (may & want[object], must & want[object]);
            if found[object] & !may != 0 || must & !found[object] != 0 {
                return Err(format!(
                    "after {n} of {} events: {told:?}, but of {} {may:b} may be set and {must:b} must",
                    self.total,
                    ['F', 'G'][object]
                ));
            }
        }
        Ok(())
    }

    /// How many calls there are, each of a portion of k.
    pub fn calls(&self, k: usize, slip: Slip) -> usize {
        if slip == Slip::RoundedDown {
            self.total / k
        } else {
            self.total.div_ceil(k)
        }
    }

    /// How many are taken after a portion.
    pub fn moved(&self, n: usize, k: usize, slip: Slip) -> usize {
        let k = if slip == Slip::NoneIsOne { k.max(1) } else { k };
        n.saturating_add(k).min(self.total)
    }
}
