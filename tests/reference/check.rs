//! Conditions 10 to 15 of document 01, each over the whole scene: the earliest place at fault, if any.
//! Each looks at every pair that its sentence speaks of. A condition may take for granted that those before it hold.
//! Condition 8 never occurs since either type may come first; F and G are here the caller's first and second, whatever their types.

use crate::mistakes::Rules;
use crate::plane::{Point, Segment};
use crate::scene::{Half, Object, Refusal, REGION};

/// Conditions 10 to 15: the first of them at fault.
pub fn later(f: &Object, g: &Object, rules: &Rules) -> Option<Refusal> {
    let [first, second] = rules.faults.of([f, g]);
    let either = |number: u32, place_in: &dyn Fn(&Object) -> Option<usize>| {
        place_in(first).or_else(|| place_in(second)).map(|place| Refusal { number, place })
    };
    let [one, other] = rules.crossings.of([f, g]);
    either(10, &order)
        .or_else(|| either(11, &partner))
        .or_else(|| either(12, &touch))
        .or_else(|| either(13, &odd_end))
        .or_else(|| either(14, &|object| wrong_ia(object, rules)))
        .or_else(|| crossing(one, other).map(|place| Refusal { number: 15, place }))
}

/// Conditions 10 to 14 of one object alone.
pub fn alone(object: &Object, rules: &Rules) -> Option<Refusal> {
    later(object, &Object::default(), rules)
}

fn halves(object: &Object) -> impl Iterator<Item = (usize, &Half)> {
    object.places.iter().copied().zip(&object.halves)
}

/// 10: an element not strictly after the one before; the later one's place.
fn order(object: &Object) -> Option<usize> {
    let point_at = object.points.windows(2).position(|pair| pair[0] >= pair[1]);
    let half_at = object.halves.windows(2).position(|pair| pair[0].order(&pair[1]).is_ge());
    point_at.or(half_at).map(|before| object.places[before + 1])
}

/// 11: a halfsegment with no partner of opposite d, equal ends and ia.
fn partner(object: &Object) -> Option<usize> {
    let partners = |h: &Half, k: &Half| h.left != k.left && h.segment == k.segment && h.ia == k.ia;
    halves(object).find(|(_, h)| !object.halves.iter().any(|k| partners(h, k))).map(|(place, _)| place)
}

/// 12: two segments share a point that is not an end of both. Every record of a pair at fault is at fault, so the first such record decides.
fn touch(object: &Object) -> Option<usize> {
    let segments = object.segments();
    halves(object).find(|(_, h)| segments.iter().any(|s| *s != h.segment && s.touches(&h.segment))).map(|(place, _)| place)
}

/// 13: a region's end in an odd number of its segments; the first record that such an end dominates.
fn odd_end(object: &Object) -> Option<usize> {
    let segments = if object.kind == REGION { object.segments() } else { Vec::new() };
    let odd = |p: Point| segments.iter().filter(|s| s.has_end(p)).count() % 2 == 1;
    halves(object).find(|(_, h)| odd(h.dominating())).map(|(place, _)| place)
}

/// 14: a wrong ia.
fn wrong_ia(object: &Object, rules: &Rules) -> Option<usize> {
    if object.kind != REGION {
        return None;
    }
    let segments = object.segments();
    halves(object).find(|(_, h)| (rules.interior_above)(&segments, &h.segment) != h.ia).map(|(place, _)| place)
}

/// 15: unequal segments of F and G share a point that is not an end of both; the record in the caller's first object.
fn crossing(f: &Object, g: &Object) -> Option<usize> {
    let others: Vec<Segment> = g.segments();
    halves(f).find(|(_, h)| others.iter().any(|s| *s != h.segment && s.touches(&h.segment))).map(|(place, _)| place)
}
