//! Scenes of full size that are turned away for a fault near the end of an object: everything before it is in order, so all of it must be looked at.

use crate::mistakes::Order;
use crate::plane::{Point, Segment};
use crate::rows::{full_pair, EITHER_ORDER, FULL};
use crate::scene::{scene_bytes, Half, Object, LINE, MOST, POINTS, REGION};
use crate::shapes::{middle, ring, FAMILIES};

pub struct Fault {
    pub name: String,
    pub bytes: Vec<u8>,
}

/// Every fault that a pair of types can have, in every family and in a random scene.
pub fn all() -> Vec<Fault> {
    let mut faults = Vec::new();
    for kinds in EITHER_ORDER {
        for family in &FAMILIES {
            // a little room, for what is added
            let scene = family.scene(kinds, FULL - 16);
            faults.extend(of_scene(&format!("{}-{}{}", family.name, kinds.0, kinds.1), &scene));
        }
        faults.extend(of_scene(&format!("random-{}{}", kinds.0, kinds.1), &with_room(full_pair(kinds))));
    }
    faults
}

/// The scene without some lines' segments, so that a few can be added; a region stays as it is.
fn with_room((f, g): (Object, Object)) -> (Object, Object) {
    let smaller = |object: Object| if object.kind == LINE { Object::of_segments(LINE, &object.segments()[16..]) } else { object };
    (smaller(f), smaller(g))
}

/// The faults are the same in either order: 10 to 14 in the object of the higher type, 15 between the two.
fn of_scene(name: &str, (f, g): &(Object, Object)) -> Vec<Fault> {
    let [lower, higher] = Order::Ascending.of([f, g]);
    let mut faults = Vec::new();
    let mut add = |lower: &Object, higher: &Object| {
        let bytes = if f.kind > g.kind { scene_bytes(higher, lower) } else { scene_bytes(lower, higher) };
        faults.push(Fault { name: name.to_string(), bytes });
    };
    add(lower, &out_of_order(higher));
    if higher.kind != POINTS {
        add(lower, &without_partner(higher));
        add(lower, &touching(higher));
    }
    if higher.kind == REGION {
        add(lower, &with_odd_end(higher));
        add(lower, &with_wrong_ia(higher));
    }
    if lower.kind != POINTS && lower.halves.len() + 6 <= MOST {
        add(&crossing(lower, higher), higher);
    }
    faults
}

fn out_of_order(object: &Object) -> Object {
    let mut spoilt = object.clone();
    let last = object.places.len() - 1;
    if object.kind == POINTS {
        spoilt.points.swap(last - 1, last);
    } else {
        spoilt.halves.swap(last - 1, last);
    }
    spoilt
}

/// The last left halfsegment has lost its partner.
fn without_partner(object: &Object) -> Object {
    let mut spoilt = object.clone();
    let last = last_segment(object);
    spoilt.halves.retain(|h| h.left || h.segment != last);
    spoilt
}

fn last_segment(object: &Object) -> Segment {
    *object.segments().last().expect("the object has segments")
}

/// A short way from the midpoint of the last segment.
fn beside_last(object: &Object, by: Point) -> Point {
    let from = middle(&last_segment(object));
    (from.0 + by.0, from.1 + by.1)
}

fn with_segments(object: &Object, segments: &[Segment]) -> Object {
    let mut more = object.clone();
    for s in segments {
        more.halves.extend([true, false].map(|left| Half { segment: *s, left, ia: false }));
    }
    more.halves.sort_by(Half::order);
    more
}

/// A short segment, in exchange for the first one, begins at the midpoint of the last.
fn touching(object: &Object) -> Object {
    let stub = Segment::between(beside_last(object, (0, 0)), beside_last(object, (2, 4)));
    let mut spoilt = object.clone();
    let first = object.segments()[0];
    spoilt.halves.retain(|h| h.segment != first);
    with_segments(&spoilt, &[stub])
}

fn with_odd_end(region: &Object) -> Object {
    let mut spoilt = region.clone();
    let last = last_segment(region);
    spoilt.halves.retain(|h| h.segment != last);
    spoilt
}

fn with_wrong_ia(region: &Object) -> Object {
    let mut spoilt = region.clone();
    let last = last_segment(region);
    spoilt.halves.iter_mut().filter(|h| h.segment == last).for_each(|h| h.ia = !h.ia);
    spoilt
}

/// One object has a segment more, or a small triangle, with a corner at the midpoint of the other's last segment.
fn crossing(object: &Object, other: &Object) -> Object {
    let corners = [(0, 0), (2, 4), (4, 2)].map(|by| beside_last(other, by));
    let mut segments = object.segments();
    segments.extend(if object.kind == REGION { ring(&corners) } else { vec![Segment::between(corners[0], corners[1])] });
    Object::of_segments(object.kind, &segments)
}
