//! The two vectors, by brute force over all pairs: each flag is document 01's sentence, its "some" an `any` and its "every" an `all`.
//! Definitions 2, 3, 5 and 6 are the source's, as document 01 corrects them. They are of a pair whose first type is not above its second; what is
//! asked and answered outside this file is in the caller's order.

use crate::mistakes::{Order, Rules};
use crate::plane::{inside, Fraction, Point, Segment};
use crate::scene::{Half, Object, LINE, POINTS, REGION};

/// What belongs to the objects of types f and g, given for the object of the lower type first: that one has document 01's column F.
fn in_callers_order<T>(f: u8, g: u8, (of_lower, of_higher): (T, T)) -> (T, T) {
    if f > g {
        (of_higher, of_lower)
    } else {
        (of_lower, of_higher)
    }
}

/// The number of flags of F and of G for a pair of types.
pub fn flag_counts(f: u8, g: u8) -> (u32, u32) {
    let ascending = match (f.min(g), f.max(g)) {
        (POINTS, POINTS) => (2, 1),
        (POINTS, LINE) => (3, 1),
        (POINTS, REGION) => (3, 0),
        (LINE, LINE) => (6, 3),
        (LINE, REGION) => (7, 1),
        _ => (8, 4),
    };
    in_callers_order(f, g, ascending)
}

/// All flags of a pair of types, as a mask for F and one for G.
pub fn all_flags(f: u8, g: u8) -> (u16, u16) {
    let (of_f, of_g) = flag_counts(f, g);
    ((1 << of_f) - 1, (1 << of_g) - 1)
}

/// Boundary of a line, under document 02's Paper 6: the ends at which an odd number of its segments end.
pub fn line_boundary(line: &Object) -> Vec<Point> {
    ends_where(line, |number| number % 2 == 1)
}

/// The ends of a line's segments at which such a number of them end.
pub fn ends_where(line: &Object, rule: fn(usize) -> bool) -> Vec<Point> {
    let segments = line.segments();
    let ends: Vec<Point> = line.halves.iter().map(Half::dominating).collect();
    ends.into_iter().filter(|p| rule(segments.iter().filter(|s| s.has_end(*p)).count())).collect()
}

/// Definition 6 (viii): unequal segments with equal dominating points.
pub fn common_dominating_point(f: &Half, g: &Half) -> bool {
    f.segment != g.segment && f.dominating() == g.dominating()
}

/// Both vectors, every flag of the pair wanted.
pub fn vectors(f: &Object, g: &Object, rules: &Rules) -> (u16, u16) {
    let [lower, higher] = Order::Ascending.of([f, g]);
    let ascending = match (lower.kind, higher.kind) {
        (POINTS, POINTS) => points_points(lower, higher, rules),
        (POINTS, LINE) => points_line(lower, higher, rules),
        (POINTS, REGION) => points_region(lower, higher, rules),
        (LINE, LINE) => line_line(lower, higher, rules),
        (LINE, REGION) => line_region(lower, higher, rules),
        _ => region_region(lower, higher, rules),
    };
    let (of_f, of_g) = in_callers_order(f.kind, g.kind, ascending);
    (packed(&of_f), packed(&of_g))
}

fn packed(flags: &[bool]) -> u16 {
    flags.iter().enumerate().map(|(bit, set)| (*set as u16) << bit).sum()
}

fn on(p: Point, segments: &[Segment]) -> bool {
    segments.iter().any(|s| s.has(&Fraction::whole(p)))
}

type Flags = (Vec<bool>, Vec<bool>);

fn points_points(f: &Object, g: &Object, rules: &Rules) -> Flags {
    let (own_f, own_g) = (rules.walked(&f.points), rules.walked(&g.points));
    let poi_disjoint = own_f.iter().any(|p| g.points.iter().all(|q| p != q));
    let poi_shared = own_f.iter().any(|p| g.points.iter().any(|q| p == q));
    let g_poi_disjoint = own_g.iter().any(|q| f.points.iter().all(|p| p != q));
    (vec![poi_disjoint, poi_shared], vec![g_poi_disjoint])
}

fn points_line(f: &Object, g: &Object, rules: &Rules) -> Flags {
    let own = rules.walked(&f.points);
    let segments = g.segments();
    let bound = (rules.line_boundary)(g);
    let poi_disjoint = own.iter().any(|p| !on(*p, &segments));
    let poi_on_interior = own.iter().any(|p| on(*p, &segments) && bound.iter().all(|b| p != b));
    let poi_on_bound = own.iter().any(|p| bound.iter().any(|b| p == b));
    let bound_poi_disjoint = rules.walked(&bound).iter().any(|b| f.points.iter().all(|p| p != b));
    (vec![poi_disjoint, poi_on_interior, poi_on_bound], vec![bound_poi_disjoint])
}

fn points_region(f: &Object, g: &Object, rules: &Rules) -> Flags {
    let own = rules.walked(&f.points);
    let segments = g.segments();
    let is_inside = |p: &Point| inside(&segments, &Fraction::whole(*p));
    let poi_inside = own.iter().any(is_inside);
    let poi_on_bound = own.iter().any(|p| on(*p, &segments));
    let poi_outside = own.iter().any(|p| !is_inside(p) && !on(*p, &segments));
    (vec![poi_inside, poi_on_bound, poi_outside], vec![])
}

fn line_line(f: &Object, g: &Object, rules: &Rules) -> Flags {
    let (segments_f, segments_g) = (f.segments(), g.segments());
    let (bound_f, bound_g) = ((rules.line_boundary)(f), (rules.line_boundary)(g));
    let ends: Vec<Point> = f.halves.iter().chain(&g.halves).map(Half::dominating).collect();

    let seg_shared = rules.walked(&segments_f).iter().any(|s| segments_g.iter().any(|t| s == t));
    let interior_poi_shared = rules
        .walked(&ends)
        .iter()
        .any(|p| on(*p, &segments_f) && on(*p, &segments_g) && bound_f.iter().all(|b| p != b) && bound_g.iter().all(|b| p != b));
    let bound_shared = rules.walked(&bound_f).iter().any(|p| bound_g.iter().any(|q| p == q));

    // seg_unshared, bound_on_interior, bound_disjoint of one object against the other
    let own = |mine: &[Segment], my_bound: &[Point], its: &[Segment], its_bound: &[Point]| {
        let seg_unshared = rules.walked(mine).iter().any(|s| its.iter().all(|t| s != t));
        let bound_on_interior = rules.walked(my_bound).iter().any(|p| on(*p, its) && its_bound.iter().all(|b| p != b));
        let bound_disjoint = rules.walked(my_bound).iter().any(|p| !on(*p, its));
        [seg_unshared, bound_on_interior, bound_disjoint]
    };
    let [seg_unshared, bound_on_interior, bound_disjoint] = own(&segments_f, &bound_f, &segments_g, &bound_g);
    let of_f = vec![seg_shared, interior_poi_shared, seg_unshared, bound_on_interior, bound_shared, bound_disjoint];
    (of_f, own(&segments_g, &bound_g, &segments_f, &bound_f).to_vec())
}

fn line_region(f: &Object, g: &Object, rules: &Rules) -> Flags {
    let (all_f, segments_g) = (f.segments(), g.segments());
    let segments_f = rules.walked(&all_f);
    let bound_f = (rules.line_boundary)(f);
    let is_bound = |p: &Point| bound_f.iter().any(|b| p == b);
    let is_one_of_g = |s: &Segment| segments_g.iter().any(|t| s == t);
    let midpoint_inside = |s: &Segment| inside(&segments_g, &s.midpoint());

    let seg_inside = segments_f.iter().any(|s| !is_one_of_g(s) && midpoint_inside(s));
    let seg_shared = segments_f.iter().any(is_one_of_g);
    let seg_outside = segments_f.iter().any(|s| !is_one_of_g(s) && !midpoint_inside(s));

    // the ends that unequal segments of F and G have in common
    let ends_of = |s: &Segment| [s.left, s.right];
    let common_ends = |s: &Segment| ends_of(s).into_iter().filter(|p| segments_g.iter().any(|t| s != t && t.has_end(*p))).collect::<Vec<_>>();
    let poi_shared = segments_f.iter().any(|s| common_ends(s).iter().any(|p| !is_bound(p)));
    let bound_shared = segments_f.iter().any(|s| common_ends(s).iter().any(is_bound));

    let bound_inside = rules.walked(&bound_f).iter().any(|p| inside(&segments_g, &Fraction::whole(*p)));
    let bound_disjoint = rules.walked(&bound_f).iter().any(|p| !inside(&segments_g, &Fraction::whole(*p)) && !on(*p, &segments_g));
    let seg_unshared = rules.walked(&segments_g).iter().any(|t| all_f.iter().all(|s| s != t));
    (vec![seg_inside, seg_shared, seg_outside, poi_shared, bound_inside, bound_shared, bound_disjoint], vec![seg_unshared])
}

fn region_region(f: &Object, g: &Object, rules: &Rules) -> Flags {
    let (halves_f, halves_g) = (rules.walked(&f.halves), rules.walked(&g.halves));

    // (0/1), (1/0), (1/2), (2/1): midpoint in the other's exterior or interior, by ia
    let own = |mine: &[Half], its: &[Segment]| {
        let in_interior = |h: &Half| inside(its, &h.segment.midpoint());
        let in_exterior = |h: &Half| !in_interior(h) && !its.iter().any(|s| s.has(&h.segment.midpoint()));
        vec![
            mine.iter().any(|h| h.ia && in_exterior(h)),
            mine.iter().any(|h| !h.ia && in_exterior(h)),
            mine.iter().any(|h| h.ia && in_interior(h)),
            mine.iter().any(|h| !h.ia && in_interior(h)),
        ]
    };
    let equal = |test: &dyn Fn(bool, bool) -> bool| halves_f.iter().any(|h| g.halves.iter().any(|k| h.segment == k.segment && test(h.ia, k.ia)));

    let mut of_f = own(halves_f, &g.segments());
    of_f.push(equal(&|a, b| a && b));
    of_f.push(equal(&|a, b| !a && !b));
    of_f.push(equal(&|a, b| a != b));
    of_f.push(halves_f.iter().any(|h| g.halves.iter().any(|k| (rules.common_point)(h, k))));
    (of_f, own(halves_g, &f.segments()))
}
