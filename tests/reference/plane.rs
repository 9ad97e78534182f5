//! Exact geometry of the reference: document 01's section "Objects", on whole-number segments and points with fraction coordinates.
//! Every number is an i128; with coordinates in range and the fractions made here (pieces.rs) nothing comes near its limit.

use std::cmp::Ordering;

/// Ordered by x, then y.
pub type Point = (i64, i64);

/// The largest coordinate taken; its negative is the smallest.
pub const LIMIT: i64 = 10_000_000;

#[derive(Clone, Copy, PartialEq, Eq, PartialOrd, Ord, Debug)]
pub struct Segment {
    pub left: Point,
    pub right: Point,
}

/// The point (x / over, y / over), over above 0.
#[derive(Clone, Copy, Debug)]
pub struct Fraction {
    pub x: i128,
    pub y: i128,
    pub over: i128,
}

impl Fraction {
    pub fn whole(p: Point) -> Fraction {
        Fraction { x: p.0 as i128, y: p.1 as i128, over: 1 }
    }

    pub fn is(&self, p: Point) -> bool {
        self.x == p.0 as i128 * self.over && self.y == p.1 as i128 * self.over
    }
}

/// The point halfway between two points.
pub fn halfway(p: Point, q: Point) -> Fraction {
    Fraction { x: (p.0 + q.0) as i128, y: (p.1 + q.1) as i128, over: 2 }
}

/// The cross product of q - p and r - p: above 0 where r is to the left of the ray from p through q.
pub fn turn(p: Point, q: Point, r: Point) -> i128 {
    let wide = |a: i64, b: i64| (b - a) as i128;
    wide(p.0, q.0) * wide(p.1, r.1) - wide(p.1, q.1) * wide(p.0, r.0)
}

impl Segment {
    pub fn between(p: Point, q: Point) -> Segment {
        Segment { left: p.min(q), right: p.max(q) }
    }

    pub fn has_end(&self, p: Point) -> bool {
        self.left == p || self.right == p
    }

    pub fn is_vertical(&self) -> bool {
        self.left.0 == self.right.0
    }

    pub fn midpoint(&self) -> Fraction {
        halfway(self.left, self.right)
    }

    /// How the segment's height at x of p compares with y of p, the segment not vertical and taken as a whole line.
    fn height_against(&self, p: &Fraction) -> Ordering {
        let (x, y) = (self.left.0 as i128, self.left.1 as i128);
        let (wide, high) = (self.right.0 as i128 - x, self.right.1 as i128 - y);
        (y * p.over * wide + high * (p.x - x * p.over)).cmp(&(p.y * wide))
    }

    /// Whether p is on the segment, ends included.
    pub fn has(&self, p: &Fraction) -> bool {
        let (x, last_x) = (self.left.0 as i128 * p.over, self.right.0 as i128 * p.over);
        if p.x < x || last_x < p.x {
            return false;
        }
        if self.is_vertical() {
            let (y, last_y) = (self.left.1 as i128 * p.over, self.right.1 as i128 * p.over);
            y <= p.y && p.y <= last_y
        } else {
            self.height_against(p) == Ordering::Equal
        }
    }

    /// "Left x at most x, right x above x, and at x it passes strictly below y."
    pub fn counts_below(&self, p: &Fraction) -> bool {
        let (x, last_x) = (self.left.0 as i128 * p.over, self.right.0 as i128 * p.over);
        x <= p.x && p.x < last_x && self.height_against(p) == Ordering::Less
    }

    /// The count for a vertical segment's ia: "strictly below .. with left x less than x and right x at least x".
    pub fn passes_below(&self, p: &Fraction) -> bool {
        let (x, last_x) = (self.left.0 as i128 * p.over, self.right.0 as i128 * p.over);
        x < p.x && p.x <= last_x && self.height_against(p) == Ordering::Less
    }

    /// Whether two unequal segments share a point that is not an end of both: the meeting of their lines is found as a share of each segment.
    pub fn touches(&self, other: &Segment) -> bool {
        if self.right.0 < other.left.0 || other.right.0 < self.left.0 {
            return false;
        }
        let along = |s: &Segment| ((s.right.0 - s.left.0) as i128, (s.right.1 - s.left.1) as i128);
        let cross = |a: (i128, i128), b: (i128, i128)| a.0 * b.1 - a.1 * b.0;
        let (mine, its) = (along(self), along(other));
        let apart = ((other.left.0 - self.left.0) as i128, (other.left.1 - self.left.1) as i128);
        let whole = cross(mine, its);
        if whole == 0 {
            // parallel: on one line they share the stretch from the later left end to the earlier right end
            return cross(apart, mine) == 0 && self.left.max(other.left) < self.right.min(other.right);
        }
        let (my_share, its_share) = (cross(apart, its) * whole.signum(), cross(apart, mine) * whole.signum());
        let whole = whole.abs();
        let on_both = (0..=whole).contains(&my_share) && (0..=whole).contains(&its_share);
        let end_of_both = (my_share == 0 || my_share == whole) && (its_share == 0 || its_share == whole);
        on_both && !end_of_both
    }
}

/// Inside: on no segment, and an odd number of them count below.
pub fn inside(segments: &[Segment], p: &Fraction) -> bool {
    !segments.iter().any(|s| s.has(p)) && segments.iter().filter(|s| s.counts_below(p)).count() % 2 == 1
}

/// The ia that a region's segment must carry.
pub fn interior_above(segments: &[Segment], s: &Segment) -> bool {
    let middle = s.midpoint();
    if s.is_vertical() {
        segments.iter().filter(|t| t.passes_below(&middle)).count() % 2 == 1
    } else {
        segments.iter().filter(|t| t.counts_below(&middle)).count() % 2 == 0
    }
}
