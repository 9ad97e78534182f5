//! Exact sample points of every piece into which two objects cut the plane: their vertices, the open edge pieces between those, the faces.
//! One point of each piece is enough for every question about the pieces, since no piece crosses an element of either object. There are finitely many pieces, so
//! what a set of them extends to is the most that one of them does.
//! The scene is split already (12 and 15), so no new vertices arise; points of a points object cut the edges that they lie on.

use crate::plane::{halfway, Fraction, Point, Segment, LIMIT};
use crate::scene::Object;

/// What a set of points extends to, in the words of document 02's Paper 8: it is empty; it has a finite number of points and at least one; it has all points of
/// some segment of non-zero length but of no triangle with area; it has all points of some triangle with area. The greater has the more.
#[derive(Clone, Copy, PartialEq, Eq, PartialOrd, Ord, Debug, Default)]
pub enum Extent {
    #[default]
    Empty,
    Points,
    Stretch,
    Area,
}

impl Extent {
    pub fn sign(self) -> u8 {
        match self {
            Extent::Empty => b'F',
            Extent::Points => b'0',
            Extent::Stretch => b'1',
            Extent::Area => b'2',
        }
    }

    pub fn is_empty(self) -> bool {
        self == Extent::Empty
    }
}

/// A point of a piece, and what that piece extends to.
pub struct Sample {
    pub at: Fraction,
    pub extent: Extent,
}

impl Sample {
    fn vertex(p: Point) -> Sample {
        Sample { at: Fraction::whole(p), extent: Extent::Points }
    }

    fn edge(at: Fraction) -> Sample {
        Sample { at, extent: Extent::Stretch }
    }

    fn face(at: Fraction) -> Sample {
        Sample { at, extent: Extent::Area }
    }
}

/// All different segments and points of a scene.
pub struct Pieces {
    segments: Vec<Segment>,
    points: Vec<Point>,
}

/// The points nearest to a segment's midpoint in the two faces beside it, halfway to whatever comes next.
pub struct Sides {
    pub below: Fraction,
    pub above: Fraction,
}

impl Pieces {
    pub fn of(f: &Object, g: &Object) -> Pieces {
        let mut segments = f.segments();
        segments.extend(g.segments());
        segments.sort();
        segments.dedup();
        let mut points = [&f.points[..], &g.points[..]].concat();
        points.sort();
        points.dedup();
        Pieces { segments, points }
    }

    /// One sample of every piece, of some pieces more than one.
    pub fn samples(&self) -> Vec<Sample> {
        let mut vertices = self.points.clone();
        vertices.extend(self.segments.iter().flat_map(|s| [s.left, s.right]));
        vertices.sort();
        vertices.dedup();
        let mut samples: Vec<Sample> = vertices.into_iter().map(Sample::vertex).collect();
        for s in &self.segments {
            // the points are in order, and so are those on one segment
            let mut cuts = vec![s.left];
            cuts.extend(self.points.iter().filter(|p| !s.has_end(**p) && s.has(&Fraction::whole(**p))));
            cuts.push(s.right);
            samples.extend(cuts.windows(2).map(|pair| Sample::edge(halfway(pair[0], pair[1]))));
            let sides = self.sides(s);
            samples.extend([sides.below, sides.above].map(Sample::face));
        }
        // the only face of a scene without segments, and in any scene a point of the outermost face
        samples.push(Sample::face(Fraction::whole((LIMIT + 1, LIMIT + 1))));
        samples
    }

    /// Samples beside a segment: straight below and above its midpoint, or straight right and left if it is vertical.
    pub fn sides(&self, s: &Segment) -> Sides {
        if s.is_vertical() {
            let (left, right) = self.beside(s, |p| (p.1, p.0));
            let swap = |p: Fraction| Fraction { x: p.y, y: p.x, over: p.over };
            Sides { below: swap(right), above: swap(left) }
        } else {
            let (below, above) = self.beside(s, |p| p);
            Sides { below, above }
        }
    }

    /// Samples below and above the midpoint of s in the plane as `seen`, which may exchange x and y; s is not vertical there.
    fn beside(&self, s: &Segment, seen: impl Fn(Point) -> Point) -> (Fraction, Fraction) {
        let middle = halfway(seen(s.left), seen(s.right));
        // heights, as numerator and denominator, of all else on the upright line through the midpoint
        let mut heights: Vec<(i128, i128)> =
            self.points.iter().map(|p| seen(*p)).filter(|p| 2 * p.0 as i128 == middle.x).map(|p| (p.1 as i128, 1)).collect();
        for other in self.segments.iter().filter(|t| *t != s) {
            let (p, q) = (seen(other.left).min(seen(other.right)), seen(other.left).max(seen(other.right)));
            let (x, y, last_x, last_y) = (p.0 as i128, p.1 as i128, q.0 as i128, q.1 as i128);
            if middle.x < 2 * x || 2 * last_x < middle.x {
                continue;
            }
            if x == last_x {
                heights.extend([(y, 1), (last_y, 1)]);
            } else {
                heights.push((2 * y * (last_x - x) + (last_y - y) * (middle.x - 2 * x), 2 * (last_x - x)));
            }
        }
        let less = |a: &(i128, i128), b: &(i128, i128)| (a.0 * b.1).cmp(&(b.0 * a.1));
        let own = (middle.y, 2);
        let next_below = heights.iter().filter(|h| less(h, &own).is_lt()).max_by(|a, b| less(a, b)).copied();
        let next_above = heights.iter().filter(|h| less(h, &own).is_gt()).min_by(|a, b| less(a, b)).copied();
        let toward = |next: (i128, i128)| Fraction { x: middle.x * 2 * next.1, y: middle.y * next.1 + 2 * next.0, over: 4 * next.1 };
        (toward(next_below.unwrap_or((middle.y - 2, 2))), toward(next_above.unwrap_or((middle.y + 2, 2))))
    }
}
