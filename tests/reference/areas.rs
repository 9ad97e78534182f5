//! Shared and separate ground of two regions, integrated: the plane is cut into columns at every end, a column into trapezoids by the segments that cross it,
//! and each trapezoid is in F, or in G, where an odd number of its segments lie under it. No shoelace sum, no ia and no midpoint takes part.

use crate::plane::Segment;
use crate::scene::Object;

/// Doubled areas: in both, in F only, in G only.
pub type Areas = [i64; 3];

/// The part that a point in F or not, and in G or not, belongs to; none outside both.
fn part(in_f: bool, in_g: bool) -> Option<usize> {
    match (in_f, in_g) {
        (true, true) => Some(0),
        (true, false) => Some(1),
        (false, true) => Some(2),
        (false, false) => None,
    }
}

/// A segment of either region that is not vertical, and what it takes from the parts: doubled areas under it times its width, so that they are whole.
struct Slope {
    segment: Segment,
    of_f: bool,
    of_g: bool,
    wide: i128,
    under: [i128; 3],
}

impl Slope {
    /// Its height at half of a whole number, times twice its width.
    fn height_at_half(&self, doubled_x: i128) -> i128 {
        let ((x, y), (_, last_y)) = (self.segment.left, self.segment.right);
        2 * y as i128 * self.wide + (doubled_x - 2 * x as i128) * (last_y - y) as i128
    }

    fn crosses(&self, from: i64, to: i64) -> bool {
        self.segment.left.0 <= from && to <= self.segment.right.0
    }
}

fn slopes(f: &Object, g: &Object) -> Vec<Slope> {
    let (of_f, of_g) = (f.segments(), g.segments());
    let mut all = [&of_f[..], &of_g[..]].concat();
    all.sort();
    all.dedup();
    let slope =
        |s: Segment| Slope { segment: s, of_f: of_f.contains(&s), of_g: of_g.contains(&s), wide: (s.right.0 - s.left.0) as i128, under: [0; 3] };
    all.into_iter().filter(|s| !s.is_vertical()).map(slope).collect()
}

/// The parts of two regions that were taken.
pub fn areas(f: &Object, g: &Object) -> Areas {
    let mut slopes = slopes(f, g);
    let mut cuts: Vec<i64> = slopes.iter().flat_map(|s| [s.segment.left.0, s.segment.right.0]).collect();
    cuts.sort();
    cuts.dedup();
    for column in cuts.windows(2) {
        let (from, to) = (column[0], column[1]);
        let mut crossing: Vec<&mut Slope> = slopes.iter_mut().filter(|s| s.crosses(from, to)).collect();
        let middle = (from + to) as i128;
        crossing.sort_by(|s, t| (s.height_at_half(middle) * t.wide).cmp(&(t.height_at_half(middle) * s.wide)));
        let (mut in_f, mut in_g) = (false, false);
        for s in crossing {
            // from the ground line up to the segment: heights at both edges of the column, together twice the height in its middle
            let under = (to - from) as i128 * s.height_at_half(middle);
            if let Some(below) = part(in_f, in_g) {
                s.under[below] += under;
            }
            (in_f, in_g) = (in_f != s.of_f, in_g != s.of_g);
            if let Some(above) = part(in_f, in_g) {
                s.under[above] -= under;
            }
        }
    }
    let mut sums = [0; 3];
    for s in &slopes {
        for (sum, under) in sums.iter_mut().zip(s.under) {
            assert!(under % s.wide == 0, "a part lies on one side of a segment all along");
            *sum += (under / s.wide) as i64;
        }
    }
    sums
}
