//! Scenes as pictures. In every second line and column stand nodes, between them edges, and faces in what is left:
//!     n-n-n
//!     - x -
//!     n-n-n
//! where `f`, `g` and `b` say: of F, of G, of both. A points object takes its nodes, a line its edges, a region the outline of its faces.

use crate::plane::{Point, Segment};
use crate::scene::{Object, LINE, POINTS};

/// The two objects of a picture, its lowest line at y = 0.
pub fn objects(kinds: (u8, u8), lines: &[&str]) -> (Object, Object) {
    (object(kinds.0, lines, "fb"), object(kinds.1, lines, "gb"))
}

fn object(kind: u8, lines: &[&str], own: &str) -> Object {
    let high = lines.len() as i64;
    let wide = lines.iter().map(|line| line.len()).max().unwrap_or(0) as i64;
    let has = |x: i64, y: i64| {
        let letter = (high - 1).checked_sub(y).and_then(|line| lines.get(line as usize)).and_then(|line| line.as_bytes().get(x as usize));
        letter.is_some_and(|letter| own.as_bytes().contains(letter))
    };
    let (mut points, mut segments): (Vec<Point>, Vec<Segment>) = (Vec::new(), Vec::new());
    for x in 0..=wide {
        for y in 0..high {
            let (node_or_upright, node_or_flat) = (x % 2 == 0, y % 2 == 0);
            let ends = if node_or_flat { [(x - 1, y), (x + 1, y)] } else { [(x, y - 1), (x, y + 1)] };
            let faces = if node_or_flat { [(x, y - 1), (x, y + 1)] } else { [(x - 1, y), (x + 1, y)] };
            if node_or_upright && node_or_flat {
                if has(x, y) {
                    points.push((x, y));
                }
            } else if node_or_upright != node_or_flat {
                let is_edge = if kind == LINE { has(x, y) } else { has(faces[0].0, faces[0].1) != has(faces[1].0, faces[1].1) };
                if is_edge {
                    segments.push(Segment::between(ends[0], ends[1]));
                }
            }
        }
    }
    if kind == POINTS {
        Object::of_points(&points)
    } else {
        Object::of_segments(kind, &segments)
    }
}
