//! What two objects share, element by element, and the boundary points of lines: each element is laid beside the other object as a scene of its own, and the library says how they
//! lie. In a scene that is taken an element lies in the other object with all of its interior or with none of it.

use super::marks::corners_of;
use crate::answer::Answer;
use crate::bytes::{self, Half, Kind, Point, Record, Segment};
use crate::library::{self, Cells};
use crate::listing::Listing;
use crate::two::Asked;
use std::collections::HashSet;

#[derive(Default)]
pub struct Shared {
    /// Stretches in both, of either object.
    pub segments: Vec<Segment>,
    /// Points in both that are on no such stretch.
    pub points: Vec<Point>,
    /// The boundary points of each object that is a line.
    pub boundary: [Vec<Point>; 2],
}

impl Shared {
    /// Nothing, of a scene that is refused.
    pub fn of(asked: &Asked, answer: &Answer, listing: &Listing) -> Shared {
        let mut shared = Shared::default();
        if !matches!(answer, Answer::Taken(_)) {
            return shared;
        }
        let (f, g) = asked.scene.split_at(asked.second());
        let mut points = Vec::new();
        for (object, own, other) in [(0, f, g), (1, g, f)] {
            let segments = listing.segments(object);
            let corners = corners_of(&segments);
            shared.segments.extend(segments.iter().filter(|s| is_stretch(beside(&alone(**s), other))));
            points.extend(corners.iter().chain(&listing.points(object)).filter(|p| is_point(beside(&point(**p), other))));
            if listing.kind(object) == Some(Kind::Line) {
                shared.boundary[object] = corners.into_iter().filter(|p| is_end(beside(&point(*p), own))).collect();
            }
        }
        shared.segments.sort();
        shared.segments.dedup();
        let covered: HashSet<Point> = shared.segments.iter().flat_map(|s| [s.left, s.right]).collect();
        points.retain(|p| !covered.contains(p));
        points.sort();
        points.dedup();
        shared.points = points;
        shared
    }
}

fn alone(segment: Segment) -> Vec<u8> {
    bytes::object(Kind::Line, &[1, 0].map(|d| Record::Line(Half { segment, d })))
}

fn point(p: Point) -> Vec<u8> {
    bytes::object(Kind::Points, &[Record::Point(p)])
}

/// The cells of an element beside an object.
fn beside(element: &[u8], object: &[u8]) -> Cells {
    library::cells(&[element, object].concat()).unwrap_or([[b'F'; 3]; 3])
}

fn is_stretch(cells: Cells) -> bool {
    cells[0][0] == b'1' || cells[0][1] == b'1'
}

fn is_point(cells: Cells) -> bool {
    cells[0][0] == b'0' || cells[0][1] == b'0'
}

fn is_end(cells: Cells) -> bool {
    cells[0][1] == b'0'
}
