//! A scene as a picture: both objects in the plane, what they share marked, and beside them the answer.

mod frame;
mod labels;
mod marks;
mod panel;
mod shared;
mod svg;

use crate::answer::Answer;
use crate::bytes::{Point, Segment};
use crate::listing::{self, Listing};
use crate::two::Asked;
use frame::Frame;
use shared::Shared;
use svg::Svg;

pub fn picture(asked: &Asked, answer: &Answer) -> String {
    let bytes = &asked.scene;
    let listing = listing::read(bytes);
    let segments: Vec<Segment> = (0..2).flat_map(|object| listing.segments(object)).collect();
    let vertices = vertices(&listing, &segments);
    let frame = Frame::new(&vertices);
    let shared = Shared::of(asked, answer, &listing);
    let crowded = vertices.len() > labels::FEW;
    let mut svg = Svg::new();
    marks::hatches(&mut svg);
    frame.grid(&mut svg);
    marks::objects(&mut svg, &frame, &listing, &shared, crowded);
    if let Answer::Refused { place, .. } = answer {
        listing.at(*place).into_iter().for_each(|row| marks::fault(&mut svg, &frame, &listing.rows[row]));
    }
    if !crowded {
        labels::draw(&mut svg, &frame, &vertices, &segments);
    }
    if vertices.is_empty() {
        nothing(&mut svg);
    }
    let summaries = [0, 1].map(|object| asked.label(object, &listing.summary(object)));
    let shown = [0, 1].map(|object| panel::fitting(&asked.label(object, ""), &listing.summary(object)));
    let bottom = panel::draw(&mut svg, &panel::Of { listing: &listing, summaries: &shown, length: bytes.len(), answer, shared: &shared });
    let height = (frame::TOP + frame::HEIGHT + 26.0).max(bottom + 18.0);
    let title = format!("F: {}; G: {}", summaries[0], summaries[1]);
    svg.document(panel::LEFT + panel::WIDTH + 14.0, height, &title)
}

/// The different points and ends of both objects, in order.
fn vertices(listing: &Listing, segments: &[Segment]) -> Vec<Point> {
    let mut vertices: Vec<Point> = segments.iter().flat_map(|s| [s.left, s.right]).collect();
    (0..2).for_each(|object| vertices.extend(listing.points(object)));
    vertices.sort();
    vertices.dedup();
    vertices
}

fn nothing(svg: &mut Svg) {
    let at = (frame::LEFT + frame::WIDTH / 2.0, frame::TOP + frame::HEIGHT / 2.0 - 8.0);
    svg.text(at, "font-size=\"14\" fill=\"#666\" text-anchor=\"middle\"", "nothing to draw");
}
