//! The objects themselves: hatched interiors, segments, boundary points and joints, points, and the place of a refusal.
//! G is drawn first and broader, so that F shows on it; stretches and points that both have are marked over both.

use super::frame::{Frame, HEIGHT, TOP};
use super::shared::Shared;
use super::svg::{Spot, Svg, n};
use crate::bytes::{Kind, Point, Record, Segment};
use crate::listing::{Listing, Row};

#[derive(Clone, Copy)]
pub struct Look {
    pub colour: &'static str,
    pub hatch: &'static str,
    pub stroke: f64,
    /// Half the size of a boundary point's mark; others are in proportion.
    pub mark: f64,
}

pub const LOOKS: [Look; 2] =
    [Look { colour: "#1b55a5", hatch: "hatch-f", stroke: 2.0, mark: 4.5 }, Look { colour: "#d98a1c", hatch: "hatch-g", stroke: 5.5, mark: 7.5 }];
/// Where vertices are many, marks and strokes are smaller.
fn look(object: usize, crowded: bool) -> Look {
    let Look { stroke, mark, .. } = LOOKS[object];
    match crowded {
        true => Look { stroke: stroke * 0.7, mark: mark * 0.5, ..LOOKS[object] },
        false => LOOKS[object],
    }
}

pub const RED: &str = "#d3122e";

pub fn hatches(svg: &mut Svg) {
    svg.raw("<defs>");
    for (look, angle) in LOOKS.iter().zip([45, -45]) {
        svg.raw(&format!(
            "<pattern id=\"{}\" width=\"8\" height=\"8\" patternUnits=\"userSpaceOnUse\" patternTransform=\"rotate({angle})\"><rect width=\"8\" height=\"8\" fill=\"{}\" fill-opacity=\"0.09\"/><line x1=\"4\" y1=\"0\" x2=\"4\" y2=\"8\" stroke=\"{}\" stroke-opacity=\"0.55\" stroke-width=\"1.1\"/></pattern>",
            look.hatch, look.colour, look.colour
        ));
    }
    svg.raw("</defs>");
}

pub fn objects(svg: &mut Svg, frame: &Frame, listing: &Listing, shared: &Shared, crowded: bool) {
    for object in [1, 0] {
        if listing.kind(object) == Some(Kind::Region) {
            interior(svg, frame, &listing.segments(object), &LOOKS[object]);
        }
    }
    for object in [1, 0] {
        strokes(svg, frame, &listing.segments(object), &look(object, crowded));
    }
    shared.segments.iter().for_each(|s| svg.line(frame.spot(s.left), frame.spot(s.right), &in_both()));
    for object in [1, 0] {
        let look = look(object, crowded);
        match listing.kind(object) {
            Some(Kind::Line) => ends(svg, frame, &listing.segments(object), &shared.boundary[object], &look),
            Some(Kind::Region) => corners(svg, frame, &listing.segments(object), &look),
            _ => {}
        }
        listing.points(object).into_iter().for_each(|p| point(svg, frame.spot(p), &look));
    }
    shared.points.iter().for_each(|p| shared_point(svg, frame.spot(*p)));
}

/// What both have: a stretch in a colour of its own, a point with a ring.
const GREEN: &str = "#2e9e4f";

pub fn in_both() -> String {
    format!("stroke=\"{GREEN}\" stroke-width=\"3\" stroke-linecap=\"round\"")
}

pub fn shared_point(svg: &mut Svg, at: Spot) {
    svg.circle(at, 9.5, &format!("fill=\"none\" stroke=\"{GREEN}\" stroke-width=\"2.5\""));
}

/// The strip under each segment, filled by the even-odd rule: what has an odd number of segments below it is inside.
fn interior(svg: &mut Svg, frame: &Frame, outline: &[Segment], look: &Look) {
    let above = |s: &&Segment| !s.vertical();
    let strip = |s: &Segment| {
        let (a, b) = (frame.spot(s.left), frame.spot(s.right));
        format!("M{} {}L{} {}V{}H{}Z", n(a.0), n(a.1), n(b.0), n(b.1), n(TOP + HEIGHT), n(a.0))
    };
    let path: String = outline.iter().filter(above).map(strip).collect();
    svg.raw(&format!("<path fill=\"url(#{})\" fill-rule=\"evenodd\" d=\"{path}\"/>", look.hatch));
}

fn strokes(svg: &mut Svg, frame: &Frame, segments: &[Segment], look: &Look) {
    let style = format!("stroke=\"{}\" stroke-width=\"{}\" stroke-linecap=\"round\"", look.colour, n(look.stroke));
    segments.iter().for_each(|s| svg.line(frame.spot(s.left), frame.spot(s.right), &style));
}

/// A line's boundary points as squares, its joints as rings.
fn ends(svg: &mut Svg, frame: &Frame, segments: &[Segment], boundary: &[Point], look: &Look) {
    for p in corners_of(segments) {
        match boundary.contains(&p) {
            true => boundary_point(svg, frame.spot(p), look),
            false => joint(svg, frame.spot(p), look),
        }
    }
}

/// The different ends of segments, in order.
pub fn corners_of(segments: &[Segment]) -> Vec<Point> {
    let mut corners: Vec<Point> = segments.iter().flat_map(|s| [s.left, s.right]).collect();
    corners.sort();
    corners.dedup();
    corners
}

pub fn boundary_point(svg: &mut Svg, at: Spot, look: &Look) {
    svg.square(at, look.mark, &format!("fill=\"{}\" stroke=\"white\" stroke-width=\"1\"", look.colour));
}

pub fn joint(svg: &mut Svg, at: Spot, look: &Look) {
    svg.circle(at, look.mark * 0.75, &format!("fill=\"white\" stroke=\"{}\" stroke-width=\"{}\"", look.colour, n(look.mark * 0.35)));
}

pub fn point(svg: &mut Svg, at: Spot, look: &Look) {
    svg.circle(at, look.mark * 1.1, &format!("fill=\"{}\" stroke=\"white\" stroke-width=\"1\"", look.colour));
}

fn corners(svg: &mut Svg, frame: &Frame, segments: &[Segment], look: &Look) {
    let style = format!("fill=\"{}\"", look.colour);
    corners_of(segments).into_iter().for_each(|p| svg.circle(frame.spot(p), look.mark * 0.7, &style));
}

/// The record at fault, in red, with a ring about its dominating point.
pub fn fault(svg: &mut Svg, frame: &Frame, row: &Row) {
    let at = match (row.record, row.record.half()) {
        (Record::Point(p), _) => p,
        (_, Some(half)) => {
            let (a, b) = (frame.spot(half.segment.left), frame.spot(half.segment.right));
            svg.line(a, b, &format!("stroke=\"{RED}\" stroke-width=\"12\" stroke-opacity=\"0.28\" stroke-linecap=\"round\""));
            svg.line(a, b, &format!("stroke=\"{RED}\" stroke-width=\"3\" stroke-linecap=\"round\""));
            half.dominating()
        }
        _ => return,
    };
    fault_ring(svg, frame.spot(at), 11.0);
}

pub fn fault_ring(svg: &mut Svg, at: Spot, radius: f64) {
    svg.circle(at, radius, &format!("fill=\"none\" stroke=\"{RED}\" stroke-width=\"3\""));
}
