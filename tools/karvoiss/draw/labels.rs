//! Coordinates beside the vertices, each put where it covers least of what is drawn.

use super::frame::{Frame, HEIGHT, LEFT, TOP, WIDTH};
use super::svg::{Spot, Svg};
use crate::bytes::{Point, Segment};

/// More vertices than this have no labels; the grid's numbers serve.
pub const FEW: usize = 26;

struct Area {
    left: f64,
    top: f64,
    right: f64,
    bottom: f64,
}

impl Area {
    fn around(at: Spot, reach: f64) -> Area {
        Area { left: at.0 - reach, top: at.1 - reach, right: at.0 + reach, bottom: at.1 + reach }
    }

    fn middle(&self) -> Spot {
        ((self.left + self.right) / 2.0, (self.top + self.bottom) / 2.0)
    }

    fn overlaps(&self, other: &Area) -> bool {
        self.left < other.right && other.left < self.right && self.top < other.bottom && other.top < self.bottom
    }

    fn in_window(&self) -> bool {
        self.left >= LEFT && self.top >= TOP && self.right <= LEFT + WIDTH && self.bottom <= TOP + HEIGHT
    }

    /// Some of the line lies in the area: the line's course clipped to the area's four sides.
    fn meets(&self, (a, b): &(Spot, Spot)) -> bool {
        let (mut from, mut to) = (0.0_f64, 1.0_f64);
        for (start, course, least, greatest) in [(a.0, b.0 - a.0, self.left, self.right), (a.1, b.1 - a.1, self.top, self.bottom)] {
            if course == 0.0 && (start < least || start > greatest) {
                return false;
            }
            if course != 0.0 {
                let (enter, leave) = ((least - start) / course, (greatest - start) / course);
                from = from.max(enter.min(leave));
                to = to.min(enter.max(leave));
            }
        }
        from < to
    }
}

pub fn draw(svg: &mut Svg, frame: &Frame, vertices: &[Point], segments: &[Segment]) {
    let lines: Vec<(Spot, Spot)> = segments.iter().map(|s| (frame.spot(s.left), frame.spot(s.right))).collect();
    let marks: Vec<Area> = vertices.iter().map(|p| Area::around(frame.spot(*p), 9.0)).collect();
    let mut taken: Vec<Area> = Vec::new();
    for vertex in vertices {
        let text = vertex.to_string();
        let at = frame.spot(*vertex);
        let cost = |area: &Area| {
            let over = |areas: &[Area]| areas.iter().filter(|a| a.overlaps(area)).count() as f64;
            let crossed = lines.iter().filter(|line| area.meets(line)).count() as f64;
            let cut_off = if area.in_window() { 0.0 } else { 60.0 };
            let far = (area.bottom - at.1).abs().max((area.top - at.1).abs());
            100.0 * over(&taken) + 30.0 * over(&marks) + 10.0 * crossed + cut_off - 2.0 * outward(at, area) + 0.1 * far
        };
        let places = places(at, text.len() as f64 * 6.6);
        if let Some(area) = places.into_iter().min_by(|a, b| cost(a).total_cmp(&cost(b))) {
            let style = "font-size=\"11\" fill=\"#222\" stroke=\"white\" stroke-width=\"3\" paint-order=\"stroke\" text-anchor=\"middle\"";
            svg.text((area.middle().0, area.bottom - 3.0), style, &text);
            taken.push(area);
        }
    }
}

/// The places round a vertex for a label so wide, the best liked first.
fn places(at: Spot, width: f64) -> Vec<Area> {
    let area = |x: f64, y: f64| Area { left: at.0 + x, top: at.1 + y, right: at.0 + x + width, bottom: at.1 + y + 14.0 };
    let (near, far) = (11.0, -11.0 - width);
    let mut places = Vec::new();
    for gap in [0.0, 10.0] {
        places.extend([area(near, -22.0 - gap), area(far, -22.0 - gap), area(near, 8.0 + gap), area(far, 8.0 + gap)]);
        places.extend([area(-width / 2.0, -25.0 - gap), area(-width / 2.0, 11.0 + gap), area(near + gap, -7.0), area(far - gap, -7.0)]);
    }
    places
}

/// From -1 to 1: how far the label lies on the vertex's side that looks away from the middle of the window.
fn outward(vertex: Spot, area: &Area) -> f64 {
    let away = (vertex.0 - LEFT - WIDTH / 2.0, vertex.1 - TOP - HEIGHT / 2.0);
    let to_label = (area.middle().0 - vertex.0, area.middle().1 - vertex.1);
    let length = away.0.hypot(away.1) * to_label.0.hypot(to_label.1);
    if length == 0.0 { 0.0 } else { (away.0 * to_label.0 + away.1 * to_label.1) / length }
}
