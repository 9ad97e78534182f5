//! Where coordinates fall in the picture: one scale for both axes, all objects in view, a grid with numbers at its edge.

use super::svg::{Spot, Svg, n};
use crate::bytes::Point;

/// The plane's window in the picture.
pub const LEFT: f64 = 58.0;
pub const TOP: f64 = 18.0;
pub const WIDTH: f64 = 520.0;
pub const HEIGHT: f64 = 440.0;
/// Kept free about the objects, for labels.
const MARGIN: f64 = 48.0;

pub struct Frame {
    scale: f64,
    /// The point of the plane in the middle of the window.
    middle: Spot,
}

impl Frame {
    pub fn new(points: &[Point]) -> Frame {
        let range = |of: fn(&Point) -> i64| {
            let values = points.iter().map(of);
            (values.clone().min().unwrap_or(0) as f64, values.max().unwrap_or(0) as f64)
        };
        let (x, y) = (range(|p| p.x), range(|p| p.y));
        let fit = |room: f64, (least, greatest): (f64, f64)| (room - 2.0 * MARGIN) / (greatest - least).max(1.0);
        let scale = fit(WIDTH, x).min(fit(HEIGHT, y)).min(90.0);
        Frame { scale, middle: ((x.0 + x.1) / 2.0, (y.0 + y.1) / 2.0) }
    }

    pub fn spot(&self, p: Point) -> Spot {
        self.place(p.x as f64, p.y as f64)
    }

    fn place(&self, x: f64, y: f64) -> Spot {
        (LEFT + WIDTH / 2.0 + (x - self.middle.0) * self.scale, TOP + HEIGHT / 2.0 - (y - self.middle.1) * self.scale)
    }

    /// Lines at round coordinates, with their numbers.
    pub fn grid(&self, svg: &mut Svg) {
        let step = round_step(50.0 / self.scale);
        let style = "stroke=\"#ececec\" stroke-width=\"1\"";
        let number = "font-size=\"10\" fill=\"#8a8a8a\"";
        // the longest, -10000000, would pass the picture's left edge
        let narrow = "font-size=\"9\" fill=\"#8a8a8a\"";
        for x in multiples(step, self.middle.0, WIDTH / 2.0 / self.scale) {
            let at = self.place(x, 0.0).0;
            svg.line((at, TOP), (at, TOP + HEIGHT), style);
            svg.text((at, TOP + HEIGHT + 14.0), &format!("{number} text-anchor=\"middle\""), &n(x));
        }
        for y in multiples(step, self.middle.1, HEIGHT / 2.0 / self.scale) {
            let at = self.place(0.0, y).1;
            svg.line((LEFT, at), (LEFT + WIDTH, at), style);
            let words = n(y);
            let number = if words.len() > 8 { narrow } else { number };
            svg.text((LEFT - 6.0, at + 3.5), &format!("{number} text-anchor=\"end\""), &words);
        }
        svg.rect((LEFT, TOP), (WIDTH, HEIGHT), "fill=\"none\" stroke=\"#c8c8c8\"");
    }
}

/// 1, 2 or 5 times a power of ten, whole, and at least so much.
fn round_step(least: f64) -> f64 {
    let mut power = 1.0;
    loop {
        for digit in [1.0, 2.0, 5.0] {
            if digit * power >= least {
                return digit * power;
            }
        }
        power *= 10.0;
    }
}

fn multiples(step: f64, middle: f64, reach: f64) -> Vec<f64> {
    let (first, last) = (((middle - reach) / step).ceil() as i64, ((middle + reach) / step).floor() as i64);
    (first..=last).map(|k| k as f64 * step).collect()
}
