//! The picture of the ratios: a line for each family, a dot for each pair of types, our time over that of GEOS from left to right. A ring is a pair with
//! the higher type first.

use crate::maker::PAIRS;
use crate::report::{families, rows};
use crate::results::Results;
use crate::rows::{kind_name, FULL};
use std::fmt::Write as _;

const COLOURS: [&str; 6] = ["#7f7f7f", "#bcae22", "#2ca02c", "#1f77b4", "#9467bd", "#d62728"];

const LEFT: f64 = 110.0;
const RIGHT: f64 = 760.0;
/// Room for the half of the last label that stands right of the last line.
const MARGIN: f64 = 64.0;
const TOP: f64 = 64.0;
const STEP: f64 = 24.0;

/// The powers of ten that are drawn, from the one below every ratio to the one above, 1 among them.
struct Scale {
    low: i32,
    high: i32,
}

impl Scale {
    fn of(ratios: impl Iterator<Item = f64>) -> Scale {
        let powers = ratios.map(f64::log10);
        powers.fold(Scale { low: 0, high: 0 }, |scale, power| Scale {
            low: scale.low.min(power.floor() as i32),
            high: scale.high.max(power.ceil() as i32),
        })
    }

    fn across(&self, ratio: f64) -> f64 {
        LEFT + (RIGHT - LEFT) * (ratio.log10() - self.low as f64) / (self.high - self.low) as f64
    }
}

pub fn svg(results: &Results) -> String {
    let families = families();
    let rows = rows(results, FULL);
    let scale = Scale::of(rows.iter().filter_map(|(_, _, times)| times.ratio()));
    let bottom = TOP + STEP * families.len() as f64;
    let mut svg = format!(
        "<svg xmlns=\"http://www.w3.org/2000/svg\" viewBox=\"0 0 {} {}\" font-family=\"sans-serif\" font-size=\"13\">\n\
         <rect width=\"100%\" height=\"100%\" fill=\"#ffffff\"/>\n",
        RIGHT + MARGIN,
        bottom + 46.0
    );
    let mut text = |x: f64, y: f64, anchor: &str, words: &str| {
        let _ = writeln!(svg, "<text x=\"{x:.0}\" y=\"{y:.0}\" text-anchor=\"{anchor}\" fill=\"#222222\">{words}</text>");
    };
    text(LEFT, 18.0, "start", &format!("Our time over that of GEOS {} (build, validity, relate), 512 segments an object", results.versions[0]));
    for (i, family) in families.iter().enumerate() {
        text(LEFT - 10.0, height(i) + 4.0, "end", family);
    }
    for decade in scale.low..=scale.high {
        text(scale.across(10f64.powi(decade)), bottom + 18.0, "middle", &10f64.powi(decade).to_string());
    }
    text(scale.across(1.0), bottom + 36.0, "middle", "as fast as GEOS");
    for (i, kinds) in PAIRS.iter().enumerate() {
        text(legend(i) + 9.0, 42.0, "start", &format!("{}, {}", kind_name(kinds.0), kind_name(kinds.1)));
    }
    text(RIGHT + MARGIN - 8.0, bottom + 36.0, "end", "rings: the other way round");
    for decade in scale.low..=scale.high {
        let (x, colour) = (scale.across(10f64.powi(decade)), if decade == 0 { "#222222" } else { "#dddddd" });
        let _ = writeln!(svg, "<line x1=\"{x:.1}\" y1=\"{}\" x2=\"{x:.1}\" y2=\"{bottom}\" stroke=\"{colour}\"/>", TOP - 8.0);
    }
    let mut dot = |x: f64, y: f64, kinds: (u8, u8)| {
        let ascending = (kinds.0.min(kinds.1), kinds.0.max(kinds.1));
        let colour = COLOURS[PAIRS.iter().position(|pair| *pair == ascending).unwrap_or(0)];
        let style = if kinds == ascending {
            format!("r=\"4.5\" fill=\"{colour}\" fill-opacity=\"0.8\"")
        } else {
            format!("r=\"6.5\" fill=\"none\" stroke=\"{colour}\"")
        };
        let _ = writeln!(svg, "<circle cx=\"{x:.1}\" cy=\"{y:.1}\" {style}/>");
    };
    for (i, kinds) in PAIRS.iter().enumerate() {
        dot(legend(i), 38.0, *kinds);
    }
    for (family, kinds, times) in rows {
        let line = families.iter().position(|name| *name == family).unwrap_or(0);
        if let Some(ratio) = times.ratio() {
            dot(scale.across(ratio), height(line), kinds);
        }
    }
    svg + "</svg>\n"
}

fn height(line: usize) -> f64 {
    TOP + STEP * (line as f64 + 0.5)
}

fn legend(i: usize) -> f64 {
    LEFT + 112.0 * i as f64
}
