//! Beside the picture: the two objects, what the answer is called, the nine cells, the flags by name; or the refusal, or why no answer is known.

use super::marks::{self, LOOKS, Look, RED};
use super::shared::Shared;
use super::svg::{Spot, Svg, wrapped};
use crate::answer::{Answer, Cells, Taken};
use crate::bytes::Kind;
use crate::listing::{Listing, NAMES};
use crate::{explain, flags, predicate, refusals, relation};

pub const LEFT: f64 = 606.0;
pub const WIDTH: f64 = 300.0;

/// Writes from the top down.
pub struct Panel<'a> {
    svg: &'a mut Svg,
    y: f64,
}

/// What the panel is about.
pub struct Of<'a> {
    pub listing: &'a Listing,
    pub summaries: &'a [String; 2],
    pub length: usize,
    pub answer: &'a Answer,
    pub shared: &'a Shared,
}

/// A name and what it is of, the name cut to what the panel's width leaves.
pub fn fitting(name: &str, summary: &str) -> String {
    let room = LINE.saturating_sub(summary.chars().count());
    if name.chars().count() <= room {
        return format!("{name}{summary}");
    }
    let kept: String = name.chars().take(room.saturating_sub(4)).collect();
    format!("{kept}.., {summary}")
}

/// As many letters as a line of an object has.
const LINE: usize = 31;

/// Returns where the panel ends.
pub fn draw(svg: &mut Svg, of: &Of) -> f64 {
    let mut panel = Panel { svg, y: 18.0 };
    panel.objects(of.listing, of.summaries);
    match of.answer {
        Answer::Taken(taken) => panel.taken(taken),
        Answer::Refused { number, place } => panel.refused(*number, *place, of.listing, of.length),
    }
    panel.legend(of);
    panel.y
}

impl Panel<'_> {
    fn line(&mut self, height: f64, style: &str, text: &str) {
        self.y += height;
        self.svg.text((LEFT, self.y), style, text);
    }

    fn paragraph(&mut self, size: f64, colour: &str, text: &str) {
        for line in wrapped(text, (WIDTH / size / 0.56) as usize) {
            self.line(size * 1.4, &format!("font-size=\"{size}\" fill=\"{colour}\""), &line);
        }
    }

    fn objects(&mut self, listing: &Listing, summaries: &[String; 2]) {
        for (object, look) in LOOKS.iter().enumerate() {
            if !listing.empty(object) {
                self.sample(listing.kind(object), look);
            }
            let text = format!("{}: {}", NAMES[object], summaries[object]);
            self.svg.text((LEFT + 36.0, self.y + 14.0), "font-size=\"14\" fill=\"#222\"", &text);
            self.y += 25.0;
        }
    }

    /// How an object of this kind is drawn.
    fn sample(&mut self, kind: Option<Kind>, look: &Look) {
        let stroke = format!("stroke=\"{}\" stroke-width=\"{}\"", look.colour, look.stroke);
        match kind {
            Some(Kind::Points) => marks::point(self.svg, (LEFT + 13.0, self.y + 9.0), look),
            Some(Kind::Line) => self.svg.line((LEFT + 1.0, self.y + 9.0), (LEFT + 25.0, self.y + 9.0), &stroke),
            Some(Kind::Region) => {
                let style = format!("fill=\"url(#{})\" {stroke}", look.hatch);
                self.svg.rect((LEFT + 2.0, self.y + 2.0), (22.0, 14.0), &style);
            }
            None => {}
        }
    }

    fn taken(&mut self, taken: &Taken) {
        self.line(26.0, "font-size=\"20\" font-weight=\"bold\" fill=\"#222\"", predicate::name(taken.kinds, &taken.cells));
        self.y += 2.0;
        self.paragraph(12.0, "#444", &relation::of(taken));
        self.cells(&taken.cells);
        self.flags(taken);
    }

    fn cells(&mut self, cells: &Cells) {
        let parts = ["interior", "boundary", "exterior"];
        let (width, height, from) = (66.0, 22.0, LEFT + 82.0);
        self.y += 24.0;
        for (column, part) in parts.iter().enumerate() {
            let at = (from + (column as f64 + 0.5) * width, self.y);
            self.svg.text(at, "font-size=\"11\" fill=\"#444\" text-anchor=\"middle\"", &format!("G {part}"));
        }
        self.y += 6.0;
        for (part, row) in parts.iter().zip(cells) {
            self.svg.text((from - 8.0, self.y + 15.0), "font-size=\"11\" fill=\"#444\" text-anchor=\"end\"", &format!("F {part}"));
            for (column, cell) in row.iter().enumerate() {
                let at = from + column as f64 * width;
                let (fill, colour) = if cell.is_empty() { ("#f4f4f4", "#999") } else { ("#3d4a5c", "white") };
                self.svg.rect((at, self.y), (width, height), &format!("fill=\"{fill}\" stroke=\"white\" stroke-width=\"2\""));
                let style = format!("font-size=\"12\" fill=\"{colour}\" text-anchor=\"middle\"");
                self.svg.text((at + width / 2.0, self.y + 15.5), &style, cell.words());
            }
            self.y += height;
        }
    }

    /// F's flags in one column, G's in another.
    fn flags(&mut self, taken: &Taken) {
        let top = self.y + 24.0;
        for (object, from) in [LEFT, LEFT + WIDTH / 2.0].into_iter().enumerate() {
            let heading = format!("Flags of {}: {}", NAMES[object], taken.vectors[object]);
            self.svg.text((from, top), "font-size=\"12\" font-weight=\"bold\" fill=\"#222\"", &heading);
            let mut y = top;
            if flags::of(taken.kinds)[object].is_empty() {
                self.svg.text((from, top + 17.0), "font-size=\"11.5\" fill=\"#a0a0a0\"", "it has none");
            }
            for (flag, set) in flags::set(flags::of(taken.kinds)[object], taken.vectors[object]) {
                y += 17.0;
                let (fill, colour) = if set { (LOOKS[object].colour, "#222") } else { ("white", "#a0a0a0") };
                self.svg.square((from + 5.0, y - 4.0), 4.0, &format!("fill=\"{fill}\" stroke=\"{colour}\""));
                self.svg.text((from + 16.0, y), &format!("font-size=\"11.5\" fill=\"{colour}\""), flag.name);
            }
            self.y = self.y.max(y);
        }
    }

    fn refused(&mut self, number: u32, place: usize, listing: &Listing, length: usize) {
        let refusal = refusals::of(number);
        self.line(26.0, &format!("font-size=\"20\" font-weight=\"bold\" fill=\"{RED}\""), &format!("refused, number {number}"));
        self.y += 2.0;
        self.paragraph(12.0, RED, &format!("{}.", refusal.says));
        self.y += 8.0;
        self.paragraph(12.0, "#222", &format!("At byte {place}: {}.", explain::found(place, listing, length)));
        self.y += 8.0;
        self.paragraph(12.0, "#444", refusal.advice);
    }

    /// What the marks mean, of those that occur.
    fn legend(&mut self, of: &Of) {
        let listing = of.listing;
        self.y += 12.0;
        if let Some(object) = (0..2).find(|object| listing.kind(*object) == Some(Kind::Line) && !listing.empty(*object)) {
            let look = &LOOKS[object];
            if !of.shared.boundary[object].is_empty() {
                self.mark("boundary point of a line", |svg, at| marks::boundary_point(svg, at, look));
            }
            // of what is refused nobody has asked which ends are boundary points
            let joint = if matches!(of.answer, Answer::Taken(_)) { "joint of a line" } else { "end of segments of a line" };
            self.mark(joint, |svg, at| marks::joint(svg, at, look));
        }
        if !of.shared.segments.is_empty() {
            self.mark("stretch in both", |svg, at| svg.line((at.0 - 9.0, at.1), (at.0 + 9.0, at.1), &marks::in_both()));
        }
        if !of.shared.points.is_empty() {
            self.mark("point in both", |svg, at| marks::shared_point(svg, at));
        }
        let drawn = |place: usize| listing.at(place).is_some_and(|row| listing.rows[row].element.is_some());
        if matches!(of.answer, Answer::Refused { place, .. } if drawn(*place)) {
            self.mark("the record at fault, ringed at its dominating point", |svg, at| marks::fault_ring(svg, at, 7.0));
        }
    }

    fn mark(&mut self, text: &str, draw: impl Fn(&mut Svg, Spot)) {
        self.y += 20.0;
        draw(self.svg, (LEFT + 8.0, self.y - 4.0));
        self.svg.text((LEFT + 24.0, self.y), "font-size=\"11\" fill=\"#666\"", text);
    }
}

#[cfg(test)]
mod tests {
    use super::fitting;

    #[test]
    fn names_that_fit() {
        assert_eq!(fitting("", "line, 1 segment"), "line, 1 segment");
        assert_eq!(fitting("yard, ", "region, 4 segments"), "yard, region, 4 segments");
        assert_eq!(fitting("LINESTRING (0 0, 3 1), ", "line, 1 segment"), "LINESTRING (.., line, 1 segment");
    }
}
