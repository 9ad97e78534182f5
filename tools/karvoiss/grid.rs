//! Onto the grid, openly: a coordinate less the origin, times the scale, in exact decimals. What does not land on a whole number is refused, or rounded and counted where
//! that was asked for. Whether a whole number is in range the library says.

use crate::decimal::{Decimal, Fault};

pub struct Grid {
    scale: Decimal,
    origin: [Decimal; 2],
    round: bool,
    placed: u64,
    moved: u64,
    furthest: f64,
    vanished: u64,
}

impl Grid {
    pub fn new(scale: Decimal, origin: [Decimal; 2], round: bool) -> Grid {
        Grid { scale, origin, round, placed: 0, moved: 0, furthest: 0.0, vanished: 0 }
    }

    /// Coordinates are whole numbers as they stand.
    pub fn as_it_stands() -> Grid {
        Grid::new(Decimal::ONE, [Decimal::ZERO; 2], false)
    }

    /// Whether a coordinate is taken as it stands, so that well-known binary can go to the library as it is.
    pub fn is_as_it_stands(&self) -> bool {
        !self.round && !self.moves()
    }

    /// Whether scale or origin make other numbers of coordinates.
    pub fn moves(&self) -> bool {
        self.scale != Decimal::ONE || self.origin != [Decimal::ZERO; 2]
    }

    /// The place of a coordinate on the grid, `axis` 0 for x and 1 for y; or why it has none.
    pub fn place(&mut self, word: &str, axis: usize) -> Result<f64, String> {
        let place = self.exact(word, axis).map_err(|fault| match fault {
            Fault::NoNumber => format!("{word} is not a number"),
            Fault::TooLong => format!("{word} has more digits than can be counted exactly"),
        })?;
        self.placed += 1;
        if let Some(whole) = place.whole() {
            return Ok(whole);
        }
        if !self.round {
            return Err(self.off(word, axis, place));
        }
        let (whole, moved) = place.nearest();
        self.moved += 1;
        self.furthest = self.furthest.max(moved);
        Ok(whole)
    }

    /// Coordinates that were placed so far.
    pub fn placed(&self) -> u64 {
        self.placed
    }

    /// An object that has no element, of coordinates that were placed since: rounding has put all its points together.
    pub fn note(&mut self, placed_before: u64, object: &[u8]) {
        let is_empty = object.len() == EMPTY;
        self.vanished += (self.round && is_empty && self.placed > placed_before) as u64;
    }

    fn exact(&self, word: &str, axis: usize) -> Result<Decimal, Fault> {
        Decimal::read(word)?.less(self.origin[axis])?.times(self.scale)
    }

    fn off(&self, word: &str, axis: usize, place: Decimal) -> String {
        let axis = ["x", "y"][axis];
        if self.moves() {
            format!("{axis} {word} comes to {place} on the grid, which is not a whole number: enlarge --scale, or round with --round")
        } else {
            format!("{axis} {}", not_whole(word))
        }
    }

    /// A place on the grid as a coordinate of the file, near enough for a message.
    pub fn back(&self, value: f64, axis: usize) -> f64 {
        value / self.scale.to_float() + self.origin[axis].to_float()
    }

    /// The scale that is so many times as large; none where rounding would make other shapes of it.
    pub fn enlarged(&self, times: i128) -> Option<String> {
        let scale = self.scale.times(Decimal::whole_of(times)).ok()?;
        if self.round { None } else { Some(scale.to_string()) }
    }

    /// A number of squares of the grid as an area of the file.
    pub fn area(&self, squares: f64) -> f64 {
        squares / self.scale.to_float() / self.scale.to_float()
    }

    /// What rounding did, if it was asked for.
    pub fn report(&self) -> Option<String> {
        if !self.round {
            return None;
        }
        let of = format!("{} of {} coordinates", thousands(self.moved), thousands(self.placed));
        if self.moved == 0 {
            return Some(format!("rounded {of}"));
        }
        let distance = if self.moves() { format!(", {} in the file's unit", short(self.furthest / self.scale.to_float())) } else { String::new() };
        let vanished = match self.vanished {
            0 => String::new(),
            1 => "; 1 shape vanished, all of whose points fell together".to_string(),
            n => format!("; {} shapes vanished, all of whose points fell together", thousands(n)),
        };
        Some(format!("rounded {of}, by {} of a grid step at most{distance}{vanished}", short(self.furthest)))
    }
}

/// What is wrong with a number that is not on the grid as it stands.
pub fn not_whole(word: &str) -> String {
    format!("{word} is not a whole number: enlarge with --scale, or round with --round")
}

/// As many bytes as an object without elements has.
const EMPTY: usize = 3;

/// A number with commas between its thousands.
pub fn thousands(number: u64) -> String {
    let digits = number.to_string();
    let comma = |(at, digit): (usize, char)| if at > 0 && (digits.len() - at) % 3 == 0 { vec![',', digit] } else { vec![digit] };
    digits.chars().enumerate().flat_map(comma).collect()
}

/// Four digits are enough to say how far.
fn short(number: f64) -> String {
    let rounded: f64 = format!("{number:.3e}").parse().unwrap_or(number);
    if (1e-4..1e6).contains(&rounded) { rounded.to_string() } else { format!("{rounded:e}") }
}

#[cfg(test)]
mod tests {
    use super::*;

    fn grid(scale: &str, origin: [&str; 2], round: bool) -> Grid {
        let read = |word: &str| Decimal::read(word).unwrap();
        Grid::new(read(scale), origin.map(read), round)
    }

    #[test]
    fn exact_decimals() {
        let mut grid = grid("100", ["-81.5", "36"], false);
        assert_eq!([grid.place("-81.47", 0), grid.place("36.11", 1)], [Ok(3.0), Ok(11.0)]);
        let off = "x -81.475 comes to 2.5 on the grid, which is not a whole number: enlarge --scale, or round with --round";
        assert_eq!(grid.place("-81.475", 0), Err(off.to_string()));
        assert_eq!(grid.report(), None);
        assert_eq!(Grid::as_it_stands().place("x", 0), Err("x is not a number".to_string()));
    }

    #[test]
    fn rounding_is_counted() {
        let mut grid = grid("10", ["0", "0"], true);
        assert_eq!(["0.1", "0.12", "0.15"].map(|word| grid.place(word, 0)), [Ok(1.0), Ok(1.0), Ok(2.0)]);
        assert_eq!(grid.report().unwrap(), "rounded 2 of 3 coordinates, by 0.5 of a grid step at most, 0.05 in the file's unit");
    }

    #[test]
    fn shapes_that_vanish() {
        let mut grid = grid("1", ["0", "0"], true);
        let read = crate::wkt::read("LINESTRING (0.1 0, 0 0.2) LINESTRING EMPTY LINESTRING (0.1 0, 3 0)", &mut grid).unwrap();
        assert_eq!(read.len(), 3);
        assert!(grid.report().unwrap().ends_with("; 1 shape vanished, all of whose points fell together"));
    }

    #[test]
    fn commas() {
        assert_eq!([0, 999, 1000, 1234567].map(thousands), ["0", "999", "1,000", "1,234,567"]);
    }
}
