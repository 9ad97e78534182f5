//! A shape as a file describes it, and its way into the library: paths of points are written as well-known binary, and the library reads that and decides. What it finds at a byte
//! is told at the place in the file that the byte was made of.

use crate::bytes::Kind;
use crate::library;
use crate::refusals::{self, Refused};

/// A point on the grid, with the places of its x and y in the file.
#[derive(Clone, Copy)]
pub struct Placed {
    pub x: f64,
    pub y: f64,
    pub at: [usize; 2],
}

/// The points of a part or of a ring, and where it begins in the file.
pub struct Path {
    pub points: Vec<Placed>,
    pub at: usize,
}

/// Each part is one path of one point, one path, or the rings of a polygon.
pub struct Shape {
    pub kind: Kind,
    pub parts: Vec<Vec<Path>>,
}

/// A shape that was found in a file, as an object's bytes, or why it is none; with the name that the file gives it.
pub struct Item {
    pub name: Option<String>,
    pub at: usize,
    pub object: Result<Vec<u8>, Refused>,
}

/// What is wrong with a file, at a place in it: nothing of the file is taken.
#[derive(PartialEq, Debug)]
pub struct Fault {
    pub at: usize,
    pub message: String,
}

impl Shape {
    pub fn object(&self) -> Result<Vec<u8>, Refused> {
        library::read_wkb(&self.wkb(|_, _| ())).map_err(|(no, value)| {
            let mut at = None;
            if (24..=26).contains(&no.number) {
                self.wkb(|offset, source| at = if offset == no.place { Some(source) } else { at });
            }
            Refused { number: no.number, at, says: self.words(no.number, value) }
        })
    }

    fn words(&self, number: u32, value: f64) -> String {
        match (number, self.kind) {
            (24, Kind::Line) => "a part needs two points or more; this one has one".to_string(),
            (24, _) => "a ring needs four points or more, the last equal to the first; this one has fewer".to_string(),
            _ => refusals::sentence(number, value),
        }
    }

    /// Well-known binary, low byte first; of each count and coordinate it is told which byte it begins at, and which place of the file it was made of.
    fn wkb(&self, mut made: impl FnMut(usize, usize)) -> Vec<u8> {
        let mut wkb = Vec::new();
        let kind = self.kind.byte() as u32;
        header(&mut wkb, 3 + kind);
        count(&mut wkb, self.parts.len());
        for paths in &self.parts {
            header(&mut wkb, kind);
            if self.kind == Kind::Region {
                count(&mut wkb, paths.len());
            }
            for path in paths {
                if self.kind != Kind::Points {
                    made(wkb.len(), path.at);
                    count(&mut wkb, path.points.len());
                }
                for point in &path.points {
                    coordinate(&mut wkb, point.x, point.at[0], &mut made);
                    coordinate(&mut wkb, point.y, point.at[1], &mut made);
                }
            }
        }
        wkb
    }
}

fn header(wkb: &mut Vec<u8>, kind: u32) {
    wkb.push(1);
    wkb.extend(kind.to_le_bytes());
}

fn count(wkb: &mut Vec<u8>, count: usize) {
    wkb.extend((count as u32).to_le_bytes());
}

fn coordinate(wkb: &mut Vec<u8>, value: f64, at: usize, made: &mut impl FnMut(usize, usize)) {
    made(wkb.len(), at);
    wkb.extend(value.to_le_bytes());
}

/// Where the lines of a text begin, so that places can be told by line and column however many there are.
pub struct Lines<'a> {
    text: &'a str,
    starts: Vec<usize>,
}

impl<'a> Lines<'a> {
    pub fn of(text: &'a str) -> Lines<'a> {
        let starts = std::iter::once(0).chain(text.match_indices('\n').map(|(at, _)| at + 1)).collect();
        Lines { text, starts }
    }

    /// Both counted from 1, columns in characters.
    pub fn place(&self, at: usize) -> (usize, usize) {
        let at = (0..=at.min(self.text.len())).rev().find(|at| self.text.is_char_boundary(*at)).unwrap_or(0);
        let line = self.starts.partition_point(|start| *start <= at);
        (line, self.text[self.starts[line - 1]..at].chars().count() + 1)
    }
}

#[cfg(test)]
mod tests {
    use super::*;

    #[test]
    fn places() {
        let lines = Lines::of("ab\né\n\n");
        assert_eq!([0, 2, 3, 5, 6, 7, 99].map(|at| lines.place(at)), [(1, 1), (1, 3), (2, 1), (2, 2), (3, 1), (4, 1), (4, 1)]);
    }
}
