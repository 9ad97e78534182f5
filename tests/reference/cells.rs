//! The nine cells and the overlap list from geometry alone: every sample point of pieces.rs is asked where it lies in F and in G, and a cell extends to the most
//! that a piece in it does. Neither the vectors nor the ia of the records take part.

use crate::mistakes::Rules;
use crate::pieces::{Extent, Pieces};
use crate::plane::{inside, Fraction, Point, Segment};
use crate::scene::{Half, Object, LINE, POINTS, REGION};

/// Rows interior, boundary, exterior of F; columns the same of G.
pub type Matrix = [[Extent; 3]; 3];

pub fn turned(matrix: &Matrix) -> Matrix {
    let mut result = Matrix::default();
    for (row, cells) in matrix.iter().enumerate() {
        for (column, cell) in cells.iter().enumerate() {
            result[column][row] = *cell;
        }
    }
    result
}

/// What a point needs to know of an object to find its part.
struct Parts<'a> {
    object: &'a Object,
    segments: Vec<Segment>,
    bound: Vec<Point>,
}

impl<'a> Parts<'a> {
    fn of(object: &'a Object, rules: &Rules) -> Parts<'a> {
        let bound = if object.kind == LINE { (rules.line_boundary)(object) } else { Vec::new() };
        Parts { object, segments: object.segments(), bound }
    }

    /// 0 interior, 1 boundary, 2 exterior.
    fn part(&self, p: &Fraction) -> usize {
        let on_segment = || self.segments.iter().any(|s| s.has(p));
        match self.object.kind {
            POINTS if self.object.points.iter().any(|q| p.is(*q)) => 0,
            LINE if self.bound.iter().any(|b| p.is(*b)) => 1,
            LINE if on_segment() => 0,
            REGION if on_segment() => 1,
            REGION if inside(&self.segments, p) => 0,
            _ => 2,
        }
    }
}

pub fn matrix(f: &Object, g: &Object, rules: &Rules) -> Matrix {
    let (parts_f, parts_g) = (Parts::of(f, rules), Parts::of(g, rules));
    let mut matrix = Matrix::default();
    for sample in Pieces::of(f, g).samples() {
        let cell = &mut matrix[parts_f.part(&sample.at)][parts_g.part(&sample.at)];
        *cell = sample.extent.max(*cell);
    }
    matrix
}

/// The nine signs, row by row.
pub fn signs(matrix: &Matrix) -> String {
    matrix.iter().flatten().map(|cell| cell.sign() as char).collect()
}

/// The matrix that nine signs stand for; none if a byte is none of the four.
#[cfg(library)]
pub fn of_signs(signs: &[u8; 9]) -> Option<Matrix> {
    let mut matrix = Matrix::default();
    for (cell, sign) in matrix.iter_mut().flatten().zip(signs) {
        *cell = [Extent::Empty, Extent::Points, Extent::Stretch, Extent::Area].into_iter().find(|extent| extent.sign() == *sign)?;
    }
    Some(matrix)
}

/// The different segments of two regions in the order of left halfsegments, each with its m and n.
pub fn overlap(f: &Object, g: &Object) -> Vec<(Segment, u8, u8)> {
    let mut lefts: Vec<Half> = f.halves.iter().chain(&g.halves).filter(|h| h.left).copied().collect();
    lefts.sort_by(Half::order);
    lefts.dedup_by_key(|h| h.segment);
    let pieces = Pieces::of(f, g);
    let regions = [f.segments(), g.segments()];
    let overlaps = |p: &Fraction| regions.iter().filter(|region| inside(region, p)).count() as u8;
    lefts
        .iter()
        .map(|h| {
            let sides = pieces.sides(&h.segment);
            (h.segment, overlaps(&sides.below), overlaps(&sides.above))
        })
        .collect()
}
