//! A scene with its two objects exchanged, and what its answers must be, from those to the scene as it was: the same number, the vectors exchanged, the
//! cells turned about the diagonal, the same overlap list, the areas in one region only exchanged. Two objects of one type share flags: those change places, and
//! what is said of both stays.

use crate::areas::Areas;
use crate::cells::{turned, Matrix};
use crate::scene::{LINE, POINTS};

/// The answers to all questions about one byte string, all flags wanted and room for the list. Without the places, which are those of the bytes as given.
#[derive(Clone, PartialEq, Eq, Debug)]
pub struct Answers {
    pub numbers: [u32; 4],
    pub vectors: (u16, u16),
    pub cells: Matrix,
    pub list: Vec<u8>,
    pub areas: Areas,
}

impl Answers {
    /// The answers to the exchanged scene, the types of this one being f and g.
    pub fn exchanged(&self, f: u8, g: u8) -> Answers {
        let vectors = if f == g { shared_exchanged(f, self.vectors) } else { (self.vectors.1, self.vectors.0) };
        let [both, f_only, g_only] = self.areas;
        Answers { vectors, cells: turned(&self.cells), areas: [both, g_only, f_only], ..self.clone() }
    }
}

/// The scene with its objects exchanged, the second one beginning at an offset.
pub fn bytes(scene: &[u8], second: usize) -> Vec<u8> {
    let (f, g) = scene.split_at(second);
    [g, f].concat()
}

/// The bits of F's vector whose flags both objects of a type have: bit k of G's is the flag of the k-th of them.
fn shared_bits(kind: u8) -> &'static [u32] {
    match kind {
        POINTS => &[0],
        LINE => &[2, 3, 5],
        _ => &[0, 1, 2, 3],
    }
}

fn shared_exchanged(kind: u8, (f, g): (u16, u16)) -> (u16, u16) {
    let (mut new_f, mut new_g) = (f, 0);
    for (k, bit) in shared_bits(kind).iter().enumerate() {
        new_f = new_f & !(1 << bit) | (g >> k & 1) << bit;
        new_g |= (f >> bit & 1) << k;
    }
    (new_f, new_g)
}
