//! The library's answer to a scene: types, vectors with all flags, and cells; or its refusal.

use crate::bytes::{self, Kind};
use crate::flags;
use crate::library::{self, No};

#[derive(PartialEq, Debug)]
pub enum Answer {
    Taken(Taken),
    Refused { number: u32, place: usize },
}

#[derive(PartialEq, Debug)]
pub struct Taken {
    pub kinds: [Kind; 2],
    pub vectors: [u16; 2],
    pub cells: Cells,
}

/// What the points of a cell amount to: none, finitely many, a stretch, an area.
#[derive(Clone, Copy, PartialEq, Eq, Debug)]
pub enum Cell {
    Empty,
    Points,
    Stretch,
    Area,
}

impl Cell {
    const ALL: [Cell; 4] = [Cell::Empty, Cell::Points, Cell::Stretch, Cell::Area];

    /// As the library has it, and OGC's DE-9IM strings.
    pub fn sign(self) -> char {
        ['F', '0', '1', '2'][self as usize]
    }

    pub fn of(sign: u8) -> Cell {
        Cell::ALL.into_iter().find(|cell| cell.sign() as u8 == sign).unwrap_or(Cell::Empty)
    }

    pub fn is_empty(self) -> bool {
        self == Cell::Empty
    }

    /// The sign with its meaning; a dash where there is nothing.
    pub fn words(self) -> &'static str {
        ["-", "0 points", "1 stretch", "2 area"][self as usize]
    }
}

/// Rows: interior, boundary, exterior of F. Columns: the same of G.
pub type Cells = [[Cell; 3]; 3];

pub fn of_signs(signs: library::Cells) -> Cells {
    signs.map(|row| row.map(Cell::of))
}

/// The nine signs, row by row.
pub fn matrix(cells: &Cells) -> String {
    let mut matrix = String::with_capacity(9);
    cells.iter().flatten().for_each(|cell| matrix.push(cell.sign()));
    matrix
}

/// The types of a scene's objects, each the second byte of its type record.
pub fn kinds(scene: &[u8]) -> Option<[Kind; 2]> {
    let kind = |at: usize| scene.get(at).and_then(|byte| Kind::of(*byte));
    Some([kind(1)?, kind(bytes::second(scene) + 1)?])
}

pub fn ask(scene: &[u8]) -> Answer {
    taken(scene).map_or_else(|No { number, place }| Answer::Refused { number, place }, Answer::Taken)
}

fn taken(scene: &[u8]) -> Result<Taken, No> {
    let cells = of_signs(library::cells(scene)?);
    // what is taken has both types
    let kinds = kinds(scene).ok_or(No { number: 3, place: 0 })?;
    let vectors = library::vectors(scene, flags::of(kinds).map(|flags| ((1 << flags.len()) - 1) as u16))?;
    Ok(Taken { kinds, vectors, cells })
}

/// What `explore` writes of a scene that is taken, without the "ok".
#[cfg(test)]
pub fn noted(line: &str) -> Taken {
    let fields: Vec<&str> = line.split(' ').collect();
    let [f, g, vf, vg, cells] = fields[..] else {
        panic!("{line}");
    };
    let sign = |at: usize| Cell::of(cells.as_bytes()[at]);
    Taken {
        kinds: [f, g].map(|kind| Kind::of(kind.parse().unwrap()).unwrap()),
        vectors: [vf, vg].map(|vector| vector.parse().unwrap()),
        cells: [0, 3, 6].map(|row| [0, 1, 2].map(|column| sign(row + column))),
    }
}
