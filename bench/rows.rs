//! The rows of the measurement: every family with every pair of types, in either order, in three sizes, and random scenes of full size.

use crate::maker::full;
use crate::random::Random;
use crate::scene::{scene_bytes, Object, LINE, MOST, POINTS, REGION};
use crate::shapes::FAMILIES;

pub const SIZES: [usize; 3] = [16, 128, FULL];
pub const FULL: usize = MOST / 2;

/// The pairs of types as the tables have them: a pair with the higher type first comes right after the same two objects the other way round.
pub const EITHER_ORDER: [(u8, u8); 9] = [
    (POINTS, POINTS),
    (POINTS, LINE),
    (LINE, POINTS),
    (POINTS, REGION),
    (REGION, POINTS),
    (LINE, LINE),
    (LINE, REGION),
    (REGION, LINE),
    (REGION, REGION),
];

/// The family of the random scenes: parts of one network of squares and triangles.
pub const RANDOM: &str = "random";

/// The family whose objects lie side by side, their boxes apart.
pub const APART: &str = "far";

pub struct Row {
    pub family: &'static str,
    pub kinds: (u8, u8),
    pub size: usize,
    pub bytes: Vec<u8>,
}

impl Row {
    /// The row's name in one word: family, types, size.
    pub fn name(&self) -> String {
        name(self.family, self.kinds, self.size)
    }
}

pub fn name(family: &str, kinds: (u8, u8), size: usize) -> String {
    format!("{family}-{}{}-{size}", kinds.0, kinds.1)
}

pub fn all() -> Vec<Row> {
    let mut rows = Vec::new();
    for family in &FAMILIES {
        for kinds in EITHER_ORDER {
            rows.extend(SIZES.map(|size| row(family.name, kinds, size, family.scene(kinds, size))));
        }
    }
    rows.extend(EITHER_ORDER.map(|kinds| row(RANDOM, kinds, FULL, full_pair(kinds))));
    rows
}

fn row(family: &'static str, kinds: (u8, u8), size: usize, (f, g): (Object, Object)) -> Row {
    Row { family, kinds, size, bytes: scene_bytes(&f, &g) }
}

/// The first random scene of a pair whose objects are both full; lines and points are now and then smaller.
pub fn full_pair(kinds: (u8, u8)) -> (Object, Object) {
    let is_full = |object: &Object| object.places.len() >= if object.kind == POINTS { MOST / 2 } else { MOST };
    (1..).map(|seed| full(&mut Random::new(seed), kinds)).find(|(f, g)| is_full(f) && is_full(g)).expect("some scene is full")
}

/// What a type is called in the tables.
pub fn kind_name(kind: u8) -> &'static str {
    match kind {
        POINTS => "points",
        LINE => "line",
        _ => "region",
    }
}
