//! The command `karvoiss`: from files of shapes to how they lie to each other, in words, as pictures, as a register. It stands outside the proved crates and none of them trusts it:
//! whatever decides is the library's (`library`), and what the tool adds is files read, decimals put on the grid, bytes put together, and words.

pub mod answer;
pub mod bytes;
pub mod csv;
pub mod decimal;
pub mod draw;
pub mod explain;
pub mod flags;
pub mod form;
pub mod geojson;
pub mod grid;
pub mod help;
pub mod input;
pub mod json;
pub mod library;
pub mod listing;
pub mod options;
pub mod pair;
pub mod predicate;
pub mod progress;
pub mod records;
pub mod refusals;
pub mod register;
pub mod relate;
pub mod relation;
pub mod rings;
pub mod rows;
pub mod shape;
pub mod show;
pub mod two;
pub mod wkb;
pub mod wkt;

#[cfg(test)]
mod tests;
