//! The reference as a static library: one judgement of a byte string, for a harness in C that asks the archive the same (tests/c/fuzz.c).
//! Built with coverage counters it guides a fuzzer: every branch that the reference takes is one that the archive must take too.

// the scenes that the comparison makes, and its mistakes, have no use here
#![allow(dead_code)]

mod areas;
mod cells;
mod check;
mod flags;
mod judge;
mod mistakes;
mod pieces;
mod plane;
mod scene;
mod split;
mod summary;
mod walk;
mod wkb;

use judge::{judge, VectorsAnswer};
use mistakes::RIGHT;
use pieces::Extent;
use split::Splitting;
use summary::LENGTH;
use wkb::{Reading, Writing};

#[repr(C)]
pub struct Vectors {
    number: u32,
    place: usize,
    f: u16,
    g: u16,
}

#[repr(C)]
pub struct Cells {
    number: u32,
    place: usize,
    cell: [[u8; 3]; 3],
}

#[repr(C)]
pub struct Relate {
    number: u32,
    place: usize,
    holds: bool,
}

#[repr(C)]
pub struct Overlap {
    number: u32,
    place: usize,
    count: usize,
}

#[repr(C)]
pub struct Areas {
    number: u32,
    place: usize,
    areas: [i64; 3],
}

#[repr(C)]
pub struct Summary {
    number: u32,
    place: usize,
    record: [u8; LENGTH],
}

#[repr(C)]
pub struct Far {
    number: u32,
    place: usize,
    look: bool,
    f: u16,
    g: u16,
}

#[repr(C)]
pub struct ReadWkb {
    number: u32,
    place: usize,
    length: usize,
    value: f64,
}

#[repr(C)]
pub struct WriteWkb {
    number: u32,
    place: usize,
    length: usize,
}

#[repr(C)]
pub struct Split {
    number: u32,
    place: usize,
    added_f: usize,
    added_g: usize,
    length: usize,
}

#[repr(C)]
pub struct Answers {
    all_f: u16,
    all_g: u16,
    vectors: Vectors,
    wanted: Vectors,
    nothing: Vectors,
    cells: Cells,
    relate: Relate,
    overlap: Overlap,
    areas: Areas,
    summary: Summary,
    far: Far,
}

fn vectors(answer: VectorsAnswer) -> Vectors {
    Vectors { number: answer.number, place: answer.place, f: answer.f, g: answer.g }
}

/// The masks of all flags, and under them the vectors; the vectors under the wanted masks and under two zeros, the cells, the pattern, the overlap list into `list`, and the areas.
/// The summary of the same bytes as one object; and what the first `split` of them and the rest tell as two summaries.
///
/// # Safety
/// `scene` has `length` bytes, of which `split` is no more, `pattern` has `pattern_length` and `list` has `room`, none is null.
#[no_mangle]
pub unsafe extern "C" fn reference_answers(
    scene: *const u8,
    length: usize,
    split: usize,
    want_f: u16,
    want_g: u16,
    pattern: *const u8,
    pattern_length: usize,
    list: *mut u8,
    room: usize,
) -> Answers {
    let (scene, list) = unsafe { (std::slice::from_raw_parts(scene, length), std::slice::from_raw_parts_mut(list, room)) };
    let pattern = unsafe { std::slice::from_raw_parts(pattern, pattern_length) };
    let judgement = judge(scene, &RIGHT);
    let (cells, overlap, areas) = (judgement.cells(), judgement.overlap(list), judgement.areas());
    let relate = judgement.relate(pattern);
    let (all_f, all_g) = judgement.all_flags();
    let summary = summary::summary(scene, &RIGHT);
    let far = summary::far(&scene[..split], &scene[split..], &RIGHT);
    Answers {
        all_f,
        all_g,
        vectors: vectors(judgement.vectors(all_f, all_g)),
        nothing: vectors(judgement.vectors(0, 0)),
        wanted: vectors(judgement.vectors(want_f, want_g)),
        cells: Cells { number: cells.number, place: cells.place, cell: cells.cell.map(|row| row.map(Extent::sign)) },
        relate: Relate { number: relate.number, place: relate.place, holds: relate.holds },
        overlap: Overlap { number: overlap.number, place: overlap.place, count: overlap.count },
        areas: Areas { number: areas.number, place: areas.place, areas: areas.areas },
        summary: Summary { number: summary.number, place: summary.place, record: summary.record },
        far: Far { number: far.number, place: far.place, look: far.look, f: far.f, g: far.g },
    }
}

/// The object that the bytes are read as, if they are well-known binary, into `buffer`.
///
/// # Safety
/// `wkb` has `length` bytes and `buffer` has `room`, neither is null.
#[no_mangle]
pub unsafe extern "C" fn reference_read_wkb(wkb: *const u8, length: usize, buffer: *mut u8, room: usize) -> ReadWkb {
    let (wkb, buffer) = unsafe { (std::slice::from_raw_parts(wkb, length), std::slice::from_raw_parts_mut(buffer, room)) };
    let answer = Reading::of(wkb, &RIGHT).answer(buffer);
    ReadWkb { number: answer.number, place: answer.place, length: answer.length, value: answer.value.0 }
}

/// The well-known binary of the bytes, if they are points or a line, into `buffer`.
///
/// # Safety
/// `object` has `length` bytes and `buffer` has `room`, neither is null.
#[no_mangle]
pub unsafe extern "C" fn reference_write_wkb(object: *const u8, length: usize, buffer: *mut u8, room: usize) -> WriteWkb {
    let (object, buffer) = unsafe { (std::slice::from_raw_parts(object, length), std::slice::from_raw_parts_mut(buffer, room)) };
    let answer = Writing::of(object, &RIGHT).answer(buffer);
    WriteWkb { number: answer.number, place: answer.place, length: answer.length }
}

/// The scene that the bytes are split into, if they are a pair, into `buffer`.
///
/// # Safety
/// `scene` has `length` bytes and `buffer` has `room`, neither is null.
#[no_mangle]
pub unsafe extern "C" fn reference_split(scene: *const u8, length: usize, buffer: *mut u8, room: usize) -> Split {
    let (scene, buffer) = unsafe { (std::slice::from_raw_parts(scene, length), std::slice::from_raw_parts_mut(buffer, room)) };
    let answer = Splitting::of(scene, &RIGHT).answer(buffer);
    Split { number: answer.number, place: answer.place, added_f: answer.added_f, added_g: answer.added_g, length: answer.length }
}
