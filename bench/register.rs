//! A register by GEOS, as one would write it there: its tree finds the pairs whose boxes meet, and each first shape is prepared. `register geos FILE [SCALE X Y]` reads a table with a column
//! WKT and its names before it, puts coordinates on the grid as `karvoiss` does, and writes f,g,matrix; a shape that GEOS calls invalid is written alone. `register made KIND` writes a
//! table of 1,000 shapes of 64 segments. `register compare OURS THEIRS` counts where two registers agree.

use karvoiss::decimal::Decimal;
use karvoiss::grid::Grid;
use karvoiss::wkt;
use std::collections::HashMap;
use std::ffi::{c_char, c_double, c_int, c_uint, c_void, CStr, CString};
use std::io::{BufWriter, Write};

type Handle = *mut c_void;
type Geometry = *mut c_void;
type Prepared = *const c_void;
type Visit = extern "C" fn(*mut c_void, *mut c_void);
type Move = extern "C" fn(*mut c_double, *mut c_double, *mut c_void) -> c_int;
type Relate = unsafe extern "C" fn(Handle, Prepared, *const c_void) -> *mut c_char;

#[link(name = "geos_c")]
extern "C" {
    fn GEOSversion() -> *const c_char;
    fn GEOS_init_r() -> Handle;
    fn GEOSWKTReader_create_r(handle: Handle) -> *mut c_void;
    fn GEOSWKTReader_read_r(handle: Handle, reader: *mut c_void, text: *const c_char) -> Geometry;
    fn GEOSGeom_transformXY_r(handle: Handle, geometry: *const c_void, by: Move, data: *mut c_void) -> Geometry;
    fn GEOSisValid_r(handle: Handle, geometry: *const c_void) -> c_char;
    fn GEOSPrepare_r(handle: Handle, geometry: *const c_void) -> Prepared;
    fn GEOSPreparedGeom_destroy_r(handle: Handle, prepared: Prepared);
    fn GEOSPreparedIntersects_r(handle: Handle, prepared: Prepared, geometry: *const c_void) -> c_char;
    fn GEOSRelate_r(handle: Handle, f: *const c_void, g: *const c_void) -> *mut c_char;
    fn GEOSFree_r(handle: Handle, what: *mut c_void);
    fn GEOSSTRtree_create_r(handle: Handle, capacity: usize) -> *mut c_void;
    fn GEOSSTRtree_insert_r(handle: Handle, tree: *mut c_void, geometry: *const c_void, item: *mut c_void);
    fn GEOSSTRtree_query_r(handle: Handle, tree: *mut c_void, geometry: *const c_void, visit: Visit, data: *mut c_void);
    fn GEOSGetNumCoordinates_r(handle: Handle, geometry: *const c_void) -> c_int;
    fn GEOSGeom_getDimensions_r(handle: Handle, geometry: *const c_void) -> c_int;
    fn GEOSBoundary_r(handle: Handle, geometry: *const c_void) -> Geometry;
    fn GEOSisEmpty_r(handle: Handle, geometry: *const c_void) -> c_char;
    fn dlsym(handle: *mut c_void, name: *const c_char) -> *mut c_void;
}

/// What a shape's interior and boundary are to a shape that lies apart: the dimensions, F for no boundary.
unsafe fn alone(geos: Handle, shape: Geometry) -> [char; 2] {
    let dimension = GEOSGeom_getDimensions_r(geos, shape) as usize;
    let boundary = GEOSBoundary_r(geos, shape);
    let bounded = GEOSisEmpty_r(geos, boundary) == 0;
    [['0', '1', '2'][dimension], if bounded { ['F', '0', '1'][dimension] } else { 'F' }]
}

fn main() {
    let words: Vec<String> = std::env::args().skip(1).collect();
    let words: Vec<&str> = words.iter().map(String::as_str).collect();
    match words[..] {
        ["geos", file] => register(file, Grid::as_it_stands()),
        ["geos", file, scale, x, y] => {
            let read = |word: &str| Decimal::read(word).expect("a number");
            register(file, Grid::new(read(scale), [read(x), read(y)], true))
        }
        ["made", kind] => made(kind),
        ["compare", ours, theirs] => compare(ours, theirs),
        ["version"] => println!("{}", unsafe { CStr::from_ptr(GEOSversion()) }.to_string_lossy()),
        _ => panic!("register geos FILE [SCALE X Y], made coverage|crossing, compare OURS THEIRS, or version"),
    }
}

/// The rows of a table with the columns name and WKT, in either order and with others.
fn rows(file: &str) -> Vec<(String, String)> {
    let text = std::fs::read_to_string(file).expect("a file");
    let mut lines = text.lines();
    let heading: Vec<String> = fields(lines.next().unwrap_or("")).iter().map(|field| field.to_lowercase()).collect();
    let place = |name: &str| heading.iter().position(|field| field == name);
    let (shape, name) = (place("wkt").expect("a column WKT"), place("name").or(place("id")));
    let row = |(at, line): (usize, &str)| {
        let fields = fields(line);
        (name.map_or(format!("{}", at + 1), |name| fields[name].clone()), fields[shape].clone())
    };
    lines.enumerate().map(row).collect()
}

fn fields(line: &str) -> Vec<String> {
    let mut fields = vec![String::new()];
    let mut quoted = false;
    for c in line.chars() {
        match c {
            '"' => quoted = !quoted,
            ',' if !quoted => fields.push(String::new()),
            c => fields.last_mut().expect("a field").push(c),
        }
    }
    fields
}

extern "C" fn moved(x: *mut c_double, y: *mut c_double, grid: *mut c_void) -> c_int {
    let grid = unsafe { &mut *(grid as *mut Grid) };
    for (axis, value) in [x, y].into_iter().enumerate() {
        let place = grid.place(&format!("{:e}", unsafe { *value }), axis).expect("a place on the grid");
        unsafe { *value = place };
    }
    1
}

extern "C" fn met(item: *mut c_void, found: *mut c_void) {
    unsafe { (*(found as *mut Vec<usize>)).push(item as usize) };
}

fn register(file: &str, mut grid: Grid) {
    unsafe {
        let geos = GEOS_init_r();
        let reader = GEOSWKTReader_create_r(geos);
        let name = CString::new("GEOSPreparedRelate_r").expect("a name");
        let address = dlsym(std::ptr::null_mut(), name.as_ptr());
        let prepared_relate: Option<Relate> = if address.is_null() { None } else { Some(std::mem::transmute::<*mut c_void, Relate>(address)) };
        let mut shapes = Vec::new();
        let mut out = BufWriter::new(std::io::stdout());
        let tree = GEOSSTRtree_create_r(geos, 10);
        let mut vertices = 0;
        for (name, text) in rows(file) {
            let text = CString::new(text).expect("no zero");
            let mut shape = GEOSWKTReader_read_r(geos, reader, text.as_ptr());
            if grid.moves() {
                shape = GEOSGeom_transformXY_r(geos, shape, moved, &mut grid as *mut Grid as *mut c_void);
            }
            vertices += GEOSGetNumCoordinates_r(geos, shape);
            if GEOSisValid_r(geos, shape) == 1 {
                GEOSSTRtree_insert_r(geos, tree, shape, shapes.len() as *mut c_void);
                shapes.push((name, shape, alone(geos, shape)));
            } else {
                writeln!(out, "{name},,invalid").expect("written");
            }
        }
        let mut near = 0;
        for first in 0..shapes.len() {
            let (f, shape, [i, b]) = &shapes[first];
            let prepared = GEOSPrepare_r(geos, *shape);
            let mut found: Vec<usize> = Vec::new();
            GEOSSTRtree_query_r(geos, tree, *shape, met, &mut found as *mut Vec<usize> as *mut c_void);
            found.sort_unstable();
            let mut candidates = found.into_iter().filter(|at| *at > first).peekable();
            for (second, (g, other, [j, c])) in shapes.iter().enumerate().skip(first + 1) {
                let is_near = candidates.next_if_eq(&second).is_some();
                near += is_near as u64;
                let matrix = match prepared_relate {
                    _ if !is_near => None,
                    Some(relate) => Some(relate(geos, prepared, *other)),
                    None if GEOSPreparedIntersects_r(geos, prepared, *other) == 1 => Some(GEOSRelate_r(geos, *shape, *other)),
                    None => None,
                };
                let signs = matrix.map_or(format!("FF{i}FF{b}{j}{c}2"), |matrix| CStr::from_ptr(matrix).to_string_lossy().into_owned());
                writeln!(out, "{f},{g},{signs}").expect("written");
                matrix.into_iter().for_each(|matrix| GEOSFree_r(geos, matrix as *mut c_void));
            }
            GEOSPreparedGeom_destroy_r(geos, prepared);
        }
        eprintln!("{} shapes of {} vertices, {near} pairs whose boxes meet", shapes.len(), vertices as c_uint);
    }
}

/// Whether two matrices differ in boundary with exterior alone, where GEOS has found nothing: the fault of 3.13.1 that docs/BENCH.md describes.
fn is_missed(ours: &str, theirs: &str) -> bool {
    let alike = |(at, (a, b)): (usize, (u8, u8))| a == b || [5, 7].contains(&at) && b == b'F';
    ours.bytes().zip(theirs.bytes()).enumerate().all(alike)
}

/// Whether the two segments that a refusal names cross properly, at a point that is not on the grid: computed anew, in fractions.
fn is_off_the_grid(says: &str) -> bool {
    let named = says.split_once("grid: ").map_or("", |(_, named)| named).split(" of G").next().unwrap_or("");
    let numbers: Vec<i128> =
        named.split(|c: char| !c.is_ascii_digit() && c != '-').filter_map(|word| word.trim_end_matches('-').parse().ok()).collect();
    let [a, b, c, d, e, f, g, h] = numbers[..] else {
        return false;
    };
    let cross = |u: [i128; 2], v: [i128; 2]| u[0] * v[1] - u[1] * v[0];
    let (along, across, between) = ([c - a, d - b], [g - e, h - f], [e - a, f - b]);
    let (whole, part, other) = (cross(along, across), cross(between, across), cross(between, along));
    let within = |part: i128| 0 < part * whole.signum() && part.abs() < whole.abs();
    let off = |from: i128, step: i128| (from * whole + step * part) % whole != 0;
    whole != 0 && within(part) && within(other) && (off(a, along[0]) || off(b, along[1]))
}

/// As many of the pairs that differ are written.
const SHOWN: u64 = 5;

/// Both registers by their pairs; where they differ, and what ours refuses, is written.
fn compare(ours: &str, theirs: &str) {
    let key = |fields: &[String]| (fields[0].clone(), fields[1].clone());
    let read = |file: &str| std::fs::read_to_string(file).expect("a register");
    let text = read(theirs);
    let theirs: HashMap<(String, String), String> = text.lines().map(fields).map(|fields| (key(&fields), fields[2].clone())).collect();
    let (mut same, mut differ, mut missed, mut alone, mut near, mut crossings) = (0, 0, 0, 0, 0, 0);
    let mut refused: HashMap<String, u64> = HashMap::new();
    for line in read(ours).lines().skip(1).map(fields) {
        let number = &line[line.len() - 2];
        match theirs.get(&key(&line)) {
            _ if !number.is_empty() => {
                crossings += (number == "19" && is_off_the_grid(&line[line.len() - 1])) as u64;
                *refused.entry(format!("{number}{}", if line[1].is_empty() { " (shape)" } else { "" })).or_default() += 1;
            }
            Some(matrix) if *matrix == line[2] => {
                same += 1;
                near += !(matrix.starts_with("FF") && matrix[3..].starts_with("FF")) as u64;
            }
            Some(matrix) => {
                differ += 1;
                missed += is_missed(&line[2], matrix) as u64;
                if differ <= SHOWN {
                    println!("  {} and {}: ours {}, GEOS {matrix}", line[0], line[1], line[2]);
                }
            }
            None => alone += 1,
        }
    }
    let invalid = theirs.values().filter(|matrix| *matrix == "invalid").count();
    let mut refused: Vec<String> = refused.into_iter().map(|(number, count)| format!("{count} with {number}")).collect();
    refused.sort();
    println!("  same {same} (of which not apart {near}), different {differ} (of which by a boundary missed in the exterior {missed}), refused by us: [{}], crossings off the grid found again {crossings}; invalid shapes by GEOS {invalid}, our pairs with one {alone}", refused.join(", "));
}

/// 1,000 shapes of 64 segments, as a coverage whose neighbours share their borders, or as crosses that lie over each other and cross on the grid.
fn made(kind: &str) {
    println!("name,WKT");
    for at in 0..1000_i64 {
        let ring = if kind == "coverage" { cell(at % 40, at / 40) } else { comb(at) };
        let points: Vec<String> = ring.iter().chain(ring.first()).map(|(x, y)| format!("{x} {y}")).collect();
        let text = format!("POLYGON (({}))", points.join(", "));
        assert!(wkt::read(&text, &mut Grid::as_it_stands()).is_ok_and(|items| items[0].object.is_ok()), "{text}");
        assert_eq!(ring.len(), 64);
        println!("s{at},\"{text}\"");
    }
}

const CELL: i64 = 16_000;

/// A field with 16 segments to a side; what a side's inner points are moved by depends on the side alone, so both neighbours have the same.
fn cell(column: i64, row: i64) -> Vec<(i64, i64)> {
    let step = CELL / 16;
    let bend = |seed: i64| (seed * 2_654_435_761 % 1_000_003) % 1_201 - 600;
    let level = |row: i64, k: i64| (column * CELL + k * step, row * CELL + if k % 16 == 0 { 0 } else { bend(row * 7_919 + column * 131 + k) });
    let upright = |column: i64, k: i64| (column * CELL + if k % 16 == 0 { 0 } else { bend(column * 104_729 + row * 137 + k) }, row * CELL + k * step);
    let mut ring: Vec<(i64, i64)> = (0..16).map(|k| level(row, k)).collect();
    ring.extend((0..16).map(|k| upright(column + 1, k)));
    ring.extend((1..=16).rev().map(|k| level(row + 1, k)));
    ring.extend((1..=16).rev().map(|k| upright(column, k)));
    ring
}

/// A comb of upright and level segments, of 16 teeth: two combs cross at whole coordinates.
fn comb(at: i64) -> Vec<(i64, i64)> {
    let dice = |seed: i64, below: i64| (at * 7_919 + seed * 104_729).wrapping_mul(2_654_435_761).rem_euclid(1_000_003) % below;
    let (x, y, wide, high) = (dice(1, 60_000), dice(2, 60_000), 60 + dice(3, 200), 3_000 + dice(4, 3_000));
    let mut ring = vec![(x, y)];
    for tooth in (0..16).rev() {
        let (left, right) = (x + 2 * tooth * wide, x + (2 * tooth + 1) * wide);
        let top = y + high + dice(10 + tooth, high);
        if tooth == 15 {
            ring.push((right, y));
        }
        ring.extend([(right, top), (left, top)]);
        if tooth > 0 {
            ring.extend([(left, y + high / 2), (left - wide, y + high / 2)]);
        }
    }
    ring
}
