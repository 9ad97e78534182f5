//! GEOS, through its C interface: a scene's objects built from the scene's bytes, tested for validity, and related under its own boundary rule, the
//! OGC's of odd counts, which is document 02's boundary of a line if each segment is a part of its own. And the areas of two regions, by overlay, well-known binary, and noding.

use crate::cells::{of_signs, Matrix};
use crate::plane::{Point, Segment};
use crate::scene::{object_bytes, Object, LINE, POINTS};
use command::bytes::{read, Point as RingPoint, Record};
use command::rings::polygons;
use std::collections::HashMap;
use std::ffi::{c_char, c_double, c_int, c_uint, c_void, CStr};
use std::ptr::null;

type Handle = *mut c_void;
type Geometry = *mut c_void;
type Coordinates = *mut c_void;

const MULTIPOINT: c_int = 4;
const MULTILINESTRING: c_int = 5;
const MULTIPOLYGON: c_int = 6;
const COLLECTION: c_int = 7;

#[link(name = "geos_c")]
extern "C" {
    fn GEOSversion() -> *const c_char;
    fn GEOS_init_r() -> Handle;
    fn GEOSCoordSeq_copyFromBuffer_r(handle: Handle, from: *const c_double, size: c_uint, has_z: c_int, has_m: c_int) -> Coordinates;
    fn GEOSGeom_createPointFromXY_r(handle: Handle, x: c_double, y: c_double) -> Geometry;
    fn GEOSGeom_createLineString_r(handle: Handle, coordinates: Coordinates) -> Geometry;
    fn GEOSGeom_createLinearRing_r(handle: Handle, coordinates: Coordinates) -> Geometry;
    fn GEOSGeom_createPolygon_r(handle: Handle, shell: Geometry, holes: *const Geometry, count: c_uint) -> Geometry;
    fn GEOSGeom_createCollection_r(handle: Handle, kind: c_int, parts: *const Geometry, count: c_uint) -> Geometry;
    fn GEOSGeom_destroy_r(handle: Handle, geometry: Geometry);
    fn GEOSisValid_r(handle: Handle, geometry: *const c_void) -> c_char;
    fn GEOSRelate_r(handle: Handle, f: *const c_void, g: *const c_void) -> *mut c_char;
    fn GEOSRelatePattern_r(handle: Handle, f: *const c_void, g: *const c_void, pattern: *const c_char) -> c_char;
    fn GEOSIntersection_r(handle: Handle, f: *const c_void, g: *const c_void) -> Geometry;
    fn GEOSDifference_r(handle: Handle, f: *const c_void, g: *const c_void) -> Geometry;
    fn GEOSArea_r(handle: Handle, geometry: *const c_void, area: *mut c_double) -> c_int;
    fn GEOSFree_r(handle: Handle, what: *mut c_void);
    fn GEOSNode_r(handle: Handle, geometry: *const c_void) -> Geometry;
    fn GEOSGeom_clone_r(handle: Handle, geometry: *const c_void) -> Geometry;
    fn GEOSGetNumCoordinates_r(handle: Handle, geometry: *const c_void) -> c_int;
    fn GEOSEquals_r(handle: Handle, f: *const c_void, g: *const c_void) -> c_char;
    fn GEOSGetGeometryN_r(handle: Handle, geometry: *const c_void, index: c_int) -> *const c_void;
    fn GEOSGetNumGeometries_r(handle: Handle, geometry: *const c_void) -> c_int;
    fn GEOSWKBReader_create_r(handle: Handle) -> *mut c_void;
    fn GEOSWKBReader_read_r(handle: Handle, reader: *mut c_void, wkb: *const u8, size: usize) -> Geometry;
    fn GEOSWKBReader_destroy_r(handle: Handle, reader: *mut c_void);
    fn GEOSWKBWriter_create_r(handle: Handle) -> *mut c_void;
    fn GEOSWKBWriter_setOutputDimension_r(handle: Handle, writer: *mut c_void, dimension: c_int);
    fn GEOSWKBWriter_setByteOrder_r(handle: Handle, writer: *mut c_void, order: c_int);
    fn GEOSWKBWriter_write_r(handle: Handle, writer: *mut c_void, geometry: *const c_void, size: *mut usize) -> *mut u8;
    fn GEOSWKBWriter_destroy_r(handle: Handle, writer: *mut c_void);
}

type Overlay = unsafe extern "C" fn(Handle, *const c_void, *const c_void) -> Geometry;

/// A path through a scene's bytes: the offset of each point's coordinates.
type Path = Vec<usize>;

/// How an object's points make up parts, worked out beforehand: the points, the segments, or the polygons with their rings.
pub enum Parts {
    Points(Path),
    Segments(Vec<Path>),
    Polygons(Vec<Vec<Path>>),
}

impl Parts {
    /// The parts in the order of the object's elements.
    pub fn of(object: &Object) -> Parts {
        match object.kind {
            POINTS => Parts::Points(object.places.iter().map(|place| place + 1).collect()),
            LINE => Parts::Segments(segments(object).map(|(_, place)| vec![place + 1, place + 9]).collect()),
            _ => Parts::Polygons(polygons_of(object)),
        }
    }

    /// The same with a line's segments that end at one of some points first.
    pub fn with_first(object: &Object, points: &[Point]) -> Parts {
        let mut parts = Parts::of(object);
        if let Parts::Segments(paths) = &mut parts {
            let comes_first = segments(object).map(|(s, _)| points.iter().any(|p| s.has_end(*p)));
            let mut keyed: Vec<(bool, Path)> = comes_first.zip(paths.drain(..)).collect();
            keyed.sort_by_key(|(first, _)| !first);
            paths.extend(keyed.into_iter().map(|(_, path)| path));
        }
        parts
    }
}

/// Each segment with the offset of its left record.
fn segments(object: &Object) -> impl Iterator<Item = (Segment, usize)> + '_ {
    object.halves.iter().zip(&object.places).filter(|(h, _)| h.left).map(|(h, place)| (h.segment, *place))
}

/// The rings as the command traces them: a region's outline is even-odd, so squares that meet at a corner are polygons of their own.
fn polygons_of(region: &Object) -> Vec<Vec<Path>> {
    let mut offsets: HashMap<Point, usize> = HashMap::new();
    for (s, place) in segments(region) {
        offsets.insert(s.left, place + 1);
        offsets.insert(s.right, place + 9);
    }
    let bytes = object_bytes(region);
    let records: Vec<Record> = bytes[2..bytes.len() - 1].chunks(19).filter_map(read).collect();
    let path = |ring: Vec<RingPoint>| ring.iter().map(|p| offsets[&(p.x, p.y)]).collect();
    let traced = polygons(&records).expect("an accepted region");
    traced.into_iter().map(|rings| rings.into_iter().map(path).collect()).collect()
}

fn coordinate(bytes: &[u8], at: usize) -> c_double {
    i32::from_le_bytes([bytes[at], bytes[at + 1], bytes[at + 2], bytes[at + 3]]) as c_double
}

/// One context of the library.
pub struct Geos(Handle);

impl Geos {
    pub fn new() -> Geos {
        Geos(unsafe { GEOS_init_r() })
    }

    pub fn version() -> String {
        unsafe { CStr::from_ptr(GEOSversion()) }.to_string_lossy().into_owned()
    }

    fn coordinates(&self, bytes: &[u8], path: &[usize]) -> Coordinates {
        let buffer: Vec<c_double> = path.iter().flat_map(|at| [coordinate(bytes, *at), coordinate(bytes, at + 4)]).collect();
        unsafe { GEOSCoordSeq_copyFromBuffer_r(self.0, buffer.as_ptr(), path.len() as c_uint, 0, 0) }
    }

    fn ring(&self, bytes: &[u8], path: &[usize]) -> Geometry {
        unsafe { GEOSGeom_createLinearRing_r(self.0, self.coordinates(bytes, path)) }
    }

    fn polygon(&self, bytes: &[u8], rings: &[Path]) -> Geometry {
        let holes: Vec<Geometry> = rings[1..].iter().map(|ring| self.ring(bytes, ring)).collect();
        unsafe { GEOSGeom_createPolygon_r(self.0, self.ring(bytes, &rings[0]), holes.as_ptr(), holes.len() as c_uint) }
    }

    fn build(&self, bytes: &[u8], parts: &Parts) -> Geometry {
        let point = |at: &usize| unsafe { GEOSGeom_createPointFromXY_r(self.0, coordinate(bytes, *at), coordinate(bytes, at + 4)) };
        let line = |path: &Path| unsafe { GEOSGeom_createLineString_r(self.0, self.coordinates(bytes, path)) };
        let (kind, built): (c_int, Vec<Geometry>) = match parts {
            Parts::Points(points) => (MULTIPOINT, points.iter().map(point).collect()),
            Parts::Segments(paths) => (MULTILINESTRING, paths.iter().map(line).collect()),
            Parts::Polygons(all) => (MULTIPOLYGON, all.iter().map(|rings| self.polygon(bytes, rings)).collect()),
        };
        unsafe { GEOSGeom_createCollection_r(self.0, kind, built.as_ptr(), built.len() as c_uint) }
    }
}

/// Two geometries as GEOS holds them.
pub struct Pair<'a> {
    geos: &'a Geos,
    f: Geometry,
    g: Geometry,
}

impl<'a> Pair<'a> {
    pub fn build(geos: &'a Geos, bytes: &[u8], parts: &[Parts; 2]) -> Pair<'a> {
        Pair { geos, f: geos.build(bytes, &parts[0]), g: geos.build(bytes, &parts[1]) }
    }

    pub fn is_valid(&self) -> bool {
        [self.f, self.g].iter().all(|geometry| unsafe { GEOSisValid_r(self.geos.0, *geometry) } == 1)
    }

    /// The nine cells with what each extends to, or none if GEOS raised an exception.
    pub fn relate(&self) -> Option<Matrix> {
        let text = unsafe { GEOSRelate_r(self.geos.0, self.f, self.g) };
        if text as *const c_char == null() {
            return None;
        }
        let matrix = of_signs(unsafe { &*(text as *const [u8; 9]) });
        unsafe { GEOSFree_r(self.geos.0, text as *mut c_void) };
        matrix
    }
}

impl Pair<'_> {
    /// Whether a pattern holds, or none if GEOS raised an exception.
    fn holds(&self, pattern: &CStr) -> Option<bool> {
        match unsafe { GEOSRelatePattern_r(self.geos.0, self.f, self.g, pattern.as_ptr()) } {
            0 => Some(false),
            1 => Some(true),
            _ => None,
        }
    }

    /// Twice the area of an overlay, or none if GEOS raised an exception.
    fn overlaid(&self, overlay: Overlay, of: Geometry, with: Geometry) -> Option<f64> {
        let part = unsafe { overlay(self.geos.0, of, with) };
        if part.is_null() {
            return None;
        }
        let mut area = 0.0;
        let measured = unsafe { GEOSArea_r(self.geos.0, part, &mut area) };
        unsafe { GEOSGeom_destroy_r(self.geos.0, part) };
        (measured == 1).then_some(2.0 * area)
    }

    /// The segments of both, noded and each taken once, or none if GEOS raised an exception.
    pub fn noded(&self) -> Option<usize> {
        unsafe {
            let both = [self.f, self.g].map(|geometry| GEOSGeom_clone_r(self.geos.0, geometry));
            let all = GEOSGeom_createCollection_r(self.geos.0, COLLECTION, both.as_ptr(), 2);
            let noded = GEOSNode_r(self.geos.0, all);
            GEOSGeom_destroy_r(self.geos.0, all);
            if noded.is_null() {
                return None;
            }
            let (ends, paths) = (GEOSGetNumCoordinates_r(self.geos.0, noded), GEOSGetNumGeometries_r(self.geos.0, noded));
            GEOSGeom_destroy_r(self.geos.0, noded);
            Some((ends - paths) as usize)
        }
    }

    /// Twice the area in both.
    pub fn shared_area(&self) -> Option<f64> {
        self.overlaid(GEOSIntersection_r, self.f, self.g)
    }

    /// Twice the areas in both, in F only and in G only.
    pub fn areas(&self) -> Option<[f64; 3]> {
        Some([self.shared_area()?, self.overlaid(GEOSDifference_r, self.f, self.g)?, self.overlaid(GEOSDifference_r, self.g, self.f)?])
    }
}

impl Drop for Pair<'_> {
    fn drop(&mut self) {
        unsafe {
            GEOSGeom_destroy_r(self.geos.0, self.f);
            GEOSGeom_destroy_r(self.geos.0, self.g);
        }
    }
}

/// The whole way from the bytes: build, validity, relate. None if a geometry is not valid. Its name is known to callgrind.
#[no_mangle]
#[inline(never)]
pub fn bench_geos_from_bytes(geos: &Geos, bytes: &[u8], parts: &[Parts; 2]) -> Option<Matrix> {
    let pair = Pair::build(geos, bytes, parts);
    if pair.is_valid() {
        pair.relate()
    } else {
        None
    }
}

/// The same way to one pattern's answer.
pub fn pattern_from_bytes(geos: &Geos, bytes: &[u8], parts: &[Parts; 2], pattern: &CStr) -> Option<bool> {
    let pair = Pair::build(geos, bytes, parts);
    if pair.is_valid() {
        pair.holds(pattern)
    } else {
        None
    }
}

/// The whole way to one of the three areas: build, validity, intersection, area.
pub fn shared_area_from_bytes(geos: &Geos, bytes: &[u8], parts: &[Parts; 2]) -> Option<f64> {
    let pair = Pair::build(geos, bytes, parts);
    if pair.is_valid() {
        pair.shared_area()
    } else {
        None
    }
}

/// The whole way to the noded segments of both: build, validity, noding.
pub fn noded_from_bytes(geos: &Geos, bytes: &[u8], parts: &[Parts; 2]) -> Option<usize> {
    let pair = Pair::build(geos, bytes, parts);
    if pair.is_valid() {
        pair.noded()
    } else {
        None
    }
}

/// One geometry as GEOS holds it, for well-known binary.
pub struct Shape<'a> {
    geos: &'a Geos,
    geometry: Geometry,
}

impl<'a> Shape<'a> {
    pub fn build(geos: &'a Geos, bytes: &[u8], parts: &Parts) -> Shape<'a> {
        Shape { geos, geometry: geos.build(bytes, parts) }
    }

    /// What its reader makes of well-known binary; none if it raised an exception.
    pub fn read(geos: &'a Geos, wkb: &[u8]) -> Option<Shape<'a>> {
        let geometry = unsafe {
            let reader = GEOSWKBReader_create_r(geos.0);
            let geometry = GEOSWKBReader_read_r(geos.0, reader, wkb.as_ptr(), wkb.len());
            GEOSWKBReader_destroy_r(geos.0, reader);
            geometry
        };
        (!geometry.is_null()).then_some(Shape { geos, geometry })
    }

    pub fn is_valid(&self) -> bool {
        unsafe { GEOSisValid_r(self.geos.0, self.geometry) == 1 }
    }

    /// Whether the two have the same points.
    pub fn equals(&self, other: &Shape) -> bool {
        unsafe { GEOSEquals_r(self.geos.0, self.geometry, other.geometry) == 1 }
    }

    /// What its writer writes, high byte first or low byte first throughout.
    pub fn wkb(&self, high_first: bool) -> Vec<u8> {
        self.geos.written(self.geometry, high_first)
    }

    /// The same with a byte order of its own for the whole and for each part, which its writer writes one by one.
    pub fn mixed_wkb(&self, orders: &mut dyn FnMut() -> bool) -> Vec<u8> {
        let mut wkb = self.wkb(orders())[..9].to_vec();
        for index in 0..unsafe { GEOSGetNumGeometries_r(self.geos.0, self.geometry) } {
            wkb.extend(self.geos.written(unsafe { GEOSGetGeometryN_r(self.geos.0, self.geometry, index) }, orders()));
        }
        wkb
    }
}

impl Geos {
    fn written(&self, geometry: *const c_void, high_first: bool) -> Vec<u8> {
        let mut size = 0;
        unsafe {
            let writer = GEOSWKBWriter_create_r(self.0);
            GEOSWKBWriter_setOutputDimension_r(self.0, writer, 2);
            GEOSWKBWriter_setByteOrder_r(self.0, writer, !high_first as c_int);
            let bytes = GEOSWKBWriter_write_r(self.0, writer, geometry, &mut size);
            let copy = std::slice::from_raw_parts(bytes, size).to_vec();
            GEOSFree_r(self.0, bytes as *mut c_void);
            GEOSWKBWriter_destroy_r(self.0, writer);
            copy
        }
    }
}

impl Drop for Shape<'_> {
    fn drop(&mut self) {
        unsafe { GEOSGeom_destroy_r(self.geos.0, self.geometry) }
    }
}
