//! Well-known binary, in hexadecimal too: read and written by the library. Before it is read, a single geometry becomes a MULTI kind of one part and a leading SRID is left out;
//! where coordinates are put on another grid they are replaced in place. All else, and whatever is at fault, is the library's to see.

use crate::bytes;
use crate::grid::{self, Grid};
use crate::library;
use crate::refusals::{self, Refused};

/// What the header of well-known binary says.
struct Header {
    low_first: bool,
    /// 1 to 7 and the others of OGC, without Z, M and SRID.
    kind: u32,
    z: bool,
    m: bool,
    srid: bool,
}

const KINDS: [&str; 17] = [
    "Point",
    "LineString",
    "Polygon",
    "MultiPoint",
    "MultiLineString",
    "MultiPolygon",
    "GeometryCollection",
    "CircularString",
    "CompoundCurve",
    "CurvePolygon",
    "MultiCurve",
    "MultiSurface",
    "Curve",
    "Surface",
    "PolyhedralSurface",
    "TIN",
    "Triangle",
];

const HEADER: usize = 5;

impl Header {
    fn read(wkb: &[u8]) -> Option<Header> {
        let low_first = match wkb.first()? {
            0 => false,
            1 => true,
            _ => return None,
        };
        let kind = number(low_first, wkb.get(1..HEADER)?);
        let (flags, kind) = (kind & 0xe000_0000, kind & 0x1fff_ffff);
        let thousand = kind / 1000;
        let kind = kind % 1000;
        let known = (1..=KINDS.len() as u32).contains(&kind) && thousand < 4;
        let (z, m) = (flags & 0x8000_0000 != 0 || thousand % 2 == 1, flags & 0x4000_0000 != 0 || thousand >= 2);
        known.then_some(Header { low_first, kind, z, m, srid: flags & 0x2000_0000 != 0 })
    }

    fn name(&self) -> String {
        let dimensions = match (self.z, self.m) {
            (false, false) => "",
            (true, false) => " Z",
            (false, true) => " M",
            _ => " ZM",
        };
        format!("{}{dimensions}", KINDS[self.kind as usize - 1])
    }
}

fn number(low_first: bool, bytes: &[u8]) -> u32 {
    let four = [bytes[0], bytes[1], bytes[2], bytes[3]];
    if low_first { u32::from_le_bytes(four) } else { u32::from_be_bytes(four) }
}

/// The bytes begin as well-known binary of any kind does.
pub fn begins(bytes: &[u8]) -> bool {
    Header::read(bytes).is_some()
}

/// The object that well-known binary holds.
pub fn object(wkb: &[u8], grid: &mut Grid) -> Result<Vec<u8>, Refused> {
    let Some(header) = Header::read(wkb) else {
        return whole(wkb.to_vec(), 0, grid);
    };
    if header.z || header.m || header.kind > 6 {
        let says =
            format!("{} is none of the shapes that are read: points, lines and polygons and their MULTI kinds, with x and y alone", header.name());
        return Err(Refused { number: 24, at: Some(1), says });
    }
    let dropped = if header.srid { 4 } else { 0 };
    let rest = wkb.get(HEADER + dropped..).unwrap_or(&[]);
    let mut plain = vec![header.low_first as u8];
    plain.extend(order(header.low_first, header.kind));
    plain.extend(rest);
    if header.kind > 3 {
        return whole(plain, dropped as isize, grid);
    }
    let parts = if header.kind == 1 && is_no_point(rest, header.low_first) { 0 } else { 1 };
    let mut several = vec![header.low_first as u8];
    several.extend(order(header.low_first, header.kind + 3));
    several.extend(order(header.low_first, parts));
    let added = several.len() as isize;
    several.extend(if parts == 1 { &plain[..] } else { &[] });
    whole(several, dropped as isize - added, grid)
}

fn order(low_first: bool, number: u32) -> [u8; 4] {
    if low_first { number.to_le_bytes() } else { number.to_be_bytes() }
}

/// POINT EMPTY has two NaN for its coordinates.
fn is_no_point(rest: &[u8], low_first: bool) -> bool {
    rest.len() == 16 && rest.chunks(8).all(|bytes| float(low_first, bytes).is_nan())
}

fn float(low_first: bool, bytes: &[u8]) -> f64 {
    let eight = bytes.try_into().unwrap_or([0; 8]);
    if low_first { f64::from_le_bytes(eight) } else { f64::from_be_bytes(eight) }
}

/// A MULTI kind, whose bytes are so many further on in the file.
fn whole(mut wkb: Vec<u8>, moved: isize, grid: &mut Grid) -> Result<Vec<u8>, Refused> {
    let place = |at: usize| Some(at.saturating_add_signed(moved));
    let placed = grid.placed();
    if !grid.is_as_it_stands() {
        Walk { wkb: &mut wkb, at: 0, grid }.collection().map_err(|(at, says)| Refused { number: 25, at: place(at), says })?;
    }
    library::read_wkb(&wkb).inspect(|object| grid.note(placed, object)).map_err(|(no, value)| {
        let at = if (24..=26).contains(&no.number) { place(no.place) } else { None };
        let says = match no.number {
            // of an infinity and of a NaN this is false
            25 if value.fract().abs() > 0.0 => grid::not_whole(&value.to_string()),
            number => refusals::sentence(number, value),
        };
        Refused { number: no.number, at, says }
    })
}

/// From field to field, each coordinate replaced by its place on the grid. It ends where the bytes are no well-known binary, which the library then refuses.
struct Walk<'a> {
    wkb: &'a mut [u8],
    at: usize,
    grid: &'a mut Grid,
}

/// Where a coordinate has no place on the grid, and why.
type Off = (usize, String);

impl Walk<'_> {
    fn collection(&mut self) -> Result<(), Off> {
        let Some((kind, low_first)) = self.header() else {
            return Ok(());
        };
        let Some(parts) = self.count(low_first) else {
            return Ok(());
        };
        for _ in 0..parts {
            if kind < 4 || !self.part(kind - 3)? {
                break;
            }
        }
        Ok(())
    }

    /// False where the bytes end or are something else.
    fn part(&mut self, kind: u32) -> Result<bool, Off> {
        let Some((found, low_first)) = self.header() else {
            return Ok(false);
        };
        match found {
            _ if found != kind => Ok(false),
            1 => self.points(low_first, 1),
            2 => self.path(low_first),
            _ => self.rings(low_first),
        }
    }

    fn rings(&mut self, low_first: bool) -> Result<bool, Off> {
        let Some(rings) = self.count(low_first) else {
            return Ok(false);
        };
        for _ in 0..rings {
            if !self.path(low_first)? {
                return Ok(false);
            }
        }
        Ok(true)
    }

    fn path(&mut self, low_first: bool) -> Result<bool, Off> {
        match self.count(low_first) {
            Some(points) => self.points(low_first, points),
            None => Ok(false),
        }
    }

    fn points(&mut self, low_first: bool, points: u32) -> Result<bool, Off> {
        for turn in 0..2 * points as u64 {
            let Some(field) = self.wkb.get_mut(self.at..self.at + 8) else {
                return Ok(false);
            };
            // the shortest decimal that has this float stands for it
            let word = format!("{:e}", float(low_first, field));
            let place = self.grid.place(&word, (turn % 2) as usize).map_err(|why| (self.at, why))?;
            field.copy_from_slice(&if low_first { place.to_le_bytes() } else { place.to_be_bytes() });
            self.at += 8;
        }
        Ok(true)
    }

    fn header(&mut self) -> Option<(u32, bool)> {
        let low_first = match self.wkb.get(self.at)? {
            0 => false,
            1 => true,
            _ => return None,
        };
        self.at += 1;
        Some((self.count(low_first)?, low_first))
    }

    fn count(&mut self, low_first: bool) -> Option<u32> {
        let count = number(low_first, self.wkb.get(self.at..self.at + 4)?);
        self.at += 4;
        Some(count)
    }
}

/// One object as well-known binary, by its name in a scene.
pub fn written(scene: &[u8], which: usize) -> Result<Vec<u8>, String> {
    let second = bytes::second(scene);
    let (start, object) = if which == 0 { (0, &scene[..second]) } else { (second, &scene[second..]) };
    library::write_wkb(object).map_err(|no| match no.number {
        24 => " is a region: well-known binary is written of points and lines".to_string(),
        number => {
            let words = refusals::of(number);
            format!(", byte {}: {} (number {number}). {}", start + no.place, words.says, words.advice)
        }
    })
}

/// The bytes of hexadecimal digits, if the word is nothing else.
pub fn unspelt(word: &[u8]) -> Option<Vec<u8>> {
    let digit = |byte: &u8| (*byte as char).to_digit(16).map(|digit| digit as u8);
    if word.is_empty() || word.len() % 2 == 1 {
        return None;
    }
    word.chunks(2).map(|pair| Some(16 * digit(&pair[0])? + digit(&pair[1])?)).collect()
}

/// In hexadecimal, a line.
pub fn spelt(wkb: &[u8]) -> String {
    wkb.iter().map(|byte| format!("{byte:02x}")).chain(["\n".to_string()]).collect()
}

#[cfg(test)]
mod tests {
    use super::*;
    use crate::decimal::Decimal;
    use crate::wkt;

    fn same(hex: &str, text: &str, grid: &mut Grid) {
        let read = object(&unspelt(hex.as_bytes()).unwrap(), grid).unwrap();
        assert_eq!(read, wkt::read(text, grid).unwrap().remove(0).object.unwrap(), "{text}");
    }

    fn refused(hex: &str) -> (u32, Option<usize>, String) {
        let Refused { number, at, says } = object(&unspelt(hex.as_bytes()).unwrap(), &mut Grid::as_it_stands()).unwrap_err();
        (number, at, says)
    }

    const ONE: &str = "000000000000f03f";
    const HALF: &str = "000000000000e03f";

    #[test]
    fn single_kinds() {
        let grid = &mut Grid::as_it_stands();
        same(&format!("0101000000{ONE}{ONE}"), "POINT (1 1)", grid);
        same(&format!("0101000020e6100000{ONE}{ONE}"), "POINT (1 1)", grid);
        same("00000000013ff00000000000003ff0000000000000", "POINT (1 1)", grid);
        same("0101000000000000000000f87f000000000000f87f", "POINT EMPTY", grid);
        same("010300000000000000", "POLYGON EMPTY", grid);
        let zero = "0".repeat(16);
        same(&format!("010200000002000000{zero}{zero}{ONE}{ONE}"), "LINESTRING (0 0, 1 1)", grid);
    }

    #[test]
    fn on_another_grid() {
        let mut grid = Grid::new(Decimal::read("10").unwrap(), [Decimal::ZERO; 2], false);
        same(&format!("0101000000{HALF}{ONE}"), "POINT (0.5 1)", &mut grid);
        // 0.1 as a float is taken as 0.1
        same(&format!("01040000000100000001010000009a9999999999b93f{ONE}"), "POINT (0.1 1)", &mut grid);
    }

    #[test]
    fn where_it_is_at_fault() {
        assert_eq!(refused(&format!("0101000000{ONE}{HALF}")).0, 25);
        assert_eq!(refused(&format!("0101000000{ONE}{HALF}")).1, Some(13));
        assert_eq!(refused(&format!("0101000020e6100000{ONE}{HALF}")).1, Some(17));
        assert_eq!(refused(&format!("0101000000{ONE}{HALF}")).2, "0.5 is not a whole number: enlarge with --scale, or round with --round");
        assert_eq!(refused(&format!("0101000000{ONE}")).0, 24);
        let kinds = ["0107000000", "0108000000", "01e9030000", "0101000080", "01ba0b0000"].map(|hex| refused(&format!("{hex}00000000")).2);
        let names = ["GeometryCollection", "CircularString", "Point Z", "Point Z", "LineString ZM"];
        kinds.iter().zip(names).for_each(|(says, name)| assert!(says.starts_with(&format!("{name} is none")), "{says}"));
    }

    #[test]
    fn hexadecimal() {
        assert_eq!(unspelt(b"01040000Ab"), Some(vec![1, 4, 0, 0, 0xab]));
        assert_eq!([unspelt(b"010"), unspelt(b"01x0"), unspelt(b"")], [None, None, None]);
        assert_eq!(spelt(&[1, 4, 0xab]), "0104ab\n");
    }
}
