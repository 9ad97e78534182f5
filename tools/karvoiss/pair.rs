//! Two objects as one scene. Objects that come from files are split where they meet, if they must be; where they cross off the grid, the point is named.

use crate::answer::{self, Cells};
use crate::bytes::{self, Half, Kind, LIMIT, Point, Record, Segment};
use crate::grid::Grid;
use crate::library::{self, No, Summary};
use crate::refusals::Refused;

/// One object, accepted.
pub struct Object {
    pub bytes: Vec<u8>,
    pub summary: Summary,
}

impl Object {
    pub fn of(bytes: Vec<u8>) -> Result<Object, No> {
        Ok(Object { summary: library::summary(&bytes)?, bytes })
    }

    pub fn kind(&self) -> Kind {
        Kind::of(self.summary[1]).unwrap_or(Kind::Points)
    }

    pub fn is_empty(&self) -> bool {
        self.summary[2] == 1
    }
}

/// A scene that the library takes, its cells, and the segments that splitting added.
pub struct Pair {
    pub scene: Vec<u8>,
    pub cells: Cells,
    pub added: [usize; 2],
}

/// As they are, or split where segments of the one meet the other's.
pub fn of(f: &Object, g: &Object, grid: &Grid) -> Result<Pair, Refused> {
    let scene = [&f.bytes[..], &g.bytes].concat();
    match library::cells(&scene) {
        Ok(signs) => Ok(Pair { scene, cells: answer::of_signs(signs), added: [0, 0] }),
        Err(No { number: 15, .. }) => split(&scene, grid),
        Err(no) => Err(refused(no, &scene, grid)),
    }
}

fn split(scene: &[u8], grid: &Grid) -> Result<Pair, Refused> {
    let split = library::split(scene).map_err(|no| refused(no, scene, grid))?;
    let signs = library::cells(&split.scene).map_err(|no| refused(no, &split.scene, grid))?;
    Ok(Pair { scene: split.scene, cells: answer::of_signs(signs), added: split.added })
}

/// Why two sound objects are no scene: they cross off the grid, or have too many pieces.
pub fn refused(no: No, scene: &[u8], grid: &Grid) -> Refused {
    let says = match no.number {
        19 => off_the_grid(no.place, scene, grid),
        20 => format!("{} would have more than 512 segments once split", if no.place > 0 { "G" } else { "F" }),
        number => crate::refusals::of(number).says.to_string(),
    };
    Refused { number: no.number, at: Some(no.place), says }
}

/// The point, as coordinates of the file, the two segments on the grid, and what can be done.
fn off_the_grid(place: usize, scene: &[u8], grid: &Grid) -> String {
    let Some((f, g)) = crossing(place, scene) else {
        return crate::refusals::of(19).says.to_string();
    };
    let at = Crossing::of(f, g);
    let point = [0, 1].map(|axis| shown(grid.back(at.near(axis), axis)));
    let scale = if at.times().saturating_mul(furthest(scene)) <= LIMIT as i128 { grid.enlarged(at.times()) } else { None };
    let advice = match scale {
        Some(scale) => format!("--scale {scale} puts it there, or move an end of one"),
        None => "move an end of one".to_string(),
    };
    format!("they cross at ({}, {}), which is not on the grid: {f} of F and {g} of G; {advice}", point[0], point[1])
}

/// The greatest size of a coordinate of a scene's points and ends.
fn furthest(scene: &[u8]) -> i128 {
    let (f, g) = scene.split_at(bytes::second(scene));
    let box_of = |object: &[u8]| library::summary(object).map_or(Vec::new(), |summary| summary[3..19].chunks(4).map(size).collect());
    [f, g].into_iter().flat_map(box_of).max().unwrap_or(0)
}

fn size(four: &[u8]) -> i128 {
    four.try_into().map_or(0, |four| i32::from_le_bytes(four) as i128).abs()
}

/// The segments of F and G that cross off the grid; of G's the first that does so with F's, and that they do the library says.
fn crossing(place: usize, scene: &[u8]) -> Option<(Segment, Segment)> {
    let f = bytes::read(&scene[place..])?.half()?.segment;
    let alone = |segment: Segment| bytes::object(Kind::Line, &[1, 0].map(|d| Record::Line(Half { segment, d })));
    let first = alone(f);
    let mut rest = &scene[bytes::second(scene)..];
    while let Some(record) = bytes::read(rest) {
        rest = &rest[record.length()..];
        let Some(Half { segment, d: 1 }) = record.half() else {
            continue;
        };
        if matches!(library::split(&[&first[..], &alone(segment)].concat()), Err(No { number: 19, .. })) {
            return Some((f, segment));
        }
    }
    None
}

/// Where the lines of two segments meet: each coordinate is a fraction with the same denominator.
struct Crossing {
    numerators: [i128; 2],
    denominator: i128,
}

impl Crossing {
    fn of(f: Segment, g: Segment) -> Crossing {
        let difference = |to: Point, from: Point| [(to.x - from.x) as i128, (to.y - from.y) as i128];
        let cross = |u: [i128; 2], v: [i128; 2]| u[0] * v[1] - u[1] * v[0];
        let (along, across) = (difference(f.right, f.left), difference(g.right, g.left));
        let (part, whole) = (cross(difference(g.left, f.left), across), cross(along, across));
        let start = [f.left.x as i128, f.left.y as i128];
        Crossing { numerators: [0, 1].map(|axis| start[axis] * whole + along[axis] * part), denominator: whole }
    }

    /// A coordinate, near enough for a message.
    fn near(&self, axis: usize) -> f64 {
        self.numerators[axis] as f64 / self.denominator as f64
    }

    /// The least whole number by which both shapes may be enlarged so that the point is on the grid.
    fn times(&self) -> i128 {
        let reduced = |numerator: i128| (self.denominator / divisor(numerator, self.denominator)).abs();
        let [x, y] = self.numerators.map(reduced);
        x / divisor(x, y) * y
    }
}

/// The greatest common divisor.
fn divisor(a: i128, b: i128) -> i128 {
    if b == 0 { a.abs().max(1) } else { divisor(b, a % b) }
}

/// At most six digits behind the point.
fn shown(value: f64) -> String {
    let text = format!("{value:.6}");
    text.trim_end_matches('0').trim_end_matches('.').to_string()
}

#[cfg(test)]
mod tests {
    use super::*;
    use crate::wkt;

    fn pair(f: &str, g: &str) -> Result<Pair, Refused> {
        let object = |text| Object::of(wkt::read(text, &mut Grid::as_it_stands()).unwrap().remove(0).object.unwrap()).unwrap();
        of(&object(f), &object(g), &Grid::as_it_stands())
    }

    #[test]
    fn split_where_needed() {
        let square = "POLYGON ((0 0, 4 0, 4 4, 0 4, 0 0))";
        assert_eq!(pair(square, square).unwrap().added, [0, 0]);
        let crossing = pair("LINESTRING (0 2, 4 2)", "LINESTRING (2 0, 2 4)").unwrap();
        assert_eq!((crossing.added, answer::matrix(&crossing.cells)), ([1, 1], "0F1FF0102".to_string()));
    }

    #[test]
    fn off_the_grid_by_name() {
        let no = pair("LINESTRING (0 0, 6 2)", "MULTILINESTRING ((3 0, 3 2), (2 0, 2 2))").err().unwrap();
        assert_eq!(no.number, 19);
        let says = "they cross at (2, 0.666667), which is not on the grid: (0,0)-(6,2) of F and (2,0)-(2,2) of G; --scale 3 puts it there, or move an end of one";
        assert_eq!(no.says, says);
        assert!(pair("LINESTRING (0 0, 18 6)", "MULTILINESTRING ((9 0, 9 6), (6 0, 6 6))").is_ok());
    }

    /// Where no scale in range puts the point on the grid, none is named.
    #[test]
    fn no_scale_serves() {
        let says = |g: &str| pair("LINESTRING (0 0, 9999991 1)", g).err().unwrap().says;
        assert!(says("LINESTRING (0 1, 9999990 0)").ends_with("of G; move an end of one"));
        assert!(says("LINESTRING (5 -1, 5 1)").ends_with("of G; move an end of one"));
    }

    #[test]
    fn too_many_pieces() {
        let teeth: Vec<String> = (0..512).map(|x| format!("({x} 0, {x} 1)")).collect();
        let no = pair("LINESTRING (-1 0, 1000 0)", &format!("MULTILINESTRING ({})", teeth.join(", "))).err().unwrap();
        assert_eq!((no.number, no.says.as_str()), (20, "F would have more than 512 segments once split"));
    }
}
