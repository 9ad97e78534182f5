//! Random well-known binary: accepted objects cut into parts and rings in many ways, with repeats, in byte orders that change from header to header; paths on a
//! small grid, which mostly cross; numbers that are no coordinates; and the bytes of these with a field or a byte changed, cut, or with more behind them.

use crate::maker::{full, small, some_pair};
use crate::plane::{Point, Segment, LIMIT};
use crate::random::Random;
use crate::scene::{Object, LINE, MOST, POINTS, REGION};

pub type Numbers = (f64, f64);

/// Parts, each of some paths: a point, the points of a part, or the rings of a polygon.
#[derive(Clone)]
pub struct Shape {
    pub kind: u8,
    pub parts: Vec<Vec<Vec<Numbers>>>,
}

/// The byte order of each header, in turn: high byte first or not.
pub type Orders<'a> = &'a mut dyn FnMut() -> bool;

#[derive(Clone, Copy, PartialEq, Eq)]
enum Field {
    Order,
    Type,
    Count,
    Coordinate,
}

/// The bytes, and of each field its place, what it is and whether its high byte comes first.
#[derive(Default)]
struct Encoded {
    bytes: Vec<u8>,
    fields: Vec<(usize, Field, bool)>,
}

impl Encoded {
    fn put(&mut self, field: Field, high_first: bool, low_first: &[u8]) {
        self.fields.push((self.bytes.len(), field, high_first));
        let start = self.bytes.len();
        self.bytes.extend(low_first);
        if high_first {
            self.bytes[start..].reverse();
        }
    }

    fn header(&mut self, kind: u32, orders: Orders) -> bool {
        let high_first = orders();
        self.put(Field::Order, high_first, &[!high_first as u8]);
        self.put(Field::Type, high_first, &kind.to_le_bytes());
        high_first
    }

    fn count(&mut self, count: usize, high_first: bool) {
        self.put(Field::Count, high_first, &(count as u32).to_le_bytes());
    }

    fn points(&mut self, points: &[Numbers], high_first: bool) {
        points.iter().flat_map(|p| [p.0, p.1]).for_each(|v| self.put(Field::Coordinate, high_first, &v.to_le_bytes()));
    }

    fn of(shape: &Shape, orders: Orders) -> Encoded {
        let mut to = Encoded::default();
        let high_first = to.header(shape.kind as u32 + 3, orders);
        to.count(shape.parts.len(), high_first);
        for part in &shape.parts {
            let high_first = to.header(shape.kind as u32, orders);
            if shape.kind == REGION {
                to.count(part.len(), high_first);
            }
            for path in part {
                if shape.kind != POINTS {
                    to.count(path.len(), high_first);
                }
                to.points(path, high_first);
            }
        }
        to
    }
}

pub fn encoded(shape: &Shape, orders: Orders) -> Vec<u8> {
    Encoded::of(shape, orders).bytes
}

/// The string that a random number names.
pub fn some(random: &mut Random) -> Vec<u8> {
    let mut shape = match random.below(4000) {
        0..=9 => large(random),
        10..=999 => scribble(random),
        1000..=1049 => return noise(random),
        _ => {
            let kinds = some_pair(random);
            let object = small(random, kinds).0;
            cut_up(random, &object)
        }
    };
    if random.once_in(2) {
        repeat(random, &mut shape);
    }
    if random.once_in(3) {
        number_in(random, &mut shape);
    }
    let (mixed, always) = (random.once_in(2), random.once_in(2));
    let mut encoded = Encoded::of(&shape, &mut || if mixed { random.once_in(2) } else { always });
    if random.once_in(2) {
        for _ in 0..=random.below(2) {
            damage(random, &mut encoded);
        }
    }
    encoded.bytes
}

fn numbers(p: Point) -> Numbers {
    (p.0 as f64, p.1 as f64)
}

/// An object in parts: points in any order, paths along the segments, rings closed by the segments of a region, as many to a polygon as may be.
pub fn cut_up(random: &mut Random, object: &Object) -> Shape {
    let mut points = object.points.clone();
    random.shuffle(&mut points);
    let mut paths = walks(random, object.segments(), object.kind == REGION);
    if object.kind == LINE && random.once_in(3) {
        paths = object.segments().iter().map(|s| vec![s.left, s.right]).collect();
    }
    let paths = points.into_iter().map(|p| vec![p]).chain(paths).map(|path| path.into_iter().map(numbers).collect());
    let mut parts: Vec<Vec<Vec<Numbers>>> = Vec::new();
    for path in paths {
        match parts.last_mut() {
            Some(polygon) if object.kind == REGION && random.once_in(2) => polygon.push(path),
            _ => parts.push(vec![path]),
        }
    }
    Shape { kind: object.kind, parts }
}

/// Paths that use up the segments, each from some end as far as it goes; with `closed` until it is back.
fn walks(random: &mut Random, mut segments: Vec<Segment>, closed: bool) -> Vec<Vec<Point>> {
    random.shuffle(&mut segments);
    let mut paths = Vec::new();
    while let Some(first) = segments.pop() {
        let mut path = if random.once_in(2) { vec![first.left, first.right] } else { vec![first.right, first.left] };
        let goes_on = |random: &mut Random, path: &[Point]| if closed { path.first() != path.last() } else { !random.once_in(5) };
        while goes_on(random, &path) {
            let here = path[path.len() - 1];
            let Some(next) = segments.iter().position(|s| s.has_end(here)) else { break };
            let s = segments.swap_remove(next);
            path.push(if s.left == here { s.right } else { s.left });
        }
        paths.push(path);
    }
    paths
}

/// Paths on a small grid: most cross themselves or one another, or run along one another.
fn scribble(random: &mut Random) -> Shape {
    let (kind, reach) = (random.between(1, 3) as u8, random.pick(&[1, 2, 4]));
    let mut parts = Vec::new();
    for _ in 0..random.below(4) {
        let length = if kind == POINTS { 1 } else { random.between(kind as i64, kind as i64 + 3) };
        let mut path: Vec<Numbers> = (0..length).map(|_| numbers((random.between(0, reach), random.between(0, reach)))).collect();
        if kind == REGION && !random.once_in(12) {
            path.push(path[0]);
        }
        parts.push(vec![path]);
    }
    Shape { kind, parts }
}

/// At the limits of what an object holds: so many different points or segments, none, one or two more, all of them up to three times over.
fn large(random: &mut Random) -> Shape {
    if random.once_in(3) {
        let kinds = some_pair(random);
        let object = full(random, kinds).0;
        return cut_up(random, &object);
    }
    let (kind, more) = (random.between(1, 3) as u8, random.pick(&[0, 0, 1, 2]));
    // squares apart from one another, some with a side in two
    let square = |i: i64| {
        let (x, y) = (i / 16 * 4, i % 16 * 4);
        let split = (i < more).then_some((x + 2, y + 1));
        [(x, y), (x + 2, y)].into_iter().chain(split).chain([(x + 2, y + 2), (x, y + 2), (x, y)]).map(numbers).collect()
    };
    let most = MOST as i64;
    let parts: Vec<Vec<Vec<Numbers>>> = match kind {
        POINTS => (0..most + more).map(|i| vec![vec![numbers((i / 40, i % 40))]]).collect(),
        LINE => vec![vec![(0..=most / 2 + more).map(|i| numbers((i, i % 2))).collect()]],
        _ => (0..most / 8).map(|i| vec![square(i)]).collect(),
    };
    let times = if random.once_in(2) { 3 } else { 1 };
    let mut all: Vec<Vec<Vec<Numbers>>> = (0..times).flat_map(|_| parts.clone()).collect();
    random.shuffle(&mut all);
    Shape { kind, parts: all }
}

/// Parts again, turned about, with points again, with nothing in them.
fn repeat(random: &mut Random, shape: &mut Shape) {
    for _ in 0..=random.below(3) {
        if shape.parts.is_empty() {
            return;
        }
        let which = random.below(shape.parts.len());
        let mut part = shape.parts[which].clone();
        match random.below(6) {
            0 => part.iter_mut().for_each(|path| path.reverse()),
            1 if shape.kind == LINE => part = vec![Vec::new()],
            1 if shape.kind == REGION => part.clear(),
            2 if shape.kind != POINTS => {
                // a point of a path again, right behind itself
                if let Some(path) = part.first_mut().filter(|path| !path.is_empty()) {
                    let at = random.below(path.len());
                    path.insert(at, path[at]);
                }
                shape.parts[which] = part.clone();
            }
            3 if shape.kind == REGION => part = part.iter().filter_map(|path| path.first()).map(|p| vec![*p; 4]).collect(),
            _ => (),
        }
        shape.parts.insert(random.below(shape.parts.len() + 1), part);
    }
}

/// A number that is no coordinate, or is one in another guise, in some places: in one, at both ends of a path, or for every 0.
fn number_in(random: &mut Random, shape: &mut Shape) {
    let nan = |bits: u64| f64::from_bits(0x7ff0_0000_0000_0000 | bits);
    let limit = LIMIT as f64;
    let value = random.pick(&[
        -0.0,
        -0.0,
        0.5,
        -1.5,
        nan(1 << 51),
        nan(1),
        nan(1 << 63 | 1 << 51 | 5),
        f64::INFINITY,
        f64::NEG_INFINITY,
        1e300,
        5e-324,
        -5e-324,
        limit,
        -limit,
        limit + 1.0,
        -limit - 1.0,
        limit + 0.5,
        limit - 0.5,
        1_000_001.0,
        4_294_967_296.0,
        -9_223_372_036_854_775_808.0,
    ]);
    let mut paths: Vec<&mut Vec<Numbers>> = shape.parts.iter_mut().flatten().filter(|path| !path.is_empty()).collect();
    if paths.is_empty() {
        return;
    }
    let which = random.below(paths.len());
    let last = paths[which].len() - 1;
    match random.below(4) {
        0 => paths.iter_mut().flat_map(|path| path.iter_mut()).filter(|p| p.0 == 0.0).for_each(|p| p.0 = value),
        1 => {
            paths[which][0].0 = value;
            paths[which][last].0 = value;
        }
        2 => {
            paths[which][0].1 = value;
            paths[which][last].1 = if value == 0.0 { 0.0 } else { value };
        }
        _ => {
            let at = random.below(last + 1);
            paths[which][at].1 = value;
        }
    }
}

/// One field or byte is another, or some bytes go or come.
fn damage(random: &mut Random, encoded: &mut Encoded) {
    let Encoded { bytes, fields } = encoded;
    let whole: Vec<(usize, Field, bool)> = fields.iter().copied().filter(|(place, _, _)| place + 8 <= bytes.len()).collect();
    let at = random.below(bytes.len() + 1);
    match random.below(9) {
        0 => bytes.truncate(at),
        1 => {
            // cut at a field, or a byte beside it
            let place = if whole.is_empty() { at } else { whole[random.below(whole.len())].0 };
            bytes.truncate((place + random.below(3)).saturating_sub(1));
        }
        2 => bytes.extend((0..=random.below(9)).map(|_| random.byte())),
        3 if at < bytes.len() => bytes[at] = random.pick(&[0, 1, 2, 255, 128, 63, 64]),
        4 if at < bytes.len() => drop(bytes.remove(at)),
        5 => bytes.insert(at, random.byte()),
        _ if !whole.is_empty() => {
            let wanted = random.pick(&[Field::Order, Field::Type, Field::Count, Field::Count, Field::Coordinate]);
            let such: Vec<_> = whole.iter().filter(|(_, field, _)| *field == wanted).collect();
            if such.is_empty() {
                return;
            }
            let (place, field, high_first) = *such[random.below(such.len())];
            change(random, &mut bytes[place..], field, high_first);
        }
        _ => (),
    }
}

fn change(random: &mut Random, bytes: &mut [u8], field: Field, high_first: bool) {
    let number = |value: u32| if high_first { value.to_be_bytes() } else { value.to_le_bytes() };
    let read = |bytes: &[u8]| {
        let four = [bytes[0], bytes[1], bytes[2], bytes[3]];
        if high_first {
            u32::from_be_bytes(four)
        } else {
            u32::from_le_bytes(four)
        }
    };
    match field {
        Field::Order => bytes[0] = random.pick(&[0, 1, 1 - bytes[0].min(1), 2, 255]),
        Field::Type => {
            let kind = read(bytes);
            let other = random.pick(&[
                0,
                1,
                2,
                3,
                4,
                5,
                6,
                7,
                kind | 1 << 31,
                kind | 1 << 29,
                kind | 1 << 30,
                kind + 1000,
                kind + 2000,
                kind + 3000,
                kind << 24,
            ]);
            bytes[..4].copy_from_slice(&number(other));
        }
        Field::Count => {
            let count = read(bytes);
            let other = random.pick(&[0, 1, 2, 3, 4, count.wrapping_sub(1), count + 1, count << 24, 1 << 28, 1 << 31, u32::MAX]);
            bytes[..4].copy_from_slice(&number(other));
        }
        Field::Coordinate => bytes[random.below(8)] = random.byte(),
    }
}

/// Random bytes behind a beginning, or none.
fn noise(random: &mut Random) -> Vec<u8> {
    let start: &[u8] = random.pick(&[&[], &[1], &[0], &[1, 4, 0, 0, 0], &[0, 0, 0, 0, 5, 0, 0, 0, 1], &[1, 6, 0, 0, 0, 1, 0, 0, 0]]);
    let length = random.below(40);
    start.iter().copied().chain((0..length).map(|_| random.byte())).collect()
}
