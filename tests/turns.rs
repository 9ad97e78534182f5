// Quadruples of points for the side test, and what it must say of them by exact products: how the path through the first three turns, and how the path through the
// first two turns to the midpoint of the others. turns <program> <count> <seed>
use std::io::{Read, Write};
use std::process::{Command, Stdio};

const LIMIT: i64 = 10_000_000;

type Point = (i64, i64);
type Quadruple = [Point; 4];

// A generator of numbers: SplitMix64.
struct Random(u64);

impl Random {
    fn next(&mut self) -> u64 {
        self.0 = self.0.wrapping_add(0x9e37_79b9_7f4a_7c15);
        let mut z = self.0;
        z = (z ^ (z >> 30)).wrapping_mul(0xbf58_476d_1ce4_e5b9);
        z = (z ^ (z >> 27)).wrapping_mul(0x94d0_49bb_1331_11eb);
        z ^ (z >> 31)
    }

    fn below(&mut self, n: i64) -> i64 {
        (self.next() % n as u64) as i64
    }

    // From -size to size.
    fn within(&mut self, size: i64) -> i64 {
        self.below(2 * size + 1) - size
    }

    fn point(&mut self, size: i64) -> Point {
        (self.within(size), self.within(size))
    }

    // A corner of the range, or one or two steps inside.
    fn corner(&mut self) -> Point {
        let mut edge = || (LIMIT - self.below(3)) * (1 - 2 * self.below(2));
        (edge(), edge())
    }
}

fn clamped(p: Point) -> Point {
    (p.0.clamp(-LIMIT, LIMIT), p.1.clamp(-LIMIT, LIMIT))
}

// A grid point as near to the line through a and b as there is one at some x, or a step or two beside it.
fn near_line(r: &mut Random, a: Point, b: Point) -> Point {
    let (dx, dy) = (b.0 - a.0, b.1 - a.1);
    let t = r.below(2_000_001);
    let x = a.0 + dx * t / 1_000_000;
    let y = if dx == 0 { a.1 + r.within(3) } else { a.1 + (dy as i128 * (x - a.0) as i128 / dx as i128) as i64 };
    clamped((x, y + r.within(1)))
}

// On the line: a whole multiple of the step that has no common divisor.
fn on_line(r: &mut Random, a: Point, b: Point) -> Point {
    let (dx, dy) = (b.0 - a.0, b.1 - a.1);
    let (mut m, mut n) = (dx.abs(), dy.abs());
    while n != 0 {
        (m, n) = (n, m % n);
    }
    if m == 0 {
        return a;
    }
    let k = r.within(2 * m);
    let p = (a.0 + dx / m * k, a.1 + dy / m * k);
    if clamped(p) == p { p } else { b }
}

fn quadruple(r: &mut Random) -> Quadruple {
    let size = [3, 1000, 32_768, 65_536, 1_000_000, LIMIT][r.below(6) as usize];
    let (a, b) = match r.below(4) {
        0 => (r.corner(), r.corner()),
        1 => (r.corner(), r.point(size)),
        _ => (r.point(size), r.point(size)),
    };
    let third = |r: &mut Random| match r.below(6) {
        0 => r.point(size),
        1 => r.corner(),
        2 => on_line(r, a, b),
        3 => [a, b][r.below(2) as usize],
        _ => near_line(r, a, b),
    };
    let c = third(r);
    // the midpoint of c and d is beside the line by half a step where c is on it and d beside it
    let d = if r.below(3) == 0 { clamped((c.0 + r.within(2), c.1 + r.within(2))) } else { third(r) };
    [a, b, c, d]
}

// The products that the side value is made of.
fn products(a: Point, b: Point, c: Point) -> (i128, i128) {
    ((b.0 - a.0) as i128 * (c.1 - a.1) as i128, (b.1 - a.1) as i128 * (c.0 - a.0) as i128)
}

fn letter(value: i128) -> u8 {
    match value {
        v if v > 0 => b'L',
        0 => b'S',
        _ => b'R',
    }
}

fn expected(q: Quadruple, side: fn(Point, Point, Point) -> i128) -> [u8; 2] {
    let [a, b, c, d] = q;
    let doubled = |p: Point| (2 * p.0, 2 * p.1);
    [letter(side(a, b, c)), letter(side(doubled(a), doubled(b), (c.0 + d.0, c.1 + d.1)))]
}

fn exact(a: Point, b: Point, c: Point) -> i128 {
    let (u, v) = products(a, b, c);
    u - v
}

// What is said by a side test with a mistake in its halves of 16 bits.
fn halves(x: i64) -> (i128, i128) {
    ((x.abs() >> 16) as i128, (x.abs() & 65535) as i128)
}

fn product_by(x: i64, y: i64, join: fn(i128, i128, i128) -> i128) -> i128 {
    let ((x1, x0), (y1, y0)) = (halves(x), halves(y));
    join(x1 * y1, x1 * y0 + x0 * y1, x0 * y0) * (x.signum() * y.signum()) as i128
}

fn side_by(a: Point, b: Point, c: Point, join: fn(i128, i128, i128) -> i128) -> i128 {
    product_by(b.0 - a.0, c.1 - a.1, join) - product_by(b.1 - a.1, c.0 - a.0, join)
}

fn without_carry(a: Point, b: Point, c: Point) -> i128 {
    side_by(a, b, c, |high, middle, low| (high << 32) + (middle << 16) + low % 65536)
}

fn without_middle(a: Point, b: Point, c: Point) -> i128 {
    side_by(a, b, c, |high, _, low| (high << 32) + low)
}

fn by_high_halves(a: Point, b: Point, c: Point) -> i128 {
    side_by(a, b, c, |high, _, _| high)
}

fn in_32_bits(a: Point, b: Point, c: Point) -> i128 {
    let (u, v) = products(a, b, c);
    (u as i32).wrapping_sub(v as i32) as i128
}

fn in_floats(a: Point, b: Point, c: Point) -> i128 {
    let f = |x: i64| x as f32;
    let v = f(b.0 - a.0) * f(c.1 - a.1) - f(b.1 - a.1) * f(c.0 - a.0);
    if v > 0.0 { 1 } else if v < 0.0 { -1 } else { 0 }
}

fn answers(program: &str, quadruples: &[Quadruple]) -> Vec<u8> {
    let mut child = Command::new(program).stdin(Stdio::piped()).stdout(Stdio::piped()).spawn().expect("the program starts");
    let mut input = child.stdin.take().unwrap();
    let bytes: Vec<u8> = quadruples.iter().flatten().flat_map(|p| [p.0 as i32, p.1 as i32]).flat_map(i32::to_le_bytes).collect();
    let feeding = std::thread::spawn(move || input.write_all(&bytes));
    let mut output = Vec::new();
    child.stdout.take().unwrap().read_to_end(&mut output).expect("it writes");
    feeding.join().unwrap().expect("it reads");
    child.wait().expect("it ends");
    output
}

fn main() {
    let arguments: Vec<String> = std::env::args().collect();
    let count: usize = arguments[2].parse().expect("a count");
    let mut random = Random(arguments[3].parse().expect("a seed"));
    let quadruples: Vec<Quadruple> = (0..count).map(|_| quadruple(&mut random)).collect();
    let found = answers(&arguments[1], &quadruples);
    let with = |side| quadruples.iter().flat_map(|q| expected(*q, side)).collect::<Vec<u8>>();
    let right = with(exact);
    let differ = |other: &[u8]| right.iter().zip(other).filter(|(x, y)| x != y).count() + right.len().abs_diff(other.len());
    let straight = right.iter().filter(|c| **c == b'S').count();
    let wrong = differ(&found);
    println!("turns: {count} quadruples, {} turns, {straight} of them straight, {wrong} answered otherwise than by exact products", right.len());
    let mistakes: [(&str, fn(Point, Point, Point) -> i128); 5] = [
        ("the carry of a lower half dropped", without_carry),
        ("the middle products forgotten", without_middle),
        ("the sign from the high halves alone", by_high_halves),
        ("products of 32 bits that wrap", in_32_bits),
        ("products of single floats", in_floats),
    ];
    let mut unseen = 0;
    for (name, side) in mistakes {
        let seen = differ(&with(side));
        println!("turns: {name}: {seen} turns would differ");
        unseen += (seen == 0) as usize;
    }
    if wrong > 0 || unseen > 0 || straight == 0 {
        std::process::exit(1);
    }
}
