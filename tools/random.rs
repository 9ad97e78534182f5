//! Random scenes, valid by construction, written as text in the many ways that well-known text allows. Each is made into bytes, which the library must take; the text that `karvoiss show
//! --text` gives must make the same bytes, and the well-known binary that is written of points and lines must too; and the predicates told from the cells must be those that the library finds.
//! Both objects of a scene are parts of one net of triangles, so segments meet at common ends alone.

use karvoiss::answer::{self, Answer};
use karvoiss::grid::Grid;
use karvoiss::{bytes, library, predicate, show, wkt};
use std::collections::BTreeSet;
use std::process::ExitCode;

type Point = (i64, i64);
type Edge = (Point, Point);

const KINDS: [&str; 3] = ["POINT", "LINESTRING", "POLYGON"];

fn main() -> ExitCode {
    let words: Vec<String> = std::env::args().skip(1).collect();
    let number = |i: usize| words.get(i).and_then(|word| word.parse::<u64>().ok());
    let (Some(count), Some(seed)) = (number(0), number(1)) else {
        eprintln!("random COUNT SEED");
        return ExitCode::from(2);
    };
    let mut dice = Dice(seed.wrapping_mul(0x9e37_79b9_7f4a_7c15) | 1);
    for _ in 0..count {
        let (text, kinds) = scene_text(&mut dice);
        if let Err(why) = try_scene(&text, kinds) {
            println!("{why}\n{text}");
            return ExitCode::FAILURE;
        }
    }
    ExitCode::SUCCESS
}

fn made(text: &str) -> Result<Vec<u8>, String> {
    let items = wkt::read(text, &mut Grid::as_it_stands()).map_err(|fault| format!("not read: {fault:?}"))?;
    let objects: Result<Vec<Vec<u8>>, String> = items.into_iter().map(|item| item.object.map_err(|no| format!("not made: {no:?}"))).collect();
    Ok(objects?.concat())
}

fn try_scene(text: &str, kinds: [usize; 2]) -> Result<(), String> {
    let scene = made(text)?;
    if made(&show::text(&scene)?)? != scene {
        return Err("not the same when read back".to_string());
    }
    let (f, g) = scene.split_at(bytes::second(&scene));
    for object in [f, g] {
        if library::write_wkb(object).is_ok_and(|wkb| library::read_wkb(&wkb).ok().as_deref() != Some(object)) {
            return Err("not the same as well-known binary".to_string());
        }
    }
    match answer::ask(&scene) {
        Answer::Taken(taken) if taken.kinds.map(|kind| kind as usize) == kinds => predicates(&scene, &taken),
        answer => Err(format!("not taken: {answer:?}")),
    }
}

/// What the cells say of each predicate, the library must say of its patterns.
fn predicates(scene: &[u8], taken: &answer::Taken) -> Result<(), String> {
    for name in predicate::NAMES {
        let patterns = predicate::patterns(name, taken.kinds).unwrap_or(&[]);
        if predicate::by(patterns, scene).map(|by| by.is_some()) != Ok(predicate::holds(name, taken.kinds, &taken.cells)) {
            return Err(format!("{name} by its patterns is not {name} by the cells"));
        }
    }
    Ok(())
}

fn scene_text(dice: &mut Dice) -> (String, [usize; 2]) {
    let net = if dice.below(10) == 0 { lattice(dice) } else { scattered(dice) };
    let kinds = [dice.below(3), dice.below(3)];
    let [f, g] = kinds.map(|kind| object_text(kind, &net, dice));
    let comment = if dice.below(3) == 0 { "# a random scene\n\n" } else { "" };
    (format!("{comment}{f}\n{g}\n"), kinds)
}

/// Numbers that only look random, the same for the same seed.
struct Dice(u64);

impl Dice {
    fn below(&mut self, n: usize) -> usize {
        self.0 ^= self.0 << 13;
        self.0 ^= self.0 >> 7;
        self.0 ^= self.0 << 17;
        (self.0 >> 11) as usize % n
    }

    fn one_of<T: Copy>(&mut self, values: &[T]) -> T {
        values[self.below(values.len())]
    }

    fn shuffled<T: Clone>(&mut self, values: &[T]) -> Vec<T> {
        let mut values = values.to_vec();
        (1..values.len()).for_each(|i| values.swap(i, self.below(i + 1)));
        values
    }

    /// Each value with one chance for all: none, few, half, most or all of them.
    fn some<T: Clone>(&mut self, values: &[T]) -> Vec<T> {
        let chance = self.one_of(&[0, 2, 5, 8, 10]);
        values.iter().filter(|_| self.below(10) < chance).cloned().collect()
    }
}

struct Net {
    points: Vec<Point>,
    edges: Vec<Edge>,
    /// Counterclockwise.
    triangles: Vec<[Point; 3]>,
}

fn turn(a: Point, b: Point, c: Point) -> i64 {
    ((b.0 - a.0) * (c.1 - a.1) - (b.1 - a.1) * (c.0 - a.0)).signum()
}

/// Some points anywhere in a window, joined by edges in random order as long as none touches another but at a common end.
fn scattered(dice: &mut Dice) -> Net {
    let size = dice.one_of(&[2, 4, 9, 1000, 20_000_000]);
    let corner = if size > 1000 { (-10_000_000, -10_000_000) } else { (dice.below(2000) as i64 - 1000, dice.below(2000) as i64 - 1000) };
    let count = 3 + dice.below(8);
    let place = |dice: &mut Dice| (corner.0 + dice.below(size + 1) as i64, corner.1 + dice.below(size + 1) as i64);
    let points: Vec<Point> = (0..count).map(|_| place(dice)).collect::<BTreeSet<_>>().into_iter().collect();
    let pairs: Vec<Edge> = points.iter().flat_map(|a| points.iter().filter(move |b| a < b).map(move |b| (*a, *b))).collect();
    let mut edges: Vec<Edge> = Vec::new();
    for edge in dice.shuffled(&pairs) {
        let free = points.iter().all(|p| *p == edge.0 || *p == edge.1 || !on(*p, edge));
        if free && edges.iter().all(|other| !cross(edge, *other)) {
            edges.push(edge);
        }
    }
    let triangles = triangles(&points, &edges);
    Net { points, edges, triangles }
}

fn on(p: Point, (a, b): Edge) -> bool {
    turn(a, b, p) == 0 && a <= p && p <= b
}

fn cross((a, b): Edge, (c, d): Edge) -> bool {
    turn(a, b, c) * turn(a, b, d) < 0 && turn(c, d, a) * turn(c, d, b) < 0
}

/// Three points joined by edges, with no other point within.
fn triangles(points: &[Point], edges: &[Edge]) -> Vec<[Point; 3]> {
    let mut found = Vec::new();
    for (a, b) in edges {
        for c in points.iter().filter(|c| *c > b && edges.contains(&(*a, **c)) && edges.contains(&(*b, **c))) {
            let corners = if turn(*a, *b, *c) > 0 { [*a, *b, *c] } else { [*a, *c, *b] };
            let within = |p: &Point| (0..3).all(|i| turn(corners[i], corners[(i + 1) % 3], *p) >= 0);
            if turn(*a, *b, *c) != 0 && points.iter().filter(|p| within(p)).count() == 3 {
                found.push(corners);
            }
        }
    }
    found
}

/// Squares in rows, each cut by one of its diagonals, slanted and stretched.
fn lattice(dice: &mut Dice) -> Net {
    let (width, height) = (1 + dice.below(12) as i64, 1 + dice.below(12) as i64);
    let (u, v) = dice.one_of(&[((1, 0), (0, 1)), ((3, 1), (-1, 2)), ((70_000, 9), (-5, 80_000)), ((0, -2), (5, 5))]);
    let at = |i: i64, j: i64| (i * u.0 + j * v.0, i * u.1 + j * v.1);
    let mut triangles = Vec::new();
    for (i, j) in (0..width).flat_map(|i| (0..height).map(move |j| (i, j))) {
        let [a, b, c, d] = [at(i, j), at(i + 1, j), at(i + 1, j + 1), at(i, j + 1)];
        let halves = if dice.below(2) == 0 { [[a, b, c], [a, c, d]] } else { [[a, b, d], [b, c, d]] };
        triangles.extend(halves.map(|[a, b, c]| if turn(a, b, c) > 0 { [a, b, c] } else { [a, c, b] }));
    }
    let sides = |t: &[Point; 3]| [(t[0], t[1]), (t[1], t[2]), (t[2], t[0])].map(|(a, b)| (a.min(b), a.max(b)));
    let edges: BTreeSet<Edge> = triangles.iter().flat_map(sides).collect();
    let points: BTreeSet<Point> = triangles.iter().flatten().copied().collect();
    Net { points: points.into_iter().collect(), edges: edges.into_iter().collect(), triangles }
}

fn object_text(kind: usize, net: &Net, dice: &mut Dice) -> String {
    let mut parts = match kind {
        0 => points(net, dice).into_iter().map(|p| vec![p]).collect(),
        1 => paths(dice.some(&net.edges), dice),
        _ => paths(outline(&dice.some(&net.triangles)), dice),
    };
    if kind < 2 && !parts.is_empty() && dice.below(4) == 0 {
        parts.push(parts[0].clone());
    }
    let name = KINDS[kind];
    let texts: Vec<String> = parts.iter().map(|part| path_text(part, dice)).collect();
    match texts.len() {
        0 => format!("{}{name} EMPTY", dice.one_of(&["", "MULTI", "multi"])),
        1 if kind < 2 && dice.below(2) == 0 => format!("{name} {}", texts[0]),
        _ if kind < 2 => format!("MULTI{name} ({})", texts.join(dice.one_of(&[", ", ",", " , EMPTY, "]))),
        // the rings as one polygon, or each as a polygon of its own
        _ if dice.below(2) == 0 => format!("{name} ({})", texts.join(",")),
        _ => format!("Multi{name}(({}))", texts.join("), (")),
    }
}

/// Vertices of the net, middles of its edges, and others; now and then as many as an object holds.
fn points(net: &Net, dice: &mut Dice) -> Vec<Point> {
    if dice.below(300) == 0 {
        return (0..1024).map(|i| (i % 32 - 16, i / 32)).collect();
    }
    let mut points = dice.some(&net.points);
    points.extend(dice.some(&net.edges).iter().map(|(a, b)| ((a.0 + b.0) / 2, (a.1 + b.1) / 2)));
    points.extend((0..dice.below(3)).map(|_| (dice.below(20) as i64 - 10, dice.below(20) as i64 - 10)));
    points.truncate(1024);
    dice.shuffled(&points)
}

/// The edges of the triangles with the interior on their left, less those between two of them.
fn outline(triangles: &[[Point; 3]]) -> Vec<Edge> {
    let sides = |t: &[Point; 3]| [(t[0], t[1]), (t[1], t[2]), (t[2], t[0])];
    let all: BTreeSet<Edge> = triangles.iter().flat_map(sides).collect();
    all.iter().filter(|(a, b)| !all.contains(&(*b, *a))).copied().collect()
}

/// All edges in paths, each as long as it goes on from end to start. An outline falls into closed rings, as each comes back to its start.
fn paths(edges: Vec<Edge>, dice: &mut Dice) -> Vec<Vec<Point>> {
    let mut rest = dice.shuffled(&edges);
    let mut paths = Vec::new();
    while let Some((a, b)) = rest.pop() {
        let mut path = vec![a, b];
        while let Some(next) = rest.iter().position(|edge| edge.0 == path[path.len() - 1]) {
            path.push(rest.swap_remove(next).1);
        }
        if dice.below(2) == 0 {
            path.reverse();
        }
        paths.push(path);
    }
    paths
}

/// A point may stand twice in a row; numbers may have a sign and a decimal point.
fn path_text(path: &[Point], dice: &mut Dice) -> String {
    let number = |n: i64, dice: &mut Dice| match dice.below(12) {
        0 => format!("{n}.0"),
        1 => format!("{n:+}"),
        _ => n.to_string(),
    };
    let mut points = Vec::new();
    for (x, y) in path {
        let text = format!("{} {}", number(*x, dice), number(*y, dice));
        if path.len() > 1 && dice.below(20) == 0 {
            points.push(text.clone());
        }
        points.push(text);
    }
    format!("({})", points.join(dice.one_of(&[", ", ",", " , "])))
}
