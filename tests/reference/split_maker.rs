//! Random raw pairs: two objects, each sound by itself, made apart from one another and laid over one another, mostly so enlarged that what crosses does so on the grid; crossings
//! across the whole range; segments on one line; strips and teeth that are cut into about as many pieces as an object may have; and damaged ones.

use crate::damage::{damaged, noise};
use crate::maker::{full, small, some_pair};
use crate::plane::{turn, Point, Segment, LIMIT};
use crate::random::Random;
use crate::scene::{scene_bytes, Object, LINE, POINTS, REGION};
use crate::split::common_denominator;
use crate::summary::corners;

pub fn some(random: &mut Random) -> Vec<u8> {
    let (f, g) = match random.below(1000) {
        0..=29 => {
            let kinds = some_pair(random);
            overlaid(random, kinds)
        }
        30..=129 => across(random),
        130..=229 => on_one_line(random),
        230..=234 => strips(random),
        235..=238 => teeth(random),
        239 => with_full(random),
        240..=249 => return noise(random),
        _ => {
            let kinds = random.pick(&[(LINE, LINE), (LINE, REGION), (REGION, LINE), (REGION, REGION), (REGION, REGION)]);
            overlaid(random, kinds)
        }
    };
    let (f, g) = if random.once_in(2) { (g, f) } else { (f, g) };
    if random.once_in(8) {
        damaged(random, &f, &g)
    } else {
        scene_bytes(&f, &g)
    }
}

/// The same object with each of its points elsewhere; ends of a segment may change places.
fn moved(object: &Object, to: impl Fn(Point) -> Point) -> Object {
    if object.kind == POINTS {
        return Object::of_points(&object.points.iter().map(|p| to(*p)).collect::<Vec<_>>());
    }
    let segments: Vec<Segment> = object.segments().iter().map(|s| Segment::between(to(s.left), to(s.right))).collect();
    Object::of_segments(object.kind, &segments)
}

fn reach(object: &Object) -> i64 {
    corners(object).iter().map(|p| p.0.abs().max(p.1.abs())).max().unwrap_or(0)
}

/// Objects of two plans, the second moved to where the first is if the range allows, and both enlarged.
pub fn overlaid(random: &mut Random, kinds: (u8, u8)) -> (Object, Object) {
    let (f, mut g) = (small(random, kinds).0, small(random, kinds).1);
    let least = |object: &Object, axis: fn(&Point) -> i64| corners(object).iter().map(axis).min();
    if let (Some(x), Some(y), Some(its_x), Some(its_y)) = (least(&f, |p| p.0), least(&f, |p| p.1), least(&g, |p| p.0), least(&g, |p| p.1)) {
        let by = (x - its_x + random.between(-3, 8), y - its_y + random.between(-3, 8));
        let beside = moved(&g, |p| (p.0 + by.0, p.1 + by.1));
        if reach(&beside) <= LIMIT {
            g = beside;
        }
    }
    enlarged(random, f, g)
}

/// Mostly by the least number that brings all crossings to the grid, now and then by less or not at all.
fn enlarged(random: &mut Random, f: Object, g: Object) -> (Object, Object) {
    if f.kind == POINTS || g.kind == POINTS || random.once_in(6) {
        return (f, g);
    }
    let all = common_denominator(&f.segments(), &g.segments());
    let most = LIMIT / reach(&f).max(reach(&g)).max(1);
    if all > most as i128 {
        return (f, g);
    }
    let least = all as i64;
    let by = random.pick(&[least, least, least, (2 * least).min(most / least * least), (least / 2).max(1), most / least * least]);
    (moved(&f, |p| (by * p.0, by * p.1)), moved(&g, |p| (by * p.0, by * p.1)))
}

fn line(segments: &[(Point, Point)]) -> Object {
    Object::of_segments(LINE, &segments.iter().map(|(p, q)| Segment::between(*p, *q)).collect::<Vec<_>>())
}

/// Two long segments that meet at a point of the grid, or beside it by one; and some short ones.
fn across(random: &mut Random) -> (Object, Object) {
    let wide = random.pick(&[LIMIT, LIMIT, 1000, 12]);
    let near = if random.once_in(2) { 2 } else { wide / 2 };
    let meeting = (random.between(-near, near), random.between(-near, near));
    let in_range = |p: Point| p.0.abs() <= LIMIT && p.1.abs() <= LIMIT;
    let through = |random: &mut Random| loop {
        let p = if random.once_in(3) {
            (random.pick(&[-wide, wide]), random.pick(&[-wide, wide]))
        } else {
            (random.between(-wide, wide), random.between(-wide, wide))
        };
        let mut q = (2 * meeting.0 - p.0, 2 * meeting.1 - p.1);
        if random.once_in(4) {
            q = (q.0 + random.between(-1, 1), q.1 + random.between(-1, 1));
        }
        if in_range(q) && p != q {
            return (p, q);
        }
    };
    let (one, other) = (through(random), through(random));
    if one == other || random.once_in(2) {
        return (line(&[one]), line(&[other]));
    }
    // a triangle on the second segment, if there is a third corner off its line
    let corner = loop {
        let p = (random.between(-wide, wide), random.between(-wide, wide));
        if turn(other.0, other.1, p) != 0 {
            break p;
        }
    };
    let triangle = [(other.0, other.1), (other.1, corner), (corner, other.0)].map(|(p, q)| Segment::between(p, q));
    (line(&[one]), Object::of_segments(REGION, &triangle))
}

/// Stretches of one line in either object, with some segments that stand on it.
fn on_one_line(random: &mut Random) -> (Object, Object) {
    let (x, y) = random.pick(&[(1, 0), (0, 1), (1, 1), (2, -1), (3, 2), (-1, 4)]);
    let size = random.pick(&[1, 1, 2, 1000, LIMIT / 60]);
    let (start, step) = ((random.between(-3, 3), random.between(-3, 3)), (x * size, y * size));
    let at = |i: i64| (start.0 + i * step.0, start.1 + i * step.1);
    let mut some = || {
        let mut segments = Vec::new();
        let mut from = random.between(0, 3);
        while from < 12 {
            let to = (from + random.between(1, 4)).min(14);
            if !random.once_in(3) {
                segments.push((at(from), at(to)));
            }
            if random.once_in(4) {
                let side = random.pick(&[1, -1]);
                segments.push((at(to), (at(to).0 - side * step.1, at(to).1 + side * step.0)));
            }
            from = if random.once_in(2) { to } else { to + random.between(0, 2) };
        }
        line(&segments)
    };
    (some(), some())
}

/// Upright strips over level ones: as many pieces as an object may have, or a few more or less. A line has a segment for each, a region a rectangle for two.
fn strips(random: &mut Random) -> (Object, Object) {
    let kinds = [random.pick(&[LINE, REGION]), random.pick(&[LINE, REGION])];
    let numbers = [random.between(20, 24), random.between(20, 24)];
    let long = 2 * numbers[0].max(numbers[1]) + 2;
    let strip = |kind: u8, number: i64, at: &dyn Fn(i64, i64) -> Point| {
        let mut segments = Vec::new();
        for i in 0..number / if kind == REGION { 2 } else { 1 } {
            if kind == LINE {
                segments.push(Segment::between(at(2 * i, -2), at(2 * i, long)));
                continue;
            }
            let corners = [at(4 * i, -2), at(4 * i + 2, -2), at(4 * i + 2, long), at(4 * i, long)];
            segments.extend((0..4).map(|k| Segment::between(corners[k], corners[(k + 1) % 4])));
        }
        Object::of_segments(kind, &segments)
    };
    (strip(kinds[0], numbers[0], &|across, along| (across, along)), strip(kinds[1], numbers[1], &|across, along| (along, across)))
}

/// A long segment, and about 512 that stand on it, or that all begin at one of its points; now and then a crossing off the grid beside them.
fn teeth(random: &mut Random) -> (Object, Object) {
    let number = random.pick(&[510, 511, 512, 512]);
    let foot = |i: i64| (i, 0);
    let mut all: Vec<(Point, Point)> = if random.once_in(4) {
        (1..=number).map(|i| (foot(0), (i, 1000))).collect()
    } else {
        (1..=number).map(|i| (foot(i), (i, random.between(1, 3)))).collect()
    };
    let mut long = vec![((-1, 0), (1000, 0))];
    if random.once_in(3) {
        all.truncate(511);
        long.push(((2000, 0), (2002, 1)));
        all.push(((2001, -5), (2001, 5)));
    }
    (line(&long), line(&all))
}

/// An object of full size under a small one.
fn with_full(random: &mut Random) -> (Object, Object) {
    let kinds = (random.pick(&[LINE, REGION]), random.pick(&[LINE, REGION]));
    (full(random, kinds).0, small(random, kinds).1)
}
