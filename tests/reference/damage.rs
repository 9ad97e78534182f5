//! Damaged byte strings: valid scenes spoilt in their segments, their records or their bytes, and strings that never were scenes.
//! Most are refused; some damage does no harm, and what comes out is a scene to compare like any other.

use crate::maker::small;
use crate::plane::{turn, Point, Segment, LIMIT};
use crate::random::Random;
use crate::scene::{half_record, point_record, Half, Object, END, LINE, LINE_HALF, MOST, POINT, POINTS, REGION, REGION_HALF, TYPE};
use crate::summary::SUMMARY;

pub fn damaged(random: &mut Random, f: &Object, g: &Object) -> Vec<u8> {
    let mut objects = [f.clone(), g.clone()];
    let (in_objects, in_records, in_bytes) =
        random.pick(&[(1, 0, 0), (1, 0, 0), (2, 0, 0), (0, 1, 0), (0, 2, 0), (0, 0, 1), (1, 1, 0), (1, 0, 1), (0, 1, 1)]);
    for _ in 0..in_objects {
        damage_object(random, &mut objects);
    }
    let mut records: Vec<Vec<u8>> = objects.iter().flat_map(Object::records).collect();
    for _ in 0..in_records {
        damage_records(random, &mut records);
    }
    let mut bytes = records.concat();
    for _ in 0..in_bytes {
        damage_bytes(random, &mut bytes);
    }
    bytes
}

/// Random bytes, or random records one after another.
pub fn noise(random: &mut Random) -> Vec<u8> {
    if random.once_in(2) {
        let start: &[u8] = random.pick(&[&[], &[TYPE], &[TYPE, POINTS], &[TYPE, LINE], &[TYPE, REGION, END, TYPE, REGION]]);
        let length = random.below(60);
        return start.iter().copied().chain((0..length).map(|_| random.byte())).collect();
    }
    let kinds = [random.between(1, 3) as u8, random.between(1, 3) as u8];
    let mut bytes = Vec::new();
    for kind in kinds {
        bytes.extend([TYPE, kind]);
        for _ in 0..random.below(5) {
            bytes.extend(random_element(random, kind));
        }
        bytes.push(END);
    }
    if random.once_in(4) {
        bytes.extend(random_record(random));
    }
    bytes
}

fn near(random: &mut Random) -> Point {
    (random.between(-3, 6), random.between(-3, 6))
}

fn random_half(random: &mut Random) -> Half {
    let (p, q) = (near(random), near(random));
    let segment = if random.once_in(20) { Segment { left: p, right: q } } else { Segment::between(p, q) };
    Half { segment, left: random.once_in(2), ia: random.once_in(2) }
}

fn random_element(random: &mut Random, kind: u8) -> Vec<u8> {
    if kind == POINTS {
        point_record(near(random))
    } else {
        half_record(kind, &random_half(random))
    }
}

fn random_record(random: &mut Random) -> Vec<u8> {
    match random.below(6) {
        0 => vec![TYPE, random.between(0, 4) as u8],
        1 => vec![END],
        2 => vec![random.byte()],
        kind => random_element(random, kind as u8 - 2),
    }
}

/// A new element at the end of the list, its place being of no account in what was not read.
fn add_half(object: &mut Object, half: Half) {
    object.halves.push(half);
    object.places.push(0);
}

fn add_segment(object: &mut Object, segment: Segment, ia: bool) {
    for left in [true, false] {
        add_half(object, Half { segment, left, ia: ia && object.kind == REGION });
    }
    object.halves.sort_by(Half::order);
}

fn drop_segment(object: &mut Object, segment: Segment) {
    object.halves.retain(|h| h.segment != segment);
    object.places.truncate(object.halves.len());
}

fn damage_object(random: &mut Random, objects: &mut [Object; 2]) {
    let everywhere: Vec<Point> = objects.iter().flat_map(|o| o.halves.iter().flat_map(|h| [h.segment.left, h.segment.right])).collect();
    let which = match objects.iter().position(|o| o.kind == POINTS) {
        Some(points) if !random.once_in(4) => 1 - points,
        _ => random.below(2),
    };
    if random.once_in(12) {
        objects.swap(0, 1);
        return;
    }
    let object = &mut objects[which];
    if random.once_in(40) {
        overfill(random, object);
        return;
    }
    if object.kind == POINTS {
        damage_points(random, object);
        return;
    }
    let end = |random: &mut Random| if everywhere.is_empty() || random.once_in(3) { near(random) } else { random.pick(&everywhere) };
    let some = random.below(object.halves.len().max(1));
    let ia = random.once_in(2);
    let Some(half) = object.halves.get(some).copied() else {
        let (p, q) = (end(random), end(random));
        if p != q {
            add_segment(object, Segment::between(p, q), ia);
        }
        return;
    };
    let s = half.segment;
    match random.below(13) {
        0 => drop_segment(object, s),
        1 | 2 => {
            let (p, q) = (end(random), end(random));
            if p != q {
                add_segment(object, Segment::between(p, q), ia);
            }
        }
        3 => object.halves.iter_mut().filter(|h| h.segment == s).for_each(|h| h.ia = !h.ia && object.kind == REGION),
        4 => object.halves[some].ia = !half.ia && object.kind == REGION,
        5 => {
            // one end moves
            let to = end(random);
            if to != s.left {
                drop_segment(object, s);
                add_segment(object, Segment::between(s.left, to), half.ia);
            }
        }
        6 => {
            // a straight run that other elements may end on becomes one segment
            let onward = object.segments().into_iter().find(|t| t.left == s.right && turn(s.left, s.right, t.right) == 0);
            if let Some(t) = onward {
                drop_segment(object, s);
                drop_segment(object, t);
                add_segment(object, Segment::between(s.left, t.right), half.ia);
            }
        }
        7 => {
            // a part of a segment beside it, or instead of it
            let middle = ((s.left.0 + s.right.0).div_euclid(2), (s.left.1 + s.right.1).div_euclid(2));
            if !s.has_end(middle) {
                if random.once_in(2) {
                    drop_segment(object, s);
                    add_segment(object, Segment::between(s.left, middle), half.ia);
                }
                add_segment(object, Segment::between(middle, s.right), half.ia);
            }
        }
        8 => object.halves[some].left = !half.left,
        9..=11 => {
            // another object of its kind on top, not split against it
            let (_, other) = small(random, (object.kind, object.kind));
            let segments = [object.segments(), other.segments()].concat();
            let mut different: Vec<Segment> = segments.into_iter().take(MOST / 2).collect();
            different.sort();
            different.dedup();
            *object = Object::of_segments(object.kind, &different);
        }
        _ => object.halves.iter_mut().for_each(|h| h.ia = !h.ia && object.kind == REGION),
    }
}

fn damage_points(random: &mut Random, object: &mut Object) {
    let new = near(random);
    let at = random.below(object.points.len() + 1);
    object.points.insert(at, if random.once_in(2) && at > 0 { object.points[at - 1] } else { new });
    object.places.push(0);
}

/// 1,025 elements or more; none of them has to be right, for 6 is found first.
fn overfill(random: &mut Random, object: &mut Object) {
    let most = MOST + 1 + random.below(3);
    while object.places.len() < most {
        if object.kind == POINTS {
            object.points.push((object.places.len() as i64, 0));
        } else {
            object.halves.push(Half { segment: Segment { left: (0, 0), right: (1, object.places.len() as i64) }, left: true, ia: false });
        }
        object.places.push(0);
    }
}

fn damage_records(random: &mut Random, records: &mut Vec<Vec<u8>>) {
    let (i, j) = (random.below(records.len()), random.below(records.len()));
    let length = records[i].len();
    match random.below(11) {
        0 => records.swap(i, j),
        1 if i > 0 => records.swap(i, i - 1),
        2 => records.insert(i, records[j].clone()),
        3 => records.insert(i, records[i].clone()),
        4 => drop(records.remove(i)),
        5 => records.insert(i, random_record(random)),
        6 if length > 8 => {
            let value = random.pick(&[LIMIT, LIMIT + 1, -LIMIT, -LIMIT - 1, i32::MAX as i64, i32::MIN as i64, 0]) as i32;
            let at = 1 + 4 * random.below((length - 1) / 4);
            records[i][at..at + 4].copy_from_slice(&value.to_le_bytes());
        }
        7 if length > 17 => {
            let flag = random.pick(&[17, length - 1]);
            records[i][flag] = random.pick(&[0, 1, 2, 3, 255]);
        }
        8 if length > 17 => {
            // the ends exchanged, or one of them twice
            let (left, right) = (records[i][1..9].to_vec(), records[i][9..17].to_vec());
            records[i][1..9].copy_from_slice(&right);
            if random.once_in(2) {
                records[i][9..17].copy_from_slice(&left);
            }
        }
        9 => {
            let types: Vec<usize> = (0..records.len()).filter(|at| records[*at][0] == TYPE).collect();
            if !types.is_empty() {
                let at = random.pick(&types);
                let last = records[at].len() - 1;
                records[at][last] = random.pick(&[0, 1, 2, 3, 4, 255]);
            }
        }
        _ => {
            let (low, high) = (i.min(j), i.max(j));
            random.shuffle(&mut records[low..=high]);
        }
    }
}

/// A summary with something else in one or two of its fields, or of another length. Some of these are good.
pub fn spoilt_summary(random: &mut Random, record: &[u8]) -> Vec<u8> {
    let mut spoilt = record.to_vec();
    for _ in 0..random.between(1, 2) {
        let field = 3 + 4 * random.below(4);
        match random.below(10) {
            0 => spoilt[0] = random.pick(&[SUMMARY, SUMMARY + 1, TYPE, 0, 255]),
            1 => spoilt[1] = random.pick(&[0, 1, 2, 3, 4, 255]),
            2 => spoilt[2] = random.pick(&[0, 1, 2, 255]),
            3 => spoilt[19] = random.pick(&[0, 1, 2, 255]),
            4 | 5 => {
                // a box with less width or height, or none
                let from = 3 + 4 * random.below(2);
                let value: [u8; 4] = std::array::from_fn(|i| spoilt[from + i]);
                spoilt[from + 8..from + 12].copy_from_slice(&value);
            }
            6 => spoilt[3..19].fill(0),
            _ => {
                let value = random.pick(&[0, 0, 1, -1, LIMIT, LIMIT + 1, -LIMIT, -LIMIT - 1, i32::MAX as i64, i32::MIN as i64]) as i32;
                spoilt[field..field + 4].copy_from_slice(&value.to_le_bytes());
            }
        }
    }
    match random.below(16) {
        0 => spoilt.truncate(random.below(20)),
        1 => spoilt.push(random.pick(&[0, 1, SUMMARY])),
        _ => (),
    }
    spoilt
}

fn damage_bytes(random: &mut Random, bytes: &mut Vec<u8>) {
    let at = random.below(bytes.len().max(1));
    match random.below(6) {
        0 => bytes.truncate(at),
        1 if at < bytes.len() => bytes[at] ^= 1 << random.below(8),
        2 if at < bytes.len() => bytes[at] = random.pick(&[0, 1, 2, 3, END, LINE_HALF, POINT, REGION_HALF, TYPE, 255]),
        3 => {
            let more = random.pick(&[1, 1, 2, 20, 40_000]);
            bytes.extend((0..more).map(|_| random.pick(&[0, END, TYPE, 255])));
        }
        4 => bytes.insert(at, random.byte()),
        _ if at < bytes.len() => drop(bytes.remove(at)),
        _ => (),
    }
}
