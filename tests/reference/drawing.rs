//! Any byte string as text: its bytes, its records as far as there are any, and a drawing in which `f`, `g` and `b` are segments of F, of G
//! and of both, capitals their ends and the points. Coordinates are drawn by rank, so that near and far ones both show.

use crate::plane::{Point, Segment};
use crate::scene::{body_length, points_of, Half, Object, END, POINT, TYPE};

/// The most different coordinates of an axis that are drawn, and the characters from one to the next.
const MOST_RANKS: usize = 24;
const ACROSS: usize = 4;
const UP: usize = 2;

pub fn scene_text(bytes: &[u8]) -> String {
    let list: Vec<String> = bytes.iter().map(u8::to_string).collect();
    let (records, [f, g]) = loosely(bytes);
    format!("bytes ({}): {}\nrecords:{}\n{}", bytes.len(), list.join(" "), records, drawing(&f, &g))
}

/// The records with their places, and all elements before the first end as F's, all later ones as G's, whatever they are.
fn loosely(bytes: &[u8]) -> (String, [Object; 2]) {
    let mut objects = [Object::default(), Object::default()];
    let (mut text, mut at, mut which) = (String::new(), 0, 0);
    while let Some(kind) = bytes.get(at) {
        let Some(body) = body_length(*kind).and_then(|length| bytes.get(at + 1..at + 1 + length)) else { break };
        let point = |p: Point| format!("({},{})", p.0, p.1);
        text += &match *kind {
            TYPE => format!("\n  {at}: type {}", body[0]),
            END => format!("\n  {at}: end"),
            POINT => {
                let p = points_of(body, 1)[0];
                objects[which].points.push(p);
                format!("\n  {at}: point {}", point(p))
            }
            _ => {
                let ends = points_of(body, 2);
                objects[which].halves.push(Half { segment: Segment { left: ends[0], right: ends[1] }, left: true, ia: false });
                let ia = body.get(17).map(|ia| format!(" ia {ia}")).unwrap_or_default();
                format!("\n  {at}: {}-{} d {}{ia}", point(ends[0]), point(ends[1]), body[16])
            }
        };
        which = if *kind == END { 1 } else { which };
        at += 1 + body.len();
    }
    if at < bytes.len() {
        text += &format!("\n  {at}: no whole record");
    }
    (text, objects)
}

fn ends(object: &Object) -> Vec<Point> {
    object.points.iter().copied().chain(object.halves.iter().flat_map(|h| [h.segment.left, h.segment.right])).collect()
}

fn drawing(f: &Object, g: &Object) -> String {
    let all = [ends(f), ends(g)].concat();
    let ranks = |values: Vec<i64>| {
        let mut values = values;
        values.sort();
        values.dedup();
        values
    };
    let (xs, ys) = (ranks(all.iter().map(|p| p.0).collect()), ranks(all.iter().map(|p| p.1).collect()));
    if xs.len() > MOST_RANKS || ys.len() > MOST_RANKS {
        return format!("no drawing: {} by {} different coordinates\n", xs.len(), ys.len());
    }
    let rank = |p: Point| ((xs.partition_point(|x| *x < p.0) * ACROSS) as i64, (ys.partition_point(|y| *y < p.1) * UP) as i64);
    let (wide, high) = (xs.len().max(1) * ACROSS, ys.len().max(1) * UP);
    // of each character: is it F's, is it G's, is it an end
    let mut canvas = vec![vec![[false; 3]; wide]; high];
    for (object, own) in [(f, 0), (g, 1)] {
        for s in object.segments() {
            let (p, q) = (rank(s.left), rank(s.right));
            let steps = (q.0 - p.0).abs().max((q.1 - p.1).abs());
            for i in 1..steps {
                canvas[(p.1 + (q.1 - p.1) * i / steps) as usize][(p.0 + (q.0 - p.0) * i / steps) as usize][own] = true;
            }
        }
        for (x, y) in ends(object).into_iter().map(rank) {
            canvas[y as usize][x as usize][own] = true;
            canvas[y as usize][x as usize][2] = true;
        }
    }
    let letter = |place: &[bool; 3]| match *place {
        [true, true, end] => {
            if end {
                'B'
            } else {
                'b'
            }
        }
        [true, false, end] => {
            if end {
                'F'
            } else {
                'f'
            }
        }
        [false, true, end] => {
            if end {
                'G'
            } else {
                'g'
            }
        }
        _ => ' ',
    };
    let mut text = String::new();
    for (i, row) in canvas.iter().enumerate().rev() {
        let name = if i % UP == 0 { ys.get(i / UP).map(i64::to_string) } else { None };
        let row: String = row.iter().map(letter).collect();
        text += format!("{:>9} {}", name.unwrap_or_default(), row).trim_end();
        text += "\n";
    }
    let names: Vec<String> = xs.iter().map(|x| x.to_string()).collect();
    text + &format!("        x {}\n", names.join(", "))
}
