//! A region's outline as polygons: outer rings, each with its holes. The scene has what that takes: halfsegments at a point stand in its order as they turn about the point, and ia
//! says on which side of each the interior is. Rings are walked with the interior on the left and cut where they come back to a point, so none passes a point twice. How rings
//! lie to each other the library says.

use crate::bytes::{Half, Kind, Point, Record};
use crate::library;
use crate::shape::{Path, Placed, Shape};
use std::collections::{BTreeMap, HashMap};

pub type Ring = Vec<Point>;

/// Of the records of an accepted region.
pub fn polygons(records: &[Record]) -> Option<Vec<Vec<Ring>>> {
    let (holes, outer): (Vec<Ring>, Vec<Ring>) = rings(records)?.into_iter().partition(|ring| is_hole(ring, records));
    let regions: Vec<Vec<u8>> = outer.iter().map(|ring| region(ring)).collect::<Option<_>>()?;
    let mut polygons: Vec<Vec<Ring>> = outer.into_iter().map(|ring| vec![ring]).collect();
    for hole in holes {
        let home = home(&region(&hole)?, &regions)?;
        polygons[home].push(hole);
    }
    Some(polygons)
}

/// The halfsegments that each point dominates, in the scene's order: about the point, against the clock.
type Turns = HashMap<Point, Vec<Point>>;

/// Where the walk can still go on to from each point.
type Ways = BTreeMap<Point, Vec<Point>>;

fn rings(records: &[Record]) -> Option<Vec<Ring>> {
    let (mut turns, mut ways) = (Turns::new(), Ways::new());
    for record in records {
        let Record::Region(half, ia) = record else {
            return None;
        };
        turns.entry(half.dominating()).or_default().push(half.far());
        // above a left half, and below a right one, is the left of the way from the dominating point
        if (half.d == 1) == (*ia == 1) {
            ways.entry(half.dominating()).or_default().push(half.far());
        }
    }
    let mut rings = Vec::new();
    while let Some(start) = ways.iter().find(|(_, to)| !to.is_empty()).map(|(from, _)| *from) {
        walk(start, &turns, &mut ways, &mut rings)?;
    }
    Some(rings)
}

/// From the start until it is reached again, every loop on the way cut off as a ring.
fn walk(start: Point, turns: &Turns, ways: &mut Ways, rings: &mut Vec<Ring>) -> Option<()> {
    let mut path = vec![start];
    let mut from = None;
    loop {
        let here = *path.last()?;
        let next = turn(from, here, turns, ways.get_mut(&here)?)?;
        from = Some(here);
        match path.iter().position(|point| *point == next) {
            None => path.push(next),
            Some(first) => {
                rings.push(path[first..].iter().copied().chain([next]).collect());
                path.truncate(first + 1);
                if first == 0 {
                    return Some(());
                }
            }
        }
    }
}

/// Takes the way that is first clockwise from the way back: it bounds the same piece of interior.
fn turn(from: Option<Point>, here: Point, turns: &Turns, ways: &mut Vec<Point>) -> Option<Point> {
    let about = turns.get(&here)?;
    let back = from.and_then(|from| about.iter().position(|far| *far == from)).unwrap_or(0);
    let clockwise = (1..=about.len()).map(|step| about[(back + about.len() - step) % about.len()]);
    let next = clockwise.into_iter().find_map(|far| ways.iter().position(|way| *way == far))?;
    Some(ways.swap_remove(next))
}

/// At a ring's least point the first of its halfsegments in the scene's order is the lower one: the interior is above it where the ring is an outer one.
fn is_hole(ring: &Ring, records: &[Record]) -> bool {
    let Some(least) = ring.iter().min() else {
        return false;
    };
    let of_ring = |half: &Half| ring.windows(2).any(|step| [half.segment.left, half.segment.right] == [step[0].min(step[1]), step[0].max(step[1])]);
    let lower = records.iter().find_map(|record| match record {
        Record::Region(half, ia) if half.dominating() == *least && of_ring(half) => Some(*ia),
        _ => None,
    });
    lower == Some(0)
}

/// The ring alone, as a region.
fn region(ring: &Ring) -> Option<Vec<u8>> {
    let placed = |point: &Point| Placed { x: point.x as f64, y: point.y as f64, at: [0, 0] };
    let path = Path { points: ring.iter().map(placed).collect(), at: 0 };
    Shape { kind: Kind::Region, parts: vec![vec![path]] }.object().ok()
}

/// The smallest of some regions that a hole lies within.
fn home(hole: &[u8], regions: &[Vec<u8>]) -> Option<usize> {
    let within = |region: &Vec<u8>| library::relate(&[hole, region].concat(), "T*F**F***") == Ok(true);
    let area = |region: &Vec<u8>| library::areas(&[&region[..], &EMPTY].concat()).map_or(i64::MAX, |areas| areas.f_only);
    (0..regions.len()).filter(|i| within(&regions[*i])).min_by_key(|i| area(&regions[*i]))
}

const EMPTY: [u8; 3] = [84, 3, 69];
