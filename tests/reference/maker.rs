//! Random valid scenes of every pair of types in either order. Both objects are chosen from one plan, by classes whose weights are often 0, so that rare
//! relations come up: nothing shared, everything shared, one inside the other, closed lines, points on every boundary point. Scenes with a
//! hub, at which many of a line's segments end. And pairs of objects whose boxes are apart, touch or meet.

use crate::plan::Plan;
use crate::plane::{inside, turn, Fraction, Point, Segment, LIMIT};
use crate::random::Random;
use crate::scene::{Object, LINE, MOST, POINTS, REGION};
use crate::summary::corners;

/// The six pairs of types with the lower one first.
pub const PAIRS: [(u8, u8); 6] = [(POINTS, POINTS), (POINTS, LINE), (POINTS, REGION), (LINE, LINE), (LINE, REGION), (REGION, REGION)];

/// The three pairs with the higher one first.
pub const DESCENDING: [(u8, u8); 3] = [(LINE, POINTS), (REGION, POINTS), (REGION, LINE)];

/// A pair of types in either order, the richer ones more often.
pub fn some_pair(random: &mut Random) -> (u8, u8) {
    let (f, g) = PAIRS[random.weighted(&[1, 2, 2, 5, 5, 5])];
    if random.once_in(2) {
        (g, f)
    } else {
        (f, g)
    }
}

/// A scene of a pair in either order, made with the lower type first and exchanged if the higher one is wanted first.
pub fn in_either_order(kinds: (u8, u8), make: impl FnOnce((u8, u8)) -> (Object, Object)) -> (Object, Object) {
    if kinds.0 <= kinds.1 {
        return make(kinds);
    }
    let (lower, higher) = make((kinds.1, kinds.0));
    (higher, lower)
}

/// A scene on a small plan.
pub fn small(random: &mut Random, kinds: (u8, u8)) -> (Object, Object) {
    in_either_order(kinds, |kinds| small_ascending(random, kinds))
}

fn small_ascending(random: &mut Random, kinds: (u8, u8)) -> (Object, Object) {
    let plan = Plan::small(random);
    if kinds == (POINTS, POINTS) {
        return points_points(random, &plan);
    }
    let chosen = some_edges(random, &plan, kinds);
    let mut segments = segments(random, &plan, chosen);
    for of_one in &mut segments {
        if random.once_in(25) {
            of_one.clear();
        }
    }
    objects(random, &plan, kinds, segments)
}

/// A small scene in which a line has a hub: a point at which three to seven of its segments end. Either object comes first.
pub fn with_hub(random: &mut Random) -> (Object, Object) {
    let (f, g) = ascending_with_hub(random);
    if random.once_in(2) {
        (g, f)
    } else {
        (f, g)
    }
}

fn ascending_with_hub(random: &mut Random) -> (Object, Object) {
    let kinds = random.pick(&[(POINTS, LINE), (LINE, LINE), (LINE, LINE), (LINE, REGION), (LINE, REGION)]);
    let line = if kinds.0 == POINTS || kinds.1 == LINE && random.once_in(2) { 1 } else { 0 };
    loop {
        let plan = Plan::small(random);
        let nodes: Vec<usize> = (0..plan.nodes.len()).filter(|node| plan.edges_at(*node).count() >= 3).collect();
        if nodes.is_empty() {
            continue;
        }
        let mut spokes: Vec<usize> = plan.edges_at(random.pick(&nodes)).collect();
        random.shuffle(&mut spokes);
        let number = random.between(3, spokes.len().min(7) as i64) as usize;
        let mut chosen = some_edges(random, &plan, kinds);
        spokes.iter().enumerate().for_each(|(i, spoke)| chosen[line][*spoke] = i < number);
        let segments = segments(random, &plan, chosen);
        return objects(random, &plan, kinds, segments);
    }
}

/// Two accepted objects, of one plan each, the second moved to where its box is apart from the first's by a step or more, touches it, or meets it. Where the boxes
/// share a point, they need not form a scene. Now and then one of them is empty.
pub fn side_by_side(random: &mut Random) -> (Object, Object) {
    let kinds = some_pair(random);
    let [mut f, mut g] = [small(random, kinds).0, small(random, kinds).1];
    match random.below(20) {
        0 => f = Object::of_segments(kinds.0, &[]),
        1 => g = Object::of_segments(kinds.1, &[]),
        _ => (),
    }
    let moved = if random.once_in(8) { None } else { beside(random, &f, &g) };
    (f, moved.unwrap_or(g))
}

/// The second object, moved so that on one axis it begins right after the first, or some steps on or back; on the other axis anywhere near. None if it would leave
/// the range, or if one of the two is empty.
fn beside(random: &mut Random, f: &Object, g: &Object) -> Option<Object> {
    let ends = |object: &Object, axis: fn(&Point) -> i64| {
        let all: Vec<i64> = corners(object).iter().map(axis).collect();
        Some((all.iter().copied().min()?, all.iter().copied().max()?))
    };
    let (x, y): (fn(&Point) -> i64, fn(&Point) -> i64) = (|p| p.0, |p| p.1);
    let mut after = |axis: fn(&Point) -> i64| {
        let ((low, high), (its_low, its_high)) = (ends(f, axis)?, ends(g, axis)?);
        let gap = random.pick(&[-3, -1, 0, 0, 1, 1, 2, 50]);
        Some(if random.once_in(2) { high + gap - its_low } else { low - gap - its_high })
    };
    let (right, up) = (after(x)?, after(y)?);
    let near = random.between(-4, 4);
    let level = |axis: fn(&Point) -> i64| Some(ends(f, axis)?.0 - ends(g, axis)?.0 + near);
    let by = random.pick(&[(right, up), (right, level(y)?), (level(x)?, up)]);
    let moved = |p: Point| (p.0 + by.0, p.1 + by.1);
    if corners(g).into_iter().map(moved).any(|p| p.0.abs() > LIMIT || p.1.abs() > LIMIT) {
        return None;
    }
    let points: Vec<Point> = g.points.iter().map(|p| moved(*p)).collect();
    let segments: Vec<Segment> = g.segments().iter().map(|s| Segment { left: moved(s.left), right: moved(s.right) }).collect();
    Some(if g.kind == POINTS { Object::of_points(&points) } else { Object::of_segments(g.kind, &segments) })
}

/// The edges of F and of G; a points object has none.
fn some_edges(random: &mut Random, plan: &Plan, kinds: (u8, u8)) -> [Vec<bool>; 2] {
    match kinds {
        (POINTS, kind) => {
            let edges = if kind == LINE { some_line(random, plan) } else { some_region(random, plan) };
            [vec![false; plan.edges.len()], edges]
        }
        (LINE, LINE) => line_line(random, plan),
        (LINE, _) => line_region(random, plan),
        _ => region_region(random, plan),
    }
}

fn objects(random: &mut Random, plan: &Plan, kinds: (u8, u8), [of_f, of_g]: [Vec<Segment>; 2]) -> (Object, Object) {
    let g = Object::of_segments(kinds.1, &of_g);
    let f = if kinds.0 == POINTS { points_near(random, plan, &g) } else { Object::of_segments(kinds.0, &of_f) };
    (f, g)
}

/// A scene whose objects have 1,024 elements each, but for a line now and then that is small beside a full object.
pub fn full(random: &mut Random, kinds: (u8, u8)) -> (Object, Object) {
    in_either_order(kinds, |kinds| full_ascending(random, kinds))
}

fn full_ascending(random: &mut Random, kinds: (u8, u8)) -> (Object, Object) {
    let plan = Plan::large(random);
    let mut fill = |kind: u8| {
        let edges = match kind {
            POINTS => return Object::of_points(&full_points(random, &plan)),
            LINE => {
                let mut all: Vec<usize> = (0..plan.edges.len()).collect();
                random.shuffle(&mut all);
                let most = if random.once_in(4) { random.below(20) } else { MOST / 2 };
                all.into_iter().take(most).collect()
            }
            _ => full_outline(random, &plan),
        };
        Object::of_segments(kind, &edges.iter().map(|e| plan.segment(*e)).collect::<Vec<_>>())
    };
    (fill(kinds.0), fill(kinds.1))
}

/// 1,024 points on and beside the plan.
fn full_points(random: &mut Random, plan: &Plan) -> Vec<Point> {
    let mut points = plan.nodes.clone();
    points.extend((0..plan.edges.len()).filter_map(|e| whole_midpoint(&plan.segment(e))));
    points.sort();
    points.dedup();
    random.shuffle(&mut points);
    points.truncate(MOST);
    points
}

/// 512 edges that bound a region: rings are exchanged for as long as that brings the number nearer.
fn full_outline(random: &mut Random, plan: &Plan) -> Vec<usize> {
    let mut taken: Vec<bool> = plan.rings.iter().map(|_| random.once_in(2)).collect();
    let off_by = |edges: &[bool]| (edges.iter().filter(|e| **e).count() as i64 - MOST as i64 / 2).abs();
    let mut edges = plan.outline(|ring| taken[ring]);
    while off_by(&edges) > 0 {
        let ring = random.below(taken.len());
        taken[ring] = !taken[ring];
        let new = plan.outline(|ring| taken[ring]);
        if off_by(&new) <= off_by(&edges) {
            edges = new;
        } else {
            taken[ring] = !taken[ring];
        }
    }
    (0..edges.len()).filter(|e| edges[*e]).collect()
}

/// Weights of the classes neither, F, G, both; about half are 0, but neither object is left out.
fn class_weights(random: &mut Random) -> [usize; 4] {
    loop {
        let weights: [usize; 4] = std::array::from_fn(|_| random.pick(&[0, 0, 0, 1, 2, 6]));
        if weights[1] + weights[3] > 0 && weights[2] + weights[3] > 0 {
            return weights;
        }
    }
}

fn points_points(random: &mut Random, plan: &Plan) -> (Object, Object) {
    let weights = class_weights(random);
    let (mut of_f, mut of_g) = (Vec::new(), Vec::new());
    for p in &plan.nodes {
        let class = random.weighted(&weights);
        if class & 1 != 0 {
            of_f.push(*p);
        }
        if class & 2 != 0 {
            of_g.push(*p);
        }
    }
    (Object::of_points(&of_f), Object::of_points(&of_g))
}

/// Points on the boundary, on ends inside, on the open segments, off a line or a region, each class as likely as it happens to be.
fn points_near(random: &mut Random, plan: &Plan, g: &Object) -> Object {
    let segments = g.segments();
    let mut places = plan.nodes.clone();
    places.extend(segments.iter().filter_map(whole_midpoint));
    // a step away from the nodes, which is mostly off the segments
    for node in &plan.nodes {
        let p = (node.0 + random.between(-1, 1), node.1 + random.between(-1, 1));
        if p.0.abs() <= LIMIT && p.1.abs() <= LIMIT {
            places.push(p);
        }
    }
    let chances: Vec<usize> = (0..5).map(|_| random.pick(&[0, 0, 1, 2, 3, 3])).collect();
    let taken = |p: &Point| {
        let ends_here = segments.iter().filter(|s| s.has_end(*p)).count();
        let on = segments.iter().any(|s| s.has(&Fraction::whole(*p)));
        let class = match (ends_here, on) {
            (1, _) => 0,
            (2.., _) => 1,
            (_, true) => 2,
            _ if inside(&segments, &Fraction::whole(*p)) => 3,
            _ => 4,
        };
        random.below(3) < chances[class]
    };
    places.retain(taken);
    Object::of_points(&places)
}

fn some_line(random: &mut Random, plan: &Plan) -> Vec<bool> {
    let [line, _] = line_line(random, plan);
    line
}

fn some_region(random: &mut Random, plan: &Plan) -> Vec<bool> {
    let [region, _] = region_region(random, plan);
    region
}

/// Every edge in neither line, in F, in G or in both: edge by edge, or some strokes of edges.
fn line_line(random: &mut Random, plan: &Plan) -> [Vec<bool>; 2] {
    let weights = class_weights(random);
    let mut classes: Vec<usize> = vec![0; plan.edges.len()];
    if random.once_in(3) {
        classes.iter_mut().for_each(|class| *class = random.weighted(&weights));
    } else {
        for _ in 0..random.between(1, 6) {
            let class = random.between(1, 3) as usize;
            stroke(random, plan).into_iter().for_each(|e| classes[e] |= class);
        }
    }
    let mut lines: [Vec<bool>; 2] = [1, 2].map(|bit| classes.iter().map(|class| class & bit != 0).collect());
    for line in &mut lines {
        match random.below(8) {
            0 => cut_loose_ends(plan, line),
            1 => *line = random_outline(random, plan),
            _ => (),
        }
    }
    if random.once_in(3) {
        part_interiors(random, plan, &mut lines);
    }
    lines
}

/// Leaves out edges until the lines share no edge and no node that is in neither boundary.
fn part_interiors(random: &mut Random, plan: &Plan, lines: &mut [Vec<bool>; 2]) {
    let shared: Vec<usize> = (0..plan.edges.len()).filter(|e| lines[0][*e] && lines[1][*e]).collect();
    for e in shared {
        lines[random.below(2)][e] = false;
    }
    for node in 0..plan.nodes.len() {
        loop {
            let here = [0, 1].map(|object| plan.edges_at(node).filter(|e| lines[object][*e]).collect::<Vec<_>>());
            if here[0].len() < 2 || here[1].len() < 2 {
                break;
            }
            let loser = random.below(2);
            lines[loser][random.pick(&here[loser])] = false;
        }
    }
}

/// A ring, or a path of a few edges that may meet itself.
fn stroke(random: &mut Random, plan: &Plan) -> Vec<usize> {
    if !plan.rings.is_empty() && random.once_in(3) {
        return plan.rings[random.below(plan.rings.len())].clone();
    }
    let mut path = Vec::new();
    if plan.edges.is_empty() {
        return path;
    }
    let mut node = plan.edges[random.below(plan.edges.len())].0;
    for _ in 0..random.between(1, 4) {
        let onward: Vec<usize> = plan.edges_at(node).filter(|e| !path.contains(e)).collect();
        if onward.is_empty() {
            break;
        }
        let edge = random.pick(&onward);
        let (p, q) = plan.edges[edge];
        path.push(edge);
        node = if p == node { q } else { p };
    }
    path
}

/// A region, and a line whose edges are inside it, on it or outside it, each class as likely as it happens to be.
fn line_region(random: &mut Random, plan: &Plan) -> [Vec<bool>; 2] {
    let region = random_outline(random, plan);
    let outline: Vec<Segment> = (0..plan.edges.len()).filter(|e| region[*e]).map(|e| plan.segment(e)).collect();
    let chances: Vec<usize> = (0..3).map(|_| random.pick(&[0, 0, 1, 2, 4, 4])).collect();
    let mut line: Vec<bool> = (0..plan.edges.len())
        .map(|e| {
            let class = match (region[e], inside(&outline, &plan.segment(e).midpoint())) {
                (true, _) => 0,
                (_, true) => 1,
                _ => 2,
            };
            random.below(4) < chances[class]
        })
        .collect();
    match random.below(6) {
        0 => cut_loose_ends(plan, &mut line),
        1 | 2 => {
            line = vec![false; plan.edges.len()];
            for _ in 0..random.between(1, 4) {
                stroke(random, plan).into_iter().for_each(|e| line[e] = true);
            }
        }
        _ => (),
    }
    [line, region]
}

/// Every ring in neither region, in F, in G or in both; or one region before a node and the other after it, which meet there at most.
fn region_region(random: &mut Random, plan: &Plan) -> [Vec<bool>; 2] {
    let weights = class_weights(random);
    let mut classes: Vec<usize> = plan.rings.iter().map(|_| random.weighted(&weights)).collect();
    if random.once_in(6) && !plan.nodes.is_empty() {
        let (node, before) = (random.pick(&plan.nodes), random.between(1, 2) as usize);
        for (ring, edges) in plan.rings.iter().enumerate() {
            let all =
                |test: fn(&Point, &Point) -> bool| edges.iter().all(|e| test(&plan.segment(*e).left, &node) && test(&plan.segment(*e).right, &node));
            classes[ring] = if all(|p, q| p <= q) {
                before
            } else if all(|p, q| p >= q) {
                3 - before
            } else {
                0
            };
        }
    }
    [1, 2].map(|bit| plan.outline(|ring| classes[ring] & bit != 0))
}

fn random_outline(random: &mut Random, plan: &Plan) -> Vec<bool> {
    let once_in = random.pick(&[1, 2, 2, 3, 5]);
    let taken: Vec<bool> = plan.rings.iter().map(|_| random.once_in(once_in)).collect();
    plan.outline(|ring| taken[ring])
}

/// Leaves out edges with an end that no other edge has, until there are none: the line is closed then.
fn cut_loose_ends(plan: &Plan, line: &mut [bool]) {
    loop {
        let loose = |node: usize| plan.edges_at(node).filter(|e| line[*e]).count() == 1;
        let Some(e) = (0..line.len()).find(|e| line[*e] && (loose(plan.edges[*e].0) || loose(plan.edges[*e].1))) else { return };
        line[e] = false;
    }
}

fn whole_midpoint(s: &Segment) -> Option<Point> {
    let (x, y) = (s.left.0 + s.right.0, s.left.1 + s.right.1);
    (x % 2 == 0 && y % 2 == 0).then_some((x / 2, y / 2))
}

/// The chosen edges as segments, sometimes with straight runs joined to one segment where that splits nothing.
fn segments(random: &mut Random, plan: &Plan, chosen: [Vec<bool>; 2]) -> [Vec<Segment>; 2] {
    let mut all: Vec<(Segment, [bool; 2])> =
        (0..plan.edges.len()).map(|e| (plan.segment(e), [chosen[0][e], chosen[1][e]])).filter(|(_, of)| of[0] || of[1]).collect();
    if random.once_in(2) {
        for node in &plan.nodes {
            let here: Vec<usize> = (0..all.len()).filter(|i| all[*i].0.has_end(*node)).collect();
            let [i, j] = here[..] else { continue };
            let far = |s: &Segment| if s.left == *node { s.right } else { s.left };
            let (p, q) = (far(&all[i].0), far(&all[j].0));
            if all[i].1 == all[j].1 && turn(p, *node, q) == 0 && !random.once_in(4) {
                all[i].0 = Segment::between(p, q);
                all.swap_remove(j);
            }
        }
    }
    [0, 1].map(|object| all.iter().filter(|(_, of)| of[object]).map(|(s, _)| *s).collect())
}
