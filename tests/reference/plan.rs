//! Random planar graphs on whole-number points: the common ground from whose edges both objects of a scene are chosen, so that it is split.

use crate::plane::{turn, Point, Segment, LIMIT};
use crate::random::Random;

/// No two edges share a point that is not an end of both. Every set of edges with even ends, hence every region, is a sum of some rings.
pub struct Plan {
    pub nodes: Vec<Point>,
    pub edges: Vec<(usize, usize)>,
    pub rings: Vec<Vec<usize>>,
}

impl Plan {
    pub fn segment(&self, edge: usize) -> Segment {
        let (p, q) = self.edges[edge];
        Segment::between(self.nodes[p], self.nodes[q])
    }

    pub fn edges_at(&self, node: usize) -> impl Iterator<Item = usize> + '_ {
        (0..self.edges.len()).filter(move |e| self.edges[*e].0 == node || self.edges[*e].1 == node)
    }

    /// The edges that belong to an odd number of the chosen rings.
    pub fn outline(&self, chosen: impl Fn(usize) -> bool) -> Vec<bool> {
        let mut odd = vec![false; self.edges.len()];
        for (ring, edges) in self.rings.iter().enumerate() {
            if chosen(ring) {
                edges.iter().for_each(|e| odd[*e] = !odd[*e]);
            }
        }
        odd
    }

    /// A plan for a small scene.
    pub fn small(random: &mut Random) -> Plan {
        let mut plan = match random.below(10) {
            0 => Plan::grid(random, 3, 3),
            1 | 2 => Plan::grid(random, 6, 4),
            3 => Plan::bent(random),
            4 => Plan::fan(random),
            5..=7 => Plan::boxes(random),
            _ => Plan::scattered(random),
        };
        plan.place(random);
        plan
    }

    /// A plan with far more than 512 edges.
    pub fn large(random: &mut Random) -> Plan {
        let mut plan = Plan::cells(random, 20, 20, 2);
        plan.nodes.iter_mut().for_each(|p| *p = (2 * p.0, 2 * p.1));
        plan.place(random);
        plan
    }

    /// A grid with up to `most_wide` by `most_high` cells of equal or of very unequal sizes.
    fn grid(random: &mut Random, most_wide: i64, most_high: i64) -> Plan {
        let (wide, high) = (random.between(1, most_wide) as usize, random.between(1, most_high) as usize);
        let cut_once_in = random.pick(&[1, 2, 4]);
        let mut plan = Plan::cells(random, wide, high, cut_once_in);
        if random.once_in(8) {
            // from limit to limit, one step of each axis long and the others short
            let mut axis = |steps: usize| {
                let long = random.below(steps) as i64;
                move |i: i64| if i <= long { i - LIMIT } else { LIMIT - (steps as i64 - i) }
            };
            let (across, up) = (axis(wide), axis(high));
            plan.nodes.iter_mut().for_each(|p| *p = (across(p.0), up(p.1)));
        } else {
            plan.nodes.iter_mut().for_each(|p| *p = (2 * p.0, 2 * p.1));
        }
        plan
    }

    /// Unit squares, one in `cut_once_in` of them cut into two triangles.
    fn cells(random: &mut Random, wide: usize, high: usize, cut_once_in: usize) -> Plan {
        let node = |x: usize, y: usize| x * (high + 1) + y;
        let mut plan = Plan { nodes: Vec::new(), edges: Vec::new(), rings: Vec::new() };
        let (mut flat, mut upright) = (Vec::new(), Vec::new());
        for x in 0..=wide {
            for y in 0..=high {
                plan.nodes.push((x as i64, y as i64));
                flat.push(plan.edges.len());
                if x < wide {
                    plan.edges.push((node(x, y), node(x + 1, y)));
                }
                upright.push(plan.edges.len());
                if y < high {
                    plan.edges.push((node(x, y), node(x, y + 1)));
                }
            }
        }
        for x in 0..wide {
            for y in 0..high {
                let (bottom, top) = (flat[node(x, y)], flat[node(x, y + 1)]);
                let (left, right) = (upright[node(x, y)], upright[node(x + 1, y)]);
                if !random.once_in(cut_once_in) {
                    plan.rings.push(vec![bottom, right, top, left]);
                    continue;
                }
                let cut = plan.edges.len();
                if random.once_in(2) {
                    plan.edges.push((node(x, y), node(x + 1, y + 1)));
                    plan.rings.extend([vec![bottom, right, cut], vec![left, top, cut]]);
                } else {
                    plan.edges.push((node(x, y + 1), node(x + 1, y)));
                    plan.rings.extend([vec![bottom, left, cut], vec![right, top, cut]]);
                }
            }
        }
        plan
    }

    /// A grid of triangles with every node moved a little: each triangle keeps its turn, so the plan stays planar.
    fn bent(random: &mut Random) -> Plan {
        let (wide, high) = (random.between(1, 3) as usize, random.between(1, 3) as usize);
        let mut plan = Plan::cells(random, wide, high, 1);
        plan.nodes.iter_mut().for_each(|p| *p = (10 * p.0 + random.between(-2, 2), 10 * p.1 + random.between(-2, 2)));
        plan
    }

    /// A hub with spokes to points around it, or to points on a line across the whole range, and the edges between those.
    fn fan(random: &mut Random) -> Plan {
        let around = [(-2, -2), (0, -3), (2, -2), (3, 0), (2, 2), (0, 3), (-2, 2), (-3, 0)];
        let (hub, rim) = if random.once_in(3) { Plan::slivers(random) } else { ((0, 0), around) };
        let kept: Vec<Point> = rim.into_iter().filter(|_| !random.once_in(4)).collect();
        let mut plan = Plan { nodes: vec![hub], edges: (0..kept.len()).map(|i| (0, i + 1)).collect(), rings: Vec::new() };
        plan.nodes.extend(&kept);
        for i in 0..kept.len() {
            // less than half a turn apart: the triangle with the hub stays clear of the others
            let next = (i + 1) % kept.len();
            if turn(hub, kept[i], kept[next]) > 0 {
                plan.rings.push(vec![i, next, plan.edges.len()]);
                plan.edges.push((i + 1, next + 1));
            }
        }
        plan
    }

    /// A hub in a corner of the range and points in a row: the triangle of the hub and two neighbours is as thin as whole numbers allow.
    fn slivers(random: &mut Random) -> (Point, [Point; 8]) {
        let hub = (-LIMIT, -LIMIT);
        // the step from point to point, and the first of them beside the line of steps, the cross product of the two being 1
        let (step, first) = random.pick(&[((1, 1), (1, 0)), ((2, 1), (1, 0)), ((3, 2), (2, 1)), ((1, 2), (1, 1)), ((0, 1), (1, 0))]);
        let steps = random.pick(&[0, 500, 2 * LIMIT / 3 - 10]);
        let wide = if step == (0, 1) { 2 * LIMIT } else { first.0 };
        (hub, std::array::from_fn(|i| (hub.0 + wide + (steps + i as i64) * step.0, hub.1 + first.1 + (steps + i as i64) * step.1)))
    }

    /// Boxes beside and inside one another, none touching.
    fn boxes(random: &mut Random) -> Plan {
        let mut plan = Plan { nodes: Vec::new(), edges: Vec::new(), rings: Vec::new() };
        let (wide, high) = (random.between(8, 24), random.between(6, 16));
        plan.fill_with_boxes(random, (0, 0), (wide, high), 0);
        plan
    }

    fn fill_with_boxes(&mut self, random: &mut Random, low: Point, high: Point, depth: usize) {
        if high.0 - low.0 < 3 || high.1 - low.1 < 3 || depth > 4 || random.once_in(8) {
            return;
        }
        if high.0 - low.0 > 7 && !random.once_in(3) {
            let middle = random.between(low.0 + 3, high.0 - 3);
            self.fill_with_boxes(random, low, (middle, high.1), depth);
            self.fill_with_boxes(random, (middle, low.1), high, depth);
            return;
        }
        let (low, high) = ((low.0 + 1, low.1 + 1), (high.0 - 1, high.1 - 1));
        let corner = self.nodes.len();
        self.nodes.extend([low, (high.0, low.1), high, (low.0, high.1)]);
        let side = self.edges.len();
        self.edges.extend((0..4).map(|i| (corner + i, corner + (i + 1) % 4)));
        self.rings.push((side..side + 4).collect());
        self.fill_with_boxes(random, low, high, depth + 1);
    }

    /// Random nodes, joined as long as the new edge touches no other; the rings close a spanning forest.
    fn scattered(random: &mut Random) -> Plan {
        let reach = random.pick(&[2, 3, 3, 4, 6, 12, LIMIT]);
        let mut nodes: Vec<Point> = (0..random.between(2, 9)).map(|_| (random.between(-reach, reach), random.between(-reach, reach))).collect();
        nodes.sort();
        nodes.dedup();
        let mut pairs: Vec<(usize, usize)> = (0..nodes.len()).flat_map(|q| (0..q).map(move |p| (p, q))).collect();
        random.shuffle(&mut pairs);
        let mut plan = Plan { nodes, edges: Vec::new(), rings: Vec::new() };
        for (p, q) in pairs {
            let new = Segment::between(plan.nodes[p], plan.nodes[q]);
            if (0..plan.edges.len()).all(|e| !plan.segment(e).touches(&new)) {
                plan.edges.push((p, q));
            }
        }
        plan.close_forest();
        plan
    }

    fn close_forest(&mut self) {
        // the tree edges from each node to the first node of its tree
        let mut path: Vec<Option<Vec<usize>>> = vec![None; self.nodes.len()];
        let mut in_tree = vec![false; self.edges.len()];
        for root in 0..self.nodes.len() {
            if path[root].is_some() {
                continue;
            }
            path[root] = Some(Vec::new());
            let mut open = vec![root];
            while let Some(node) = open.pop() {
                for (e, &(p, q)) in self.edges.iter().enumerate() {
                    let other = if p == node { q } else { p };
                    if (p == node || q == node) && path[other].is_none() {
                        let mut longer = path[node].clone().unwrap();
                        longer.push(e);
                        path[other] = Some(longer);
                        in_tree[e] = true;
                        open.push(other);
                    }
                }
            }
        }
        for (e, &(p, q)) in self.edges.iter().enumerate() {
            if !in_tree[e] {
                let (to_p, to_q) = (path[p].as_ref().unwrap(), path[q].as_ref().unwrap());
                let common = to_p.iter().zip(to_q).take_while(|(a, b)| a == b).count();
                self.rings.push([&to_p[common..], &to_q[common..], &[e]].concat());
            }
        }
    }

    /// Moves the whole plan: turned, sheared, stretched or pushed to the limits of the range.
    fn place(&mut self, random: &mut Random) {
        let (swapped, mirrored) = (random.once_in(4), random.pick(&[(1, 1), (1, 1), (-1, 1), (1, -1), (-1, -1)]));
        self.move_by(|p| if swapped { (mirrored.0 * p.1, mirrored.1 * p.0) } else { (mirrored.0 * p.0, mirrored.1 * p.1) });
        if random.once_in(2) {
            let matrix = loop {
                let m: [i64; 4] = std::array::from_fn(|_| random.between(-2, 2));
                if m[0] * m[3] != m[1] * m[2] {
                    break m;
                }
            };
            self.move_by(|p| (matrix[0] * p.0 + matrix[1] * p.1, matrix[2] * p.0 + matrix[3] * p.1));
        }
        match random.below(8) {
            0 => self.push_to_limit(random, true),
            1 => self.push_to_limit(random, false),
            2 | 3 => {
                let by = (random.between(-20, 20), random.between(-20, 20));
                self.move_by(|p| (p.0 + by.0, p.1 + by.1));
            }
            _ => (),
        }
    }

    /// Moves every node, unless one would leave the range.
    fn move_by(&mut self, moved: impl Fn(Point) -> Point) {
        let nodes: Vec<Point> = self.nodes.iter().map(|p| moved(*p)).collect();
        if nodes.iter().all(|p| p.0.abs() <= LIMIT && p.1.abs() <= LIMIT) {
            self.nodes = nodes;
        }
    }

    fn push_to_limit(&mut self, random: &mut Random, stretched: bool) {
        let mut axis = |values: Vec<i64>| {
            let (low, high) = (values.iter().copied().min().unwrap_or(0), values.iter().copied().max().unwrap_or(0));
            let by = if stretched && high > low { 2 * LIMIT / (high - low) } else { 1 };
            let to_right = random.once_in(2);
            move |v: i64| if to_right { LIMIT - by * (high - v) } else { by * (v - low) - LIMIT }
        };
        let across = axis(self.nodes.iter().map(|p| p.0).collect());
        let up = axis(self.nodes.iter().map(|p| p.1).collect());
        self.move_by(|p| (across(p.0), up(p.1)));
    }
}
