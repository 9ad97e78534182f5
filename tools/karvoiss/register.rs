//! The register: how every two of many shapes lie to each other, a row for each pair in the order of the shapes. Two summaries are asked first, and tell most pairs apart; the outlines
//! of the others are put together as a scene, and split only where they must be. What is refused is a row, in words, and ends nothing. First shapes are shared out to threads, and
//! their rows are written in order.

use crate::answer::{self, Cell, Cells};
use crate::bytes::Kind;
use crate::grid::{Grid, thousands};
use crate::input::Named;
use crate::library::{self, Areas};
use crate::pair::{self, Object};
use crate::rows::{Form, Rows};
use crate::{predicate, relate};
use std::collections::BTreeMap;
use std::sync::atomic::{AtomicUsize, Ordering};
use std::sync::mpsc;

pub struct Register<'a> {
    shapes: &'a [Named],
    grid: &'a Grid,
    rows: Rows,
    /// Whether pairs that the summaries tell apart are left out.
    near: bool,
    /// Twice the area of each region, where areas are wanted.
    areas: Option<Vec<Option<i64>>>,
}

/// How many pairs, by what became of them; how many shapes and pairs are refused, by number.
#[derive(Default, Debug, PartialEq)]
pub struct Tally {
    pub pairs: u64,
    far: u64,
    split: u64,
    refused_pairs: BTreeMap<u32, u64>,
    refused_shapes: BTreeMap<u32, u64>,
}

impl Register<'_> {
    pub fn new<'a>(shapes: &'a [Named], grid: &'a Grid, form: Form, near: bool, areas: bool) -> Register<'a> {
        let rows = Rows::new(form, areas, shapes.iter().map(|shape| shape.name.as_str()));
        let areas = areas.then(|| shapes.iter().map(|shape| shape.object.as_ref().ok().and_then(own_area)).collect());
        Register { shapes, grid, rows, near, areas }
    }

    pub fn heading(&self) -> String {
        self.rows.heading()
    }

    /// Pairs of shapes that are not refused.
    pub fn pairs(&self) -> u64 {
        let sound = self.shapes.iter().filter(|shape| shape.object.is_ok()).count() as u64;
        sound * sound.saturating_sub(1) / 2
    }

    /// Writes all rows by so many threads; `write` is given rows and how many pairs they are of.
    pub fn run<E>(&self, threads: usize, mut write: impl FnMut(&str, u64) -> Result<(), E>) -> Result<Tally, E> {
        let next = AtomicUsize::new(0);
        let (send, receive) = mpsc::sync_channel(4 * threads);
        std::thread::scope(|scope| {
            for _ in 0..threads {
                let (send, next) = (send.clone(), &next);
                scope.spawn(move || {
                    loop {
                        let first = next.fetch_add(1, Ordering::Relaxed);
                        if first >= self.shapes.len() || send.send((first, self.of(first))).is_err() {
                            return;
                        }
                    }
                });
            }
            drop(send);
            self.in_order(receive, &mut write)
        })
    }

    /// Rows are kept until those of all earlier shapes are written.
    fn in_order<E>(&self, rows: mpsc::Receiver<(usize, (String, Tally))>, write: &mut impl FnMut(&str, u64) -> Result<(), E>) -> Result<Tally, E> {
        let mut waiting = BTreeMap::new();
        let mut written = 0;
        let mut all = Tally::default();
        for (first, found) in rows {
            waiting.insert(first, found);
            while let Some((text, tally)) = waiting.remove(&written) {
                write(&text, tally.pairs)?;
                all.add(tally);
                written += 1;
            }
        }
        Ok(all)
    }

    /// The rows of one shape with each after it; of a shape that is refused, one row.
    fn of(&self, first: usize) -> (String, Tally) {
        let (mut rows, mut tally) = (String::new(), Tally::default());
        let f = match &self.shapes[first].object {
            Ok(f) => f,
            Err(no) => {
                *tally.refused_shapes.entry(no.number).or_default() += 1;
                self.rows.refusal(&mut rows, first, None, no);
                return (rows, tally);
            }
        };
        for second in first + 1..self.shapes.len() {
            if let Ok(g) = &self.shapes[second].object {
                tally.pairs += 1;
                self.pair([first, second], [f, g], &mut rows, &mut tally);
            }
        }
        (rows, tally)
    }

    fn pair(&self, at: [usize; 2], [f, g]: [&Object; 2], rows: &mut String, tally: &mut Tally) {
        if let Ok(Some(_)) = library::far(&f.summary, &g.summary) {
            tally.far += 1;
            if !self.near {
                let areas = self.areas.as_ref().and_then(|own| Some(Areas { both: 0, f_only: own[at[0]]?, g_only: own[at[1]]? }));
                self.answer(rows, at, &apart(f, g), "disjoint", areas);
            }
            return;
        }
        match pair::of(f, g, self.grid) {
            Ok(pair) => {
                tally.split += (pair.added != [0, 0]) as u64;
                let areas = if self.areas.is_some() { library::areas(&pair.scene).ok() } else { None };
                self.answer(rows, at, &pair.cells, predicate::name([f.kind(), g.kind()], &pair.cells), areas);
            }
            Err(no) => {
                *tally.refused_pairs.entry(no.number).or_default() += 1;
                self.rows.refusal(rows, at[0], Some(at[1]), &no);
            }
        }
    }

    fn answer(&self, rows: &mut String, at: [usize; 2], cells: &Cells, relation: &str, areas: Option<Areas>) {
        self.rows.answer(rows, at, &answer::matrix(cells), relation, areas.map(|areas| relate::areas_of(&areas, self.grid)));
    }
}

/// Twice a region's own area.
fn own_area(object: &Object) -> Option<i64> {
    let empty = [84, Kind::Region.byte(), 69];
    library::areas(&[&object.bytes[..], &empty].concat()).ok().map(|areas| areas.f_only)
}

/// The cells of two objects that lie far apart, or of which one is empty, by the header's table: what an object has lies in the other's exterior.
fn apart(f: &Object, g: &Object) -> Cells {
    let ([i, b], [j, c]) = (parts(f), parts(g));
    let none = Cell::Empty;
    [[none, none, i], [none, none, b], [j, c, Cell::Area]]
}

/// The interior and the boundary of an object, by its summary.
fn parts(object: &Object) -> [Cell; 2] {
    let bounded = object.summary[19] == 1;
    match object.kind() {
        _ if object.is_empty() => [Cell::Empty; 2],
        Kind::Points => [Cell::Points, Cell::Empty],
        Kind::Line => [Cell::Stretch, if bounded { Cell::Points } else { Cell::Empty }],
        Kind::Region => [Cell::Area, Cell::Stretch],
    }
}

impl Tally {
    fn add(&mut self, other: Tally) {
        self.pairs += other.pairs;
        self.far += other.far;
        self.split += other.split;
        let add =
            |to: &mut BTreeMap<u32, u64>, from: BTreeMap<u32, u64>| from.into_iter().for_each(|(number, n)| *to.entry(number).or_default() += n);
        add(&mut self.refused_pairs, other.refused_pairs);
        add(&mut self.refused_shapes, other.refused_shapes);
    }

    pub fn has_refusals(&self) -> bool {
        !self.refused_pairs.is_empty() || !self.refused_shapes.is_empty()
    }

    /// The lines that end a run.
    pub fn words(&self) -> String {
        let refused: u64 = self.refused_pairs.values().sum();
        let shapes: u64 = self.refused_shapes.values().sum();
        let [pairs, far, looked, split] = [self.pairs, self.far, self.pairs - self.far, self.split].map(thousands);
        let mut words = format!("{pairs} pairs: {far} told apart by their summaries, {looked} looked at, {split} of them split\n");
        words += &format!("{} answered, {} refused{}\n", thousands(self.pairs - refused), thousands(refused), by_number(&self.refused_pairs));
        if shapes > 0 {
            let shapes = if shapes == 1 { "1 shape".to_string() } else { format!("{} shapes", thousands(shapes)) };
            words += &format!("{shapes} refused{}, whose pairs are not counted\n", by_number(&self.refused_shapes));
        }
        words
    }
}

fn by_number(refused: &BTreeMap<u32, u64>) -> String {
    let each: Vec<String> = refused.iter().map(|(number, count)| format!("{} with {number} ({})", thousands(*count), short(*number))).collect();
    if each.is_empty() { String::new() } else { format!(": {}", each.join(", ")) }
}

/// A refusal in a word or two.
fn short(number: u32) -> &'static str {
    match number {
        10 | 12 => "crosses or overlaps itself",
        13 => "an outline that is no ring, or a shared edge",
        19 => "crosses off the grid",
        20 => "too many segments",
        24 => "no shape that is read",
        25 => "off the grid or out of range",
        26 => "an open ring",
        _ => "damaged bytes",
    }
}

#[cfg(test)]
mod tests {
    use super::*;
    use crate::refusals::Refused;
    use crate::wkt;

    fn shapes(text: &str) -> Vec<Named> {
        let items = wkt::read(text, &mut Grid::as_it_stands()).unwrap();
        let named = |(at, item): (usize, crate::shape::Item)| {
            let object = item.object.and_then(|bytes| Object::of(bytes).map_err(|no| Refused { number: no.number, at: None, says: String::new() }));
            Named { name: format!("s{at}"), object }
        };
        items.into_iter().enumerate().map(named).collect()
    }

    const SHAPES: &str = "POLYGON ((0 0, 4 0, 4 4, 0 4, 0 0)) POLYGON ((4 0, 8 0, 8 4, 4 4, 4 0)) LINESTRING (2 2, 6 2) POINT (100 100) POINT (0.5 0) LINESTRING (0 0, 0 9, 9 9, 0 0)
        LINESTRING (1 0, 2 7) MULTIPOINT EMPTY POLYGON EMPTY";

    fn run(form: Form, near: bool, areas: bool, threads: usize) -> (String, Tally) {
        let (shapes, grid) = (shapes(SHAPES), Grid::as_it_stands());
        let register = Register::new(&shapes, &grid, form, near, areas);
        let mut rows = register.heading();
        let write = |text: &str, _| -> Result<(), ()> {
            rows += text;
            Ok(())
        };
        let tally = register.run(threads, write).unwrap();
        assert_eq!(tally.pairs, register.pairs());
        (rows, tally)
    }

    /// Far or near, each pair has the cells that the library gives for its scene.
    #[test]
    fn the_librarys_cells() {
        let shapes = shapes(SHAPES);
        let (rows, tally) = run(Form::Csv, false, false, 1);
        let mut lines = rows.lines().skip(1).filter(|line| !line.contains("s4"));
        for (i, f) in shapes.iter().enumerate() {
            for g in &shapes[i + 1..] {
                let (Ok(a), Ok(b)) = (&f.object, &g.object) else {
                    continue;
                };
                let line = lines.next().unwrap();
                if let Ok(pair) = pair::of(a, b, &Grid::as_it_stands()) {
                    let kinds = [a.kind(), b.kind()];
                    assert_eq!(line, format!("{},{},{},{},,", f.name, g.name, answer::matrix(&pair.cells), predicate::name(kinds, &pair.cells)));
                } else {
                    assert!(line.contains(",,19,"), "{line}");
                }
            }
        }
        assert_eq!((tally.pairs, tally.refused_pairs.values().sum::<u64>(), tally.refused_shapes[&25]), (28, 2, 1));
        assert_eq!(lines.next(), None);
    }

    #[test]
    fn any_number_of_threads() {
        for form in [Form::Table, Form::Csv, Form::Json] {
            assert_eq!(run(form, false, true, 1), run(form, false, true, 7));
        }
    }

    #[test]
    fn near_pairs_alone() {
        let (all, tally) = run(Form::Csv, false, false, 2);
        let (near, same) = run(Form::Csv, true, false, 2);
        assert_eq!((all.lines().count() - near.lines().count()) as u64, tally.far);
        assert_eq!(tally, same);
    }

    #[test]
    fn forms() {
        let line = |form: Form, areas: bool| run(form, false, areas, 1).0.lines().nth(if form == Form::Json { 0 } else { 1 }).unwrap().to_string();
        assert_eq!(line(Form::Table, false), "s0  s1  FF2F11212  touches");
        assert_eq!(line(Form::Csv, true), "s0,s1,FF2F11212,touches,0,16,16,,");
        assert_eq!(
            line(Form::Json, true),
            r#"{"f": "s0", "g": "s1", "matrix": "FF2F11212", "relation": "touches", "areas": {"both": 0, "f_only": 16, "g_only": 16}}"#
        );
        for form in [Form::Table, Form::Csv, Form::Json] {
            let rows = run(form, false, true, 1).0;
            assert_eq!(rows.lines().filter(|line| line.contains("cross at")).count(), 2, "{rows}");
        }
        let csv = run(Form::Csv, false, true, 1).0;
        assert!(csv.lines().all(|line| line.contains('"') || line.matches(',').count() == 8), "{csv}");
    }

    #[test]
    fn the_end_of_a_run() {
        let words = run(Form::Csv, false, false, 1).1.words();
        assert!(words.starts_with("28 pairs: "), "{words}");
        assert!(words.ends_with("1 shape refused: 1 with 25 (off the grid or out of range), whose pairs are not counted\n"), "{words}");
    }
}
