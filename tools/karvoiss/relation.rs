//! The way F lies to G in a sentence or two, by types and cells alone. Cases are told apart as for regions, carried over to points and lines, with "cross", "on boundary" and
//! "has on boundary" where dimensions differ. Lines that share interior points cross, unless they share a stretch: then they overlap. Where outlines meet, it is said whether they
//! share a stretch or single points.

use crate::answer::{Cell, Cells, Taken};
use crate::bytes::Kind;
use crate::listing;

pub fn of(answer: &Taken) -> String {
    let [f_empty, g_empty] = empty(&answer.cells);
    match name(answer) {
        _ if f_empty && g_empty => "Neither object has an element.".to_string(),
        _ if f_empty => "F is empty.".to_string(),
        _ if g_empty => "G is empty.".to_string(),
        name => in_either_order(name, answer.kinds) + &outlines(answer),
    }
}

/// What an outline shares with the other object, a line or a region.
fn outlines(answer: &Taken) -> String {
    let [[_, ib, _], [bi, bb, _], _] = answer.cells;
    let (who, shared) = match answer.kinds {
        [Kind::Region, Kind::Region] => ("The outlines", vec![bb]),
        [Kind::Line, Kind::Region] => ("F and the outline of G", vec![ib, bb]),
        [Kind::Region, Kind::Line] => ("G and the outline of F", vec![bi, bb]),
        _ => return String::new(),
    };
    if shared.contains(&Cell::Stretch) {
        format!(" {who} share a stretch.")
    } else if shared.contains(&Cell::Points) {
        format!(" {who} share single points, and no stretch.")
    } else {
        String::new()
    }
}

/// The sentences are those of a first type that is not above the second; of the other pairs they say the converse, with F and G exchanged.
fn in_either_order(name: &str, [f, g]: [Kind; 2]) -> String {
    if f > g { listing::exchanged(says(converse(name), [g, f])) } else { says(name, [f, g]).to_string() }
}

/// What the way G lies to F is called.
fn converse(name: &str) -> &str {
    let pairs = [("inside", "contains"), ("covered by", "covers"), ("on boundary", "has on boundary")];
    let other = |(one, other): (&'static str, &'static str)| if name == one { Some(other) } else { (name == other).then_some(one) };
    pairs.into_iter().find_map(other).unwrap_or(name)
}

/// An object that is not empty has an interior, and each point of it is in one column or row.
fn empty(cells: &Cells) -> [bool; 2] {
    [cells[0] == [Cell::Empty; 3], cells.iter().all(|row| row[0].is_empty())]
}

fn name(answer: &Taken) -> &'static str {
    let [[ii, ib, ie], [bi, bb, be], [ei, eb, _]] = answer.cells.map(|row| row.map(|cell| !cell.is_empty()));
    let same_dimension = answer.kinds[0] == answer.kinds[1];
    let touch = ib || bi || bb;
    let f_within = !ie && !be;
    let g_within = !ei && !eb;
    match ii {
        false if !touch => "disjoint",
        false if f_within && !same_dimension => "on boundary",
        false if g_within && !same_dimension => "has on boundary",
        false => "meet",
        true if f_within && g_within => "equal",
        true if f_within && (ib || bb) => "covered by",
        true if f_within => "inside",
        true if g_within && (bi || bb) => "covers",
        true if g_within => "contains",
        true if !same_dimension => "cross",
        true if answer.kinds[0] == Kind::Line && answer.cells[0][0] == Cell::Points => "cross",
        true => "overlap",
    }
}

fn says(name: &str, kinds: [Kind; 2]) -> &'static str {
    match (name, kinds) {
        ("disjoint", _) => "F and G have no point in common.",
        ("on boundary", _) => "All of F lies on the boundary of G.",
        ("meet", [Kind::Points, _]) => "Some points of F lie on the boundary of G, the others outside.",
        ("meet", [Kind::Line, Kind::Region]) => "F touches the boundary of G from outside.",
        ("meet", [Kind::Line, _]) => "F and G touch, and their interiors have no point in common.",
        ("meet", _) => "The boundaries touch, and the interiors have no point in common.",
        ("equal", _) => "F and G are the same points.",
        ("inside", [Kind::Points, Kind::Points]) => "All of F lies in G, and G has more.",
        ("inside", _) => "All of F lies in the interior of G.",
        ("covered by", _) => "All of F lies in G, some of it on the boundary of G.",
        ("contains", [Kind::Points, _]) => "All of G lies in F, and F has more.",
        ("contains", _) => "All of G lies in the interior of F.",
        ("covers", _) => "All of G lies in F, some of it on the boundary of F.",
        ("cross", [Kind::Points, _]) => "Some points of F lie in the interior of G, others outside it.",
        ("cross", [_, Kind::Region]) => "F lies partly in the interior of G and partly outside it.",
        ("cross", _) => "F and G have interior points in common, but no stretch.",
        ("overlap", [Kind::Line, _]) => "F and G have a stretch in common, and each has more.",
        _ => "F and G have interior points in common, and each has more.",
    }
}

#[cfg(test)]
mod tests {
    use super::*;
    use crate::answer::noted;

    fn named(line: &str) -> &'static str {
        name(&noted(line))
    }

    fn said(line: &str) -> String {
        of(&noted(line))
    }

    #[test]
    fn regions() {
        let lines = ["3 3 3 3 FF2FF1212", "3 3 131 3 FF2F01212", "3 3 3 12 212FF1FF2", "3 3 12 3 2FF1FF212", "3 3 131 12 212F01FF2"];
        let names = ["disjoint", "meet", "contains", "inside", "covers"];
        assert_eq!(lines.map(|line| named(line)), names);
        let lines = ["3 3 140 3 2FF10F212", "3 3 176 0 2FFF1FFF2", "3 3 143 15 212101212"];
        assert_eq!(lines.map(|line| named(line)), ["covered by", "equal", "overlap"]);
    }

    #[test]
    fn lines() {
        let lines = ["2 2 36 5 FF1FF0102", "2 2 44 5 FF10F0102", "2 2 38 5 0F1FF0102", "2 2 37 5 1F1FF0102", "2 2 17 0 1FFF0FFF2"];
        assert_eq!(lines.map(|line| named(line)), ["disjoint", "meet", "cross", "overlap", "equal"]);
        let lines = ["2 2 9 5 1FF0FF102", "2 2 25 5 1FF00F102", "2 2 37 2 101FF0FF2", "2 2 53 2 101F00FF2"];
        assert_eq!(lines.map(|line| named(line)), ["inside", "covered by", "contains", "covers"]);
        // a closed line in the same with a diagonal, at whose ends three segments end
        assert_eq!(named("2 2 3 3 10FFFF1F2"), "covered by");
    }

    #[test]
    fn unequal_dimensions() {
        let lines = ["1 3 2 0 F0FFFF212", "1 3 6 0 F00FFF212", "1 3 1 0 0FFFFF212", "1 3 3 0 00FFFF212", "1 3 7 0 000FFF212"];
        assert_eq!(lines.map(|line| named(line)), ["on boundary", "meet", "inside", "covered by", "cross"]);
        let lines = ["2 3 34 1 F1FF0F212", "2 3 100 1 FF1F00212", "2 3 17 1 1FF0FF212", "2 3 49 1 1FF00F212", "2 3 93 1 1010F0212"];
        assert_eq!(lines.map(|line| named(line)), ["on boundary", "meet", "inside", "covered by", "cross"]);
    }

    /// The answer with the objects exchanged, the vectors as of unequal types.
    fn turned(line: &str) -> String {
        let fields: Vec<&str> = line.split(' ').collect();
        let cells: String = [0, 3, 6, 1, 4, 7, 2, 5, 8].map(|i| &fields[4][i..i + 1]).concat();
        format!("{} {} {} {} {cells}", fields[1], fields[0], fields[3], fields[2])
    }

    #[test]
    fn the_higher_type_first() {
        let lines = ["1 3 2 0 F0FFFF212", "1 3 6 0 F00FFF212", "1 3 1 0 0FFFFF212", "1 3 3 0 00FFFF212", "1 3 7 0 000FFF212"];
        assert_eq!(lines.map(|line| named(&turned(line))), ["has on boundary", "meet", "contains", "covers", "cross"]);
        let lines = ["2 3 34 1 F1FF0F212", "2 3 100 1 FF1F00212", "2 3 17 1 1FF0FF212", "2 3 49 1 1FF00F212", "2 3 93 1 1010F0212"];
        assert_eq!(lines.map(|line| named(&turned(line))), ["has on boundary", "meet", "contains", "covers", "cross"]);
        for line in lines {
            assert_eq!(said(&turned(line)), listing::exchanged(&said(line)));
        }
        assert_eq!(said("3 2 1 34 FF2101FF2"), "All of G lies on the boundary of F. G and the outline of F share a stretch.");
        assert_eq!(named("2 1 0 0 FF1FFFFF2"), "disjoint");
    }

    #[test]
    fn what_outlines_share() {
        let touch = "The boundaries touch, and the interiors have no point in common.";
        assert_eq!(said("3 3 195 3 FF2F11212"), format!("{touch} The outlines share a stretch."));
        assert_eq!(said("3 3 131 3 FF2F01212"), format!("{touch} The outlines share single points, and no stretch."));
        assert_eq!(said("3 3 3 3 FF2FF1212"), "F and G have no point in common.");
        let outside = "F touches the boundary of G from outside.";
        assert_eq!(said("2 3 78 1 F11FF0212"), format!("{outside} F and the outline of G share a stretch."));
        assert_eq!(said("2 3 76 1 F01FF0212"), format!("{outside} F and the outline of G share single points, and no stretch."));
        assert_eq!(said("2 3 100 1 FF1F00212"), format!("{outside} F and the outline of G share single points, and no stretch."));
        assert_eq!(said("2 3 0 1 FFFFFF212"), "F is empty.");
    }

    #[test]
    fn empty_objects() {
        assert_eq!(said("1 1 0 0 FFFFFFFF2"), "Neither object has an element.");
        assert_eq!(said("1 2 0 0 FFFFFF1F2"), "F is empty.");
    }
}
