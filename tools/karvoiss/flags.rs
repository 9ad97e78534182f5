//! The flags of each pair of types, bit 0 first, with what each one says. "Above" is left, and "below" right, where a segment is vertical.
//! The tables are of pairs whose first type is not above the second; given the other way round, objects keep their flags and change their names.

use crate::bytes::Kind;
use crate::listing;

pub struct Flag {
    pub name: &'static str,
    /// With the object of the lower type called F.
    says: &'static str,
}

impl Flag {
    /// What the flag says of two objects of these types.
    pub fn says(&self, kinds: [Kind; 2]) -> String {
        if kinds[0] > kinds[1] { listing::exchanged(self.says) } else { self.says.to_string() }
    }
}

/// F's flags and G's.
pub fn of(kinds: [Kind; 2]) -> [&'static [Flag]; 2] {
    use Kind::{Line, Points, Region};
    match kinds {
        [Points, Points] => [&POINTS_POINTS_F, &POINTS_POINTS_G],
        [Points, Line] => [&POINTS_LINE_F, &POINTS_LINE_G],
        [Points, Region] => [&POINTS_REGION_F, &[]],
        [Line, Line] => [&LINE_LINE_F, &LINE_LINE_G],
        [Line, Region] => [&LINE_REGION_F, &LINE_REGION_G],
        [Region, Region] => [&REGION_REGION_F, &REGION_REGION_G],
        [higher, lower] => {
            let [of_lower, of_higher] = of([lower, higher]);
            [of_higher, of_lower]
        }
    }
}

pub fn set(flags: &[Flag], vector: u16) -> impl Iterator<Item = (&Flag, bool)> {
    flags.iter().enumerate().map(move |(bit, flag)| (flag, vector >> bit & 1 == 1))
}

const fn flag(name: &'static str, says: &'static str) -> Flag {
    Flag { name, says }
}

const POINTS_POINTS_F: [Flag; 2] = [flag("poi_disjoint", "a point of F is not in G"), flag("poi_shared", "a point is in both")];
const POINTS_POINTS_G: [Flag; 1] = [flag("poi_disjoint", "a point of G is not in F")];

const POINTS_LINE_F: [Flag; 3] = [
    flag("poi_disjoint", "a point of F is not on G"),
    flag("poi_on_interior", "a point of F is on G and is no boundary point of it"),
    flag("poi_on_bound", "a point of F is a boundary point of G"),
];
const POINTS_LINE_G: [Flag; 1] = [flag("bound_poi_disjoint", "a boundary point of G is not in F")];

const POINTS_REGION_F: [Flag; 3] = [
    flag("poi_inside", "a point of F is inside G"),
    flag("poi_on_bound", "a point of F is on the boundary of G"),
    flag("poi_outside", "a point of F is outside G"),
];

const LINE_LINE_F: [Flag; 6] = [
    flag("seg_shared", "a segment is in both"),
    flag("interior_poi_shared", "an end of segments is in both, and in neither boundary"),
    flag("seg_unshared", "a segment of F is not in G"),
    flag("bound_on_interior", "a boundary point of F is on the interior of G"),
    flag("bound_shared", "a point is in both boundaries"),
    flag("bound_disjoint", "a boundary point of F is not on G"),
];
const LINE_LINE_G: [Flag; 3] = [
    flag("seg_unshared", "a segment of G is not in F"),
    flag("bound_on_interior", "a boundary point of G is on the interior of F"),
    flag("bound_disjoint", "a boundary point of G is not on F"),
];

const LINE_REGION_F: [Flag; 7] = [
    flag("seg_inside", "a segment of F is inside G"),
    flag("seg_shared", "a segment of F is on the boundary of G"),
    flag("seg_outside", "a segment of F is outside G"),
    flag("poi_shared", "the interior of F passes through an end of a segment of G"),
    flag("bound_inside", "a boundary point of F is inside G"),
    flag("bound_shared", "a boundary point of F is on the boundary of G"),
    flag("bound_disjoint", "a boundary point of F is outside G"),
];
const LINE_REGION_G: [Flag; 1] = [flag("seg_unshared", "a segment of G is not in F")];

const REGION_REGION_F: [Flag; 8] = [
    flag("(0/1)", "a segment of F is outside G, the interior of F above it"),
    flag("(1/0)", "a segment of F is outside G, the interior of F below it"),
    flag("(1/2)", "a segment of F is inside G, the interior of F above it"),
    flag("(2/1)", "a segment of F is inside G, the interior of F below it"),
    flag("(0/2)", "a segment is in both, both interiors above it"),
    flag("(2/0)", "a segment is in both, both interiors below it"),
    flag("(1/1)", "a segment is in both, the interiors on opposite sides"),
    flag("bound_poi_shared", "unequal segments of F and G share an end"),
];
const REGION_REGION_G: [Flag; 4] = [
    flag("(0/1)", "a segment of G is outside F, the interior of G above it"),
    flag("(1/0)", "a segment of G is outside F, the interior of G below it"),
    flag("(1/2)", "a segment of G is inside F, the interior of G above it"),
    flag("(2/1)", "a segment of G is inside F, the interior of G below it"),
];

#[cfg(test)]
mod tests {
    use super::*;
    use Kind::{Line, Points, Region};

    fn names(flags: &[Flag]) -> Vec<&str> {
        flags.iter().map(|flag| flag.name).collect()
    }

    #[test]
    fn either_order() {
        for [lower, higher] in [[Points, Line], [Points, Region], [Line, Region]] {
            assert_eq!(of([lower, higher]).map(names), [1, 0].map(|object| names(of([higher, lower])[object])));
        }
    }

    #[test]
    fn the_callers_names() {
        let kinds = [Line, Points];
        assert_eq!(of(kinds)[0][0].says(kinds), "a boundary point of F is not in G");
        assert_eq!(of(kinds)[1][2].says(kinds), "a point of G is a boundary point of F");
        assert_eq!(of([Points, Line])[0][2].says([Points, Line]), "a point of F is a boundary point of G");
    }
}
