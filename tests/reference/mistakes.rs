//! The rules that the reference goes by, and the ways of getting them wrong: those that document 01 names, its four mistakes to be shut out and
//! its five imitations, some of them in two forms, and those that document 02's papers invite. A comparison under any of them must disagree.

use crate::cells::turned;
use crate::flags::{common_dominating_point, ends_where, line_boundary};
use crate::judge::{Judgement, Reading, TwoZeros};
use crate::pieces::Extent;
use crate::plane::{inside, interior_above, Point, Segment};
use crate::scene::{Half, Object, Refusal, LINE, POINTS, REGION};
use crate::split;
use crate::summary::{are_far, corners, has_boundary, FarAnswer, Summary};
use crate::walk;
use crate::wkb::Slip;

/// The order in which the two objects of a scene are taken up: the one given first, or the one of the lower type.
#[derive(Clone, Copy, PartialEq, Eq, Default)]
pub enum Order {
    #[default]
    AsGiven,
    Ascending,
}

impl Order {
    pub fn of<'a>(&self, [f, g]: [&'a Object; 2]) -> [&'a Object; 2] {
        if *self == Order::Ascending && f.kind > g.kind {
            [g, f]
        } else {
            [f, g]
        }
    }
}

/// What a mistake may exchange. `faults`: whose fault goes first where a number is found in both; `crossings`: whose record 15 names first; from `corners` on, what
/// summaries are made of and tell; `wkb`, `split` and `walk`: the way in which well-known binary, splitting and walks
/// are got wrong.
#[derive(Clone, Copy)]
pub struct Rules {
    pub line_boundary: fn(&Object) -> Vec<Point>,
    pub interior_above: fn(&[Segment], &Segment) -> bool,
    pub common_point: fn(&Half, &Half) -> bool,
    pub first_only: bool,
    pub faults: Order,
    pub crossings: Order,
    pub spoil: fn(&mut Judgement),
    pub corners: fn(&Object) -> Vec<Point>,
    pub has_boundary: fn(&Object, &[Point]) -> bool,
    pub is_good: fn(&Summary) -> bool,
    pub are_far: fn(&Summary, &Summary) -> bool,
    pub spoil_far: fn(&mut FarAnswer, &Summary, &Summary),
    pub wkb: Slip,
    pub split: split::Slip,
    pub walk: walk::Slip,
}

impl Rules {
    /// The elements of an object that are classed for its flags: all of them.
    pub fn walked<'a, T>(&self, all: &'a [T]) -> &'a [T] {
        if self.first_only {
            &all[..all.len().min(1)]
        } else {
            all
        }
    }
}

/// The rules of the documents.
pub const RIGHT: Rules = Rules {
    line_boundary,
    interior_above,
    common_point: common_dominating_point,
    first_only: false,
    faults: Order::AsGiven,
    crossings: Order::AsGiven,
    spoil: |_| (),
    corners,
    has_boundary,
    is_good: Summary::is_good,
    are_far,
    spoil_far: |_, _, _| (),
    wkb: Slip::None,
    split: split::Slip::None,
    walk: walk::Slip::None,
};

pub struct Mistake {
    pub name: &'static str,
    pub says: &'static str,
    pub rules: Rules,
}

const fn wkb_mistake(name: &'static str, says: &'static str, wkb: Slip) -> Mistake {
    Mistake { name, says, rules: Rules { wkb, ..RIGHT } }
}

const fn split_mistake(name: &'static str, says: &'static str, split: split::Slip) -> Mistake {
    Mistake { name, says, rules: Rules { split, ..RIGHT } }
}

const fn walk_mistake(name: &'static str, says: &'static str, walk: walk::Slip) -> Mistake {
    Mistake { name, says, rules: Rules { walk, ..RIGHT } }
}

/// Every mistake, by the name that `--mistake` takes: the four, from "refuse-all" on the imitations, then those about two zero masks, those about scenes whose
/// first type is above the second, those about hubs, those about what a cell extends to, those about patterns, those about summaries, those about areas, one about the range, those about well-known
/// binary, those about splitting, and those about walks.
pub const MISTAKES: [Mistake; 112] = [
    Mistake {
        name: "next-halfsegment",
        says: "a line's end is a boundary point if the next halfsegment starts elsewhere",
        rules: Rules { line_boundary: ends_before_a_change, ..RIGHT },
    },
    Mistake {
        name: "left-of-sweep-line",
        says: "a segment left of the sweep line is forgotten where the next region touches it",
        rules: Rules { common_point: |f, g| f.left == g.left && common_dominating_point(f, g), ..RIGHT },
    },
    Mistake {
        name: "vertical-ia",
        says: "ia of a vertical segment is checked the wrong way round",
        rules: Rules { interior_above: |all, s| interior_above(all, s) != s.is_vertical(), ..RIGHT },
    },
    Mistake { name: "vertical-list", says: "m and n are exchanged for a vertical segment", rules: Rules { spoil: exchange_at_verticals, ..RIGHT } },
    Mistake {
        name: "exterior-boundary",
        says: "exterior with boundary is not empty when G is",
        rules: Rules { spoil: exterior_boundary_of_nothing, ..RIGHT },
    },
    Mistake {
        name: "refuse-all",
        says: "every scene is refused",
        rules: Rules { spoil: |j| j.early = j.early.or(Some(Refusal { number: 2, place: 0 })), ..RIGHT },
    },
    Mistake { name: "constant-vector", says: "one constant vector", rules: Rules { spoil: |j| j.vectors = (0, 0), ..RIGHT } },
    Mistake { name: "constant-matrix", says: "one constant matrix", rules: Rules { spoil: |j| j.cells = [[Extent::Area; 3]; 3], ..RIGHT } },
    Mistake { name: "buffer-alone", says: "the overlap buffer is left alone", rules: Rules { spoil: |j| j.writes = false, ..RIGHT } },
    Mistake {
        name: "invented-count",
        says: "the count is invented: segments of both regions are counted twice",
        rules: Rules { spoil: |j| j.count = j.apart, ..RIGHT },
    },
    Mistake { name: "first-event", says: "the first event is classed and none later", rules: Rules { first_only: true, ..RIGHT } },
    Mistake { name: "early-17", says: "17 although the buffer holds exactly the list", rules: Rules { spoil: |j| j.room += 1, ..RIGHT } },
    Mistake {
        name: "early-17-shared",
        says: "17 unless the buffer has room for the segments of both regions twice",
        rules: Rules { spoil: |j| j.room = j.apart, ..RIGHT },
    },
    Mistake { name: "zeros-want-all", says: "two zero masks want all flags", rules: Rules { spoil: |j| j.two_zeros = TwoZeros::AllFlags, ..RIGHT } },
    Mistake {
        name: "zeros-unchecked",
        says: "two zero masks are answered before the checks",
        rules: Rules { spoil: |j| j.two_zeros = TwoZeros::NoChecks, ..RIGHT },
    },
    Mistake {
        name: "cells-of-no-flag",
        says: "the cells are asked with two zero masks: no part of F but its exterior meets anything",
        rules: Rules { spoil: |j| j.cells[..2].fill([Extent::Empty; 3]), ..RIGHT },
    },
    Mistake {
        name: "still-8",
        says: "a first type above the second is refused with 8",
        rules: Rules { spoil: |j| j.early = j.early.or(j.descends().then_some(Refusal { number: 8, place: j.g.start })), ..RIGHT },
    },
    Mistake { name: "masks-in-place", says: "the masks are not exchanged", rules: Rules { spoil: |j| j.masks = Order::Ascending, ..RIGHT } },
    Mistake { name: "vectors-in-place", says: "the vectors are not exchanged", rules: Rules { spoil: vectors_in_place, ..RIGHT } },
    Mistake { name: "cells-in-place", says: "the cells are not turned about the diagonal", rules: Rules { spoil: cells_in_place, ..RIGHT } },
    Mistake { name: "emptiness-in-place", says: "which object is empty is not exchanged", rules: Rules { spoil: emptiness_in_place, ..RIGHT } },
    Mistake {
        name: "second-fault-first",
        says: "of one number, the fault of the object with the lower type goes first",
        rules: Rules { faults: Order::Ascending, ..RIGHT },
    },
    Mistake {
        name: "15-in-the-second",
        says: "15 names the record of the object with the lower type",
        rules: Rules { crossings: Order::Ascending, ..RIGHT },
    },
    Mistake {
        name: "16-at-the-lower",
        says: "16 at the type record of the object with the lower type",
        rules: Rules { spoil: |j| j.no_region = j.no_region.map(|place| if j.descends() { j.g.start } else { place }), ..RIGHT },
    },
    Mistake {
        name: "16-at-the-start",
        says: "16 at the first type record, even if that is a region's",
        rules: Rules { spoil: |j| j.no_region = j.no_region.map(|_| 0), ..RIGHT },
    },
    Mistake {
        name: "exactly-one",
        says: "an end is a boundary point if exactly one segment ends there, as document 01 has it",
        rules: Rules { line_boundary: |line| ends_where(line, |number| number == 1), ..RIGHT },
    },
    Mistake {
        name: "at-least-three",
        says: "a hub of four is a boundary point as one of three is",
        rules: Rules { line_boundary: |line| ends_where(line, |number| number == 1 || number >= 3), ..RIGHT },
    },
    Mistake {
        name: "outlines-stretch",
        says: "the outlines of two regions share a stretch wherever they share a point",
        rules: Rules { spoil: |j| raise(j, (REGION, REGION), (1, 1), Extent::Points, Extent::Stretch), ..RIGHT },
    },
    Mistake {
        name: "outlines-area",
        says: "the outlines of two regions share an area where they share a stretch",
        rules: Rules { spoil: |j| raise(j, (REGION, REGION), (1, 1), Extent::Stretch, Extent::Area), ..RIGHT },
    },
    Mistake {
        name: "lines-stretch",
        says: "two lines share a stretch wherever their interiors share a point",
        rules: Rules { spoil: |j| raise(j, (LINE, LINE), (0, 0), Extent::Points, Extent::Stretch), ..RIGHT },
    },
    Mistake {
        name: "outline-point",
        says: "a line and a region's outline share points where they share a stretch",
        rules: Rules { spoil: |j| raise(j, (LINE, REGION), (0, 1), Extent::Stretch, Extent::Points), ..RIGHT },
    },
    Mistake { name: "ends-stretch", says: "a line's boundary extends to a stretch", rules: Rules { spoil: ends_as_stretches, ..RIGHT } },
    Mistake { name: "empty-as-0", says: "an empty cell is given as 0", rules: Rules { spoil: empty_as_points, ..RIGHT } },
    Mistake {
        name: "refused-as-0",
        says: "a refusal hands back nine 0 in the cells",
        rules: Rules { spoil: |j| j.no_cells = [[Extent::Points; 3]; 3], ..RIGHT },
    },
    Mistake { name: "23-from-one", says: "23 counts positions from 1", rules: Rules { spoil: |j| j.reading = Reading::FromOne, ..RIGHT } },
    Mistake { name: "by-columns", says: "a pattern is read column by column", rules: Rules { spoil: |j| j.reading = Reading::ByColumns, ..RIGHT } },
    Mistake {
        name: "misfit-hides-23",
        says: "a cell that misfits is answered no before a wrong character is seen",
        rules: Rules { spoil: |j| j.reading = Reading::MisfitFirst, ..RIGHT },
    },
    Mistake { name: "t-for-f", says: "T and F are exchanged in a pattern", rules: Rules { spoil: |j| j.reading = Reading::Exchanged, ..RIGHT } },
    Mistake { name: "digit-as-t", says: "a digit in a pattern is taken as T", rules: Rules { spoil: |j| j.reading = Reading::DigitAsT, ..RIGHT } },
    Mistake {
        name: "digit-as-23",
        says: "a digit in a pattern is refused with 23",
        rules: Rules { spoil: |j| j.reading = Reading::NoDigits, ..RIGHT },
    },
    Mistake {
        name: "zeros-as-box",
        says: "the four zeros of an empty object are taken for a box",
        rules: Rules { are_far: |f, g| !f.shares_a_point(g), ..RIGHT },
    },
    Mistake { name: "boxes-without-edges", says: "boxes that touch share no point", rules: Rules { are_far: apart_but_for_edges, ..RIGHT } },
    Mistake {
        name: "boxes-by-width",
        says: "boxes whose widths have a value in common share a point",
        rules: Rules { are_far: |f, g| f.empty || g.empty || f.greatest.0 < g.least.0 || g.greatest.0 < f.least.0, ..RIGHT },
    },
    Mistake {
        name: "bound-as-filled",
        says: "bound_poi_disjoint of a far line says that it is not empty",
        rules: Rules { spoil_far: bound_as_filled, ..RIGHT },
    },
    Mistake {
        name: "far-ascending",
        says: "the vectors of far objects have the lower type first",
        rules: Rules {
            spoil_far: |answer, f, g| {
                if f.kind > g.kind {
                    (answer.f, answer.g) = (answer.g, answer.f)
                }
            },
            ..RIGHT
        },
    },
    Mistake {
        name: "flat-line",
        says: "a line whose box is flat may have no boundary",
        rules: Rules { is_good: |s| s.is_good() || Summary { boundary: true, ..*s }.is_good() && s.kind == LINE, ..RIGHT },
    },
    Mistake {
        name: "closed-line-bound",
        says: "the boundary of a closed line has a point",
        rules: Rules { has_boundary: |object, _| object.kind != POINTS && !object.is_empty(), ..RIGHT },
    },
    Mistake {
        name: "boundary-of-lines",
        says: "a region's boundary byte is 0",
        rules: Rules { has_boundary: |_, of_line| !of_line.is_empty(), ..RIGHT },
    },
    Mistake { name: "box-of-left-ends", says: "the box is that of left ends alone", rules: Rules { corners: left_corners, ..RIGHT } },
    Mistake {
        name: "empty-rule",
        says: "an empty summary may have a box",
        rules: Rules { is_good: |s| s.is_good() || s.empty && Summary { kind: POINTS, empty: false, ..*s }.is_good(), ..RIGHT },
    },
    Mistake {
        name: "one-point-line",
        says: "a line's box may be one point",
        rules: Rules {
            is_good: |s| s.is_good() || s.kind == LINE && s.least == s.greatest && Summary { kind: POINTS, boundary: false, ..*s }.is_good(),
            ..RIGHT
        },
    },
    Mistake {
        name: "flat-region",
        says: "a region's box may be flat",
        rules: Rules {
            is_good: |s| s.is_good() || s.kind == REGION && s.boundary && Summary { kind: POINTS, boundary: false, ..*s }.is_good(),
            ..RIGHT
        },
    },
    Mistake {
        name: "areas-vertical",
        says: "a vertical segment has its interiors the wrong way round in the shoelace sums",
        rules: Rules { spoil: |j| sum_again(j, |s| if s.segment.is_vertical() { s.terms.map(|term| -2 * term) } else { [0; 3] }), ..RIGHT },
    },
    Mistake {
        name: "areas-twice",
        says: "a segment of both regions is summed twice",
        rules: Rules { spoil: |j| sum_again(j, |s| if s.of_both { s.terms } else { [0; 3] }), ..RIGHT },
    },
    Mistake {
        name: "areas-no-owner",
        says: "(1/1) of both regions bounds no part, since it does not say whose interior is above",
        rules: Rules { spoil: |j| sum_again(j, |s| if s.of_both && s.terms[0] == 0 { s.terms.map(|term| -term) } else { [0; 3] }), ..RIGHT },
    },
    Mistake { name: "areas-exchanged", says: "in F only and in G only are exchanged", rules: Rules { spoil: |j| j.areas.swap(1, 2), ..RIGHT } },
    Mistake { name: "narrow-ground", says: "4 beyond 1,000,000, as document 01 has it", rules: Rules { spoil: narrow_ground, ..RIGHT } },
    wkb_mistake("outer-order", "the outer byte order is used below", Slip::OuterOrder),
    wkb_mistake("closed-by-bits", "a ring is closed if its first and last point have the same bits", Slip::ClosedByBits),
    wkb_mistake("closed-by-nan", "a ring whose first and last point are NaN is closed", Slip::ClosedByNan),
    wkb_mistake("cut-y-at-x", "a cut y is placed at its x", Slip::CutAtX),
    wkb_mistake("cut-at-the-end", "a cut field is placed where the bytes end", Slip::CutAtEnd),
    wkb_mistake("left-over", "what is left over is passed over", Slip::LeftOver),
    wkb_mistake("masked-type", "the type is masked: Z and SRID are passed over", Slip::MaskedType),
    wkb_mistake("open-after-points", "26 is found after the ring's coordinates", Slip::OpenAfterPoints),
    wkb_mistake("open-where-cut", "a ring that is cut may be open", Slip::OpenWhereCut),
    wkb_mistake("26-before-24", "26 before 24 at one count", Slip::OpenBeforeShort),
    wkb_mistake("ring-of-none", "a ring of none adds nothing", Slip::EmptyRing),
    wkb_mistake("part-of-one", "a part of one point adds nothing", Slip::OnePoint),
    wkb_mistake("minus-zero", "-0.0 is no whole number", Slip::MinusZero),
    wkb_mistake("25-without-number", "no number goes back with 25", Slip::NoValue),
    wkb_mistake("narrow-wkb", "25 beyond 1,000,000, as document 01 has the range", Slip::Narrow),
    wkb_mistake("20-with-equal", "20 is found before equal ones are dropped", Slip::CountedWithEqual),
    wkb_mistake("directed", "a segment and the same the other way round are two", Slip::Directed),
    wkb_mistake("cancelled", "a region's segment that comes twice is cancelled", Slip::Cancelled),
    wkb_mistake("12-for-10", "segments in one line from a common end are refused with 12", Slip::TwelveForTen),
    wkb_mistake("place-of-record", "10, 12 and 13 are placed in the object that was not handed out", Slip::PlaceOfRecord),
    wkb_mistake("written-early", "the buffer is written before the last check", Slip::WrittenEarly),
    wkb_mistake("21-first", "21 before the object's checks", Slip::ShortFirst),
    wkb_mistake("right-end-first", "a segment is written with its right end first", Slip::RightFirst),
    wkb_mistake("24-first", "a region is refused with 24 before its own refusals", Slip::RegionFirst),
    wkb_mistake("empty-region", "an empty region is written", Slip::EmptyRegion),
    split_mistake("x-alone", "x alone is tested for the grid", split::Slip::XAlone),
    split_mistake("rounded", "a crossing off the grid is moved to it", split::Slip::Rounded),
    split_mistake("narrow-crossing", "where two segments cross is computed by 64-bit products", split::Slip::Narrow),
    split_mistake("one-end", "a stretch in common is cut at its left end alone", split::Slip::OneEnd),
    split_mistake("touch-uncut", "a segment is not cut where the other's end is", split::Slip::NoTouch),
    split_mistake("cut-twice", "a cut at which several segments meet is counted as often", split::Slip::CutTwice),
    split_mistake("f-alone", "F alone is cut", split::Slip::FAlone),
    split_mistake("source-order", "the pieces stand where their segment stood", split::Slip::SourceOrder),
    split_mistake("ia-turned", "ia of a piece is turned", split::Slip::IaTurned),
    split_mistake("added-halves", "halfsegments are counted for segments", split::Slip::Halfsegments),
    split_mistake("added-by-type", "the counts stand in the order of types", split::Slip::InOrderOfTypes),
    split_mistake("19-in-second", "19 names the record of the second object", split::Slip::NineteenInSecond),
    split_mistake("19-at-lower", "19 names the record of the object with the lower type", split::Slip::NineteenAtLower),
    split_mistake("20-before-19", "20 before 19", split::Slip::TwentyFirst),
    split_mistake("20-at-start", "20 at 0 for the second object too", split::Slip::TwentyAtStart),
    split_mistake("early-20", "20 for 1,024 elements", split::Slip::TwentyEarly),
    split_mistake("21-before-19", "21 before 19 and 20", split::Slip::ShortFirst),
    split_mistake("early-21", "21 although the buffer holds just the scene", split::Slip::ShortEarly),
    split_mistake("split-early", "the buffer is written as far as it goes, and then refused", split::Slip::WrittenEarly),
    split_mistake("rest-cleared", "later bytes of the buffer are cleared", split::Slip::RestCleared),
    split_mistake("still-15", "a raw pair is refused with 15", split::Slip::Fifteen),
    split_mistake("copied-unchecked", "a scene with points is copied before the checks", split::Slip::CopiedUnchecked),
    walk_mistake("point-first", "a point comes before the halfsegments at it", walk::Slip::PointFirst),
    walk_mistake("equal-twice", "equal elements of both objects are two events", walk::Slip::EqualTwice),
    walk_mistake("done-by-flags", "a walk is done when all wanted flags are set", walk::Slip::DoneByFlags),
    walk_mistake("ends-at-left", "the flags of both ends come with the left halfsegment", walk::Slip::EndsAtLeft),
    walk_mistake("only-when-all", "a flag is set only when all events of a witness are taken", walk::Slip::OnlyWhenAll),
    walk_mistake("rounded-down", "the number of calls is rounded down", walk::Slip::RoundedDown),
    walk_mistake("walk-by-type", "the flags of a walk stand in the order of types", walk::Slip::ByType),
    walk_mistake("none-is-one", "a portion of zero takes an event", walk::Slip::NoneIsOne),
];

/// A segment of two regions, with its terms in the three shoelace sums.
struct Summed {
    segment: Segment,
    of_both: bool,
    terms: [i64; 3],
}

/// The areas with something added for each different segment of the two regions.
fn sum_again(judgement: &mut Judgement, more: fn(&Summed) -> [i64; 3]) {
    let parts: [fn(bool, bool) -> bool; 3] = [|f, g| f && g, |f, g| f && !g, |f, g| !f && g];
    for s in judgement.segments.clone() {
        let regions = [&judgement.f, &judgement.g];
        let owned = regions.map(|region| region.halves.iter().find(|h| h.segment == s));
        // whether F and G adjoin it below, and above: by ia where they have the segment, else by the midpoint
        let [below, above] =
            [false, true].map(|above| [0, 1].map(|i| owned[i].map_or_else(|| inside(&regions[i].segments(), &s.midpoint()), |h| h.ia == above)));
        let value = s.left.0 * s.right.1 - s.right.0 * s.left.1;
        let terms = parts.map(|belongs| (belongs(above[0], above[1]) as i64 - belongs(below[0], below[1]) as i64) * value);
        let added = more(&Summed { segment: s, of_both: owned.iter().all(Option::is_some), terms });
        judgement.areas.iter_mut().zip(added).for_each(|(area, term)| *area += term);
    }
}

fn vectors_in_place(judgement: &mut Judgement) {
    if judgement.descends() {
        judgement.vectors = (judgement.vectors.1, judgement.vectors.0);
    }
}

fn cells_in_place(judgement: &mut Judgement) {
    if judgement.descends() {
        judgement.cells = turned(&judgement.cells);
    }
}

/// Where points or a line have no flag for it, what of the higher object meets their exterior is read off whether that object is empty.
fn emptiness_in_place(judgement: &mut Judgement) {
    if judgement.is_taken() && judgement.descends() {
        let of = |extent: Extent| if judgement.g.is_empty() { Extent::Empty } else { extent };
        judgement.cells[0][2] = of(if judgement.f.kind == REGION { Extent::Area } else { Extent::Stretch });
        if (judgement.f.kind, judgement.g.kind) == (REGION, POINTS) {
            judgement.cells[1][2] = of(Extent::Stretch);
        }
    }
}

fn apart_but_for_edges(f: &Summary, g: &Summary) -> bool {
    f.empty || g.empty || f.greatest.0 <= g.least.0 || g.greatest.0 <= f.least.0 || f.greatest.1 <= g.least.1 || g.greatest.1 <= f.least.1
}

fn bound_as_filled(answer: &mut FarAnswer, f: &Summary, g: &Summary) {
    if answer.look {
        return;
    }
    match (f.kind, g.kind) {
        (POINTS, LINE) => answer.g = !g.empty as u16,
        (LINE, POINTS) => answer.f = !f.empty as u16,
        _ => (),
    }
}

fn left_corners(object: &Object) -> Vec<Point> {
    object.points.iter().copied().chain(object.halves.iter().map(|h| h.segment.left)).collect()
}

fn exterior_boundary_of_nothing(judgement: &mut Judgement) {
    if judgement.is_taken() && judgement.g.is_empty() {
        judgement.cells[2][1] = Extent::Points;
    }
}

/// A cell of a pair of types, given with the lower one first, extends to something else, wherever it has one extent.
fn raise(judgement: &mut Judgement, kinds: (u8, u8), (row, column): (usize, usize), from: Extent, to: Extent) {
    let (f, g) = (judgement.f.kind, judgement.g.kind);
    let (row, column) = if f > g { (column, row) } else { (row, column) };
    if (f.min(g), f.max(g)) == kinds && judgement.cells[row][column] == from {
        judgement.cells[row][column] = to;
    }
}

fn ends_as_stretches(judgement: &mut Judgement) {
    let (f, g) = (judgement.f.kind, judgement.g.kind);
    for (row, cells) in judgement.cells.iter_mut().enumerate() {
        for (column, cell) in cells.iter_mut().enumerate() {
            if (row == 1 && f == LINE || column == 1 && g == LINE) && !cell.is_empty() {
                *cell = Extent::Stretch;
            }
        }
    }
}

fn empty_as_points(judgement: &mut Judgement) {
    if judgement.is_taken() {
        judgement.cells.iter_mut().flatten().filter(|cell| cell.is_empty()).for_each(|cell| *cell = Extent::Points);
    }
}

fn narrow_ground(judgement: &mut Judgement) {
    let beyond = |p: &Point| p.0.abs().max(p.1.abs()) > 1_000_000;
    let first = |object: &Object| {
        let ends = object.halves.iter().map(|h| beyond(&h.segment.left) || beyond(&h.segment.right));
        object.points.iter().map(beyond).chain(ends).position(|is| is).map(|i| object.places[i])
    };
    let place = first(&judgement.f).or_else(|| first(&judgement.g));
    judgement.early = judgement.early.or(place.map(|place| Refusal { number: 4, place }));
}

fn ends_before_a_change(line: &Object) -> Vec<Point> {
    let ends: Vec<Point> = line.halves.iter().map(Half::dominating).collect();
    (0..ends.len()).filter(|i| ends.get(i + 1) != Some(&ends[*i])).map(|i| ends[i]).collect()
}

fn exchange_at_verticals(judgement: &mut Judgement) {
    for (s, byte) in judgement.segments.iter().zip(&mut judgement.list) {
        if s.is_vertical() {
            *byte = 3 * (*byte % 3) + *byte / 3;
        }
    }
}
