//! The reference's answer to each question about one byte string, in the caller's order: the refusals as document 01 orders them, then vectors, cells,
//! list or areas.

use crate::areas::{areas, Areas};
use crate::cells::{matrix, overlap, signs, Matrix};
use crate::check;
use crate::flags::{all_flags, vectors};
use crate::mistakes::{Order, Rules};
use crate::plane::Segment;
use crate::scene::{read_scene, Object, Refusal, REGION};

#[derive(Clone, Copy, PartialEq, Eq, Debug, Default)]
pub struct VectorsAnswer {
    pub number: u32,
    pub place: usize,
    pub f: u16,
    pub g: u16,
}

#[derive(Clone, Copy, PartialEq, Eq, Debug, Default)]
pub struct CellsAnswer {
    pub number: u32,
    pub place: usize,
    pub cell: Matrix,
}

#[derive(Clone, Copy, PartialEq, Eq, Debug, Default)]
pub struct OverlapAnswer {
    pub number: u32,
    pub place: usize,
    pub count: usize,
}

/// Doubled areas: in both, in F only, in G only.
#[derive(Clone, Copy, PartialEq, Eq, Debug, Default)]
pub struct AreasAnswer {
    pub number: u32,
    pub place: usize,
    pub areas: Areas,
}

/// What two zero masks want: nothing, under document 02's Paper 5. The others are mistakes.
#[derive(Clone, Copy, PartialEq, Eq, Default)]
pub enum TwoZeros {
    #[default]
    Nothing,
    /// All flags, as document 01 has it.
    AllFlags,
    /// Nothing, and the checks from 10 on are passed over.
    NoChecks,
}

#[derive(Clone, Copy, PartialEq, Eq, Debug, Default)]
pub struct RelateAnswer {
    pub number: u32,
    pub place: usize,
    pub holds: bool,
}

/// How a pattern is read: as document 02's Papers 7 and 8 have it. The others are mistakes.
#[derive(Clone, Copy, PartialEq, Eq, Default)]
pub enum Reading {
    #[default]
    Right,
    /// 23 counts positions from 1.
    FromOne,
    /// Column by column.
    ByColumns,
    /// A cell that misfits is answered no before the rest of the pattern is looked at.
    MisfitFirst,
    /// F for a cell that must not be empty, T for one that must be.
    Exchanged,
    /// A digit asks for no more than T does.
    DigitAsT,
    /// A digit is refused with 23, as Paper 7 alone has it.
    NoDigits,
}

/// Everything that any question about these bytes may need, found once, F being the object given first. `early` is a refusal 1 to 7, `late` one of
/// 10 to 15.
#[derive(Default)]
pub struct Judgement {
    pub early: Option<Refusal>,
    pub late: Option<Refusal>,
    pub f: Object,
    pub g: Object,
    pub vectors: (u16, u16),
    pub two_zeros: TwoZeros,
    /// Whose mask is given first.
    pub masks: Order,
    pub cells: Matrix,
    /// The cells beside a refusal: all empty.
    pub no_cells: Matrix,
    pub reading: Reading,
    /// The first type record whose type is not 3, if there is one.
    pub no_region: Option<usize>,
    pub segments: Vec<Segment>,
    pub list: Vec<u8>,
    pub areas: Areas,
    /// The segments of F and of G, those of both taken twice.
    pub apart: usize,
    /// The count given back, the room it needs and whether it is written; they differ from what `list` says in a mistaken reference only.
    pub count: usize,
    pub room: usize,
    pub writes: bool,
}

pub fn judge(bytes: &[u8], rules: &Rules) -> Judgement {
    let mut judgement = Judgement { writes: true, ..Judgement::default() };
    match read_scene(bytes) {
        Err(refusal) => judgement.early = Some(refusal),
        Ok((f, g)) => {
            judgement.late = check::later(&f, &g, rules);
            judgement.no_region = [&f, &g].iter().find(|object| object.kind != REGION).map(|object| object.start);
            if judgement.is_taken() {
                judgement.vectors = vectors(&f, &g, rules);
                judgement.cells = matrix(&f, &g, rules);
                if judgement.no_region.is_none() {
                    let list = overlap(&f, &g);
                    judgement.segments = list.iter().map(|entry| entry.0).collect();
                    judgement.list = list.iter().map(|(_, m, n)| 3 * m + n).collect();
                    judgement.areas = areas(&f, &g);
                    judgement.apart = f.segments().len() + g.segments().len();
                }
                judgement.count = judgement.list.len();
                judgement.room = judgement.list.len();
            }
            (judgement.f, judgement.g) = (f, g);
        }
    }
    (rules.spoil)(&mut judgement);
    judgement
}

impl Judgement {
    /// Taken by the questions that have no refusals of their own.
    pub fn is_taken(&self) -> bool {
        self.early.is_none() && self.late.is_none()
    }

    /// The first type is above the second: the scene is read with the objects exchanged.
    pub fn descends(&self) -> bool {
        self.f.kind > self.g.kind
    }

    /// The flags of the pair, as a mask for F and one for G.
    pub fn all_flags(&self) -> (u16, u16) {
        all_flags(self.f.kind, self.g.kind)
    }

    pub fn vectors(&self, want_f: u16, want_g: u16) -> VectorsAnswer {
        let refused = |refusal: Refusal| VectorsAnswer { number: refusal.number, place: refusal.place, ..VectorsAnswer::default() };
        if let Some(refusal) = self.early {
            return refused(refusal);
        }
        let (all_f, all_g) = self.all_flags();
        let (want_f, want_g) = if self.masks == Order::Ascending && self.descends() { (want_g, want_f) } else { (want_f, want_g) };
        if want_f & !all_f != 0 || want_g & !all_g != 0 {
            return refused(Refusal { number: 9, place: 0 });
        }
        let two_zeros = (want_f == 0 && want_g == 0).then_some(self.two_zeros);
        match self.late {
            Some(refusal) if two_zeros != Some(TwoZeros::NoChecks) => return refused(refusal),
            _ => (),
        }
        let (want_f, want_g) = if two_zeros == Some(TwoZeros::AllFlags) { (all_f, all_g) } else { (want_f, want_g) };
        VectorsAnswer { number: 0, place: 0, f: self.vectors.0 & want_f, g: self.vectors.1 & want_g }
    }

    pub fn cells(&self) -> CellsAnswer {
        match self.early.or(self.late) {
            Some(refusal) => CellsAnswer { number: refusal.number, place: refusal.place, cell: self.no_cells },
            None => CellsAnswer { number: 0, place: 0, cell: self.cells },
        }
    }

    /// 22 and 23 come after the scene's own refusals, and a misfit hides none of them.
    pub fn relate(&self, pattern: &[u8]) -> RelateAnswer {
        let refused = |number, place| RelateAnswer { number, place, holds: false };
        if let Some(refusal) = self.early.or(self.late) {
            return refused(refusal.number, refusal.place);
        }
        if pattern.len() != 9 {
            return refused(22, 0);
        }
        let cell = |at: usize| if self.reading == Reading::ByColumns { self.cells[at % 3][at / 3] } else { self.cells[at / 3][at % 3] };
        let fits = |at: usize| match pattern[at] {
            b'T' => cell(at).is_empty() == (self.reading == Reading::Exchanged),
            b'F' => cell(at).is_empty() != (self.reading == Reading::Exchanged),
            b'*' => true,
            _ if self.reading == Reading::DigitAsT => !cell(at).is_empty(),
            digit => cell(at).sign() == digit,
        };
        let allowed: &[u8] = if self.reading == Reading::NoDigits { b"TF*" } else { b"TF*012" };
        let misfit = (0..9).find(|at| !fits(*at));
        match pattern.iter().position(|c| !allowed.contains(c)) {
            Some(at) if self.reading != Reading::MisfitFirst || misfit.is_none_or(|misfit| at < misfit) => {
                refused(23, at + (self.reading == Reading::FromOne) as usize)
            }
            _ => RelateAnswer { number: 0, place: 0, holds: misfit.is_none() },
        }
    }

    /// The answer, with the list written into the lent buffer.
    pub fn overlap(&self, lent: &mut [u8]) -> OverlapAnswer {
        let too_short = || (lent.len() < self.room).then_some(Refusal { number: 17, place: 0 });
        let own_refusal = self.no_region.map(|place| Refusal { number: 16, place }).or_else(too_short);
        if let Some(refusal) = self.early.or(self.late).or(own_refusal) {
            return OverlapAnswer { number: refusal.number, place: refusal.place, count: 0 };
        }
        if self.writes {
            lent[..self.list.len()].copy_from_slice(&self.list);
        }
        OverlapAnswer { number: 0, place: 0, count: self.count }
    }

    pub fn areas(&self) -> AreasAnswer {
        let own_refusal = self.no_region.map(|place| Refusal { number: 16, place });
        match self.early.or(self.late).or(own_refusal) {
            Some(refusal) => AreasAnswer { number: refusal.number, place: refusal.place, ..AreasAnswer::default() },
            None => AreasAnswer { number: 0, place: 0, areas: self.areas },
        }
    }

    /// The line that `explore` writes, without its line feed: document 01's, with the four signs of document 02's Paper 8.
    pub fn line(&self) -> String {
        let cells = self.cells();
        if cells.number != 0 {
            return format!("no {} {}", cells.number, cells.place);
        }
        let (f, g) = self.vectors;
        format!("ok {} {} {} {} {}", self.f.kind, self.g.kind, f, g, signs(&cells.cell))
    }
}
