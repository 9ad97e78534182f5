//! The engine under test. Built with `--cfg library` it is the C archive, through its exported functions and nothing else; built
//! without, the reference stands in for it, so that the maker, the counts and the mistakes can be tried with no archive at hand.

#[cfg(library)]
pub use linked::*;
#[cfg(not(library))]
pub use stand_in::*;

#[cfg(library)]
mod linked {
    use crate::cells::of_signs;
    use crate::judge::{AreasAnswer, CellsAnswer, OverlapAnswer, RelateAnswer, VectorsAnswer};
    use crate::split::SplitAnswer;
    use crate::summary::{FarAnswer, SummaryAnswer, LENGTH};
    use crate::walk::Told;
    use crate::wkb::{ReadAnswer, Value, WriteAnswer};

    pub const NAME: &str = "the linked archive";

    #[repr(C)]
    struct Vectors {
        number: u32,
        place: usize,
        f: u16,
        g: u16,
    }

    /// The cells as they come, whatever their bytes are.
    #[repr(C)]
    pub struct Cells {
        pub number: u32,
        pub place: usize,
        pub cell: [u8; 9],
    }

    #[repr(C)]
    struct Relate {
        number: u32,
        place: usize,
        holds: u8,
    }

    #[repr(C)]
    struct Overlap {
        number: u32,
        place: usize,
        count: usize,
    }

    #[repr(C)]
    struct Areas {
        number: u32,
        place: usize,
        both: i64,
        f_only: i64,
        g_only: i64,
    }

    #[repr(C)]
    struct Summary {
        number: u32,
        place: usize,
        record: [u8; LENGTH],
    }

    /// `look` is bool in C; read as a byte, a wrong one shows instead of being undefined.
    #[repr(C)]
    struct Far {
        number: u32,
        place: usize,
        look: u8,
        f: u16,
        g: u16,
    }

    #[repr(C)]
    struct ReadWkb {
        number: u32,
        place: usize,
        length: usize,
        value: f64,
    }

    #[repr(C)]
    struct WriteWkb {
        number: u32,
        place: usize,
        length: usize,
    }

    #[repr(C)]
    struct Split {
        number: u32,
        place: usize,
        added_f: usize,
        added_g: usize,
        length: usize,
    }

    /// A walk's state: what is told, and the rest for the next portion.
    #[repr(C)]
    #[derive(Clone, Copy, PartialEq, Eq, Debug)]
    pub struct State {
        number: u32,
        place: usize,
        f: u16,
        g: u16,
        done: u8,
        types: [u8; 2],
        turned: u8,
        want: [u16; 2],
        events: usize,
        taken: usize,
    }

    impl State {
        pub fn told(&self) -> Told {
            let State { number, place, f, g, done, events, taken, .. } = *self;
            Told { number, place, f, g, done, events, taken }
        }
    }

    extern "C" {
        fn karvoiss_vectors(scene: *const u8, length: usize, want_f: u16, want_g: u16) -> Vectors;
        fn karvoiss_cells(scene: *const u8, length: usize) -> Cells;
        fn karvoiss_relate(scene: *const u8, length: usize, pattern: *const u8, pattern_length: usize) -> Relate;
        fn karvoiss_overlap(scene: *const u8, length: usize, list: *mut u8, room: usize) -> Overlap;
        fn karvoiss_areas(scene: *const u8, length: usize) -> Areas;
        fn karvoiss_summary(object: *const u8, length: usize) -> Summary;
        fn karvoiss_far(first: *const u8, first_length: usize, second: *const u8, second_length: usize) -> Far;
        fn karvoiss_read_wkb(wkb: *const u8, length: usize, object: *mut u8, room: usize) -> ReadWkb;
        fn karvoiss_write_wkb(object: *const u8, length: usize, wkb: *mut u8, room: usize) -> WriteWkb;
        fn karvoiss_split(scene: *const u8, length: usize, split: *mut u8, room: usize) -> Split;
        fn karvoiss_walk_begin(scene: *const u8, length: usize, want_f: u16, want_g: u16, ground: *mut u8, room: usize) -> State;
        fn karvoiss_walk_portion(ground: *const u8, length: usize, walk: State, events: usize) -> State;
    }

    /// Null where the length is 0, which the header allows.
    fn start(scene: &[u8]) -> *const u8 {
        if scene.is_empty() {
            std::ptr::null()
        } else {
            scene.as_ptr()
        }
    }

    pub fn vectors(scene: &[u8], want_f: u16, want_g: u16) -> VectorsAnswer {
        let answer = unsafe { karvoiss_vectors(start(scene), scene.len(), want_f, want_g) };
        VectorsAnswer { number: answer.number, place: answer.place, f: answer.f, g: answer.g }
    }

    pub fn cells_as_given(scene: &[u8]) -> Cells {
        unsafe { karvoiss_cells(start(scene), scene.len()) }
    }

    pub fn cells(scene: &[u8]) -> Result<CellsAnswer, String> {
        let answer = cells_as_given(scene);
        let cell = of_signs(&answer.cell).ok_or_else(|| format!("cells: one has none of the four signs: {:?}", answer.cell))?;
        Ok(CellsAnswer { number: answer.number, place: answer.place, cell })
    }

    pub fn summary(object: &[u8]) -> SummaryAnswer {
        let answer = unsafe { karvoiss_summary(start(object), object.len()) };
        SummaryAnswer { number: answer.number, place: answer.place, record: answer.record }
    }

    pub fn far(first: &[u8], second: &[u8]) -> Result<FarAnswer, String> {
        let answer = unsafe { karvoiss_far(start(first), first.len(), start(second), second.len()) };
        if answer.look > 1 {
            return Err(format!("far: look is neither 0 nor 1: {}", answer.look));
        }
        Ok(FarAnswer { number: answer.number, place: answer.place, look: answer.look == 1, f: answer.f, g: answer.g })
    }

    pub fn relate(scene: &[u8], pattern: &[u8]) -> Result<RelateAnswer, String> {
        let answer = unsafe { karvoiss_relate(start(scene), scene.len(), start(pattern), pattern.len()) };
        if answer.holds > 1 {
            return Err(format!("pattern: the answer is neither 0 nor 1: {}", answer.holds));
        }
        Ok(RelateAnswer { number: answer.number, place: answer.place, holds: answer.holds == 1 })
    }

    pub fn overlap(scene: &[u8], list: &mut [u8]) -> OverlapAnswer {
        let answer = unsafe { karvoiss_overlap(start(scene), scene.len(), list.as_mut_ptr(), list.len()) };
        OverlapAnswer { number: answer.number, place: answer.place, count: answer.count }
    }

    pub fn areas(scene: &[u8]) -> AreasAnswer {
        let answer = unsafe { karvoiss_areas(start(scene), scene.len()) };
        AreasAnswer { number: answer.number, place: answer.place, areas: [answer.both, answer.f_only, answer.g_only] }
    }

    pub fn read_wkb(wkb: &[u8], object: &mut [u8]) -> ReadAnswer {
        let answer = unsafe { karvoiss_read_wkb(start(wkb), wkb.len(), object.as_mut_ptr(), object.len()) };
        ReadAnswer { number: answer.number, place: answer.place, length: answer.length, value: Value(answer.value) }
    }

    pub fn write_wkb(object: &[u8], wkb: &mut [u8]) -> WriteAnswer {
        let answer = unsafe { karvoiss_write_wkb(start(object), object.len(), wkb.as_mut_ptr(), wkb.len()) };
        WriteAnswer { number: answer.number, place: answer.place, length: answer.length }
    }

    pub fn split(scene: &[u8], split: &mut [u8]) -> SplitAnswer {
        let Split { number, place, added_f, added_g, length } = unsafe { karvoiss_split(start(scene), scene.len(), split.as_mut_ptr(), split.len()) };
        SplitAnswer { number, place, added_f, added_g, length }
    }

    pub fn walk_begin(scene: &[u8], want: [u16; 2], ground: &mut [u8]) -> State {
        unsafe { karvoiss_walk_begin(start(scene), scene.len(), want[0], want[1], ground.as_mut_ptr(), ground.len()) }
    }

    pub fn walk_portion(ground: &[u8], walk: &State, events: usize) -> State {
        unsafe { karvoiss_walk_portion(start(ground), ground.len(), *walk, events) }
    }
}

#[cfg(not(library))]
mod stand_in {
    use crate::judge::{judge, AreasAnswer, CellsAnswer, OverlapAnswer, RelateAnswer, VectorsAnswer};
    use crate::mistakes::RIGHT;
    use crate::scene::read_scene;
    use crate::split::{SplitAnswer, Splitting};
    use crate::summary::{self, FarAnswer, SummaryAnswer};
    use crate::walk::{self, Slip, Told, Walk};
    use crate::wkb::{ReadAnswer, Reading, WriteAnswer, Writing};

    pub const NAME: &str = "no archive: the reference against itself";

    pub fn vectors(scene: &[u8], want_f: u16, want_g: u16) -> VectorsAnswer {
        judge(scene, &RIGHT).vectors(want_f, want_g)
    }

    pub fn cells(scene: &[u8]) -> Result<CellsAnswer, String> {
        Ok(judge(scene, &RIGHT).cells())
    }

    pub fn relate(scene: &[u8], pattern: &[u8]) -> Result<RelateAnswer, String> {
        Ok(judge(scene, &RIGHT).relate(pattern))
    }

    pub fn overlap(scene: &[u8], list: &mut [u8]) -> OverlapAnswer {
        judge(scene, &RIGHT).overlap(list)
    }

    pub fn areas(scene: &[u8]) -> AreasAnswer {
        judge(scene, &RIGHT).areas()
    }

    pub fn summary(object: &[u8]) -> SummaryAnswer {
        summary::summary(object, &RIGHT)
    }

    pub fn far(first: &[u8], second: &[u8]) -> Result<FarAnswer, String> {
        Ok(summary::far(first, second, &RIGHT))
    }

    pub fn read_wkb(wkb: &[u8], object: &mut [u8]) -> ReadAnswer {
        Reading::of(wkb, &RIGHT).answer(object)
    }

    pub fn write_wkb(object: &[u8], wkb: &mut [u8]) -> WriteAnswer {
        Writing::of(object, &RIGHT).answer(wkb)
    }

    pub fn split(scene: &[u8], split: &mut [u8]) -> SplitAnswer {
        Splitting::of(scene, &RIGHT).answer(split)
    }

    /// What is wanted, and what is told.
    #[derive(Clone, Copy, PartialEq, Eq, Debug)]
    pub struct State {
        want: [u16; 2],
        told: Told,
    }

    impl State {
        pub fn told(&self) -> Told {
            self.told
        }
    }

    const REFUSED: State = State { want: [0, 0], told: Told { number: 0, place: 0, f: 0, g: 0, done: 0, events: 0, taken: 0 } };

    fn refused(number: u32, place: usize) -> State {
        State { told: Told { number, place, ..REFUSED.told }, ..REFUSED }
    }

    /// The ground has the flags that each event sets, F's and G's, low byte first: each as late as it may be.
    pub fn walk_begin(scene: &[u8], want: [u16; 2], ground: &mut [u8]) -> State {
        let VectorsAnswer { number, place, .. } = judge(scene, &RIGHT).vectors(want[0], want[1]);
        if number != 0 {
            return refused(number, place);
        }
        let (f, g) = read_scene(scene).expect("a scene that was taken is read");
        if ground.len() < walk::room(&f, &g) {
            return refused(21, 0);
        }
        let walk = Walk::of(&f, &g, Slip::None);
        for n in 0..walk.total {
            let [(_, of_f), (_, of_g)] = walk.after(n + 1);
            ground[4 * n..4 * n + 2].copy_from_slice(&of_f.to_le_bytes());
            ground[4 * n + 2..4 * n + 4].copy_from_slice(&of_g.to_le_bytes());
        }
        State { want, told: Told { done: (walk.total == 0) as u8, events: walk.total, ..REFUSED.told } }
    }

    pub fn walk_portion(ground: &[u8], walk: &State, events: usize) -> State {
        let State { want, told } = *walk;
        if told.number != 0 {
            return *walk;
        }
        if told.events > ground.len() / 4 || told.taken > told.events {
            return refused(24, 0);
        }
        let taken = told.taken.saturating_add(events).min(told.events);
        let set = |at: usize| (told.taken..taken).fold(0u16, |flags, n| flags | u16::from_le_bytes([ground[4 * n + at], ground[4 * n + at + 1]]));
        State { want, told: Told { f: told.f | set(0) & want[0], g: told.g | set(2) & want[1], done: (taken == told.events) as u8, taken, ..told } }
    }
}
