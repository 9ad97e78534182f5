//! The proved library, one safe function for each call that the tool makes. Whatever decides is decided here; the rest of the tool reads files, puts bytes together and
//! writes words. include/karvoiss.h says what each call promises.

/// As many bytes as any object has, any scene, and points or a line as well-known binary.
const OBJECT: usize = 19_459;
const SCENE: usize = 2 * OBJECT;
const WRITTEN: usize = 21_513;

/// A call turned its input away: the number, and the byte at fault.
#[derive(Clone, Copy, PartialEq, Eq, Debug)]
pub struct No {
    pub number: u32,
    pub place: usize,
}

/// The signs of the nine cells, row by row.
pub type Cells = [[u8; 3]; 3];

pub type Summary = [u8; 20];

#[derive(Clone, Copy, PartialEq, Eq, Debug)]
pub struct Areas {
    pub both: i64,
    pub f_only: i64,
    pub g_only: i64,
}

/// A scene that was split, and how many segments each object has more.
pub struct Split {
    pub scene: Vec<u8>,
    pub added: [usize; 2],
}

mod c {
    #[repr(C)]
    pub struct Vectors {
        pub number: u32,
        pub place: usize,
        pub f: u16,
        pub g: u16,
    }

    #[repr(C)]
    pub struct Cells {
        pub number: u32,
        pub place: usize,
        pub cell: [[u8; 3]; 3],
    }

    #[repr(C)]
    pub struct Relate {
        pub number: u32,
        pub place: usize,
        pub holds: bool,
    }

    #[repr(C)]
    pub struct Areas {
        pub number: u32,
        pub place: usize,
        pub both: i64,
        pub f_only: i64,
        pub g_only: i64,
    }

    #[repr(C)]
    pub struct Summary {
        pub number: u32,
        pub place: usize,
        pub record: [u8; 20],
    }

    #[repr(C)]
    pub struct Far {
        pub number: u32,
        pub place: usize,
        pub look: bool,
        pub f: u16,
        pub g: u16,
    }

    #[repr(C)]
    pub struct Read {
        pub number: u32,
        pub place: usize,
        pub length: usize,
        pub value: f64,
    }

    #[repr(C)]
    pub struct Written {
        pub number: u32,
        pub place: usize,
        pub length: usize,
    }

    #[repr(C)]
    pub struct Split {
        pub number: u32,
        pub place: usize,
        pub added_f: usize,
        pub added_g: usize,
        pub length: usize,
    }

    extern "C" {
        pub fn karvoiss_vectors(scene: *const u8, length: usize, want_f: u16, want_g: u16) -> Vectors;
        pub fn karvoiss_cells(scene: *const u8, length: usize) -> Cells;
        pub fn karvoiss_relate(scene: *const u8, length: usize, pattern: *const u8, pattern_length: usize) -> Relate;
        pub fn karvoiss_areas(scene: *const u8, length: usize) -> Areas;
        pub fn karvoiss_summary(object: *const u8, length: usize) -> Summary;
        pub fn karvoiss_far(first: *const u8, first_length: usize, second: *const u8, second_length: usize) -> Far;
        pub fn karvoiss_read_wkb(wkb: *const u8, length: usize, object: *mut u8, room: usize) -> Read;
        pub fn karvoiss_write_wkb(object: *const u8, length: usize, wkb: *mut u8, room: usize) -> Written;
        pub fn karvoiss_split(scene: *const u8, length: usize, split: *mut u8, room: usize) -> Split;
    }
}

/// The result, unless there is a number.
fn taken<T>(number: u32, place: usize, result: T) -> Result<T, No> {
    if number == 0 { Ok(result) } else { Err(No { number, place }) }
}

pub fn vectors(scene: &[u8], want: [u16; 2]) -> Result<[u16; 2], No> {
    let answer = unsafe { c::karvoiss_vectors(scene.as_ptr(), scene.len(), want[0], want[1]) };
    taken(answer.number, answer.place, [answer.f, answer.g])
}

pub fn cells(scene: &[u8]) -> Result<Cells, No> {
    let answer = unsafe { c::karvoiss_cells(scene.as_ptr(), scene.len()) };
    taken(answer.number, answer.place, answer.cell)
}

pub fn relate(scene: &[u8], pattern: &str) -> Result<bool, No> {
    let answer = unsafe { c::karvoiss_relate(scene.as_ptr(), scene.len(), pattern.as_ptr(), pattern.len()) };
    taken(answer.number, answer.place, answer.holds)
}

pub fn areas(scene: &[u8]) -> Result<Areas, No> {
    let answer = unsafe { c::karvoiss_areas(scene.as_ptr(), scene.len()) };
    taken(answer.number, answer.place, Areas { both: answer.both, f_only: answer.f_only, g_only: answer.g_only })
}

pub fn summary(object: &[u8]) -> Result<Summary, No> {
    let answer = unsafe { c::karvoiss_summary(object.as_ptr(), object.len()) };
    taken(answer.number, answer.place, answer.record)
}

/// Both vectors of two objects that lie far apart; none where the outlines must be looked at.
pub fn far(first: &Summary, second: &Summary) -> Result<Option<[u16; 2]>, No> {
    let answer = unsafe { c::karvoiss_far(first.as_ptr(), first.len(), second.as_ptr(), second.len()) };
    taken(answer.number, answer.place, (!answer.look).then_some([answer.f, answer.g]))
}

/// The object of well-known binary; beside the refusal, the number that was read where it is 25.
pub fn read_wkb(wkb: &[u8]) -> Result<Vec<u8>, (No, f64)> {
    let mut object = vec![0; OBJECT];
    let answer = unsafe { c::karvoiss_read_wkb(wkb.as_ptr(), wkb.len(), object.as_mut_ptr(), object.len()) };
    object.truncate(answer.length);
    object.shrink_to_fit();
    taken(answer.number, answer.place, object).map_err(|no| (no, answer.value))
}

pub fn write_wkb(object: &[u8]) -> Result<Vec<u8>, No> {
    let mut wkb = vec![0; WRITTEN];
    let answer = unsafe { c::karvoiss_write_wkb(object.as_ptr(), object.len(), wkb.as_mut_ptr(), wkb.len()) };
    wkb.truncate(answer.length);
    taken(answer.number, answer.place, wkb)
}

pub fn split(pair: &[u8]) -> Result<Split, No> {
    let mut scene = vec![0; SCENE];
    let answer = unsafe { c::karvoiss_split(pair.as_ptr(), pair.len(), scene.as_mut_ptr(), scene.len()) };
    scene.truncate(answer.length);
    taken(answer.number, answer.place, Split { scene, added: [answer.added_f, answer.added_g] })
}
