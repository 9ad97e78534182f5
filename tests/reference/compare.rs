//! The comparison: every scene is put to the engine under test and to the reference, as vectors under several masks, as cells, against patterns, as an
//! overlap list and as areas, and its objects for their summaries and for what these tell; every bit of the answers and of the memory around them must agree.

use crate::areas::areas;
use crate::byhand;
use crate::damage::{damaged, noise, spoilt_summary};
use crate::drawing::scene_text;
use crate::exchange::{self, Answers};
use crate::fences;
use crate::judge::{judge, AreasAnswer, Judgement};
use crate::library;
use crate::maker::{full, side_by_side, small, some_pair, with_hub};
use crate::mistakes::{Rules, RIGHT};
use crate::notation;
use crate::pieces::Extent;
use crate::plane::{turn, Fraction, Segment};
use crate::random::Random;
use crate::scaled;
use crate::scene::{object_bytes, read_scene, scene_bytes, Object, MOST, POINTS, REGION};
use crate::split::{SplitAnswer, Splitting};
use crate::split_byhand;
use crate::split_maker;
use crate::summary::{are_far, far, summary, FarAnswer, Summary};
use crate::tally::Tally;
use crate::walk::{self, Told, Walk};
use crate::wkb::{Reading, Writing};
use crate::wkb_byhand::{self, hexadecimal};
use crate::wkb_maker;
use std::fmt::Debug;

/// Guard bytes before and after what is lent.
const GUARD: usize = 64;

/// A byte string to be asked about, and where it comes from.
pub struct Case {
    pub from: String,
    pub bytes: Vec<u8>,
    pub must_be_taken: bool,
    /// The seed of the masks, patterns and rooms that it is asked with.
    pub seed: u64,
    /// Whether it is asked against every pattern of T and F, and many with digits and *.
    pub every_pattern: bool,
}

impl Case {
    /// The scene that a seed names: mostly small and valid, a third damaged or not split, a ninth with a hub, a ninth of objects side by side, a few of full size, a few
    /// that never were scenes.
    pub fn of_seed(seed: u64) -> Case {
        let mut random = Random::new(seed);
        let kinds = some_pair(&mut random);
        let choice = random.below(1800);
        let (f, g) = match choice {
            0..=3 => full(&mut random, kinds),
            1400..=1599 => with_hub(&mut random),
            1600.. => return Case::side_by_side_of_seed(seed),
            _ => small(&mut random, kinds),
        };
        let (bytes, must_be_taken) = match choice {
            0 | 10..=479 => (damaged(&mut random, &f, &g), false),
            480..=619 => (scene_bytes(&f, &small(&mut random, kinds).1), false),
            620..=649 => (noise(&mut random), false),
            _ => (scene_bytes(&f, &g), true),
        };
        Case { from: format!("seed {seed}"), bytes, must_be_taken, seed, every_pattern: false }
    }

    /// The scene with a hub that a seed names.
    pub fn hub_of_seed(seed: u64) -> Case {
        let (f, g) = with_hub(&mut Random::new(seed));
        Case { from: format!("seed {seed}, with a hub"), bytes: scene_bytes(&f, &g), must_be_taken: true, seed, every_pattern: false }
    }

    /// The objects side by side that a seed names. They are a scene if no point is in both boxes.
    pub fn side_by_side_of_seed(seed: u64) -> Case {
        let (f, g) = side_by_side(&mut Random::new(seed));
        let must_be_taken = are_far(&Summary::of(&f, &RIGHT), &Summary::of(&g, &RIGHT));
        Case { from: format!("seed {seed}, side by side"), bytes: scene_bytes(&f, &g), must_be_taken, seed, every_pattern: false }
    }

    /// The bytes of the object that a seed names: the first of two side by side.
    pub fn object_of_seed(seed: u64) -> Vec<u8> {
        object_bytes(&side_by_side(&mut Random::new(seed)).0)
    }

    /// The scene of two regions that a seed names, a few of full size.
    pub fn regions_of_seed(seed: u64) -> Case {
        let mut random = Random::new(seed);
        let (f, g) = if random.once_in(400) { full(&mut random, (REGION, REGION)) } else { small(&mut random, (REGION, REGION)) };
        Case { from: format!("seed {seed}, of two regions"), bytes: scene_bytes(&f, &g), must_be_taken: true, seed, every_pattern: false }
    }

    /// The well-known binary that a seed names, most of it not as it should be.
    pub fn wkb_of_seed(seed: u64) -> Case {
        let bytes = wkb_maker::some(&mut Random::new(seed));
        Case { from: format!("seed {seed}, well-known binary"), bytes, must_be_taken: false, seed, every_pattern: false }
    }

    /// The raw pair that a seed names, some of them damaged.
    pub fn raw_of_seed(seed: u64) -> Case {
        let bytes = split_maker::some(&mut Random::new(seed));
        Case { from: format!("seed {seed}, a raw pair"), bytes, must_be_taken: false, seed, every_pattern: false }
    }

    fn by_hand(name: &str, bytes: Vec<u8>) -> Case {
        Case { from: format!("the scene made by hand: {name}"), bytes, must_be_taken: false, seed: 0, every_pattern: true }
    }

    /// All scenes made by hand.
    pub fn all_by_hand() -> Vec<Case> {
        let mut cases: Vec<Case> = byhand::known().into_iter().map(|known| Case::by_hand(known.name, known.bytes)).collect();
        cases.extend(byhand::measured().into_iter().map(|measured| Case::by_hand(measured.name, measured.bytes)));
        cases.extend(byhand::drawn_matrices().iter().map(|drawn| Case::by_hand(drawn.matrix, drawn.bytes())));
        cases
    }
}

/// Asks everything about a case, if it has two objects everything again with these exchanged, and the engine once more with every coordinate times ten. An error
/// says what disagreed.
pub fn ask(case: &Case, rules: &Rules, tally: &mut Tally) -> Result<(), String> {
    let judgement = judge(&case.bytes, rules);
    if case.must_be_taken && !judgement.is_taken() && !judge(&case.bytes, &RIGHT).is_taken() {
        return Err(failure(case, &case.bytes, &format!("the maker's scene is refused by the reference: {}", judgement.line())));
    }
    let mut random = Random::new(!case.seed);
    if case.every_pattern {
        let patterns = (0..512).map(two_valued).chain((0..1000).map(|_| with_stars(&mut random))).collect();
        ask_patterns(&Lent::new(&mut Random::new(1), &case.bytes), &judgement, patterns, tally).map_err(|what| failure(case, &case.bytes, &what))?;
    }
    let answers = ask_one(&case.bytes, &judgement, &mut random, tally).map_err(|what| failure(case, &case.bytes, &what))?;
    let (f, g) = (&judgement.f, &judgement.g);
    ask_summary(&case.bytes, rules, &mut random, tally).map_err(|what| failure(case, &case.bytes, &what))?;
    if g.start > 0 {
        let objects = case.bytes.split_at(g.start);
        ask_summaries(objects, &answers, rules, &mut random, tally).map_err(|what| failure(case, &case.bytes, &what))?;
        let exchanged = exchange::bytes(&case.bytes, g.start);
        let others = ask_one(&exchanged, &judge(&exchanged, rules), &mut random, tally).map_err(|what| failure(case, &exchanged, &what))?;
        if others != answers.exchanged(f.kind, g.kind) {
            return Err(failure(case, &case.bytes, &format!("the engine answers {answers:?},\nbut {others:?} with F and G exchanged")));
        }
        tally.both_ways += 1;
    }
    if let Some(tenfold) = scaled::bytes(&case.bytes) {
        same_scaled(&case.bytes, &tenfold, judgement.all_flags()).map_err(|what| failure(case, &tenfold, &what))?;
        tally.tenfold += judgement.is_taken() as usize;
    }
    Ok(())
}

/// Asks for the areas alone, of two regions and of the same exchanged, so that there is time for many more scenes.
pub fn ask_areas(case: &Case, _: &Rules, tally: &mut Tally) -> Result<(), String> {
    let (f, g) = read_scene(&case.bytes).map_err(|refusal| failure(case, &case.bytes, &format!("the maker's scene cannot be read: {refusal:?}")))?;
    let [both, f_only, g_only] = areas(&f, &g);
    let exchanged = exchange::bytes(&case.bytes, g.start);
    for (bytes, areas) in [(&case.bytes, [both, f_only, g_only]), (&exchanged, [both, g_only, f_only])] {
        let expected = AreasAnswer { number: 0, place: 0, areas };
        agree("areas", &expected, &library::areas(bytes)).map_err(|what| failure(case, bytes, &what))?;
        tally.scenes += 1;
        tally.questions += 1;
        tally.areas(areas);
    }
    tally.both_ways += 1;
    Ok(())
}

/// Asks what well-known binary is read as, and what is written of that, which must be read as the same again; now and then what is written of other objects, most of them
/// at fault.
pub fn ask_wkb(case: &Case, rules: &Rules, tally: &mut Tally) -> Result<(), String> {
    let told = |what: String| format!("DISAGREEMENT on {}\n{what}\nhexadecimal: {}", case.from, hexadecimal(&case.bytes));
    let mut random = Random::new(!case.seed);
    tally.scenes += 1;
    if let Some(object) = ask_reading(&case.bytes, rules, &mut random, tally).map_err(told)? {
        if let Some(wkb) = ask_writing(&object, rules, &mut random, tally).map_err(told)? {
            let again = ask_reading(&wkb, rules, &mut random, tally).map_err(told)?;
            if again.is_none_or(|again| again != object) {
                return Err(told("what was written is not read as the same object".to_string()));
            }
            tally.wkb.back += 1;
        }
    }
    if random.once_in(4) {
        let kinds = some_pair(&mut random);
        let (f, g) = small(&mut random, kinds);
        let scene = damaged(&mut random, &f, &g);
        let second = read_scene(&scene).map_or(0, |(_, g)| g.start);
        let (first, second) = scene.split_at(second);
        for object in [first, second] {
            ask_writing(object, rules, &mut random, tally).map_err(|what| told(format!("{what}\nobject: {}", hexadecimal(object))))?;
        }
    }
    Ok(())
}

/// Asks about the well-known binary made by hand, and about the objects.
pub fn ask_wkb_by_hand(rules: &Rules, tally: &mut Tally) -> Result<(), String> {
    let mut random = Random::new(0);
    for known in wkb_byhand::read() {
        ask_reading(&known.bytes, rules, &mut random, tally).map_err(|what| format!("{}: {what}", known.name))?;
    }
    for known in wkb_byhand::written() {
        ask_writing(&known.bytes, rules, &mut random, tally).map_err(|what| format!("{}: {what}", known.name))?;
    }
    Ok(())
}

/// Into a buffer of some size, all of whose bytes must be as the reference leaves them, and once more beside pages that may not be touched; gives the answer and the buffer.
fn ask_into<A: PartialEq + Debug>(
    what: &str,
    bytes: &[u8],
    room: usize,
    random: &mut Random,
    engine: impl Fn(&[u8], &mut [u8]) -> A,
    reference: impl Fn(&mut [u8]) -> A,
) -> Result<(A, Vec<u8>), String> {
    let contents: Vec<u8> = (0..room).map(|_| random.byte()).collect();
    let (input, mut buffer) = (Lent::new(random, bytes), Lent::new(random, &contents));
    let answer = engine(input.inside(), buffer.inside_mut());
    agree(&format!("{what}, room {room}"), &reference(buffer.expected_mut()), &answer)?;
    buffer.is_unchanged(&format!("{what}, the lent buffer of {room}"))?;
    input.is_unchanged(&format!("{what}, the input"))?;
    let (again, found) = fences::between(bytes, &contents, engine);
    agree(&format!("{what}, room {room}, beside a fence"), &answer, &again)?;
    if found != buffer.inside() {
        return Err(format!("{what}, room {room}: another buffer beside a fence"));
    }
    Ok((answer, found))
}

/// Just enough first, then less, more or nothing.
fn buffers(length: usize, random: &mut Random) -> [usize; 2] {
    let more = random.below(300);
    [length, random.pick(&[length.saturating_sub(1), length / 2, length + 1, length + more, 0])]
}

/// Gives the object that the engine reads.
fn ask_reading(bytes: &[u8], rules: &Rules, random: &mut Random, tally: &mut Tally) -> Result<Option<Vec<u8>>, String> {
    let reading = Reading::of(bytes, rules);
    let mut object = None;
    for room in buffers(reading.bytes.len(), random) {
        let (answer, found) = ask_into("reading", bytes, room, random, library::read_wkb, |lent| reading.answer(lent))?;
        tally.questions += 1;
        tally.wkb.read(answer.number);
        if answer.number == 0 {
            object = Some(found[..answer.length].to_vec());
        }
    }
    Ok(object)
}

/// Gives the well-known binary that the engine writes.
fn ask_writing(bytes: &[u8], rules: &Rules, random: &mut Random, tally: &mut Tally) -> Result<Option<Vec<u8>>, String> {
    let writing = Writing::of(bytes, rules);
    let mut wkb = None;
    for room in buffers(writing.0.as_ref().map_or(0, Vec::len), random) {
        let (answer, found) = ask_into("writing", bytes, room, random, library::write_wkb, |lent| writing.answer(lent))?;
        tally.questions += 1;
        tally.wkb.written(answer.number);
        if answer.number == 0 {
            wkb = Some(found[..answer.length].to_vec());
        }
    }
    Ok(wkb)
}

/// Asks what a pair is split into, and now and then the pair the other way round. What comes out must be a scene, each of whose objects is the source's in pieces.
pub fn ask_split(case: &Case, rules: &Rules, tally: &mut Tally) -> Result<(), String> {
    let mut random = Random::new(!case.seed);
    tally.scenes += 1;
    ask_splitting(&case.bytes, None, rules, &mut random, tally).map_err(|what| failure(case, &case.bytes, &what))?;
    if let (true, Ok((_, g))) = (random.once_in(4), read_scene(&case.bytes)) {
        let exchanged = exchange::bytes(&case.bytes, g.start);
        ask_splitting(&exchanged, None, rules, &mut random, tally).map_err(|what| failure(case, &exchanged, &what))?;
    }
    Ok(())
}

/// Asks about the raw pairs made by hand.
pub fn ask_split_by_hand(rules: &Rules, tally: &mut Tally) -> Result<(), String> {
    let mut random = Random::new(0);
    for known in split_byhand::known() {
        let told = |what: String| format!("{}: {what}", known.name);
        let found = ask_splitting(&known.bytes, known.room, rules, &mut random, tally).map_err(told)?;
        if known.written.is_some_and(|written| found != Some(written)) {
            return Err(told("another scene than the one made by hand".to_string()));
        }
    }
    Ok(())
}

/// Into buffers of some sizes, or of one; gives the scene that the engine writes.
fn ask_splitting(bytes: &[u8], room: Option<usize>, rules: &Rules, random: &mut Random, tally: &mut Tally) -> Result<Option<Vec<u8>>, String> {
    let splitting = Splitting::of(bytes, rules);
    let rooms = room.map_or_else(|| buffers(splitting.bytes.len(), random).to_vec(), |room| vec![room]);
    let mut written = None;
    for room in rooms {
        let (answer, found) = ask_into("splitting", bytes, room, random, library::split, |lent| splitting.answer(lent))?;
        tally.questions += 1;
        tally.split.answered(answer.number);
        if answer.number == 0 && written.is_none() {
            written = Some(found[..answer.length].to_vec());
            is_split(bytes, &found[..answer.length], &answer, tally)?;
        }
    }
    Ok(written)
}

/// The greatest portions, and those that every scene made by hand is walked over in.
const PORTIONS: [usize; 5] = [1, 2, 7, 64, usize::MAX];

/// Walks over a scene in portions of random sizes, under random masks: at every state done and the windows, at the end the vectors of the single call; some states once more from
/// one before.
pub fn ask_walk(case: &Case, rules: &Rules, tally: &mut Tally) -> Result<(), String> {
    let mut random = Random::new(!case.seed);
    tally.scenes += 1;
    let judgement = judge(&case.bytes, &RIGHT);
    let (all_f, all_g) = judgement.all_flags();
    let mut some = |all: u16| if random.once_in(3) { all & random.next() as u16 } else { all };
    let want = [some(all_f), some(all_g)];
    let more = random.below(70);
    let mut sizes = vec![random.pick(&PORTIONS)];
    if !random.once_in(4) {
        sizes.extend((0..4).map(|_| random.pick(&[0, 1, 1, 2, 3, 5, more])));
    }
    ask_walking(&case.bytes, &judgement, want, &sizes, rules, tally).map_err(|what| failure(case, &case.bytes, &what))
}

/// Every scene of the program test_vectors and two of document 02's examples, in portions of every size.
pub fn ask_walks_by_hand(rules: &Rules, tally: &mut Tally) -> Result<(), String> {
    for case in notation::cases(include_str!("../../crates/test_vectors/stdin")).map_err(|case| format!("not read: {case}"))? {
        let judgement = judge(&case.bytes, &RIGHT);
        for k in PORTIONS {
            ask_walking(&case.bytes, &judgement, [case.want_f, case.want_g], &[k], rules, tally)
                .map_err(|what| format!("{}, in portions of {k}: {what}", case.label))?;
        }
    }
    for known in byhand::known() {
        ask_walking(&known.bytes, &judge(&known.bytes, &RIGHT), all_wanted(&known.bytes), &[1], rules, tally)
            .map_err(|what| format!("{}: {what}", known.name))?;
    }
    Ok(())
}

fn all_wanted(bytes: &[u8]) -> [u16; 2] {
    let (f, g) = judge(bytes, &RIGHT).all_flags();
    [f, g]
}

/// One walk, in portions of these sizes over and over; with one size it has as many calls as document 02 says.
fn ask_walking(bytes: &[u8], judgement: &Judgement, want: [u16; 2], sizes: &[usize], rules: &Rules, tally: &mut Tally) -> Result<(), String> {
    let single = judgement.vectors(want[0], want[1]);
    let room = walk::room(&judgement.f, &judgement.g);
    let mut ground = vec![0xEE; room + 3];
    if single.number == 0 && room > 0 {
        agree("a ground that is too short", &Told { number: 21, ..Told::default() }, &library::walk_begin(bytes, want, &mut ground[..room - 1]).told())?;
    }
    let mut state = library::walk_begin(bytes, want, &mut ground);
    if single.number != 0 {
        tally.walks.refused += 1;
        let untouched = ground.iter().all(|byte| *byte == 0xEE);
        agree("the beginning of a walk", &Told { number: single.number, place: single.place, ..Told::default() }, &state.told())?;
        return if untouched { Ok(()) } else { Err("a refused walk wrote to its ground".to_string()) };
    }
    let walk = Walk::of(&judgement.f, &judgement.g, rules.walk);
    if ground[4 * state.told().events..].iter().any(|byte| *byte != 0xEE) {
        return Err("a byte behind the last event was changed".to_string());
    }
    (tally.walks.begun, tally.walks.events) = (tally.walks.begun + 1, tally.walks.events + walk.total);
    tally.walks.descending += judgement.descends() as usize;
    let (begun, mut taken, mut calls) = (state, 0, 0);
    walk.check(taken, want, &state.told(), rules.walk)?;
    while state.told().done == 0 {
        let k = sizes[calls % sizes.len()];
        state = library::walk_portion(&ground, &state, k);
        (taken, calls) = (walk.moved(taken, k, rules.walk), calls + 1);
        walk.check(taken, want, &state.told(), rules.walk)?;
        agree("as many events at once", &state, &library::walk_portion(&ground, &begun, taken))?;
        agree("a portion of zero", &state, &library::walk_portion(&ground, &state, 0))?;
        tally.walks.states += 1;
    }
    agree("a portion after the end", &state, &library::walk_portion(&ground, &state, usize::MAX))?;
    if let [k] = sizes {
        agree(&format!("calls of {k} events"), &walk.calls(*k, rules.walk), &calls)?;
    }
    let end = state.told();
    agree("the vectors at the end", &[single.f, single.g], &[end.f, end.g])
}

/// Whether a scene is another one split, by the words of the paper: it is taken, split once more it stays as it is, and each object is the source's in pieces, as many more as were
/// said to be added, with the ends of pieces on the other object; a region's area is what it was.
fn is_split(source: &[u8], split: &[u8], answer: &SplitAnswer, tally: &mut Tally) -> Result<(), String> {
    let cells = library::cells(split)?;
    if cells.number != 0 {
        return Err(format!("what was split is refused with {} at {}", cells.number, cells.place));
    }
    let mut again = vec![0; split.len()];
    let second = library::split(split, &mut again);
    agree("splitting what was split", &SplitAnswer { length: split.len(), ..SplitAnswer::default() }, &second)?;
    if again != split {
        return Err("what was split is split again into something else".to_string());
    }
    let read = |bytes: &[u8]| read_scene(bytes).map_err(|refusal| format!("not read: {refusal:?}"));
    let ((f, g), (split_f, split_g)) = (read(source)?, read(split)?);
    tally.split.taken(&split_f, &split_g, [answer.added_f, answer.added_g]);
    if f.kind == POINTS || g.kind == POINTS {
        return if split == source { Ok(()) } else { Err("points were not copied".to_string()) };
    }
    for (own, other, pieces, added) in [(&f, &g, &split_f, answer.added_f), (&g, &f, &split_g, answer.added_g)] {
        in_pieces(own, &other.segments(), pieces, added)?;
        if shoelace(own) != shoelace(pieces) {
            return Err(format!("an area of {} has become one of {}", shoelace(own), shoelace(pieces)));
        }
    }
    Ok(())
}

/// Each segment is a chain of pieces in line with it, of its ia, every end of which but the segment's own is on the other object; and there are no other pieces.
fn in_pieces(own: &Object, other: &[Segment], split: &Object, added: usize) -> Result<(), String> {
    let left = |object: &Object| object.halves.iter().filter(|h| h.left).map(|h| (h.segment, h.ia)).collect::<Vec<_>>();
    let (whole, mut pieces) = (left(own), left(split));
    if pieces.len() != whole.len() + added {
        return Err(format!("{} segments have become {}, with {added} added", whole.len(), pieces.len()));
    }
    for (s, ia) in whole {
        let mut at = s.left;
        while at != s.right {
            let next =
                |(piece, its): &(Segment, bool)| piece.left == at && piece.right <= s.right && turn(s.left, s.right, piece.right) == 0 && *its == ia;
            let Some(found) = pieces.iter().position(next) else { return Err(format!("{s:?} has no piece from {at:?} on")) };
            at = pieces.swap_remove(found).0.right;
            if at != s.right && !other.iter().any(|t| t.has(&Fraction::whole(at))) {
                return Err(format!("{s:?} is cut at {at:?}, where nothing is"));
            }
        }
    }
    Ok(())
}

/// Twice a region's area by the shoelace sum.
fn shoelace(object: &Object) -> i128 {
    let term = |s: &Segment| s.left.0 as i128 * s.right.1 as i128 - s.left.1 as i128 * s.right.0 as i128;
    let left = object.halves.iter().filter(|h| h.left && object.kind == REGION);
    left.map(|h| if h.ia { term(&h.segment) } else { -term(&h.segment) }).sum()
}

/// The engine's answers to two byte strings, one of them the other scaled, places and lists too.
fn same_scaled(bytes: &[u8], scaled: &[u8], (all_f, all_g): (u16, u16)) -> Result<(), String> {
    let answers = [bytes, scaled].map(|scene| {
        let mut list = vec![0; MOST];
        let overlap = library::overlap(scene, &mut list);
        (library::vectors(scene, all_f, all_g), library::cells(scene), overlap, list)
    });
    if answers[0] == answers[1] {
        return Ok(());
    }
    Err(format!("every coordinate times ten\n  before: {:?}\n  after:  {:?}", answers[0], answers[1]))
}

fn failure(case: &Case, bytes: &[u8], what: &str) -> String {
    format!("DISAGREEMENT on {}\n{}\n{}", case.from, what, scene_text(bytes))
}

/// Asks everything about one byte string; gives the engine's answers with all flags wanted, and with room for the list.
fn ask_one(bytes: &[u8], judgement: &Judgement, random: &mut Random, tally: &mut Tally) -> Result<Answers, String> {
    tally.scene(judgement);
    let scene = Lent::new(random, bytes);
    let mut with_all_flags = None;
    for (want_f, want_g) in masks(judgement, random) {
        let expected = judgement.vectors(want_f, want_g);
        let answer = library::vectors(scene.inside(), want_f, want_g);
        agree(&format!("vectors, masks {want_f} and {want_g}"), &expected, &answer)?;
        scene.is_unchanged("the scene, after vectors")?;
        with_all_flags.get_or_insert(answer);
        tally.questions += 1;
        if expected.number == 9 {
            tally.refusal(9);
        }
    }

    let cells = library::cells(scene.inside())?;
    agree("cells", &judgement.cells(), &cells)?;
    scene.is_unchanged("the scene, after cells")?;
    tally.questions += 1;

    ask_patterns(&scene, judgement, patterns(judgement, random), tally)?;

    let mut with_room = None;
    for room in rooms(judgement, random) {
        let contents: Vec<u8> = (0..room).map(|_| random.byte()).collect();
        let mut list = Lent::new(random, &contents);
        let answer = library::overlap(scene.inside(), list.inside_mut());
        let expected = judgement.overlap(list.expected_mut());
        agree(&format!("overlap list, room {room}"), &expected, &answer)?;
        list.is_unchanged(&format!("the lent buffer of {room}, its list or what is around it"))?;
        scene.is_unchanged("the scene, after the overlap list")?;
        with_room.get_or_insert((answer.number, list.inside()[..answer.count].to_vec()));
        tally.questions += 1;
        if expected.number > 15 {
            tally.refusal(expected.number);
        }
    }

    let areas = library::areas(scene.inside());
    agree("areas", &judgement.areas(), &areas)?;
    scene.is_unchanged("the scene, after the areas")?;
    tally.questions += 1;

    let (vectors, (number, list)) = (with_all_flags.unwrap_or_default(), with_room.unwrap_or_default());
    let numbers = [vectors.number, cells.number, number, areas.number];
    Ok(Answers { numbers, vectors: (vectors.f, vectors.g), cells: cells.cell, list, areas: areas.areas })
}

fn ask_patterns(scene: &Lent, judgement: &Judgement, patterns: Vec<Vec<u8>>, tally: &mut Tally) -> Result<(), String> {
    for pattern in patterns {
        let expected = judgement.relate(&pattern);
        let lent = Lent::new(&mut Random::new(2), &pattern);
        let answer = library::relate(scene.inside(), lent.inside())?;
        agree(&format!("pattern {:?}", String::from_utf8_lossy(&pattern)), &expected, &answer)?;
        scene.is_unchanged("the scene, after a pattern")?;
        lent.is_unchanged("the pattern")?;
        tally.questions += 1;
        if expected.number > 15 {
            tally.refusal(expected.number);
        }
    }
    Ok(())
}

/// Asks about the objects and the summaries made by hand.
pub fn ask_by_hand(rules: &Rules, tally: &mut Tally) -> Result<(), String> {
    let mut random = Random::new(0);
    for known in byhand::summarised() {
        ask_summary(&known.bytes, rules, &mut random, tally)?;
    }
    for told in byhand::told() {
        ask_far(&told.first, &told.second, rules, &mut random, tally)?;
    }
    let point = byhand::a_point();
    for (_, record, _) in byhand::judged() {
        ask_far(&record, &point, rules, &mut random, tally)?;
        ask_far(&point, &record, rules, &mut random, tally)?;
    }
    Ok(())
}

/// Asks for the summary of some bytes; gives the engine's, if it has one.
fn ask_summary(bytes: &[u8], rules: &Rules, random: &mut Random, tally: &mut Tally) -> Result<Option<[u8; 20]>, String> {
    let object = Lent::new(random, bytes);
    let answer = library::summary(object.inside());
    agree(&format!("summary of {} bytes", bytes.len()), &summary(bytes, rules), &answer)?;
    object.is_unchanged("the object, after its summary")?;
    tally.questions += 1;
    Ok((answer.number == 0).then_some(answer.record))
}

/// Asks for the summaries of two objects, what they tell, in either order, and what spoilt ones do. What is told must be the engine's full answer to the two as a
/// scene, which must be one then; and it must be told exactly if the boxes share no point or an object is empty.
fn ask_summaries((f, g): (&[u8], &[u8]), scene: &Answers, rules: &Rules, random: &mut Random, tally: &mut Tally) -> Result<(), String> {
    let records = [ask_summary(f, rules, random, tally)?, ask_summary(g, rules, random, tally)?];
    let [Some(first), Some(second)] = records else { return Ok(()) };
    let told = ask_far(&first, &second, rules, random, tally)?;
    let turned = ask_far(&second, &first, rules, random, tally)?;
    let other = Answers { vectors: (told.f, told.g), ..scene.clone() }.exchanged(first[1], second[1]);
    if (turned.f, turned.g) != other.vectors || turned.look != told.look {
        return Err(format!("the engine tells {told:?}, but {turned:?} with the summaries exchanged"));
    }
    if !told.look && (scene.numbers[0] != 0 || scene.vectors != (told.f, told.g)) {
        return Err(format!("the engine tells {told:?}, but answers the scene with number {} and {:?}", scene.numbers[0], scene.vectors));
    }
    tally.told(&told, &first, &second);
    for _ in 0..2 {
        let [first, second] = [first, second].map(|record| if random.once_in(3) { record.to_vec() } else { spoilt_summary(random, &record) });
        let answer = ask_far(&first, &second, rules, random, tally)?;
        if answer.number != 0 {
            tally.bad_summary(answer.place);
        }
    }
    Ok(())
}

fn ask_far(first: &[u8], second: &[u8], rules: &Rules, random: &mut Random, tally: &mut Tally) -> Result<FarAnswer, String> {
    let [one, other] = [first, second].map(|record| Lent::new(random, record));
    let answer = library::far(one.inside(), other.inside())?;
    agree(&format!("what the summaries {first:?} and {second:?} tell"), &far(first, second, rules), &answer)?;
    one.is_unchanged("the first summary")?;
    other.is_unchanged("the second summary")?;
    tally.questions += 1;
    Ok(answer)
}

fn agree<T: PartialEq + Debug>(question: &str, expected: &T, answer: &T) -> Result<(), String> {
    if expected == answer {
        return Ok(());
    }
    Err(format!("{question}\n  reference: {expected:?}\n  engine:    {answer:?}"))
}

/// All flags first, then none, a choice of them, and now and then bits that no flag has.
fn masks(judgement: &Judgement, random: &mut Random) -> Vec<(u16, u16)> {
    let (all_f, all_g) = judgement.all_flags();
    let (f, g) = (random.next() as u16, random.next() as u16);
    let chosen = random.pick(&[(f & all_f, g & all_g), (f & all_f, 0), (0, g & all_g), (1 << (f % 8) & all_f, 0)]);
    let mut masks = vec![(all_f, all_g), (0, 0), chosen];
    if random.once_in(4) {
        masks.push(random.pick(&[(f, g), (all_f + 1, 0), (0, all_g + 1), (all_f | f, g & all_g), (1 << (f % 16), 0), (0, 1 << (g % 16))]));
    }
    masks
}

/// The pattern of nine bits.
fn two_valued(bits: u32) -> Vec<u8> {
    (0..9).map(|at| if bits >> at & 1 == 1 { b'T' } else { b'F' }).collect()
}

fn with_stars(random: &mut Random) -> Vec<u8> {
    (0..9).map(|_| random.pick(b"TTFF012*****")).collect()
}

/// One that holds, with T for a digit and stars here and there; the same with one character another; one of any characters; and now and then one that is turned away.
fn patterns(judgement: &Judgement, random: &mut Random) -> Vec<Vec<u8>> {
    let mut fit = |cell: &Extent| {
        if random.once_in(3) {
            b'*'
        } else if random.once_in(2) && !cell.is_empty() {
            b'T'
        } else {
            cell.sign()
        }
    };
    let fitting: Vec<u8> = judgement.cells.iter().flatten().map(&mut fit).collect();
    let mut changed = fitting.clone();
    changed[random.below(9)] = random.pick(b"TF012");
    let mut patterns = vec![fitting.clone(), changed.clone(), with_stars(random)];
    if random.once_in(4) {
        let mut wrong = if random.once_in(2) { fitting } else { changed };
        for _ in 0..=random.below(2) {
            wrong[random.below(9)] = random.pick(b"tf x3/+\0\xff");
        }
        let length = random.pick(&[0, 1, 8, 9, 9, 9, 10]);
        wrong.resize(length, b'T');
        patterns.push(wrong);
    }
    patterns
}

/// Buffers of just the count first, then of one less, of more, of none.
fn rooms(judgement: &Judgement, random: &mut Random) -> Vec<usize> {
    let count = judgement.list.len();
    if !judgement.is_taken() || judgement.list.is_empty() {
        return vec![random.pick(&[0, 1, 3, 40])];
    }
    let more = random.below(40);
    vec![count, random.pick(&[count - 1, count + 1, count / 2, 0, count + more, 1100])]
}

/// Bytes lent to the engine, with guard bytes on both sides, and what they must be after the call.
struct Lent {
    memory: Vec<u8>,
    expected: Vec<u8>,
}

impl Lent {
    fn new(random: &mut Random, contents: &[u8]) -> Lent {
        let guards: Vec<u8> = (0..2 * GUARD).map(|_| random.byte()).collect();
        let memory = [&guards[..GUARD], contents, &guards[GUARD..]].concat();
        Lent { expected: memory.clone(), memory }
    }

    fn span(&self) -> std::ops::Range<usize> {
        GUARD..self.memory.len() - GUARD
    }

    fn inside(&self) -> &[u8] {
        &self.memory[self.span()]
    }

    fn inside_mut(&mut self) -> &mut [u8] {
        let span = self.span();
        &mut self.memory[span]
    }

    fn expected_mut(&mut self) -> &mut [u8] {
        let span = self.span();
        &mut self.expected[span]
    }

    fn is_unchanged(&self, what: &str) -> Result<(), String> {
        match (0..self.memory.len()).find(|i| self.memory[*i] != self.expected[*i]) {
            None => Ok(()),
            Some(i) => {
                let at = i as i64 - GUARD as i64;
                Err(format!("{what}: byte {at} is {} instead of {}", self.memory[i], self.expected[i]))
            }
        }
    }
}
