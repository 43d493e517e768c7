//! The lookups over records of two commits, in one run. They are not in the C
//! interface: the objects that are loaded are those that `sh controller/run host`
//! leaves in target/controller. How the functions take arguments and answer is the
//! toolchain's own affair; it is said here as fuzz/stack_records.c says it, which
//! holds each answer to that of the lookup over flat lists. Since request 4 they
//! answer positions, too, and today's toolchain hands a slice over as two words,
//! where the older one handed over the place of the two; and what was an enum of
//! their own is a result. An object of before is measured all the same: which form
//! its answers and its slices have is found by asking it.

use std::ffi::c_void;
use std::hint::black_box;
use std::path::Path;

use oracle::case::{Call, List};

use crate::beside::Beside;
use crate::loaded::{self, Loaded};
use crate::lookups::{self, Asked, WIDTH};

type Rgba = [u8; 4];

/// Floats are kept as their bits, so that two records compare.
#[repr(C)]
#[derive(Clone, Copy, PartialEq, Debug)]
struct Record {
    reduced: Rgba,
    normalized: Rgba,
    oklab: [u32; 3],
}

/// A slice of records, as the older toolchain lends it.
#[repr(C)]
struct Lent {
    at: *const Record,
    len: usize,
}

/// A record that is taken, with its position.
#[repr(C)]
#[derive(Clone, Copy)]
struct Taken {
    copy: Record,
    position: usize,
}

impl From<Taken> for Record {
    fn from(taken: Taken) -> Record {
        taken.copy
    }
}

#[repr(C)]
#[derive(Clone, Copy, PartialEq, Debug)]
struct Bracket {
    dark: Rgba,
    light: Rgba,
    ratio: u32,
}

/// A bracket with its two positions.
#[repr(C)]
#[derive(Clone, Copy)]
struct Placed {
    bracket: Bracket,
    positions: [usize; 2],
}

impl From<Placed> for Bracket {
    fn from(placed: Placed) -> Bracket {
        placed.bracket
    }
}

/// The last tag is that of a refusal.
#[repr(C)]
#[derive(Clone, Copy)]
struct Found<R> {
    tag: u8,
    number: u8,
    first: R,
    second: R,
}

/// The two as a result: a refusal is which of them it is, and not its number.
#[repr(C)]
#[derive(Clone, Copy)]
struct Both<R> {
    tag: u8,
    refusal: u8,
    first: R,
    two: u8,
    second: R,
}

#[repr(C)]
#[derive(Clone, Copy)]
struct FoundBracket<B> {
    tag: u8,
    number: u8,
    bracket: B,
}

/// Room for any answer of either form, so that neither has more to clear.
#[repr(C)]
union Room<R: Copy, B: Copy> {
    all: [u64; 10],
    found: Found<R>,
    both: Both<R>,
    bracket: FoundBracket<B>,
}

type Nearest = unsafe extern "C" fn(*mut c_void, *const Record, usize, *const Rgba);
type NearestTwo = unsafe extern "C" fn(*mut c_void, *const Rgba, *const Record, usize, u64);
type OrderedBracket = unsafe extern "C" fn(*mut c_void, *const Rgba, *const Record, usize, u64);

/// What a lookup answers.
#[derive(PartialEq, Debug)]
enum Answer {
    One(Record),
    Two(Record, Record),
    Bracket(Bracket),
    Refused(u8),
}

/// The lookups of a commit.
struct Lookups {
    nearest: Nearest,
    nearest_two: NearestTwo,
    ordered_bracket: OrderedBracket,
    /// Whether they answer positions.
    positions: bool,
    /// Whether a slice is handed over as the place of its two words.
    by_place: bool,
    /// Whether they answer results.
    results: bool,
}

impl Lookups {
    fn of(loaded: &Loaded) -> Result<Lookups, String> {
        // SAFETY: the functions have these types by fuzz/stack_records.c, or, where a
        // slice is handed over by its place, take an argument less and leave the last.
        let mut lookups = unsafe {
            Lookups {
                nearest: loaded.function("records_nearest")?,
                nearest_two: loaded.function("records_nearest_two")?,
                ordered_bracket: loaded.function("records_ordered_bracket")?,
                positions: true,
                by_place: true,
                results: false,
            }
        };
        // A record without a position stands at another place of the answer.
        let only = Record { reduced: [1, 2, 3, 4], normalized: [5, 6, 7, 8], oklab: [0; 3] };
        // Where it is handed over as two words, the second is here the place of a colour:
        // a list of that length is refused, and not read.
        lookups.by_place = !matches!(lookups.answer(Call::Nearest, &[only], [0; 3]), Answer::Refused(_));
        // An empty list is refused with 4, which is at place 3 of the refusals.
        lookups.results = lookups.answer(Call::Nearest, &[], [0; 3]) == Answer::Refused(3);
        lookups.positions = lookups.answer(Call::Nearest, &[only], [0; 3]) == Answer::One(only);
        Ok(lookups)
    }

    fn answer(&self, call: Call, list: &[Record], color: [u8; 3]) -> Answer {
        if self.positions {
            self.asked::<Taken, Placed>(call, list, color)
        } else {
            self.asked::<Record, Bracket>(call, list, color)
        }
    }

    /// `R` is how a record stands in an answer, and `B` how a bracket does.
    fn asked<R, B>(&self, call: Call, list: &[Record], [r, g, b]: [u8; 3]) -> Answer
    where
        R: Copy + Into<Record>,
        B: Copy + Into<Bracket>,
    {
        let (lent, color) = (Lent { at: list.as_ptr(), len: list.len() }, [r, g, b, 255]);
        // By its place a slice is one word, and what comes next is the second.
        let words = |next| if self.by_place { ((&raw const lent).cast(), next) } else { (lent.at, lent.len) };
        let mut room = Room::<R, B> { all: [0; 10] };
        let to = (&raw mut room).cast();
        // SAFETY: what is lent lives as long as the call and does not overlap. The
        // room was cleared, and any bytes are numbers; the tag is in the same place
        // of all answers.
        unsafe {
            match call {
                Call::Nearest => {
                    let (at, len) = words((&raw const color).expose_provenance());
                    (self.nearest)(to, at, len, &color);
                }
                _ => {
                    let (at, len) = words(WIDTH as usize);
                    let lookup = if call == Call::NearestTwo { self.nearest_two } else { self.ordered_bracket };
                    lookup(to, &color, at, len, WIDTH);
                }
            }
            if call == Call::NearestTwo && self.results && room.both.tag == 0 {
                let Both { first, two, second, .. } = room.both;
                return if two == 0 { Answer::One(first.into()) } else { Answer::Two(first.into(), second.into()) };
            }
            match (call, room.found.tag) {
                (Call::Nearest, 0) => Answer::One(room.found.first.into()),
                (Call::NearestTwo, 1) if !self.results => Answer::One(room.found.first.into()),
                (Call::NearestTwo, 0) => Answer::Two(room.found.first.into(), room.found.second.into()),
                (Call::OrderedBracket, 0) => Answer::Bracket(room.bracket.bracket.into()),
                _ => Answer::Refused(room.found.number),
            }
        }
    }
}

/// The list of a subject, as records.
fn records(List { reduced, normalized, oklab }: &List) -> Vec<Record> {
    let colors = |bytes: &[u8]| -> Vec<Rgba> { bytes.chunks_exact(4).map(|c| c.try_into().unwrap()).collect() };
    let oklab = oklab.chunks_exact(3).map(|lab| [lab[0], lab[1], lab[2]].map(f32::to_bits));
    let pairs = colors(reduced).into_iter().zip(colors(normalized));
    pairs.zip(oklab).map(|((reduced, normalized), oklab)| Record { reduced, normalized, oklab }).collect()
}

/// Holds the answers to each other, and none may be a refusal.
fn compare([before, now]: [&Lookups; 2], call: Call, list: &[Record], colors: &[[u8; 3]]) {
    for &color in colors {
        let [before, now] = [before, now].map(|lookups| lookups.answer(call, list, color));
        assert!(!matches!(now, Answer::Refused(_)), "{} refuses {color:?}: {now:?}", call.name());
        assert_eq!(before, now, "{} of {color:?} among {} records", call.name(), list.len());
    }
}

/// The table of the two objects.
pub fn measure(before: &Path, now: &Path, only: Vec<String>, quick: bool) -> Result<(), String> {
    let [before, now] = loaded::both(before, now, Lookups::of)?;
    let runs = if quick { 21 } else { 101 };
    let mut table = Beside::new(&format!("{runs} runs"), only);
    for asked in lookups::ENTRIES.map(Asked::of) {
        let list = records(&asked.list);
        for call in lookups::CALLS {
            compare([&before, &now], call, &list, &asked.colors);
            let ask = |lookups: &Lookups| {
                asked.colors.iter().for_each(|&color| _ = black_box(lookups.answer(call, &list, color)));
            };
            table.row(asked.row(call, "records", runs), [&mut || ask(&before), &mut || ask(&now)]);
        }
    }
    table.close();
    Ok(())
}
