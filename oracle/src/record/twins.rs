//! Cases full of twins: entries of one colour at several positions, which a second
//! search by colour would mix up. Some are random, and some long enough to be
//! searched by blocks. `tests/positions.rs` holds them to what they are for.

use super::{Quota, sample};
use crate::case::{Call, Case, List, Lookup, Quantize, Value};
use crate::examples;
use crate::generate::{Fixed, Style, case_with};
use crate::model::{self, BY_ALPHA, DRAWN, Entry};
use crate::original::{Rgba, own_tables};
use crate::reference::expected;
use crate::rng::Rng;

/// How many random cases a lookup has.
const RANDOM: usize = 5;

/// Five colours of shift 3.
fn five(rng: &mut Rng) -> [Rgba; 5] {
    std::array::from_fn(|_| [rng.byte() & 31, rng.byte() & 31, rng.byte() & 31, 255])
}

/// Forty records of five colours in turn: each has a twin in every block.
fn by_blocks(width: u64, rng: &mut Rng) -> Lookup {
    let records = five(rng).map(|c| model::entry(&own_tables(3, false), c));
    let mut list = List::default();
    for k in 0..40 {
        let Entry { reduced, normalized, oklab } = records[k % 5];
        list.reduced.extend(reduced);
        list.normalized.extend(normalized);
        list.oklab.extend(oklab);
    }
    Lookup { list, color: std::array::from_fn(|_| rng.byte()), width }
}

/// Lookups over flat lists, or, with another seed, over records. The width is that
/// of the long list, where the nearest has seven twins.
pub fn of_lookup(call: Call, seed: u64, width: u64) -> Vec<Case> {
    let quota = Quota { number: 0, kind: None, behind: None, count: RANDOM };
    let mut cases = sample(call, Style::RECORDER_OF_TWINS, seed, vec![quota], None);
    let lookup = by_blocks(width, &mut Rng::new(seed));
    cases.push(match call {
        Call::Nearest => Case::Nearest(lookup),
        Call::NearestTwo => Case::NearestTwo(lookup),
        _ => Case::OrderedBracket { lookup, dark: vec![0; 4], light: vec![0; 4] },
    });
    cases
}

/// Sixteen pixels against so many entries, of so few colours in turn.
fn quantize(kind: u32, few: usize, entries: usize, rng: &mut Rng) -> Case {
    let five = five(rng);
    let palette: Vec<Rgba> = (0..entries).map(|k| five[k % few]).collect();
    let pixels: Vec<Rgba> = (0..16).map(|_| [rng.byte(), rng.byte(), rng.byte(), 255]).collect();
    let Case::QuantizePixels(case) = examples::quantize(kind, &palette, &pixels) else { unreachable!() };
    Case::QuantizePixels(Quantize { width: 4, height: 4, ..case })
}

/// Whether an entry after the first is taken.
fn takes_a_later_entry(case: &Case) -> bool {
    let answer = expected(case);
    let indices = answer.0.iter().find(|(name, _)| *name == "indices");
    answer.number() == 0 && matches!(indices, Some((_, Value::Bytes(at))) if at.iter().any(|&i| i > 0))
}

/// A small random picture of the kind.
fn small(kind: u32, seed: u64) -> Case {
    let tables = own_tables(3, false);
    let fixed = Some(Fixed { shift: 3, reducing: BY_ALPHA, tables: &tables });
    let random = |turn| case_with(Call::QuantizePixels, seed, turn, Style::RECORDER_OF_TWINS, fixed);
    (0..).map(random).find(|case| case.kind() == Some(kind) && takes_a_later_entry(case)).unwrap()
}

/// A small palette for every kind that is drawn, one of one colour, and larger
/// ones, up to the largest.
pub fn of_quantize(seed: u64) -> Vec<Case> {
    let mut cases: Vec<Case> = DRAWN.into_iter().map(|kind| small(kind, seed)).collect();
    let (rng, bayer_8x8, checker, line) = (&mut Rng::new(seed), 3, 4, 7);
    cases.push(quantize(checker, 1, 9, rng));
    cases.push(quantize(line, 5, 12, rng));
    cases.push(quantize(model::FLOYD_STEINBERG, 5, 40, rng));
    cases.push(quantize(model::OFF, 5, 64, rng));
    cases.push(quantize(bayer_8x8, 5, 256, rng));
    cases
}
