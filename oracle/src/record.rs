//! The list of the original's answers that the repository replays: which cases
//! it has, and how they are written.

pub mod searches;
pub mod twins;

use crate::case::{Call, Case, LentTables, List, Lookup};
use crate::color::{ReducedColor, eq_rgb};
use crate::examples;
use crate::generate::{Fixed, Style, case_with};
use crate::hooks::Tables;
use crate::model::{BY_ALPHA, DRAWN, GREY, OPAQUE_COLOR, RETIRED};
use crate::original::{Rgba, own_tables, to_oklab};
use crate::reference::expected;
use crate::rng::Rng;
use crate::text::{hex, line, tables_line};

/// The list stays below so many bytes: the program that replays it has room for 600,000.
pub const MOST_BYTES: usize = 590_000;

/// How many tables pictures that reduce by alpha are recorded with.
const TABLE_SETS: u32 = 4;

/// How many others are: two that reduce to greys, and one to opaque colours.
const GREY_SETS: u32 = 3;

/// How many cases of an expected number a group takes, of one kind or of any.
#[derive(Debug, Clone)]
struct Quota {
    number: u32,
    kind: Option<u32>,
    /// Where 15 is said: the number behind it.
    behind: Option<u32>,
    count: usize,
}

/// The number that would be said if a case's retired kind were drawn. The kind in
/// its place has a matrix and no cells, as the retired ones have.
pub fn behind(case: &Case) -> u32 {
    let bayer_2x2 = 1;
    expected(&case.clone().with_kind(bayer_2x2)).number()
}

/// The quotas of both retired kinds: this turn's share of those with each of these
/// numbers behind 15, and in the first two turns one with a pairing that there is not,
/// which is 1.
fn retired_pictures(numbers: &[u32], turn: u32) -> Vec<Quota> {
    let pairs = RETIRED.into_iter().flat_map(|kind| numbers.iter().map(move |&number| (kind, number)));
    let of_turn = pairs.zip(0..).filter(|(_, place)| place % TABLE_SETS == turn);
    let hidden =
        of_turn.map(|((kind, number), _)| Quota { number: 15, kind: Some(kind), behind: Some(number), count: 1 });
    let unpaired =
        RETIRED.get(turn as usize).map(|&kind| Quota { number: 1, kind: Some(kind), behind: None, count: 1 });
    hidden.chain(unpaired).collect()
}

/// So many cases of each of these numbers, of any kind.
fn plain(counts: &[(u32, usize)]) -> Vec<Quota> {
    counts.iter().map(|&(number, count)| Quota { number, kind: None, behind: None, count }).collect()
}

/// A case of a number for each kind that is drawn and wanted.
fn drawn(number: u32, wanted: impl Fn(u32) -> bool) -> Vec<Quota> {
    let of_kind = |kind| Quota { number, kind: Some(kind), behind: None, count: 1 };
    DRAWN.into_iter().filter(|&kind| wanted(kind)).map(of_kind).collect()
}

/// The quotas of a call; of one on pictures for the tables of this turn.
fn quotas(call: Call, turn: u32) -> Vec<Quota> {
    let retired = RETIRED.map(|kind| Quota { number: 15, kind: Some(kind), behind: None, count: 4 }).to_vec();
    match call {
        Call::ToOklab => plain(&[(0, 96)]),
        Call::OklabSqdist => plain(&[(0, 60), (6, 30)]),
        Call::OrderedThreshold => [plain(&[(0, 64), (1, 6), (9, 9)]), retired].concat(),
        Call::BracketWidth => plain(&[(0, 48), (1, 12)]),
        Call::Lerp => plain(&[(0, 96)]),
        Call::Nearest => plain(&[(0, 40), (3, 8), (4, 2), (6, 8)]),
        Call::NearestTwo => plain(&[(0, 40), (3, 6), (4, 2), (6, 6)]),
        Call::OrderedBracket => plain(&[(0, 40), (3, 6), (4, 2), (6, 6)]),
        Call::Pick => [plain(&[(0, 48), (1, 6), (9, 9)]), retired].concat(),
        // The tables after those by alpha.
        _ if turn >= TABLE_SETS => quotas_of_greys(call, turn - TABLE_SETS),
        // These are taken for each of the tables, every kind that is drawn among them;
        // 8 has each of these kinds over all tables, and so has 15 the retired ones.
        Call::CandidateColorsIn => plain(&[(0, 5), (1, 1), (2, 1), (3, 4), (7, 2)]),
        Call::QuantizePixels => {
            [retired_pictures(&[0, 2, 3, 4], turn), plain(&[(1, 1), (2, 1), (3, 6), (4, 1)]), drawn(0, |_| true)]
                .concat()
        }
        Call::DitherToMode => [
            retired_pictures(&[0, 2, 3, 5, 7, 8], turn),
            plain(&[(1, 1), (2, 2), (3, 5), (5, 2), (7, 2)]),
            drawn(0, |_| true),
            drawn(8, |kind| kind % TABLE_SETS == turn),
        ]
        .concat(),
    }
}

/// The quotas of a call on pictures that reduce to a grey or an opaque colour: every kind
/// that is drawn, to the mode both to greys and to opaque colours.
fn quotas_of_greys(call: Call, turn: u32) -> Vec<Quota> {
    let hidden = Quota { number: 15, kind: Some(RETIRED[turn as usize % 2]), behind: Some(0), count: 1 };
    match call {
        Call::CandidateColorsIn => plain(&[(0, 4), (1, 1), (3, 1), (7, 1)]),
        Call::QuantizePixels => {
            [vec![hidden], plain(&[(1, 1), (3, 1)]), drawn(0, |kind| kind % GREY_SETS == turn)].concat()
        }
        _ => {
            let of_turn = |kind| turn == 2 || kind % 2 == turn;
            [vec![hidden], plain(&[(1, 1), (3, 1), (7, 1), (8, 1)]), drawn(0, of_turn)].concat()
        }
    }
}

impl Quota {
    /// Whether a case that has this number counts.
    fn takes(&self, case: &Case, number: u32) -> bool {
        self.number == number
            && self.kind.is_none_or(|kind| case.kind() == Some(kind))
            && self.behind.is_none_or(|hidden| behind(case) == hidden)
    }
}

/// Whether a case has tables of a wrong length in place of those that are given.
fn has_other_tables(case: &Case, fixed: Fixed) -> bool {
    case.tables() != Some(&fixed.tables.into())
}

/// Cases until every quota is full. Tables of a wrong length take a line of their own, and
/// are left to pictures that reduce by alpha.
fn sample(call: Call, style: Style, seed: u64, mut wanted: Vec<Quota>, fixed: Option<Fixed>) -> Vec<Case> {
    let mut taken = Vec::new();
    for turn in 0.. {
        assert!(turn < 100_000, "no case of {} for {wanted:?}", call.name());
        let case = case_with(call, seed, turn, style, fixed);
        if fixed.is_some_and(|fixed| fixed.reducing != BY_ALPHA && has_other_tables(&case, fixed)) {
            continue;
        }
        let number = expected(&case).number();
        if let Some(quota) = wanted.iter_mut().find(|quota| quota.takes(&case, number)) {
            quota.count -= 1;
            taken.push(case);
        }
        wanted.retain(|w| w.count > 0);
        if wanted.is_empty() {
            break;
        }
    }
    taken
}

/// How pictures are recorded: shift, reduction and tables. Those by alpha come first.
fn table_sets(seed: u64) -> [(u32, u32, Tables); (TABLE_SETS + GREY_SETS) as usize] {
    let mut rng = Rng::new(seed);
    let arbitrary =
        Tables { reduction: std::array::from_fn(|_| rng.byte()), scale: std::array::from_fn(|_| rng.byte()) };
    [
        (3, BY_ALPHA, own_tables(3, false)),
        (4, BY_ALPHA, own_tables(4, true)),
        (5, BY_ALPHA, own_tables(5, false)),
        (3, BY_ALPHA, arbitrary.clone()),
        (6, GREY, own_tables(6, false)),
        (5, GREY, arbitrary),
        (6, OPAQUE_COLOR, own_tables(6, true)),
    ]
}

fn has_tables(call: Call) -> bool {
    matches!(call, Call::CandidateColorsIn | Call::QuantizePixels | Call::DitherToMode)
}

/// The cases of a call's group.
pub fn cases_of(call: Call, seed: u64) -> Vec<Case> {
    if !has_tables(call) {
        return sample(call, Style::RECORDER, seed, quotas(call, 0), None);
    }
    let mut all = Vec::new();
    for ((shift, reducing, tables), turn) in table_sets(seed).iter().zip(0..) {
        let (shift, reducing) = (*shift, *reducing);
        let (seed, fixed) = (seed + 1 + u64::from(turn), Fixed { shift, reducing, tables });
        let style = if reducing == BY_ALPHA { Style::RECORDER } else { Style::RECORDER_OF_GREYS };
        let mut cases = sample(call, style, seed, quotas(call, turn), Some(fixed));
        // Those with spoiled tables last, so that the tables change less often.
        cases.sort_by_key(|case| has_other_tables(case, fixed));
        all.extend(cases);
    }
    all
}

/// One group: its name and its cases, with a line wherever the tables change.
fn group(name: &str, cases: &[Case]) -> String {
    let mut text = format!("g {name}\n");
    let mut current: Option<&LentTables> = None;
    for case in cases {
        if let Some(tables) = case.tables().filter(|&t| current != Some(t)) {
            text += &tables_line(tables);
            text.push('\n');
            current = Some(tables);
        }
        text += &line(case, &expected(case));
        text.push('\n');
    }
    text
}

/// A lookup over so many records, of any colours.
fn lookup_over(entries: usize, rng: &mut Rng) -> Lookup {
    let mut bytes = |count: usize| -> Vec<u8> { (0..count).map(|_| rng.byte()).collect() };
    let (reduced, normalized, color) = (bytes(4 * entries), bytes(4 * entries), bytes(3));
    let oklab = normalized.chunks_exact(4).flat_map(|c| to_oklab([c[0], c[1], c[2]])).collect();
    let list = List { reduced, normalized, oklab };
    Lookup { list, color: [color[0], color[1], color[2]], width: rng.within(1, 16) }
}

/// The cases of a lookup over records: more of the flat call's, a dozen of them
/// accepted, without those that are refused for a length, which a list of records
/// cannot be; and, since random lists are short and often of twins, lists of one
/// and two records and of some hundreds. 300 is the most that the program has
/// room for.
fn record_cases_of(call: Call, seed: u64) -> Vec<Case> {
    let mut wanted = quotas(call, 0);
    wanted.retain(|quota| quota.number != 3);
    wanted.iter_mut().filter(|quota| quota.number == 0).for_each(|quota| quota.count = 12);
    let mut cases = sample(call, Style::RECORDER, seed + 1, wanted, None);
    let mut rng = Rng::new(seed + 1);
    for entries in [1, 1, 2, 2, 2, 2, 150, 300] {
        let lookup = lookup_over(entries, &mut rng);
        cases.push(match call {
            Call::Nearest => Case::Nearest(lookup),
            Call::NearestTwo => Case::NearestTwo(lookup),
            _ => Case::OrderedBracket { lookup, dark: vec![0; 4], light: vec![0; 4] },
        });
    }
    cases
}

/// A group of a lookup over records. The lookups over records have the flat
/// calls' tokens, and their letters in upper case.
fn records_group(name: &str, cases: &[Case]) -> String {
    let mut text = format!("g records_{name}\n");
    for case in cases {
        let flat = line(case, &expected(case));
        text += &flat[..1].to_uppercase();
        text += &flat[1..];
        text.push('\n');
    }
    text
}

/// `eq_rgb` is not in the C interface, and so no `Call`. Its pairs are equal,
/// differ in one byte, or in all.
fn eq_rgb_group(seed: u64) -> String {
    let mut rng = Rng::new(seed);
    let color = |[r, g, b, a]: Rgba| ReducedColor::new(r, g, b, a);
    let mut text = String::from("g eq_rgb\n");
    for turn in 0..36 {
        let one: Rgba = std::array::from_fn(|_| rng.byte());
        let mut other = one;
        match turn % 6 {
            0 => {}
            5 => other = std::array::from_fn(|_| rng.byte()),
            channel => other[channel - 1] ^= 1 << rng.below(8),
        }
        let equal = eq_rgb(color(one), color(other));
        text += &format!("e {} {} {}\n", hex(&one), hex(&other), hex(&[u8::from(equal)]));
    }
    text
}

/// The whole list for these calls.
pub fn list(calls: &[Call], seed: u64, command: &str) -> String {
    let mut text = format!(
        "# The original's answers, recorded to be replayed. Made in the folder oracle by:\n# {command}\n# seed {seed}\n"
    );
    for &call in calls {
        if call == Call::OklabSqdist {
            // The other call of src/color.rs.
            text += &eq_rgb_group(seed);
        }
        text += &group(call.name(), &cases_of(call, seed));
        match call {
            Call::Nearest | Call::NearestTwo | Call::OrderedBracket => {
                let twins = format!("{}_twins", call.name());
                text += &group(&format!("{}_searches", call.name()), &searches::of_lookup(call, seed));
                text += &group(&twins, &twins::of_lookup(call, seed, 16));
                text += &records_group(call.name(), &record_cases_of(call, seed));
                text += &records_group(&twins, &twins::of_lookup(call, seed + 1, 2));
            }
            Call::CandidateColorsIn => {
                text += &group("candidate_colors_in_greys", &examples::greys::of(call));
            }
            Call::QuantizePixels => {
                text += &group("quantize_pixels_searches", &searches::of_quantize());
                text += &group("quantize_pixels_twins", &twins::of_quantize(seed));
                text += &group("quantize_pixels_examples", &examples::of_quantize());
                text += &group("quantize_pixels_greys", &examples::greys::of(call));
            }
            Call::DitherToMode => {
                text += &group("dither_to_mode_searches", &searches::of_to_mode());
                text += &group("dither_to_mode_examples", &examples::of_to_mode());
                text += &group("dither_to_mode_greys", &examples::greys::of(call));
            }
            _ => {}
        }
    }
    text
}
