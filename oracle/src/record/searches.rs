//! Cases made for the paths of the port's search, which random ones are too
//! small for: lists and palettes that are searched by blocks, shortlists that
//! are full and pass over blocks, and remembered answers that are replaced.
//! `tests/searches.rs` holds them to that.

use crate::case::{Call, Case, List, Lookup, Quantize, ToMode};
use crate::examples;
use crate::model;
use crate::original::{Rgba, sqdist, to_oklab};
use crate::rng::Rng;

/// The most that the program `replay` has room for: entries of a flat list, and
/// pixels or candidates of a picture.
pub const ENTRIES: usize = 341;
pub const PIXELS: usize = 320;

/// How a list's entries lie, seen from the one that is nearest to the colour.
#[derive(Clone, Copy)]
enum Order {
    Any,
    /// Each nearer than those before it, so that nothing is passed over.
    Nearer,
    /// Each farther than those before it, so that all that can be is passed over.
    Farther,
    /// The last ones repeat the first, so that distances are equal across blocks,
    /// and, where the width is even, to that of a full shortlist's last.
    Twins,
}

/// Entries and order of the lists. One of 31 is searched by twos; one of 32
/// has whole blocks, one of 85 five entries after them.
const NEAREST: [(usize, Order); 7] = [
    (31, Order::Any),
    (32, Order::Any),
    (40, Order::Farther),
    (47, Order::Nearer),
    (48, Order::Twins),
    (85, Order::Any),
    (300, Order::Nearer),
];

/// The same with the width. A shortlist of 16 is full; it passes over blocks
/// behind the first 16 times as many entries, and so does one of 1 to 4.
const NEAREST_TWO: [(usize, Order, u64); 7] = [
    (33, Order::Nearer, 16),
    (40, Order::Twins, u64::MAX),
    (41, Order::Any, 1),
    (57, Order::Farther, 2),
    (66, Order::Twins, 3),
    (85, Order::Any, 4),
    (300, Order::Any, 16),
];

const ORDERED_BRACKET: [(usize, Order, u64); 7] = [
    (33, Order::Any, 17),
    (40, Order::Farther, 0),
    (41, Order::Nearer, 1),
    (57, Order::Twins, 2),
    (66, Order::Any, 3),
    (85, Order::Farther, 4),
    (300, Order::Any, 16),
];

fn rgb(rng: &mut Rng) -> [u8; 3] {
    std::array::from_fn(|_| rng.byte())
}

fn lookup(entries: usize, order: Order, width: u64, rng: &mut Rng) -> Lookup {
    let color = rgb(rng);
    let mut colors: Vec<[u8; 3]> = (0..entries).map(|_| rgb(rng)).collect();
    let between = |a: [u8; 3], b: [u8; 3]| sqdist(to_oklab(a), to_oklab(b));
    let nearest = colors.iter().copied().min_by(|&a, &b| between(color, a).total_cmp(&between(color, b))).unwrap();
    let farther = |a: &[u8; 3], b: &[u8; 3]| between(nearest, *a).total_cmp(&between(nearest, *b));
    match order {
        Order::Any => {}
        Order::Nearer => colors.sort_by(|a, b| farther(b, a)),
        Order::Farther => colors.sort_by(farther),
        Order::Twins => {
            colors.sort_by(farther);
            colors.copy_within(..entries / 2, entries - entries / 2);
        }
    }
    let list = List {
        reduced: rng.bytes(4 * entries),
        normalized: colors.iter().flat_map(|&[r, g, b]| [r, g, b, 255]).collect(),
        oklab: colors.iter().flat_map(|&c| to_oklab(c)).collect(),
    };
    Lookup { list, color, width }
}

/// Lookups over flat lists.
pub fn of_lookup(call: Call, seed: u64) -> Vec<Case> {
    let rng = &mut Rng::new(seed);
    let mut lookups = |shapes: &[(usize, Order, u64)]| -> Vec<Lookup> {
        shapes.iter().map(|&(entries, order, width)| lookup(entries, order, width, rng)).collect()
    };
    match call {
        Call::Nearest => {
            let shapes = NEAREST.map(|(entries, order)| (entries, order, 1));
            lookups(&shapes).into_iter().map(Case::Nearest).collect()
        }
        Call::NearestTwo => lookups(&NEAREST_TWO).into_iter().map(Case::NearestTwo).collect(),
        Call::OrderedBracket => lookups(&ORDERED_BRACKET)
            .into_iter()
            .map(|lookup| Case::OrderedBracket { lookup, dark: vec![0; 4], light: vec![0; 4] })
            .collect(),
        _ => panic!("{} is no lookup", call.name()),
    }
}

// Pictures, all of shift 3: five bits a channel.

/// Reduced colour `k` of as many different ones as are wanted, up to 32,768. The
/// factor is odd and spreads them.
fn reduced(k: usize) -> Rgba {
    let bits = k * 20_077;
    let [r, g, b] = [bits >> 10, bits >> 5, bits].map(|v| (v & 31) as u8);
    [r, g, b, 255]
}

/// A source colour that has reduced colour `k`, one of eight.
fn source(k: usize, low: u8) -> Rgba {
    let [r, g, b, alpha] = reduced(k);
    [r << 3 | low, g << 3 | low, b << 3 | low, alpha]
}

/// The word in which the port remembers a colour's answer (crates/remembered).
/// Were this another one, the pictures would still be right, but a test fails.
pub fn word_of([r, g, b, _]: Rgba) -> u64 {
    let key = u64::from(u32::from_le_bytes([r, g, b, 0])) + 1;
    key * 2_654_435_769 / 16_777_216 % 256
}

/// Entries with one row for both their shortlists, in turn, each twice and for
/// another colour: the first one's row is taken by the second, and taken back.
fn row_replaced(k: usize) -> [Rgba; 4] {
    [source(k, 1), source(k + 128, 1), source(k, 6), source(k + 128, 6)]
}

/// Colours with one word for both: each takes the other's place, and the last one
/// is recalled.
fn word_replaced(k: usize) -> [Rgba; 4] {
    let one = source(k, 3);
    let other = (1000..).map(|k| source(k, 4)).find(|&c| word_of(c) == word_of(one)).unwrap();
    [one, other, one, one]
}

/// A picture of 64 pixels in which rows and words are replaced.
fn replacing() -> Vec<Rgba> {
    let rows = (0..8).flat_map(|k| row_replaced(16 * k));
    rows.chain((0..8).flat_map(|k| word_replaced(16 * k + 5))).collect()
}

fn quantize(kind: u32, entries: usize, width: u32, pixels: &[Rgba]) -> Case {
    let palette: Vec<Rgba> = (0..entries).map(reduced).collect();
    let Case::QuantizePixels(case) = examples::quantize(kind, &palette, pixels) else { unreachable!() };
    Case::QuantizePixels(Quantize { width, height: case.width / width, ..case })
}

/// Palettes that are searched by blocks, up to the largest.
pub fn of_quantize() -> Vec<Case> {
    let (bayer, line) = (3, 7);
    let (replacing, plain) = (replacing(), |count| (0..count).map(|k| source(50 * k, 2)).collect::<Vec<Rgba>>());
    vec![
        quantize(bayer, 256, 8, &replacing),
        quantize(model::OFF, 256, 8, &replacing),
        quantize(model::ATKINSON, 256, 4, &plain(16)),
        quantize(line, 33, 8, &plain(40)),
        quantize(model::FLOYD_STEINBERG, 40, 6, &plain(24)),
    ]
}

/// Tiles of 2x2, whose four colours are within every limit here.
fn to_mode(kind: u32, limit: u32, width: u32, pixels: &[Rgba]) -> Case {
    let Case::DitherToMode(case) = examples::to_mode(kind, 2, limit, pixels) else { unreachable!() };
    let mut candidates: Vec<[u8; 3]> = pixels.iter().map(|&[r, g, b, _]| [r >> 3, g >> 3, b >> 3]).collect();
    candidates.sort();
    candidates.dedup();
    Case::DitherToMode(ToMode {
        width,
        height: case.width / width,
        tile: [2, 2],
        places: vec![0xee; 4 * candidates.len()],
        oklab: vec![7.5; 3 * candidates.len()],
        ..case
    })
}

/// Pictures with up to 290 candidates, more than there are rows for. The limit
/// gives the shortlist's width: 1 for 5, 3 for 16, and 16 for 256.
pub fn of_to_mode() -> Vec<Case> {
    let (bayer_4x4, bayer_8x8, checker) = (2, 3, 4);
    let different = |count: usize| (0..count).map(|k| source(k, 5)).collect::<Vec<Rgba>>();
    let words: Vec<Rgba> = (0..10).flat_map(|k| word_replaced(k)).chain(different(24)).collect();
    let again = (0..16).map(|k| source(k, 6));
    let rows: Vec<Rgba> = different(290).into_iter().chain(again).collect();
    vec![
        to_mode(bayer_8x8, 256, 18, &rows),
        to_mode(bayer_8x8, 5, 8, &different(64)),
        to_mode(checker, 16, 10, &different(60)),
        to_mode(bayer_4x4, 256, 8, &words),
        to_mode(model::OFF, 256, 8, &words),
        to_mode(model::FLOYD_STEINBERG, 256, 6, &different(36)),
    ]
}
