//! Fixed cases at the bounds that are too large to be drawn often.

use crate::case::{Candidates, Case, List, Lookup, Quantize, ToMode};
use crate::examples::greys::kept;
use crate::model::{self, BY_ALPHA, GREY, OPAQUE_COLOR};
use crate::original::{own_tables, to_oklab};
use crate::rng::Rng;

fn sequence_bytes(count: usize, seed: u64) -> Vec<u8> {
    Rng::new(seed).bytes(count)
}

/// An opaque picture of colours that hardly repeat.
fn noise(count: usize, seed: u64) -> Vec<u8> {
    let mut pixels = sequence_bytes(4 * count, seed);
    pixels.iter_mut().skip(3).step_by(4).for_each(|a| *a |= 128);
    pixels
}

fn whole_quantize(kind: u32, width: u32, height: u32, entries: usize) -> Case {
    let count = (width * height) as usize;
    let cells = if model::is_diffusion(kind) { 3 * count } else { 0 };
    Case::QuantizePixels(Quantize {
        shift: 3,
        reducing: BY_ALPHA,
        kind,
        width,
        height,
        tables: (&own_tables(3, false)).into(),
        palette: sequence_bytes(4 * entries, 5).iter().map(|b| b & 31).collect(),
        pixels: noise(count, 6),
        opaque: vec![],
        indices: vec![0x31; count],
        out: vec![0x32; 4 * count],
        cells: vec![i16::MIN; cells],
    })
}

fn whole_to_mode(kind: u32, width: u32, height: u32, limit: u32, places: usize) -> Case {
    let count = (width * height) as usize;
    let cells = if model::is_diffusion(kind) { 3 * count } else { 0 };
    Case::DitherToMode(ToMode {
        shift: 5,
        reducing: BY_ALPHA,
        kind,
        width,
        height,
        origin: [u32::MAX - width, 3],
        tile: [4096, 4096],
        limit,
        has_zero: 1,
        zero: [1, 2, 3, 0],
        tables: (&own_tables(5, true)).into(),
        pixels: noise(count, 7),
        opaque: vec![],
        places: vec![0x33; 4 * places],
        oklab: vec![f32::NAN; 3 * places],
        out: vec![0x34; 4 * count],
        cells: vec![i16::MAX; cells],
    })
}

fn long_lookup(entries: usize) -> Lookup {
    let normalized = sequence_bytes(4 * entries, 8);
    let oklab = normalized.chunks_exact(4).flat_map(|c| to_oklab([c[0], c[1], c[2]])).collect();
    let list = List { reduced: sequence_bytes(4 * entries, 9), normalized, oklab };
    Lookup { list, color: [90, 120, 60], width: 16 }
}

/// The largest palette, of five colours in turn.
fn five_colors(kind: u32) -> Case {
    let Case::QuantizePixels(mut case) = whole_quantize(kind, 32, 32, 256) else { unreachable!() };
    case.palette = case.palette[..20].iter().copied().cycle().take(4 * 256).collect();
    Case::QuantizePixels(case)
}

/// The first record is the colour itself, and its only twin the last one.
fn far_twin(entries: usize) -> Lookup {
    let mut lookup = long_lookup(entries);
    lookup.list.normalized[..3].copy_from_slice(&lookup.color);
    lookup.list.oklab[..3].copy_from_slice(&to_oklab(lookup.color));
    lookup.list.reduced.copy_within(..4, 4 * entries - 4);
    lookup.list.normalized.copy_within(..4, 4 * entries - 4);
    lookup.list.oklab.copy_within(..3, 3 * entries - 3);
    lookup
}

/// Colours in descending order, with as much room as there can be.
fn many_candidates(places: usize) -> Case {
    let pixels = (0..65_536u32).rev().flat_map(|n| [(n >> 11) as u8, (n >> 5) as u8 & 63, (n & 31) as u8, 255]);
    Case::CandidateColorsIn(Candidates {
        shift: 4,
        reducing: BY_ALPHA,
        width: 256,
        height: 256,
        tables: (&kept()).into(),
        pixels: pixels.collect(),
        opaque: vec![],
        places: vec![0x35; 4 * places],
        oklab: vec![f32::NAN; 3 * places],
    })
}

/// A picture in another mode, with so many bytes of opaque pixels.
fn opaque(case: Case, [shift, reducing]: [u32; 2], bytes: usize) -> Case {
    let (lent, tables) = (sequence_bytes(bytes, 10), (&own_tables(shift, true)).into());
    match case {
        Case::CandidateColorsIn(c) => Case::CandidateColorsIn(Candidates { shift, reducing, opaque: lent, ..c }),
        Case::QuantizePixels(c) => Case::QuantizePixels(Quantize { shift, reducing, tables, opaque: lent, ..c }),
        Case::DitherToMode(c) => Case::DitherToMode(ToMode { shift, reducing, tables, opaque: lent, ..c }),
        other => unreachable!("{} is on no picture", other.call().name()),
    }
}

/// Grey and opaque colour: the largest pictures, every grey and as many colours as there
/// can be, a place and a byte too few.
fn greys() -> Vec<Case> {
    let (gb, ngp, sms) = ([6, GREY], [5, GREY], [6, OPAQUE_COLOR]);
    let most = 4 << 20;
    vec![
        opaque(whole_quantize(0, 1024, 1024, 4), gb, most),
        opaque(whole_quantize(10, 256, 4096, 4), sms, most),
        opaque(whole_quantize(3, 4096, 256, 8), ngp, most - 1),
        opaque(whole_to_mode(9, 128, 128, 256, 64), sms, 4 << 14),
        opaque(whole_to_mode(2, 128, 128, 256, 63), sms, 4 << 14),
        opaque(whole_to_mode(3, 128, 128, 256, 8), ngp, 4 << 14),
        opaque(whole_to_mode(10, 128, 128, 4, 4), gb, 4 << 14),
        opaque(whole_to_mode(0, 1024, 1024, 4, 4), gb, most),
        opaque(many_candidates(256), gb, 4 << 16),
        opaque(many_candidates(255), ngp, 4 << 16),
        opaque(many_candidates(65_536), sms, 4 << 16),
        opaque(many_candidates(256), gb, 0),
        opaque(many_candidates(65_536), [4, BY_ALPHA], 4 << 16),
    ]
}

/// Cases at the largest bounds, always put to a port before random ones.
pub fn corners() -> Vec<Case> {
    let [stipple_v, stipple_h] = model::RETIRED;
    let by_alpha = vec![
        whole_quantize(0, 1024, 1024, 2),
        whole_quantize(3, 4096, 256, 2),
        whole_quantize(10, 256, 4096, 2),
        whole_quantize(9, 32, 32, 256),
        whole_quantize(3, 32, 32, 256),
        whole_quantize(3, 8, 8, 257),
        whole_to_mode(9, 128, 128, 256, 512),
        whole_to_mode(2, 128, 128, 256, 511),
        whole_to_mode(2, 256, 256, 256, 512),
        Case::Nearest(long_lookup(65_536)),
        Case::Nearest(long_lookup(65_537)),
        Case::NearestTwo(long_lookup(65_536)),
        Case::OrderedBracket { lookup: long_lookup(65_536), dark: vec![1; 4], light: vec![2; 4] },
        Case::NearestTwo(far_twin(65_536)),
        Case::OrderedBracket { lookup: far_twin(65_536), dark: vec![1; 4], light: vec![2; 4] },
        five_colors(model::OFF),
        five_colors(2),
        five_colors(model::FLOYD_STEINBERG),
        many_candidates(65_536),
        many_candidates(65_535),
        many_candidates(65_537),
        // Retired kinds: nothing else wrong, and a size, an entry and a candidate too
        // many.
        whole_quantize(stipple_v, 1024, 1024, 2),
        whole_quantize(stipple_h, 1024, 1025, 2),
        whole_quantize(stipple_h, 8, 8, 257),
        whole_to_mode(stipple_h, 128, 128, 256, 512),
        whole_to_mode(stipple_v, 128, 128, 256, 511),
    ];
    [by_alpha, greys()].concat()
}
