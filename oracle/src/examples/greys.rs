//! Worked pictures of document 02's fifth request: modes that reduce to greys or to
//! opaque colours, what shows their luma, and what is refused.

use crate::case::{Call, Candidates, Case, Quantize, ToMode};
use crate::hooks::Tables;
use crate::model::{self, BY_ALPHA, GREY, OPAQUE_COLOR, REDUCTIONS};
use crate::original::{Rgba, own_opaque, own_tables};

/// The greys whose luma is one below their level; that of every other is its level.
pub const DARKER: [u8; 22] =
    [53, 61, 87, 93, 95, 99, 103, 106, 122, 139, 174, 185, 186, 190, 193, 198, 206, 212, 217, 225, 237, 244];

/// How many different lumas all greys have. No grey has a darker one's level, but for
/// 185, which 186 has.
pub const LUMAS_OF_GREYS: usize = 256 - (DARKER.len() - 1);

/// Colours whose luma is one more where the terms are added from blue to red, or are
/// fused, or where nothing is rounded before it is cut.
pub const DELICATE: [[u8; 3]; 7] =
    [[4, 59, 124], [75, 238, 67], [116, 143, 84], [159, 50, 103], [177, 149, 25], [202, 93, 146], [254, 145, 198]];

/// A kind of each way to choose.
const KINDS: [u32; 4] = [model::OFF, 3, model::ATKINSON, model::FLOYD_STEINBERG];

/// Tables that keep every byte, so that a candidate is what was reduced.
pub fn kept() -> Tables {
    let every = std::array::from_fn(|v| v as u8);
    Tables { reduction: every, scale: every }
}

/// A grey of any alpha.
fn grey(level: u8) -> Rgba {
    [level, level, level, level.wrapping_mul(3)]
}

/// The candidates of opaque pixels in one row, with places for so many. The pixels are
/// transparent, and of a colour that none of these has.
pub fn candidates([shift, reducing]: [u32; 2], tables: &Tables, opaque: &[Rgba], places: usize) -> Case {
    Case::CandidateColorsIn(Candidates {
        shift,
        reducing,
        width: opaque.len() as u32,
        height: 1,
        tables: tables.into(),
        pixels: [9, 8, 7, 127].repeat(opaque.len()),
        opaque: opaque.concat(),
        places: vec![0xee; 4 * places],
        oklab: vec![7.5; 3 * places],
    })
}

/// A worked call in another mode, with the mode's own tables, and a place for each
/// pixel.
fn in_mode(case: Case, [shift, reducing]: [u32; 2], lent: &[Rgba]) -> Case {
    let (tables, opaque) = ((&own_tables(shift, false)).into(), lent.concat());
    let (places, oklab) = (vec![0xee; 4 * lent.len()], vec![7.5; 3 * lent.len()]);
    match case {
        Case::QuantizePixels(c) => Case::QuantizePixels(Quantize { shift, reducing, tables, opaque, ..c }),
        Case::DitherToMode(c) => Case::DitherToMode(ToMode { shift, reducing, tables, opaque, places, oklab, ..c }),
        _ => unreachable!("a call that draws"),
    }
}

/// Four greys against those of a Gb, darkest last. Transparent pixels are drawn like the
/// others, and each by its own colour: what is lent plays no part.
pub fn quantize(kind: u32) -> Case {
    let palette = [3, 2, 1, 0].map(|v| [v, v, v, 255]);
    let pixels = [[250, 250, 250, 255], [180, 180, 180, 0], [90, 90, 90, 127], [9, 9, 9, 255]];
    in_mode(super::quantize(kind, &palette, &pixels), [6, GREY], &[[0; 4], [255; 4], [1, 2, 3, 4], [200; 4]])
}

/// Two pixels to their mode, with colour zero. The first is colour zero by its opaque
/// pixel alone and stays, the second by its own colour alone and is dithered.
pub fn zero(kind: u32, [shift, reducing]: [u32; 2]) -> Case {
    let (light, dark) = ([255, 255, 255, 255], [0, 0, 0, 255]);
    let case = in_mode(super::to_mode(kind, 2, 2, &[light, dark]), [shift, reducing], &[dark, light]);
    let Case::DitherToMode(case) = case else { unreachable!() };
    Case::DitherToMode(ToMode { has_zero: 1, zero: [0, 0, 0, 7], ..case })
}

/// Three pixels that are all transparent, and are drawn and count in their tile like any
/// others.
pub fn transparent_tile(limit: u32, [shift, reducing]: [u32; 2]) -> Case {
    let pixels = [[5, 5, 5, 0], [120, 120, 120, 127], [250, 250, 250, 1]];
    let lent = [[255, 255, 255, 0], [100, 100, 100, 0], [0; 4]];
    in_mode(super::to_mode(model::OFF, 3, limit, &pixels), [shift, reducing], &lent)
}

/// A case of each call on pictures that nothing is wrong with, of one pixel.
fn small(call: Call) -> Case {
    let pixel = [200, 100, 50, 255];
    match call {
        Call::CandidateColorsIn => candidates([6, GREY], &own_tables(6, false), &[pixel], 1),
        Call::QuantizePixels => in_mode(super::quantize(model::OFF, &[[0, 0, 0, 255]], &[pixel]), [6, GREY], &[pixel]),
        Call::DitherToMode => in_mode(super::to_mode(model::OFF, 1, 1, &[pixel]), [6, GREY], &[pixel]),
        _ => panic!("{} is on no picture", call.name()),
    }
}

/// The same of another shift and reduction, with so many bytes of opaque pixels.
pub fn small_with(call: Call, shift: u32, reducing: u32, bytes: usize) -> Case {
    let opaque = [200, 100, 50, 255].into_iter().cycle().take(bytes).collect();
    match small(call) {
        Case::CandidateColorsIn(c) => Case::CandidateColorsIn(Candidates { shift, reducing, opaque, ..c }),
        Case::QuantizePixels(c) => Case::QuantizePixels(Quantize { shift, reducing, opaque, ..c }),
        Case::DitherToMode(c) => Case::DitherToMode(ToMode { shift, reducing, opaque, ..c }),
        _ => unreachable!("on a picture"),
    }
}

/// Every shift around those that there are with every reduction, and opaque pixels too
/// many, too few or unasked for.
pub fn refusals(call: Call) -> Vec<Case> {
    let bytes = |reducing| if reducing == BY_ALPHA { 0 } else { 4 };
    let shifts = (2..=7).flat_map(|shift| REDUCTIONS.map(|reducing| (shift, reducing)));
    let pairings = shifts.map(|(shift, reducing)| small_with(call, shift, reducing, bytes(reducing)));
    let lengths = [(3, BY_ALPHA, 4), (5, BY_ALPHA, 1), (5, GREY, 0), (6, GREY, 3), (6, OPAQUE_COLOR, 5)];
    let lengths = lengths.map(|(shift, reducing, bytes)| small_with(call, shift, reducing, bytes));
    pairings.chain(lengths).collect()
}

/// The 256 greys, and colours whose luma is easily got wrong: by tables that keep every
/// byte, so that each luma shows, and by the modes' own, around their steps.
fn lumas() -> Vec<Case> {
    let all: Vec<Rgba> = (0..=255).map(grey).collect();
    let delicate = DELICATE.map(|[r, g, b]| [r, g, b, 0]);
    let around: Vec<Rgba> = [63, 64, 95, 96, 127, 128, 160, 191, 192].map(grey).to_vec();
    let steps = [&around[..], &[[244, 81, 252, 255]]].concat();
    vec![
        candidates([6, GREY], &kept(), &all, LUMAS_OF_GREYS),
        candidates([5, GREY], &kept(), &delicate, delicate.len()),
        candidates([6, OPAQUE_COLOR], &kept(), &delicate, delicate.len()),
        candidates([5, GREY], &own_tables(5, true), &steps, 8),
        candidates([6, GREY], &own_tables(6, true), &steps, 4),
        candidates([6, GREY], &own_tables(6, false), &steps, 4),
        candidates([6, OPAQUE_COLOR], &own_tables(6, false), &steps, 5),
    ]
}

/// A picture with transparent pixels as most callers lend it: with what
/// `opaque_threshold` makes of them, and, where that is left out, with themselves.
fn usual(call: Call, pairing: [u32; 2]) -> [Case; 2] {
    let pixels = [[200, 100, 50, 255], [10, 200, 90, 127], [40, 40, 40, 128], [250, 0, 3, 0]];
    let black = [0, 0, 0, 255];
    [own_opaque(&pixels.concat()), pixels.concat()].map(|opaque| {
        let lent: Vec<Rgba> = opaque.chunks_exact(4).map(|c| c.try_into().unwrap()).collect();
        match call {
            Call::CandidateColorsIn => {
                let case = candidates(pairing, &own_tables(pairing[0], false), &lent, 4);
                let Case::CandidateColorsIn(case) = case else { unreachable!() };
                Case::CandidateColorsIn(Candidates { pixels: pixels.concat(), ..case })
            }
            Call::QuantizePixels => {
                in_mode(super::quantize(model::OFF, &[black, [3, 2, 1, 255]], &pixels), pairing, &lent)
            }
            _ => in_mode(super::to_mode(model::OFF, 2, 2, &pixels), pairing, &lent),
        }
    })
}

/// What is drawn to a mode.
fn to_mode(pairing: [u32; 2]) -> impl Iterator<Item = Case> {
    let tiles = [3, 2].map(|limit| transparent_tile(limit, pairing));
    KINDS.map(|kind| zero(kind, pairing)).into_iter().chain(tiles)
}

/// All of a call.
pub fn of(call: Call) -> Vec<Case> {
    let worked = match call {
        Call::CandidateColorsIn => lumas(),
        Call::QuantizePixels => KINDS.map(quantize).to_vec(),
        _ => [[5, GREY], [6, GREY], [6, OPAQUE_COLOR]].into_iter().flat_map(to_mode).collect(),
    };
    let usual = [[6, GREY], [6, OPAQUE_COLOR]].into_iter().flat_map(|pairing| usual(call, pairing));
    worked.into_iter().chain(usual).chain(refusals(call)).collect()
}
