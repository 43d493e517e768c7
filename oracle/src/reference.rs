//! What each call must answer: the number of refusal by the tables of documents
//! 01 and 02 (the first that applies, in the call's order), for accepted calls the
//! original's own answer, and in all cases what every lent buffer holds afterwards.
//!
//! 15 is said by the table alone: the original would draw the retired kinds. And which
//! pairings of shift and reduction there are, it says by its modes.
//!
//! Two things the original does not say. The tile's number after 8 comes from
//! the model, whose whole pictures the self-check holds to the original; and
//! whether candidates fit their room is a comparison of two counts. Cells are
//! the original's own, handed over where its `Ditherer` ends, each read as the count
//! of sixteenths that it is. So are a bracket's positions: they are read off its
//! answer over numbered records.

use crate::case::{Answer, Candidates, Case, LentTables, List, Lookup, PickCase, Quantize, ToMode, Value};
use crate::cells;
use crate::model::{self, BY_ALPHA, GREY, Lent, OPAQUE_COLOR, is_retired};
use crate::original::{self, How, Settings};

/// The first number whose test holds; 0 where none does. Tests stand in the
/// order of the call's replies. That is not the order of the numbers: 15 comes
/// directly after 1.
fn first_said(tests: &[(u32, bool)]) -> u32 {
    tests.iter().find(|(_, said)| *said).map_or(0, |(number, _)| *number)
}

// The tests.

fn bad_kind(kind: u32) -> bool {
    kind > 10
}

fn bad_shift(shift: u32) -> bool {
    !(3..=6).contains(&shift)
}

/// Whether there is no such reduction, or none with this shift.
fn bad_pairing(shift: u32, reducing: u32) -> bool {
    !match reducing {
        BY_ALPHA => (3..=5).contains(&shift),
        GREY => shift == 5 || shift == 6,
        OPAQUE_COLOR => shift == 6,
        _ => false,
    }
}

fn unordered(kind: u32) -> bool {
    kind == 0 || kind == 9 || kind == 10
}

/// Not from -2 to 2; NaN is not.
fn bad_component(value: f32) -> bool {
    !(-2.0..=2.0).contains(&value)
}

fn pixel_count(width: u32, height: u32) -> u64 {
    u64::from(width) * u64::from(height)
}

fn bad_size(width: u32, height: u32) -> bool {
    width > 4096 || height > 4096 || pixel_count(width, height) > 1_048_576
}

fn bad_origin(origin: u32, side: u32) -> bool {
    u64::from(origin) + u64::from(side) > 4_294_967_295
}

fn bad_tables(tables: &LentTables) -> bool {
    tables.reduction.len() != 256 || tables.scale.len() != 256
}

fn bad_rooms(places: &[u8], oklab: &[f32]) -> bool {
    !places.len().is_multiple_of(4) || places.len() / 4 > 65_536 || oklab.len() != places.len() / 4 * 3
}

/// Whether `length` is not `each` for every pixel.
fn bad_length(length: usize, each: u64, width: u32, height: u32) -> bool {
    u128::from(each) * u128::from(pixel_count(width, height)) != length as u128
}

/// Both buffers of pixels: the opaque ones are lent where the reduction asks for them.
fn bad_pixels(pixels: &[u8], opaque: &[u8], reducing: u32, width: u32, height: u32) -> bool {
    let each = if reducing == BY_ALPHA { 0 } else { 4 };
    bad_length(pixels.len(), 4, width, height) || bad_length(opaque.len(), each, width, height)
}

fn bad_cells(cells: &[i16], kind: u32, width: u32, height: u32) -> bool {
    bad_length(cells.len(), if model::is_diffusion(kind) { 3 } else { 0 }, width, height)
}

fn bad_list_lengths(list: &List) -> bool {
    let n = list.reduced.len() / 4;
    list.reduced.len() != 4 * n || list.normalized.len() != 4 * n || list.oklab.len() != 3 * n
}

/// The refusals of a lookup; `other` is what it measures besides the lists.
fn lookup_refusal(list: &List, other: bool) -> u32 {
    let n = list.reduced.len() / 4;
    first_said(&[
        (3, bad_list_lengths(list) || other),
        (4, n == 0 || n > 65_536),
        (6, list.oklab.iter().any(|&v| bad_component(v))),
    ])
}

// Small calls.

fn oklab_sqdist(six: [f32; 6]) -> Answer {
    let number = first_said(&[(6, six.iter().any(|&v| bad_component(v)))]);
    let [a, b] = [[six[0], six[1], six[2]], [six[3], six[4], six[5]]];
    let distance = (number == 0).then(|| original::sqdist(a, b).to_bits());
    Answer(vec![("number", Value::Number(number)), ("distance", Value::Float(distance))])
}

fn ordered_threshold(kind: u32, x: u32, y: u32) -> Answer {
    let number = first_said(&[(1, bad_kind(kind)), (15, is_retired(kind)), (9, unordered(kind))]);
    let threshold = (number == 0).then(|| original::threshold(kind, x, y).to_bits());
    Answer(vec![("number", Value::Number(number)), ("threshold", Value::Float(threshold))])
}

fn bracket_width(shift: u32, max: u64) -> Answer {
    let number = first_said(&[(1, bad_shift(shift))]);
    let width = (number == 0).then(|| original::bracket_width(shift, max));
    Answer(vec![("number", Value::Number(number)), ("width", Value::Word64(width))])
}

// Lookups.

fn nearest(lookup: &Lookup) -> Answer {
    let List { reduced, normalized, oklab } = &lookup.list;
    let number = lookup_refusal(&lookup.list, false);
    let position = (number == 0).then(|| original::nearest(reduced, normalized, oklab, lookup.color) as u32);
    Answer(vec![("number", Value::Number(number)), ("position", Value::Word32(position))])
}

fn nearest_two(lookup: &Lookup) -> Answer {
    let List { reduced, normalized, oklab } = &lookup.list;
    let number = lookup_refusal(&lookup.list, false);
    let two = (number == 0).then(|| {
        let (a, b) = original::nearest_two(reduced, normalized, oklab, lookup.color, lookup.width);
        [a as u32, b.unwrap_or(a) as u32]
    });
    Answer(vec![
        ("number", Value::Number(number)),
        ("first", Value::Word32(two.map(|t| t[0]))),
        ("second", Value::Word32(two.map(|t| t[1]))),
    ])
}

fn ordered_bracket(lookup: &Lookup, dark: &[u8], light: &[u8]) -> Answer {
    let List { reduced, normalized, oklab } = &lookup.list;
    let number = lookup_refusal(&lookup.list, dark.len() != 4 || light.len() != 4);
    let bracket =
        (number == 0).then(|| original::ordered_bracket(reduced, normalized, oklab, lookup.color, lookup.width));
    Answer(vec![
        ("number", Value::Number(number)),
        ("dark", Value::bytes(bracket.as_ref().map_or(dark, |b| &b.dark))),
        ("light", Value::bytes(bracket.as_ref().map_or(light, |b| &b.light))),
        ("ratio", Value::Float(bracket.map(|b| b.ratio.to_bits()))),
        ("dark_position", Value::Word32(bracket.map(|b| b.dark_position as u32))),
        ("light_position", Value::Word32(bracket.map(|b| b.light_position as u32))),
    ])
}

fn pick(case: &PickCase) -> Answer {
    let lengths = [case.dark.len(), case.light.len(), case.chosen.len()];
    let number = first_said(&[
        (1, bad_kind(case.kind)),
        (15, is_retired(case.kind)),
        (3, lengths != [4; 3]),
        (9, unordered(case.kind)),
    ]);
    let mut chosen = case.chosen.clone();
    if number == 0 {
        let [dark, light] = [&case.dark, &case.light].map(|c| c[..].try_into().unwrap());
        chosen = original::pick(dark, light, case.ratio, case.kind, case.x, case.y).to_vec();
    }
    Answer(vec![("number", Value::Number(number)), ("chosen", Value::Bytes(chosen))])
}

// Pictures.

/// The candidate rooms after a call that was not refused before collecting:
/// filled and counted, or with 7.
struct Collected {
    count: Option<u32>,
    places: Vec<u8>,
    oklab: Vec<f32>,
}

fn collect(lent: Lent, size: [u32; 2], places: &[u8], oklab: &[f32]) -> Collected {
    let (reduced, lab) = original::candidate_colors_in(How::lent(lent), size[0], size[1], lent.pixels);
    if reduced.len() > places.len() {
        return Collected { count: None, places: vec![0; places.len()], oklab: oklab.to_vec() };
    }
    let (mut places, mut oklab) = (places.to_vec(), oklab.to_vec());
    places[..reduced.len()].copy_from_slice(&reduced);
    oklab[..lab.len()].copy_from_slice(&lab);
    Collected { count: Some(reduced.len() as u32 / 4), places, oklab }
}

fn candidate_colors_in(case: &Candidates) -> Answer {
    let (width, height) = (case.width, case.height);
    let number = first_said(&[
        (1, bad_pairing(case.shift, case.reducing)),
        (2, bad_size(width, height)),
        (
            3,
            bad_tables(&case.tables)
                || bad_pixels(&case.pixels, &case.opaque, case.reducing, width, height)
                || bad_rooms(&case.places, &case.oklab),
        ),
    ]);
    let answer = |number, collected: Collected| {
        Answer(vec![
            ("number", Value::Number(number)),
            ("count", Value::Word32(collected.count)),
            ("places", Value::Bytes(collected.places)),
            ("oklab", Value::floats(&collected.oklab)),
        ])
    };
    if number != 0 {
        return answer(number, Collected { count: None, places: case.places.clone(), oklab: case.oklab.clone() });
    }
    let collected = collect(case.lent(&case.tables.accepted()), [width, height], &case.places, &case.oklab);
    answer(if collected.count.is_some() { 0 } else { 7 }, collected)
}

/// The original's cells as a port must leave them. Where one is no count of
/// sixteenths there is nothing that a port could be held to, and the run ends.
fn left_cells(cells: &[f32]) -> Vec<i16> {
    cells::counts(cells).unwrap_or_else(|wrong| panic!("the original leaves a cell that no port can: {wrong}"))
}

fn quantize_refusal(case: &Quantize) -> u32 {
    let (width, height) = (case.width, case.height);
    let entries = case.palette.len() / 4;
    first_said(&[
        (1, bad_kind(case.kind) || bad_pairing(case.shift, case.reducing)),
        (15, is_retired(case.kind)),
        (2, bad_size(width, height)),
        (
            3,
            bad_tables(&case.tables)
                || !case.palette.len().is_multiple_of(4)
                || bad_pixels(&case.pixels, &case.opaque, case.reducing, width, height)
                || bad_length(case.indices.len(), 1, width, height)
                || bad_length(case.out.len(), 4, width, height)
                || bad_cells(&case.cells, case.kind, width, height),
        ),
        (4, entries == 0 || entries > 256),
    ])
}

fn quantize_pixels(case: &Quantize) -> Answer {
    let number = quantize_refusal(case);
    let answer = |indices: &[u8], out: &[u8], cells: &[i16]| {
        Answer(vec![
            ("number", Value::Number(number)),
            ("indices", Value::bytes(indices)),
            ("out", Value::bytes(out)),
            ("cells", Value::cells(cells)),
        ])
    };
    if number != 0 {
        return answer(&case.indices, &case.out, &case.cells);
    }
    let tables = case.tables.accepted();
    let how = How::lent(case.lent(&tables));
    let drawn = original::quantize_pixels(how, case.kind, case.width, case.height, &case.palette, &case.pixels);
    answer(&drawn.indices, &drawn.out, &left_cells(&drawn.cells))
}

fn to_mode_refusal(case: &ToMode) -> u32 {
    let (width, height) = (case.width, case.height);
    first_said(&[
        (1, bad_kind(case.kind) || bad_pairing(case.shift, case.reducing)),
        (15, is_retired(case.kind)),
        (2, bad_size(width, height) || bad_origin(case.origin[0], width) || bad_origin(case.origin[1], height)),
        (
            3,
            bad_tables(&case.tables)
                || bad_pixels(&case.pixels, &case.opaque, case.reducing, width, height)
                || bad_length(case.out.len(), 4, width, height)
                || bad_cells(&case.cells, case.kind, width, height)
                || bad_rooms(&case.places, &case.oklab),
        ),
        (5, case.tile.iter().any(|side| !(1..=4096).contains(side)) || case.limit > 256),
    ])
}

pub fn settings_of(case: &ToMode) -> Settings {
    Settings {
        kind: case.kind,
        width: case.width,
        height: case.height,
        origin: case.origin,
        tile: case.tile,
        limit: case.limit,
        zero: (case.has_zero != 0).then_some(case.zero),
    }
}

fn to_mode_answer(number: u32, tile: Option<u32>, rooms: Collected, out: &[u8], cells: &[i16]) -> Answer {
    Answer(vec![
        ("number", Value::Number(number)),
        ("count", Value::Word32(rooms.count)),
        ("tile", Value::Word32(tile)),
        ("places", Value::Bytes(rooms.places)),
        ("oklab", Value::floats(&rooms.oklab)),
        ("out", Value::bytes(out)),
        ("cells", Value::cells(cells)),
    ])
}

fn dither_to_mode(case: &ToMode) -> Answer {
    let number = to_mode_refusal(case);
    if number != 0 {
        let rooms = Collected { count: None, places: case.places.clone(), oklab: case.oklab.clone() };
        return to_mode_answer(number, None, rooms, &case.out, &case.cells);
    }
    let tables = case.tables.accepted();
    let lent = case.lent(&tables);
    let rooms = collect(lent, [case.width, case.height], &case.places, &case.oklab);
    if rooms.count.is_none() {
        return to_mode_answer(7, None, rooms, &case.out, &case.cells);
    }
    let settings = settings_of(case);
    match original::dither_to_mode(How::lent(lent), &settings, &case.pixels) {
        Some((out, cells)) => to_mode_answer(0, None, rooms, &out, &left_cells(&cells)),
        None => {
            let model = model::dither_to_mode(lent, &settings);
            let tile = model.tile.expect("the original says that a tile is over its limit, the model does not");
            let zeros = (vec![0; case.out.len()], vec![0; case.cells.len()]);
            to_mode_answer(8, Some(tile as u32), rooms, &zeros.0, &zeros.1)
        }
    }
}

/// The answer that a port must give.
pub fn expected(case: &Case) -> Answer {
    match case {
        Case::ToOklab(color) => {
            let [l, a, b] = original::to_oklab(*color).map(Value::float);
            Answer(vec![("lightness", l), ("a", a), ("b", b)])
        }
        Case::OklabSqdist(six) => oklab_sqdist(*six),
        Case::OrderedThreshold { kind, x, y } => ordered_threshold(*kind, *x, *y),
        Case::BracketWidth { shift, max } => bracket_width(*shift, *max),
        Case::Lerp { colors: [c1, c2, color], clamp } => {
            Answer(vec![("value", Value::float(original::lerp(*c1, *c2, *color, *clamp != 0)))])
        }
        Case::Nearest(lookup) => nearest(lookup),
        Case::NearestTwo(lookup) => nearest_two(lookup),
        Case::OrderedBracket { lookup, dark, light } => ordered_bracket(lookup, dark, light),
        Case::Pick(case) => pick(case),
        Case::CandidateColorsIn(case) => candidate_colors_in(case),
        Case::QuantizePixels(case) => quantize_pixels(case),
        Case::DitherToMode(case) => dither_to_mode(case),
    }
}
