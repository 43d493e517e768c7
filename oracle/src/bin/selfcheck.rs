//! Holds the original, as it is built here, to the model, and the colour
//! account to its balance. Original and model still have the kinds that a port
//! refuses as retired, and are compared in these too.
//!
//!   selfcheck [--seed N] [--cases N]

use std::process::ExitCode;

use oracle::account::{self, account};
use oracle::case::{Call, Case, Lookup, Quantize, ToMode};
use oracle::cells::{self, LARGEST};
use oracle::generate::{self, Style};
use oracle::hooks::Tables;
use oracle::lumas;
use oracle::model::{self, BY_ALPHA, Entry, Lent, PAIRINGS, Picture, Pixel};
use oracle::original::{self, How, modes_of, own_opaque, own_tables};
use oracle::reference::{expected, settings_of};
use oracle::rng::Rng;
use oracle::words::number_after;
use quantette::exact;

/// Counts of what was checked, and what failed.
#[derive(Default)]
struct Tally {
    checks: Vec<(&'static str, u64)>,
    failed: Vec<String>,
}

impl Tally {
    fn hold(&mut self, name: &'static str, holds: bool, case: impl Fn() -> String) {
        match self.checks.iter_mut().find(|(known, _)| *known == name) {
            Some((_, count)) => *count += 1,
            None => self.checks.push((name, 1)),
        }
        if !holds && self.failed.len() < 5 {
            self.failed.push(format!("{name}: {}", case()));
        }
    }
}

fn bits(floats: &[f32]) -> Vec<u32> {
    floats.iter().map(|v| v.to_bits()).collect()
}

/// The original's cells, each read as a count of sixteenths, are the model's.
fn hold_cells(tally: &mut Tally, check: &'static str, theirs: &[f32], ours: &[i16], name: &str) {
    let counts = cells::counts(theirs);
    let same = counts.as_ref().is_ok_and(|counts| counts == ours);
    tally.hold(check, same, || format!("{name} {}", counts.as_ref().err().map_or("", String::as_str)));
}

fn tables_of(case: &Case) -> Tables {
    case.tables().unwrap().accepted()
}

/// The kinds stand in the order that document 01 numbers.
fn check_kinds(tally: &mut Tally) {
    let numbers = original::kind_numbers();
    tally.hold("kinds in order", numbers.iter().copied().eq(0..11), || format!("{numbers:?}"));
}

/// A sample of all colours: three cube roots give one conversion, and no
/// component leaves the range that the port's bounds count on.
fn check_conversion(tally: &mut Tally) {
    for n in (0..1u32 << 24).step_by(61) {
        let [_, r, g, b] = n.to_be_bytes();
        let ours = exact::millionths_with(exact::root_by_bits, r, g, b);
        let same = ours == exact::millionths_with(exact::root_by_halving, r, g, b)
            && exact::as_floats(ours) == original::to_oklab([r, g, b]);
        tally.hold("conversion", same, || format!("{r} {g} {b}"));
        let inside = ours.iter().all(|part| (-320_000..=1_000_000).contains(part));
        tally.hold("components from -0.32 to 1", inside, || format!("{r} {g} {b}"));
    }
}

/// Luma of all colours.
fn check_lumas(tally: &mut Tally) {
    let wrong = lumas::wrong(&lumas::all());
    tally.hold("luma of all 2^24 colours", wrong.is_empty(), || wrong[0].clone());
}

fn check_thresholds(tally: &mut Tally) {
    for kind in 1..=8 {
        for place in 0..256u32 {
            let (x, y) = (place % 16 + 240, place / 16);
            let same = model::threshold(kind, x, y) == Some(original::threshold(kind, x, y));
            tally.hold("thresholds", same, || format!("kind {kind} at {x}, {y}"));
        }
    }
}

fn check_widths(tally: &mut Tally) {
    let ends = (0..64).flat_map(|bit| [(1u64 << bit) - 1, 1 << bit, (1 << bit) + 1]);
    for max in (0..70_000).chain(ends).chain([u64::MAX]) {
        for shift in 3..=6 {
            let same = model::bracket_width(shift, max) == original::bracket_width(shift, max);
            tally.hold("bracket widths", same, || format!("shift {shift}, max {max}"));
        }
    }
}

fn check_rounding(tally: &mut Tally) {
    for sixteenths in -4080..=8160 {
        let same = model::rounded(sixteenths) == original::rounded(sixteenths as f32 / 16.0);
        tally.hold("rounding of sixteenths", same, || format!("{sixteenths}"));
    }
}

fn check_lerps(tally: &mut Tally, seed: u64, cases: u64) {
    for number in 0..cases {
        let Case::Lerp { colors: [c1, c2, color], .. } = generate::case(Call::Lerp, seed, number, Style::DRIVER) else {
            unreachable!()
        };
        for clamp in [false, true] {
            let [ours, theirs] = [model::lerp(c1, c2, color, clamp), original::lerp(c1, c2, color, clamp)];
            tally.hold("lerp", ours.to_bits() == theirs.to_bits(), || format!("{c1:?} {c2:?} {color:?} {clamp}"));
        }
        let t = original::lerp(c1, c2, color, true);
        let same =
            model::mix_residual(c1, c2, t, color).to_bits() == original::mix_residual(c1, c2, t, color).to_bits();
        tally.hold("mix_residual", same, || format!("{c1:?} {c2:?} {color:?}"));
    }
}

fn entries(lookup: &Lookup) -> Vec<Entry> {
    let list = &lookup.list;
    let colors = list.reduced.chunks_exact(4).zip(list.normalized.chunks_exact(4)).zip(list.oklab.chunks_exact(3));
    colors
        .map(|((r, n), o)| Entry {
            reduced: r.try_into().unwrap(),
            normalized: n.try_into().unwrap(),
            oklab: o.try_into().unwrap(),
        })
        .collect()
}

fn check_lookups(tally: &mut Tally, seed: u64, cases: u64) {
    for number in 0..cases {
        let case = generate::case(Call::NearestTwo, seed, number, Style::DRIVER);
        let Case::NearestTwo(lookup) = &case else { unreachable!() };
        if expected(&case).number() != 0 {
            continue;
        }
        let Lookup { list, color, width } = lookup;
        let ours = entries(lookup);
        let near = original::nearest(&list.reduced, &list.normalized, &list.oklab, *color);
        let two = original::nearest_two(&list.reduced, &list.normalized, &list.oklab, *color, *width);
        let theirs = original::ordered_bracket(&list.reduced, &list.normalized, &list.oklab, *color, *width);
        let bracket = model::ordered_bracket(&ours, *color, *width);
        let same = model::nearest(&ours, *color) == near
            && model::nearest_two(&ours, *color, *width) == two
            && (bracket.dark, bracket.light, bracket.ratio.to_bits())
                == (theirs.dark, theirs.light, theirs.ratio.to_bits());
        tally.hold("lookups", same, || format!("seed {seed} case {number}"));
        let same = [bracket.dark_position, bracket.light_position] == [theirs.dark_position, theirs.light_position];
        tally.hold("positions of brackets", same, || format!("seed {seed} case {number}"));
    }
}

/// The five terms, the bound of cells and the range of losses.
fn check_account(tally: &mut Tally, picture: &Picture, drawn: &[Pixel], name: &str) {
    for channel in 0..3 {
        let terms = account(picture, drawn, channel);
        tally.hold("account balances", terms.balances(), || format!("{name} channel {channel}: {terms:?}"));
        let near = drawn.iter().filter(|p| p.dithered && (0..=4080).contains(&account::held(p, channel)));
        let small = near.map(|p| account::loss(p, channel)).all(|loss| (-8..=7).contains(&loss));
        tally.hold("losses from -8 to 7", small, || format!("{name} channel {channel}"));
        let bounded = drawn.iter().all(|p| (-LARGEST..=LARGEST).contains(&p.cell[channel]));
        tally.hold("cells within 4080 sixteenths", bounded, || format!("{name} channel {channel}"));
    }
}

fn check_quantize(tally: &mut Tally, case: &Quantize, tables: &Tables, name: &str) {
    let Quantize { kind, width, height, palette, pixels, .. } = case;
    let lent = case.lent(tables);
    let ours = model::quantize_pixels(lent, *kind, [*width, *height], palette);
    for how in hows(lent) {
        let theirs = original::quantize_pixels(how, *kind, *width, *height, palette, pixels);
        let same = ours.indices == theirs.indices && ours.out == theirs.out;
        tally.hold("quantize_pixels", same, || name.into());
        hold_cells(tally, "cells of quantize_pixels", &theirs.cells, &ours.cells, name);
    }
    if model::is_diffusion(*kind) {
        let picture = bare_picture(*kind, [*width, *height], lent);
        check_account(tally, &picture, &ours.drawn, name);
    }
}

/// A picture as the account reads it: its size and kernel only.
fn bare_picture(kind: u32, [width, height]: [u32; 2], lent: Lent<'_>) -> Picture<'_> {
    Picture { kind, width, height, origin: [0, 0], zero: None, lent, candidates: &[], bracket_width: 1 }
}

/// The ways in which the original can be asked for what is lent: by lending it, in
/// every mode that reduces so; without tables where they are its own; and without
/// opaque pixels where they are.
fn hows(lent: Lent<'_>) -> Vec<How<'_>> {
    let Lent { shift, reducing, tables, pixels, opaque } = lent;
    let (modes, all) = (modes_of(shift, reducing), How::lent(lent));
    let mut hows: Vec<How> = modes.iter().map(|&mode| How { mode, ..all }).collect();
    for nearest in [false, true] {
        if *tables == own_tables(shift, nearest) {
            hows.extend(modes.iter().map(|&mode| How { mode, lent: None, nearest, ..all }));
        }
    }
    if reducing != BY_ALPHA && opaque == own_opaque(pixels) {
        hows.extend(hows.clone().into_iter().map(|how| How { opaque: None, ..how }));
    }
    hows
}

fn check_to_mode(tally: &mut Tally, case: &ToMode, tables: &Tables, name: &str) {
    let (settings, lent) = (settings_of(case), case.lent(tables));
    let ours = model::dither_to_mode(lent, &settings);
    for how in hows(lent) {
        let theirs = original::dither_to_mode(how, &settings, &case.pixels);
        tally.hold("a tile is over its limit", theirs.is_none() == ours.tile.is_some(), || name.into());
        if let Some((out, cells)) = theirs {
            tally.hold("dither_to_mode", out == ours.out, || name.into());
            hold_cells(tally, "cells of dither_to_mode", &cells, &ours.cells, name);
        }
    }
    if let Some(tile) = ours.tile {
        check_tile(tally, case, lent, tile, name);
    }
    if model::is_diffusion(case.kind) {
        let picture = bare_picture(case.kind, [case.width, case.height], lent);
        check_account(tally, &picture, &ours.drawn, name);
    }
}

/// The original holds the model to its tile: with the rows of later tiles taken
/// away it still answers that a tile is over its limit, and with the rows of
/// this tile taken away too it does not. Candidates come from all pixels, so
/// this is asked only where no colour goes away with the rows.
fn check_tile(tally: &mut Tally, case: &ToMode, lent: Lent, tile: usize, name: &str) {
    let across = case.width.div_ceil(case.tile[0]);
    let row = tile as u32 / across;
    let whole = model::candidate_colors_in(lent);
    for (rows, over) in [(row * case.tile[1], false), (((row + 1) * case.tile[1]).min(case.height), true)] {
        let bytes = (4 * rows * case.width) as usize;
        let opaque = &lent.opaque[..bytes.min(lent.opaque.len())];
        let lent = Lent { pixels: &lent.pixels[..bytes], opaque, ..lent };
        if model::candidate_colors_in(lent) != whole {
            continue;
        }
        let settings = original::Settings { height: rows, ..settings_of(case) };
        let none = original::dither_to_mode(How::lent(lent), &settings, lent.pixels).is_none();
        tally.hold("row of the overfull tile", none == over, || format!("{name} rows {rows}"));
    }
}

fn check_candidates(tally: &mut Tally, case: &ToMode, tables: &Tables, name: &str) {
    let ours = model::candidate_colors_in(case.lent(tables));
    let reduced: Vec<u8> = ours.iter().flat_map(|e| e.reduced).collect();
    let lab: Vec<f32> = ours.iter().flat_map(|e| e.oklab).collect();
    for how in hows(case.lent(tables)) {
        let theirs = original::candidate_colors_in(how, case.width, case.height, &case.pixels);
        let same = reduced == theirs.0 && bits(&lab) == bits(&theirs.1);
        tally.hold("candidate_colors_in", same, || name.into());
    }
}

/// Pictures whose case is not refused before it is drawn, and so of no retired kind.
fn check_pictures(tally: &mut Tally, seed: u64, cases: u64) {
    for number in 0..cases {
        let name = format!("seed {seed} case {number}");
        let case = generate::case(Call::QuantizePixels, seed, number, Style::DRIVER);
        if let (0, Case::QuantizePixels(c)) = (expected(&case).number(), &case) {
            check_quantize(tally, c, &tables_of(&case), &name);
        }
        let case = generate::case(Call::DitherToMode, seed, number, Style::DRIVER);
        if let (0 | 7 | 8, Case::DitherToMode(c)) = (expected(&case).number(), &case) {
            check_candidates(tally, c, &tables_of(&case), &name);
            check_to_mode(tally, c, &tables_of(&case), &name);
        }
    }
}

/// Every kind, the retired ones among them, with every mode and rounding: the original's
/// own tables, and as many arbitrary ones; of opaque pixels its own, and arbitrary ones.
fn check_every_kind(tally: &mut Tally, seed: u64) {
    let mut rng = Rng::new(seed);
    for turn in 0..11 * 6 * 4 {
        let (kind, [shift, reducing], style) = (turn % 11, PAIRINGS[turn as usize / 11 % 6], turn / 66);
        let random =
            Tables { reduction: std::array::from_fn(|_| rng.byte()), scale: std::array::from_fn(|_| rng.byte()) };
        let tables = if style < 2 { own_tables(shift, style == 1) } else { random };
        let [width, height] = [13, 11];
        let pixels = rng.bytes(4 * (width * height) as usize);
        let opaque = match reducing {
            BY_ALPHA => vec![],
            _ if style % 2 == 0 => own_opaque(&pixels),
            _ => rng.bytes(pixels.len()),
        };
        let palette = rng.bytes(4 * 12).iter().map(|b| b & 31).collect();
        let name = format!("every kind, turn {turn}");
        let (limit, origin, tile) = (rng.pick(&[8, 40, 256]), [3, 9], [4, 5]);
        let case =
            ToMode { shift, reducing, kind, width, height, origin, tile, limit, pixels, opaque, ..ToMode::default() };
        check_candidates(tally, &case, &tables, &name);
        check_to_mode(tally, &case, &tables, &name);
        let ToMode { pixels, opaque, .. } = case;
        let case = Quantize { shift, reducing, kind, width, height, palette, pixels, opaque, ..Quantize::default() };
        check_quantize(tally, &case, &tables, &name);
    }
}

fn main() -> ExitCode {
    let (seed, cases) = (number_after("--seed", 1), number_after("--cases", 6000));
    let mut tally = Tally::default();
    check_kinds(&mut tally);
    check_conversion(&mut tally);
    check_lumas(&mut tally);
    check_thresholds(&mut tally);
    check_widths(&mut tally);
    check_rounding(&mut tally);
    check_lerps(&mut tally, seed, 10 * cases);
    check_lookups(&mut tally, seed, cases);
    check_every_kind(&mut tally, seed);
    check_pictures(&mut tally, seed, cases);
    for (name, count) in &tally.checks {
        println!("{name}: {count}");
    }
    for failed in &tally.failed {
        println!("fails: {failed}");
    }
    println!(
        "{}",
        if tally.failed.is_empty() { "the original equals the model" } else { "the original differs from the model" }
    );
    if tally.failed.is_empty() { ExitCode::SUCCESS } else { ExitCode::FAILURE }
}
