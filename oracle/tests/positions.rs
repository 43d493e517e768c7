//! Which entry is taken, where several have one colour. The original gives a
//! picture's index by a second search, the first entry equal to the chosen colour;
//! here its own lookups, asked for positions, are held to take just that entry.
//! And the recorded cases of twins have what they are for.

use std::collections::BTreeSet;

use oracle::case::{Call, Case, List, Lookup, Quantize};
use oracle::generate::{self, Style};
use oracle::hooks::Tables;
use oracle::model::{self, DRAWN};
use oracle::original::{self, Bracket, Rgba, own_tables};
use oracle::record::twins;
use oracle::reference::expected;
use oracle::rng::Rng;

/// The original's ordered kinds, those that a port refuses as retired among them,
/// each with the columns and rows of its matrix.
const ORDERED: [(u32, u32); 8] = [(1, 2), (2, 4), (3, 8), (4, 2), (5, 2), (6, 2), (7, 2), (8, 2)];

fn rgba(bytes: &[u8], i: usize) -> Rgba {
    bytes[4 * i..4 * i + 4].try_into().unwrap()
}

/// The first entry with this colour, as the original looks for it.
fn first_equal(reduced: &[u8], color: Rgba) -> usize {
    reduced.chunks_exact(4).position(|c| c == color).unwrap()
}

/// A list as a palette gives it: each record is made from its reduced colour alone,
/// so that equal ones are alike.
fn made_from(reduced: &[u8], tables: &Tables) -> List {
    let normalized: Vec<u8> = reduced.iter().map(|&v| tables.scale[usize::from(v)]).collect();
    let oklab = normalized.chunks_exact(4).flat_map(|c| original::to_oklab([c[0], c[1], c[2]])).collect();
    List { reduced: reduced.to_vec(), normalized, oklab }
}

fn bracket(list: &List, color: [u8; 3], width: u64) -> Bracket {
    original::ordered_bracket(&list.reduced, &list.normalized, &list.oklab, color, width)
}

/// The position that the original picks, and the colour. It picks between the two
/// positions as it does between the two colours.
fn picked(b: &Bracket, kind: u32, x: u32, y: u32) -> (usize, Rgba) {
    let [dark, light] = [b.dark_position, b.light_position].map(|i| (i as u32).to_be_bytes());
    let position = u32::from_be_bytes(original::pick(dark, light, b.ratio, kind, x, y)) as usize;
    (position, original::pick(b.dark, b.light, b.ratio, kind, x, y))
}

/// Few colours over many entries, in blocks, in turn or scattered; in some palettes
/// with alphas of their own.
fn palette_of_twins(rng: &mut Rng) -> Vec<u8> {
    let (few, length) = (rng.pick(&[1, 2, 3, 5]), rng.within(2, 40));
    let (arrangement, alphas) = (rng.below(3), rng.one_in(3));
    let colors: Vec<Rgba> = (0..few).map(|_| [rng.byte() & 31, rng.byte() & 31, rng.byte() & 31, 255]).collect();
    let mut palette = Vec::new();
    for i in 0..length {
        let at = [i * few / length, i % few, rng.below(few)][arrangement as usize];
        let [r, g, b, a] = colors[at as usize];
        palette.extend([r, g, b, if alphas { rng.pick(&[0, 31, 255]) } else { a }]);
    }
    palette
}

/// The original's own tables, or ones whose scale gives different reduced colours
/// one normalised colour.
fn tables(rng: &mut Rng) -> Tables {
    let own = own_tables(rng.within(3, 6) as u32, rng.one_in(2));
    let few = [rng.byte(), rng.byte(), rng.byte()];
    if rng.one_in(3) { Tables { scale: std::array::from_fn(|_| rng.pick(&few)), ..own } } else { own }
}

#[test]
fn the_picked_entry_is_the_first_equal_one() {
    let rng = &mut Rng::new(1);
    let (mut picks, mut twins, mut lights) = (0, 0, 0);
    for _ in 0..3000 {
        let list = made_from(&palette_of_twins(rng), &tables(rng));
        let color = std::array::from_fn(|_| rng.byte());
        let near = original::nearest(&list.reduced, &list.normalized, &list.oklab, color);
        assert_eq!(near, first_equal(&list.reduced, rgba(&list.reduced, near)));
        let b = bracket(&list, color, rng.within(1, 16));
        twins += u32::from(b.dark == b.light && b.dark_position != b.light_position);
        for (kind, side) in ORDERED {
            for place in 0..side * side {
                let (position, chosen) = picked(&b, kind, place % side, place / side);
                assert_eq!(position, first_equal(&list.reduced, chosen), "{b:?} kind {kind} place {place}");
                lights += u32::from(position == b.light_position && position != b.dark_position);
                picks += 1;
            }
        }
    }
    // It is no answer where no twin was the second, or light was never taken.
    assert!(picks > 100_000 && twins > 500 && lights > 10_000, "{picks} {twins} {lights}");
}

/// The entries that the original's lookups take at a picture's pixels.
fn entries_taken(case: &Quantize, tables: &Tables) -> Vec<Option<usize>> {
    let list = made_from(&case.palette, tables);
    let width = original::bracket_width(case.shift, case.palette.len() as u64 / 4);
    // The colours that are looked up are the source's with the error that reached
    // them, which the self-check holds to the original's.
    let [w, h] = [case.width, case.height];
    let drawn = model::quantize_pixels(case.lent(tables), case.kind, [w, h], &case.palette).drawn;
    let taken = |(i, pixel): (usize, &model::Pixel)| {
        pixel.chosen?;
        if model::threshold(case.kind, 0, 0).is_none() {
            return Some(original::nearest(&list.reduced, &list.normalized, &list.oklab, pixel.biased));
        }
        let (x, y) = (i as u32 % w, i as u32 / w);
        Some(picked(&bracket(&list, pixel.biased, width), case.kind, x, y).0)
    };
    drawn.iter().enumerate().map(taken).collect()
}

#[test]
fn indices_are_the_positions_taken() {
    let style = Style { twins: 1, side: 8, large: false, ..Style::DRIVER };
    let mut kinds = BTreeSet::new();
    for number in 0..600 {
        let case = generate::case(Call::QuantizePixels, 1, number, style);
        let (0, Case::QuantizePixels(c)) = (expected(&case).number(), &case) else { continue };
        let tables = c.tables.accepted();
        let how = original::How::lent(c.lent(&tables));
        let indices = original::quantize_pixels(how, c.kind, c.width, c.height, &c.palette, &c.pixels).indices;
        let taken: Vec<u8> = entries_taken(c, &tables).iter().map(|at| at.unwrap_or(0) as u8).collect();
        assert_eq!(taken, indices, "case {number}");
        kinds.insert(c.kind);
    }
    assert!(kinds.into_iter().eq(DRAWN));
}

/// What a recorded bracket shows.
fn shows(lookup: &Lookup) -> Vec<&'static str> {
    let Lookup { list, color, width } = lookup;
    let b = bracket(list, *color, *width);
    let two = original::nearest_two(&list.reduced, &list.normalized, &list.oklab, *color, *width);
    let [dark, light] = [b.dark_position, b.light_position];
    let same = |i: usize, j: usize| {
        list.normalized[4 * i..4 * i + 4] == list.normalized[4 * j..4 * j + 4]
            && list.oklab[3 * i..3 * i + 3] == list.oklab[3 * j..3 * j + 3]
    };
    let one_color = b.dark == b.light && dark != light;
    let alpha_only = b.dark != b.light && b.dark[..3] == b.light[..3];
    let said = [
        ("light is a later twin", one_color && dark < light && same(dark, light)),
        ("one reduced colour, two records", one_color && !same(dark, light)),
        ("alpha is all that differs", alpha_only),
        ("the second is dark", Some(dark) == two.1 && dark != two.0),
        ("two colours, each several times", b.dark != b.light && repeated(list, dark) && repeated(list, light)),
        ("a search by colour finds another", [dark, light].iter().any(|&i| i != first(list, i))),
    ];
    said.into_iter().filter(|(_, holds)| *holds).map(|(name, _)| name).collect()
}

fn first(list: &List, i: usize) -> usize {
    first_equal(&list.reduced, rgba(&list.reduced, i))
}

fn repeated(list: &List, i: usize) -> bool {
    list.reduced.chunks_exact(4).filter(|c| **c == rgba(&list.reduced, i)).count() > 1
}

#[test]
fn recorded_brackets_have_twins_of_every_kind() {
    let mut shown = BTreeSet::new();
    for (seed, width) in [(1, 16), (2, 2)] {
        for case in twins::of_lookup(Call::OrderedBracket, seed, width) {
            let Case::OrderedBracket { lookup, .. } = &case else { unreachable!() };
            shown.extend(shows(lookup));
        }
    }
    assert_eq!(shown.len(), 6, "{shown:?}");
}

#[test]
fn recorded_palettes_have_twins_for_every_kind() {
    let mut kinds = BTreeSet::new();
    for case in twins::of_quantize(1) {
        let Case::QuantizePixels(c) = &case else { unreachable!() };
        let different: BTreeSet<&[u8]> = c.palette.chunks_exact(4).map(|c| &c[..3]).collect();
        assert!(2 * different.len() <= c.palette.len() / 4);
        kinds.insert(c.kind);
    }
    assert!(kinds.into_iter().eq(DRAWN));
}
