//! Counts the pixels that differ between document 01's conversion and the
//! published Oklab definition in floating point, over a stated set of pictures;
//! and the greys that have no tint, or fall to a colour that is no grey. The
//! conversion has the root downward, as it was before document 02's second
//! request, and the nearest, as it is now.
//!
//!   differences [--seed N] [--pictures N]
//!
//! The pictures, 64x64 each: for every kind that the port draws and every mode that
//! reduces in its own way, N of noise and N gradients between two random colours, with
//! the original's own tables of both roundings in turn; against a palette of 16 random
//! colours, or of all greys that the mode has (quantize_pixels), and to the mode with
//! tiles of 8x8 and limit 256, so that no tile is over it (dither_to_mode). Modes that
//! reduce by alpha have a table of their own.

use oracle::hooks::Tables;
use oracle::model::{BY_ALPHA, DRAWN, GREY, Lent, OPAQUE_COLOR};
use oracle::original::{self, How, Records, Settings, own_opaque, own_tables};
use oracle::rng::Rng;
use oracle::words::number_after;
use quantette::{Conversion, Root, with_conversion, with_root};

const SIDE: u32 = 64;

/// The modes of each table, by shift and reduction: one for each pairing. Ngp and Ws are
/// one, and so are the twelve by their shifts.
const TABLES: [(&str, [[u32; 2]; 3]); 2] = [
    ("modes that reduce by alpha, of shift 3, 4 and 5", [[3, BY_ALPHA], [4, BY_ALPHA], [5, BY_ALPHA]]),
    ("Ngp and Ws, Gb, Sms", [[5, GREY], [6, GREY], [6, OPAQUE_COLOR]]),
];

/// Before the request and after it.
const ROOTS: [Root; 2] = [Root::Down, Root::Nearest];
const PUBLISHED: [Conversion; 2] = [Conversion::PublishedF64, Conversion::PublishedF32];

/// The kinds in the order of `DRAWN`.
const NAMES: [&str; DRAWN.len()] =
    ["Off", "Bayer 2x2", "Bayer 4x4", "Bayer 8x8", "Checker", "Line V", "Line H", "Atkinson", "Floyd-Steinberg"];

fn noise(rng: &mut Rng) -> Vec<u8> {
    (0..SIDE * SIDE).flat_map(|_| [rng.byte(), rng.byte(), rng.byte(), 255]).collect()
}

/// From one random colour to another, along the diagonal.
fn gradient(rng: &mut Rng) -> Vec<u8> {
    let ends: [[i64; 2]; 3] = std::array::from_fn(|_| [rng.byte().into(), rng.byte().into()]);
    let span = i64::from(2 * SIDE - 2);
    let pixel = |i: u32| {
        let along = i64::from(i % SIDE + i / SIDE);
        let [r, g, b] = ends.map(|[from, to]| (from + (to - from) * along / span) as u8);
        [r, g, b, 255]
    };
    (0..SIDE * SIDE).flat_map(pixel).collect()
}

fn differing(a: &[u8], b: &[u8]) -> u64 {
    a.chunks_exact(4).zip(b.chunks_exact(4)).filter(|(p, q)| p != q).count() as u64
}

/// Pixels drawn; those that differ under each published conversion from what is
/// drawn with each root; and those in which the two roots differ.
#[derive(Default)]
struct Count {
    pixels: u64,
    differ: [[u64; 2]; 2],
    moved: u64,
}

impl Count {
    fn add(&mut self, draw: impl Fn() -> Vec<u8>) {
        let ours = ROOTS.map(|root| with_root(root, &draw));
        let published = PUBLISHED.map(|conversion| with_conversion(conversion, &draw));
        self.pixels += ours[0].len() as u64 / 4;
        self.moved += differing(&ours[0], &ours[1]);
        for (root, ours) in ours.iter().enumerate() {
            for (slot, published) in published.iter().enumerate() {
                self.differ[root][slot] += differing(ours, published);
            }
        }
    }

    fn add_all(&mut self, other: &Count) {
        self.pixels += other.pixels;
        self.moved += other.moved;
        for (all, more) in self.differ.as_flattened_mut().iter_mut().zip(other.differ.as_flattened()) {
            *all += more;
        }
    }

    fn print(&self, name: &str) {
        let [[f64_down, f32_down], [f64_nearest, f32_nearest]] = self.differ;
        let (pixels, moved) = (self.pixels, self.moved);
        println!("| {name} | {pixels} | {f64_down} / {f32_down} | {f64_nearest} / {f32_nearest} | {moved} |");
    }
}

/// How many of the 256 greys a test passes, under each conversion.
fn greys(what: &str, passes: impl Fn(&Records, u8) -> bool, entries: &[u8]) {
    let count = || {
        let lab: Vec<f32> = entries.chunks_exact(4).flat_map(|c| original::to_oklab([c[0], c[1], c[2]])).collect();
        let records = Records::new(entries, entries, &lab);
        (0..=255).filter(|&k| passes(&records, k)).count()
    };
    let [down, nearest] = ROOTS.map(|root| with_root(root, count));
    let [float64, float32] = PUBLISHED.map(|conversion| with_conversion(conversion, count));
    println!("| {what} | {down} | {nearest} | {float64} | {float32} |");
}

/// All colours of a shift, in full precision.
fn all_colors(shift: u32) -> Vec<u8> {
    let levels = &own_tables(shift, false).scale[..256 >> shift];
    let mut entries = Vec::new();
    for r in levels {
        for g in levels {
            levels.iter().for_each(|b| entries.extend([*r, *g, *b, 255]));
        }
    }
    entries
}

/// The greys that have no tint, a and b exactly 0; and those whose nearest of all
/// colours of a shift is no grey.
fn print_greys() {
    println!("| of the 256 greys | root downward | nearest root | published, f64 | published, f32 |");
    println!("|---|---|---|---|---|");
    greys("have no tint", |_, k| original::to_oklab([k; 3])[1..] == [0.0, 0.0], &[]);
    for shift in 3..=6 {
        let is_tinted = |records: &Records, k| {
            let [r, g, b, _] = records.nearest([k; 3]);
            r != g || g != b
        };
        greys(&format!("fall to a colour of shift {shift} that is no grey"), is_tinted, &all_colors(shift));
    }
}

fn quantized(how: How, kind: u32, palette: &[u8], pixels: &[u8]) -> Vec<u8> {
    original::quantize_pixels(how, kind, SIDE, SIDE, palette, pixels).out
}

fn to_mode(how: How, kind: u32, pixels: &[u8]) -> Vec<u8> {
    let settings = Settings { kind, width: SIDE, height: SIDE, origin: [0, 0], tile: [8, 8], limit: 256, zero: None };
    original::dither_to_mode(how, &settings, pixels).expect("64 pixels have at most 64 colours").0
}

/// Sixteen random colours of a shift, or all greys.
fn palette([shift, reducing]: [u32; 2], rng: &mut Rng) -> Vec<u8> {
    let top = 255 >> shift;
    if reducing == GREY {
        return (0..=top).flat_map(|grey| [grey, grey, grey, 255]).collect();
    }
    (0..16).flat_map(|_| [rng.byte() & top, rng.byte() & top, rng.byte() & top, 255]).collect()
}

/// All pictures of one kind: quantize_pixels, dither_to_mode.
fn of_kind(modes: [[u32; 2]; 3], kind: u32, seed: u64, pictures: u64) -> [Count; 2] {
    let mut counts: [Count; 2] = Default::default();
    for turn in 0..3 * 2 * pictures {
        let ([shift, reducing], is_noise) = (modes[turn as usize % 3], turn / 3 % 2 == 0);
        let mut rng = Rng::new(seed + 1000 * u64::from(kind) + turn);
        let tables: Tables = own_tables(shift, turn / 6 % 2 == 1);
        let pixels = if is_noise { noise(&mut rng) } else { gradient(&mut rng) };
        let palette = palette([shift, reducing], &mut rng);
        let opaque = own_opaque(&pixels);
        let how = How::lent(Lent { shift, reducing, tables: &tables, pixels: &pixels, opaque: &opaque });
        counts[0].add(|| quantized(how, kind, &palette, &pixels));
        counts[1].add(|| to_mode(how, kind, &pixels));
    }
    counts
}

/// The table of some modes.
fn print_modes((what, modes): (&str, [[u32; 2]; 3]), seed: u64, pictures: u64) {
    println!("{what}: differ under the published conversion, in f64 / f32:\n");
    println!("| call and kind | pixels | root downward | nearest root | nearest from downward |");
    println!("|---|---|---|---|---|");
    let mut total = Count::default();
    for (name, kind) in NAMES.into_iter().zip(DRAWN) {
        let counts = of_kind(modes, kind, seed, pictures);
        for (count, call) in counts.iter().zip(["quantize_pixels", "dither_to_mode"]) {
            count.print(&format!("{call}, {name}"));
            total.add_all(count);
        }
    }
    total.print("together");
    println!();
}

fn main() {
    let (seed, pictures) = (number_after("--seed", 1), number_after("--pictures", 4));
    println!("seed {seed}, {} pictures of 64x64 for each table, kind and call\n", 6 * pictures);
    TABLES.into_iter().for_each(|table| print_modes(table, seed, pictures));
    print_greys();
}
