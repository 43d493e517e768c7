//! An independent model of the dithering, written from documents 01 and 02 and
//! sharing no code with the original: matrices from their rule, `lerp` from whole
//! numbers, luma by steps that are rounded one by one, diffusion in whole sixteenths
//! that gathers where the original scatters, tiles judged after all pixels are chosen.

use std::collections::BTreeSet;

use quantette::remembered as to_oklab;

use crate::hooks::Tables;
use crate::original::{Bracket, Lab, Rgba, Settings};

pub const OFF: u32 = 0;
pub const ATKINSON: u32 = 9;
pub const FLOYD_STEINBERG: u32 = 10;

/// The stipples, which document 02's ninth request retires: every call that takes a
/// kind refuses them, and their numbers go to no other. The original still draws
/// them, and so does this model.
pub const RETIRED: [u32; 2] = [5, 6];

/// The kinds that a port draws: all the others.
pub const DRAWN: [u32; 9] = [OFF, 1, 2, 3, 4, 7, 8, ATKINSON, FLOYD_STEINBERG];

pub fn is_retired(kind: u32) -> bool {
    RETIRED.contains(&kind)
}

pub fn is_diffusion(kind: u32) -> bool {
    kind == ATKINSON || kind == FLOYD_STEINBERG
}

/// How a mode reduces, by the number that a call names it with.
pub const BY_ALPHA: u32 = 0;
pub const GREY: u32 = 1;
pub const OPAQUE_COLOR: u32 = 2;

pub const REDUCTIONS: [u32; 3] = [BY_ALPHA, GREY, OPAQUE_COLOR];

/// The shifts that modes have, each with a reduction that it goes with.
pub const PAIRINGS: [[u32; 2]; 6] =
    [[3, BY_ALPHA], [4, BY_ALPHA], [5, BY_ALPHA], [5, GREY], [6, GREY], [6, OPAQUE_COLOR]];

// Colours.

/// A candidate.
#[derive(Debug, Clone, Copy, PartialEq)]
pub struct Entry {
    pub reduced: Rgba,
    pub normalized: Rgba,
    pub oklab: Lab,
}

pub fn rgb([r, g, b, _]: Rgba) -> [u8; 3] {
    [r, g, b]
}

/// A colour's Oklab by document 01's conversion.
pub fn oklab_of([r, g, b]: [u8; 3]) -> Lab {
    to_oklab(r, g, b)
}

/// `luma_u8`, from f32 steps of which each is worked out in f64 and rounded alone: one
/// step of the wider type is exact enough for that to be the narrower one's own.
pub fn luma(color: [u8; 3]) -> u8 {
    let step = |exact: f64| f64::from(exact as f32);
    let weights = [2126.0, 7152.0, 722.0].map(|share| step(share / 10_000.0));
    let [r, g, b] = std::array::from_fn(|k| step(step(f64::from(color[k]) / 255.0) * weights[k]));
    // No sum exceeds 1, so there is nothing to clamp; what is not whole is cut.
    step(step(step(r + g) + b) * 255.0) as u8
}

/// What a caller lends for a picture, and the mode that it is reduced to.
#[derive(Clone, Copy)]
pub struct Lent<'a> {
    pub shift: u32,
    pub reducing: u32,
    pub tables: &'a Tables,
    pub pixels: &'a [u8],
    /// What stands for each pixel where it is not reduced by alpha: the caller says
    /// that it is `opaque_threshold` of the pixel, and it may be anything.
    pub opaque: &'a [u8],
}

impl Lent<'_> {
    pub fn pixel(&self, i: usize) -> Rgba {
        self.pixels[4 * i..4 * i + 4].try_into().unwrap()
    }

    /// Pixel `i` as it is reduced. By alpha it is none where the pixel is transparent;
    /// else every pixel counts as opaque, and no alpha is looked at.
    pub fn reduced(&self, i: usize) -> Option<Rgba> {
        let opaque = || self.opaque[4 * i..4 * i + 3].try_into().unwrap();
        let channels = match self.reducing {
            BY_ALPHA => Some(self.pixel(i)).filter(|pixel| pixel[3] >= 128).map(rgb),
            GREY => Some([luma(opaque()); 3]),
            OPAQUE_COLOR => Some(opaque()),
            other => panic!("there is no reduction {other}"),
        };
        channels.map(|c| c.map(|v| self.tables.reduction[usize::from(v)])).map(|[r, g, b]| [r, g, b, 255])
    }

    /// The distinct reduced colours of all pixels.
    pub fn colors(&self) -> BTreeSet<Rgba> {
        (0..self.pixels.len() / 4).filter_map(|i| self.reduced(i)).collect()
    }
}

pub fn normalize(tables: &Tables, color: Rgba) -> Rgba {
    color.map(|v| tables.scale[usize::from(v)])
}

pub fn entry(tables: &Tables, reduced: Rgba) -> Entry {
    let normalized = normalize(tables, reduced);
    Entry { reduced, normalized, oklab: oklab_of(rgb(normalized)) }
}

pub fn distance(p: Lab, q: Lab) -> f32 {
    let [l, a, b] = [p[0] - q[0], p[1] - q[1], p[2] - q[2]];
    l * l + 2.15 * (a * a + b * b)
}

// Thresholds.

/// Bayer's matrices by their rule: the lowest bits of the position weigh most.
/// `base` is the 2x2 pattern at every level.
fn bayer(base: [[u32; 2]; 2], levels: u32, x: u32, y: u32) -> u32 {
    (0..levels).map(|k| base[(y >> k & 1) as usize][(x >> k & 1) as usize] << (2 * (levels - 1 - k))).sum()
}

/// None for kinds that have no matrix.
pub fn threshold(kind: u32, x: u32, y: u32) -> Option<f32> {
    let small = [[0, 2], [3, 1]];
    let (column, row) = (x & 1, y & 1);
    let (place, n) = match kind {
        1 => (bayer(small, 1, x, y), 4),
        2 => (bayer(small, 2, x, y), 16),
        // The 8x8 matrix continues another pattern, turned over the diagonal.
        3 => (bayer([[0, 3], [2, 1]], 3, x, y), 64),
        4 => (column ^ row, 2),
        5 => ([3, 0, 2, 1][(2 * row + column) as usize], 4),
        6 => ([3, 2, 0, 1][(2 * row + column) as usize], 4),
        7 => (1 - column, 2),
        8 => (1 - row, 2),
        _ => return None,
    };
    // Twice the place plus one is whole, and n is a power of two.
    Some((2 * place + 1) as f32 / (2 * n) as f32)
}

// Mixing.

/// max * shift / 16, halves up, from 1 to 16.
pub fn bracket_width(shift: u32, max: u64) -> u64 {
    ((u128::from(max) * u128::from(shift) + 8) / 16).clamp(1, 16) as u64
}

/// The whole numbers whose quotient `lerp` is: numerator, denominator, and
/// whether a zero numerator carries a minus sign.
fn lerp_parts(c1: [u8; 3], c2: [u8; 3], color: [u8; 3]) -> (i32, i32, bool) {
    let along = |k: usize| i32::from(c2[k]) - i32::from(c1[k]);
    let to = |k: usize| i32::from(color[k]) - i32::from(c1[k]);
    let numerator = (0..3).map(|k| to(k) * along(k)).sum();
    let denominator = (0..3).map(|k| along(k) * along(k)).sum();
    // A sum of zeros is minus zero only if each of them is, and a zero product
    // is minus zero if one factor is negative.
    let minus = (0..3).all(|k| to(k) * along(k) == 0 && (to(k) < 0 || along(k) < 0));
    (numerator, denominator, minus)
}

pub fn lerp(c1: [u8; 3], c2: [u8; 3], color: [u8; 3], clamp: bool) -> f32 {
    let (numerator, denominator, minus) = lerp_parts(c1, c2, color);
    match numerator {
        _ if denominator == 0 => 0.0,
        0 if minus => -0.0,
        n if clamp && n < 0 => 0.0,
        n if clamp && n > denominator => 1.0,
        n => n as f32 / denominator as f32,
    }
}

pub fn mix_residual(a: [u8; 3], b: [u8; 3], t: f32, color: [u8; 3]) -> f32 {
    let squares: [f32; 3] = std::array::from_fn(|k| {
        let (from, to) = (f32::from(a[k]), f32::from(b[k]));
        let off = f32::from(color[k]) - (from + t * (to - from));
        off * off
    });
    squares[0] + squares[1] + squares[2]
}

// Lookups.

/// The first position of the least value.
fn first_of_least(values: impl Iterator<Item = f32>) -> Option<usize> {
    let values: Vec<f32> = values.collect();
    (0..values.len()).find(|&i| values.iter().all(|&v| values[i] <= v))
}

pub fn nearest(list: &[Entry], color: [u8; 3]) -> usize {
    let target = oklab_of(color);
    // Like `first_of_least`, without looking at each pair of a long list.
    let least = list.iter().map(|e| distance(target, e.oklab)).fold(f32::INFINITY, f32::min);
    list.iter().position(|e| distance(target, e.oklab) == least).unwrap()
}

pub fn nearest_two(list: &[Entry], color: [u8; 3], width: u64) -> (usize, Option<usize>) {
    let a = nearest(list, color);
    let nearer = |p: &(f32, usize), q: &(f32, usize)| p.partial_cmp(q).unwrap();
    let others = (0..list.len()).filter(|&i| i != a);
    let mut others: Vec<(f32, usize)> = others.map(|i| (distance(list[a].oklab, list[i].oklab), i)).collect();
    let width = (width.clamp(1, 16) as usize).min(others.len());
    // Only the first few have to be put in order.
    if width < others.len() {
        others.select_nth_unstable_by(width, nearer);
    }
    others[..width].sort_by(nearer);
    let shortlist: Vec<usize> = others[..width].iter().map(|&(_, i)| i).collect();

    let ends = |i: usize| (rgb(list[a].normalized), rgb(list[i].normalized));
    let between: Vec<usize> = shortlist
        .iter()
        .copied()
        .filter(|&i| {
            let (c1, c2) = ends(i);
            let (numerator, denominator, _) = lerp_parts(c1, c2, color);
            (0..=denominator).contains(&numerator)
        })
        .collect();
    let best = first_of_least(between.iter().map(|&i| {
        let (c1, c2) = ends(i);
        mix_residual(c1, c2, lerp(c1, c2, color, false), color)
    }));
    (a, best.map(|k| between[k]).or(shortlist.first().copied()))
}

/// Dark, light, the share of light, and the two positions: of the nearest two, in
/// the order of their lightness, and of the first where that is all there is.
pub fn ordered_bracket(list: &[Entry], color: [u8; 3], width: u64) -> Bracket {
    let (a, second) = nearest_two(list, color, width);
    let (dark_position, light_position, ratio) = match second {
        None => (a, a, 0.0),
        Some(b) => {
            let t = lerp(rgb(list[a].normalized), rgb(list[b].normalized), color, true);
            if list[a].oklab[0] <= list[b].oklab[0] { (a, b, t) } else { (b, a, 1.0 - t) }
        }
    };
    let [dark, light] = [dark_position, light_position].map(|i| list[i].reduced);
    Bracket { dark, light, ratio, dark_position, light_position }
}

/// None for kinds that have no matrix.
pub fn pick(dark: Rgba, light: Rgba, ratio: f32, kind: u32, x: u32, y: u32) -> Option<Rgba> {
    let threshold = threshold(kind, x, y)?;
    Some(if dark != light && ratio > threshold { light } else { dark })
}

// Pictures.

/// Targets and sixteenths of a kernel.
pub fn kernel(kind: u32) -> &'static [(i64, i64, i32)] {
    match kind {
        ATKINSON => &[(1, 0, 2), (2, 0, 2), (-1, 1, 2), (0, 1, 2), (1, 1, 2), (0, 2, 2)],
        FLOYD_STEINBERG => &[(1, 0, 7), (-1, 1, 3), (0, 1, 5), (1, 1, 1)],
        _ => &[],
    }
}

/// What is drawn: the picture, and how.
#[derive(Clone, Copy)]
pub struct Picture<'a> {
    pub kind: u32,
    pub width: u32,
    pub height: u32,
    pub origin: [u32; 2],
    pub zero: Option<Rgba>,
    pub lent: Lent<'a>,
    pub candidates: &'a [Entry],
    pub bracket_width: u64,
}

/// One pixel as drawn. Cells are counts of sixteenths, as a call's are.
#[derive(Debug, Clone, Copy, Default)]
pub struct Pixel {
    /// The chosen reduced colour; none where the pixel is transparent.
    pub chosen: Option<Rgba>,
    /// Whether the choice was by dithering.
    pub dithered: bool,
    pub source: [u8; 3],
    pub cell: [i16; 3],
    pub biased: [u8; 3],
    /// Biased less the normalised choice.
    pub residual: [i32; 3],
}

/// Sixteenths to the nearest whole, halves away from zero, within a byte.
pub fn rounded(sixteenths: i32) -> u8 {
    let size = (sixteenths.abs() + 8) / 16;
    (sixteenths.signum() * size).clamp(0, 255) as u8
}

impl Picture<'_> {
    fn place(&self, i: usize) -> (i64, i64) {
        let width = self.width as usize;
        ((i % width) as i64, (i / width) as i64)
    }

    /// The pixel at a place, if there is one.
    pub fn at(&self, x: i64, y: i64) -> Option<usize> {
        let inside = x >= 0 && y >= 0 && x < i64::from(self.width) && y < i64::from(self.height);
        inside.then(|| (y * i64::from(self.width) + x) as usize)
    }

    /// Where pixel `i` sends, with the weight; none outside the picture.
    pub fn sends(&self, i: usize) -> impl Iterator<Item = (Option<usize>, i32)> + '_ {
        let (x, y) = self.place(i);
        kernel(self.kind).iter().map(move |&(dx, dy, weight)| (self.at(x + dx, y + dy), weight))
    }

    /// What earlier dithered pixels send to pixel `i`, gathered.
    fn cell(&self, drawn: &[Pixel], i: usize) -> [i16; 3] {
        let (x, y) = self.place(i);
        let mut cell = [0i32; 3];
        for &(dx, dy, weight) in kernel(self.kind) {
            let Some(j) = self.at(x - dx, y - dy).filter(|&j| drawn[j].dithered) else {
                continue;
            };
            for (c, r) in cell.iter_mut().zip(drawn[j].residual) {
                *c += weight * r;
            }
        }
        cell.map(|c| c.try_into().expect("weights add up to 16 at most, and a residual is a byte's"))
    }

    fn choose(&self, i: usize, color: [u8; 3]) -> Entry {
        if self.kind == OFF || is_diffusion(self.kind) {
            return self.candidates[nearest(self.candidates, color)];
        }
        let (x, y) = self.place(i);
        let Bracket { dark, light, ratio, .. } = ordered_bracket(self.candidates, color, self.bracket_width);
        let [x, y] = [self.origin[0] + x as u32, self.origin[1] + y as u32];
        entry(self.lent.tables, pick(dark, light, ratio, self.kind, x, y).unwrap())
    }

    fn draw_pixel(&self, drawn: &[Pixel], i: usize) -> Pixel {
        let (source, cell) = (rgb(self.lent.pixel(i)), self.cell(drawn, i));
        let chosen = self.lent.reduced(i);
        let kept = Pixel { chosen, source, cell, ..Pixel::default() };
        let Some(reduced) = chosen else {
            return kept;
        };
        if self.zero.is_some_and(|zero| rgb(zero) == rgb(reduced)) {
            return kept;
        }
        let biased = std::array::from_fn(|k| rounded(16 * i32::from(source[k]) + i32::from(cell[k])));
        let choice = self.choose(i, biased);
        let residual = std::array::from_fn(|k| i32::from(biased[k]) - i32::from(choice.normalized[k]));
        Pixel { chosen: Some(choice.reduced), dithered: true, biased, residual, ..kept }
    }

    /// All pixels, row by row, left to right.
    pub fn draw(&self) -> Vec<Pixel> {
        let mut drawn = Vec::new();
        for i in 0..self.width as usize * self.height as usize {
            let pixel = self.draw_pixel(&drawn, i);
            drawn.push(pixel);
        }
        drawn
    }
}

/// The cells as a lent buffer holds them: none for kinds that do not diffuse.
pub fn cells_of(kind: u32, drawn: &[Pixel]) -> Vec<i16> {
    if !is_diffusion(kind) {
        return Vec::new();
    }
    drawn.iter().flat_map(|p| p.cell).collect()
}

/// Normalised choices, transparent ones zero.
fn out_bytes(tables: &Tables, drawn: &[Pixel]) -> Vec<u8> {
    drawn.iter().flat_map(|p| p.chosen.map_or([0; 4], |c| normalize(tables, c))).collect()
}

/// The distinct reduced colours that are not transparent, ascending.
pub fn candidate_colors_in(lent: Lent) -> Vec<Entry> {
    lent.colors().into_iter().map(|c| entry(lent.tables, c)).collect()
}

pub struct Quantized {
    pub indices: Vec<u8>,
    pub out: Vec<u8>,
    pub cells: Vec<i16>,
    pub drawn: Vec<Pixel>,
}

pub fn quantize_pixels(lent: Lent, kind: u32, [width, height]: [u32; 2], palette: &[u8]) -> Quantized {
    let palette: Vec<Rgba> = palette.chunks_exact(4).map(|c| c.try_into().unwrap()).collect();
    let candidates: Vec<Entry> = palette.iter().map(|&c| entry(lent.tables, c)).collect();
    let bracket_width = bracket_width(lent.shift, palette.len() as u64);
    let picture =
        Picture { kind, width, height, origin: [0, 0], zero: None, lent, candidates: &candidates, bracket_width };
    let drawn = picture.draw();
    let index = |p: &Pixel| p.chosen.map_or(0, |c| palette.iter().position(|&e| e == c).unwrap() as u8);
    Quantized {
        indices: drawn.iter().map(index).collect(),
        out: out_bytes(lent.tables, &drawn),
        cells: cells_of(kind, &drawn),
        drawn,
    }
}

/// How many different chosen colours the non-transparent pixels of each tile
/// have, row by row.
pub fn tile_counts(size: [u32; 2], tile: [u32; 2], drawn: &[Pixel]) -> Vec<usize> {
    let across = size[0].div_ceil(tile[0]) as usize;
    let down = size[1].div_ceil(tile[1]) as usize;
    let mut colors = vec![BTreeSet::new(); across * down];
    for (i, pixel) in drawn.iter().enumerate() {
        let (x, y) = (i as u32 % size[0], i as u32 / size[0]);
        if let Some(chosen) = pixel.chosen {
            colors[(y / tile[1]) as usize * across + (x / tile[0]) as usize].insert(chosen);
        }
    }
    colors.iter().map(|set| set.len()).collect()
}

pub struct Dithered {
    pub candidates: Vec<Entry>,
    /// The first tile over its limit.
    pub tile: Option<usize>,
    pub out: Vec<u8>,
    pub cells: Vec<i16>,
    pub drawn: Vec<Pixel>,
    pub most_colors: usize,
}

pub fn dither_to_mode(lent: Lent, settings: &Settings) -> Dithered {
    let candidates = candidate_colors_in(lent);
    let Settings { kind, width, height, origin, tile, limit, zero } = *settings;
    let bracket_width = bracket_width(lent.shift, u64::from(limit));
    let picture = Picture { kind, width, height, origin, zero, lent, candidates: &candidates, bracket_width };
    let drawn = picture.draw();
    let counts = tile_counts([width, height], tile, &drawn);
    Dithered {
        tile: counts.iter().position(|&n| n > limit as usize),
        most_colors: counts.iter().copied().max().unwrap_or(0),
        out: out_bytes(lent.tables, &drawn),
        cells: cells_of(kind, &drawn),
        drawn,
        candidates,
    }
}
