//! The original's calls over plain bytes and floats. Every answer here is the
//! original's own; this file only packs and unpacks.

use crate::color::{CandidateColor, NormalizedColor, ReducedColor, Rgba8888, oklab_sqdist};
use crate::dither::{self, Dither, TileBudget, probe};
use crate::hooks::{self, Opaque, Tables, take_cells, with_opaque, with_tables};
use crate::image::Image;
use crate::mode::Mode;
use crate::mode::color::{ColorRounding, ModeColor, probe as own};
use crate::model::{BY_ALPHA, GREY, Lent, OPAQUE_COLOR, REDUCTIONS};
use quantette::deps::palette::Oklab;

pub type Rgba = [u8; 4];
pub type Lab = [f32; 3];

/// The modes of a shift that reduce so; none of a pairing that there is not.
pub fn modes_of(shift: u32, reducing: u32) -> &'static [Mode] {
    match (shift, reducing) {
        (3, BY_ALPHA) => &[Mode::Snes, Mode::SnesMode7, Mode::Gbc, Mode::Gba, Mode::GbaAffine],
        (4, BY_ALPHA) => &[Mode::Gg, Mode::Ngpc, Mode::Wsc, Mode::WscPacked],
        (5, BY_ALPHA) => &[Mode::Md, Mode::Pce, Mode::PceSprite],
        (5, GREY) => &[Mode::Ngp, Mode::Ws],
        (6, GREY) => &[Mode::Gb],
        (6, OPAQUE_COLOR) => &[Mode::Sms],
        _ => &[],
    }
}

/// The original's own tables for a shift and a rounding.
pub fn own_tables(shift: u32, nearest: bool) -> Tables {
    Tables { reduction: own::own_reduction(shift, ColorRounding::from(nearest)), scale: own::own_scale(shift) }
}

/// The original's own `opaque_threshold` of a picture's pixels.
pub fn own_opaque(pixels: &[u8]) -> Vec<u8> {
    bytes_of(&colors_of(pixels).into_iter().map(own::own_opaque).collect::<Vec<NormalizedColor>>())
}

/// How the original reduces and normalises: by the lent tables and opaque pixels, or,
/// where none are lent, by itself.
#[derive(Clone, Copy)]
pub struct How<'a> {
    pub mode: Mode,
    pub lent: Option<&'a Tables>,
    pub nearest: bool,
    pub opaque: Option<&'a [u8]>,
}

impl<'a> How<'a> {
    /// All that is lent for a picture.
    pub fn lent(lent: Lent<'a>) -> How<'a> {
        let Lent { shift, reducing, tables, opaque, .. } = lent;
        let opaque = (reducing != BY_ALPHA).then_some(opaque);
        How { mode: modes_of(shift, reducing)[0], lent: Some(tables), nearest: false, opaque }
    }

    /// Nothing lent.
    pub fn own(mode: Mode, nearest: bool) -> How<'static> {
        How { mode, lent: None, nearest, opaque: None }
    }

    fn rounding(self) -> ColorRounding {
        ColorRounding::from(self.nearest)
    }

    fn run<T>(self, run: impl FnOnce() -> T) -> T {
        match self.lent {
            Some(tables) => with_tables(tables, run),
            None => run(),
        }
    }

    /// The same over a picture, whose candidates are collected first or not at all.
    fn run_over<T>(self, pixels: &[u8], collects: bool, run: impl FnOnce() -> T) -> T {
        self.run(|| match self.opaque {
            Some(opaque) => with_opaque(Opaque::new(colors_of(pixels), colors_of(opaque), collects), run),
            None => run(),
        })
    }
}

fn rgba(bytes: &[u8]) -> Rgba8888 {
    Rgba8888::from_bytes(bytes.try_into().unwrap())
}

fn opaque([r, g, b]: [u8; 3]) -> NormalizedColor {
    NormalizedColor::new(r, g, b, 255)
}

fn oklab(lab: &[f32]) -> Oklab {
    Oklab::new(lab[0], lab[1], lab[2])
}

fn kind_of(kind: u32) -> Dither {
    probe::KINDS[kind as usize]
}

fn bytes_of(colors: &[NormalizedColor]) -> Vec<u8> {
    colors.iter().flat_map(|c| c.to_bytes()).collect()
}

fn colors_of(pixels: &[u8]) -> Vec<NormalizedColor> {
    pixels.chunks_exact(4).map(|p| NormalizedColor(rgba(p))).collect()
}

/// The kinds' numbers in the original's declaration, as document 01 counts them.
pub fn kind_numbers() -> [u32; 11] {
    probe::KINDS.map(probe::number)
}

/// The kinds' names there, in the same order.
pub fn kind_names() -> [String; 11] {
    probe::KINDS.map(|kind| format!("{kind:?}"))
}

pub fn reduce_color(how: How, color: Rgba) -> Rgba {
    how.run(|| how.mode.reduce_color(NormalizedColor(rgba(&color)), how.rounding())).to_bytes()
}

pub fn luma(color: [u8; 3]) -> u8 {
    opaque(color).luma_u8()
}

pub fn to_oklab(color: [u8; 3]) -> Lab {
    let lab = opaque(color).to_oklab();
    [lab.l, lab.a, lab.b]
}

pub fn sqdist(a: Lab, b: Lab) -> f32 {
    oklab_sqdist(oklab(&a), oklab(&b))
}

pub fn threshold(kind: u32, x: u32, y: u32) -> f32 {
    probe::threshold(kind_of(kind), x, y)
}

/// It asks a mode for nothing but its shift.
pub fn bracket_width(shift: u32, max: u64) -> u64 {
    let mode = REDUCTIONS.into_iter().find_map(|reducing| modes_of(shift, reducing).first());
    dither::bracket_width(*mode.expect("a mode has this shift"), max as usize) as u64
}

pub fn lerp(c1: [u8; 3], c2: [u8; 3], color: [u8; 3], clamp: bool) -> f32 {
    dither::lerp(opaque(c1), opaque(c2), opaque(color), clamp)
}

pub fn mix_residual(a: [u8; 3], b: [u8; 3], t: f32, color: [u8; 3]) -> f32 {
    probe::residual(opaque(a), opaque(b), t, opaque(color))
}

pub fn rounded(v: f32) -> u8 {
    probe::rounded(v)
}

/// Records from flat lists whose lengths fit.
fn records(reduced: &[u8], normalized: &[u8], lab: &[f32]) -> Vec<CandidateColor> {
    let pairs = reduced.chunks_exact(4).zip(normalized.chunks_exact(4));
    pairs
        .zip(lab.chunks_exact(3))
        .map(|((r, n), o)| CandidateColor {
            reduced: ReducedColor(rgba(r)),
            normalized: NormalizedColor(rgba(n)),
            oklab: oklab(o),
        })
        .collect()
}

pub fn nearest(reduced: &[u8], normalized: &[u8], lab: &[f32], color: [u8; 3]) -> usize {
    probe::nearest_position(&records(reduced, normalized, lab), opaque(color))
}

pub fn nearest_two(
    reduced: &[u8],
    normalized: &[u8],
    lab: &[f32],
    color: [u8; 3],
    width: u64,
) -> (usize, Option<usize>) {
    probe::nearest_two_positions(opaque(color), &records(reduced, normalized, lab), width as usize)
}

/// What an ordered dither alternates between, and where the two stand in the list.
#[derive(Debug, Clone, Copy)]
pub struct Bracket {
    pub dark: Rgba,
    pub light: Rgba,
    pub ratio: f32,
    pub dark_position: usize,
    pub light_position: usize,
}

/// The positions are asked for over another list (`probe::bracket_positions`), and
/// so held to the answer over this one.
fn bracket_over(list: &[CandidateColor], color: [u8; 3], width: u64) -> Bracket {
    let (dark, light, ratio) = probe::bracket(opaque(color), list, width as usize);
    let (dark_position, light_position, again) = probe::bracket_positions(opaque(color), list, width as usize);
    assert_eq!(again.to_bits(), ratio.to_bits());
    assert_eq!([list[dark_position].reduced, list[light_position].reduced], [dark, light]);
    Bracket { dark: dark.to_bytes(), light: light.to_bytes(), ratio, dark_position, light_position }
}

pub fn ordered_bracket(reduced: &[u8], normalized: &[u8], lab: &[f32], color: [u8; 3], width: u64) -> Bracket {
    bracket_over(&records(reduced, normalized, lab), color, width)
}

/// A list of records that is made once and asked again and again, as the original
/// asks it: answers are records and not positions.
pub struct Records(Vec<CandidateColor>);

impl Records {
    pub fn new(reduced: &[u8], normalized: &[u8], lab: &[f32]) -> Records {
        Records(records(reduced, normalized, lab))
    }

    pub fn nearest(&self, color: [u8; 3]) -> Rgba {
        probe::nearest_record(&self.0, opaque(color)).reduced.to_bytes()
    }

    pub fn nearest_two(&self, color: [u8; 3], width: usize) -> (Rgba, Option<Rgba>) {
        let (a, b) = dither::nearest_two(opaque(color), &self.0, width);
        (a.reduced.to_bytes(), b.map(|b| b.reduced.to_bytes()))
    }

    pub fn ordered_bracket(&self, color: [u8; 3], width: usize) -> (Rgba, Rgba, f32) {
        let (dark, light, ratio) = probe::bracket(opaque(color), &self.0, width);
        (dark.to_bytes(), light.to_bytes(), ratio)
    }
}

pub fn pick(dark: Rgba, light: Rgba, ratio: f32, kind: u32, x: u32, y: u32) -> Rgba {
    let [dark, light] = [dark, light].map(|c| ReducedColor(rgba(&c)));
    probe::pick((dark, light, ratio), kind_of(kind), x, y).to_bytes()
}

fn image_of(width: u32, height: u32, origin: [u32; 2], pixels: &[u8]) -> Image {
    Image {
        width,
        height,
        src_x: origin[0],
        src_y: origin[1],
        data: colors_of(pixels),
        indexed_data: Vec::new(),
        palette: Vec::new(),
        colors: Default::default(),
    }
}

/// The candidates' reduced bytes and their Oklab, one after the other.
pub fn candidate_colors_in(how: How, width: u32, height: u32, pixels: &[u8]) -> (Vec<u8>, Vec<f32>) {
    let image = image_of(width, height, [0, 0], pixels);
    let list = how.run_over(pixels, true, || dither::candidate_colors_in(&image, how.mode, how.rounding()));
    let reduced = list.iter().flat_map(|c| c.reduced.to_bytes()).collect();
    let lab = list.iter().flat_map(|c| [c.oklab.l, c.oklab.a, c.oklab.b]).collect();
    (reduced, lab)
}

/// The cells are the original's, in whole levels: a call's are counts of sixteenths
/// (`cells`).
pub struct Quantized {
    pub indices: Vec<u8>,
    pub out: Vec<u8>,
    pub cells: Vec<f32>,
}

pub fn quantize_pixels(how: How, kind: u32, width: u32, height: u32, palette: &[u8], pixels: &[u8]) -> Quantized {
    let palette: Vec<ReducedColor> = palette.chunks_exact(4).map(|c| ReducedColor(rgba(c))).collect();
    let color_at = |i: usize| {
        hooks::ask(i);
        NormalizedColor(rgba(&pixels[4 * i..4 * i + 4]))
    };
    let draw = || dither::quantize_pixels(how.mode, &palette, width, height, kind_of(kind), how.rounding(), color_at);
    let (indices, out) = how.run_over(pixels, false, draw);
    Quantized { indices, out: bytes_of(&out), cells: take_cells() }
}

/// What `dither_to_mode` is told besides the pixels.
#[derive(Debug, Clone, Copy)]
pub struct Settings {
    pub kind: u32,
    pub width: u32,
    pub height: u32,
    pub origin: [u32; 2],
    pub tile: [u32; 2],
    pub limit: u32,
    pub zero: Option<Rgba>,
}

/// Output pixels and cells as `Quantized` has them, or none where a tile is over its
/// limit.
pub fn dither_to_mode(how: How, settings: &Settings, pixels: &[u8]) -> Option<(Vec<u8>, Vec<f32>)> {
    let image = image_of(settings.width, settings.height, settings.origin, pixels);
    let budget = TileBudget { width: settings.tile[0], height: settings.tile[1], max_colors: settings.limit as usize };
    let zero = settings.zero.map(|c| ReducedColor(rgba(&c)));
    let draw = || dither::dither_to_mode(&image, how.mode, kind_of(settings.kind), how.rounding(), zero, budget);
    let drawn = how.run_over(pixels, true, draw);
    let cells = take_cells();
    drawn.map(|image| (bytes_of(&image.data), cells))
}
