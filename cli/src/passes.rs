//! The library's calls, with the buffers that they are lent.

use badge_dither::pam::Image;
use badge_dither::{Output, Picture, ReducedColor, Reducing, Refusal, Rooms, Settings, Tables, kind};

use crate::names;
use crate::options::Console;
use crate::tables::ModeTables;

/// The limit that is taken where none is given.
pub const USUAL_LIMIT: u32 = 16;

/// What the mode pass is asked for, beside the picture.
#[derive(Clone, Copy)]
pub struct Frame {
    pub origin: [u32; 2],
    pub tile: [u32; 2],
    pub limit: u32,
    pub zero: Option<ReducedColor>,
}

fn lent(tables: &ModeTables) -> Tables<'_> {
    Tables { reduction: &tables.reduction, scale: &tables.scale }
}

/// The opaque pixels of a picture, as the original has them; its mode may need
/// none.
fn opaque(console: &Console, picture: Picture) -> Vec<u8> {
    match console.mode.reducing {
        names::Reducing::ByAlpha => Vec::new(),
        _ => badge_dither::opaque_threshold(picture.pixels),
    }
}

fn reducing<'a>(console: &Console, opaque: &'a [u8]) -> Reducing<'a> {
    match console.mode.reducing {
        names::Reducing::ByAlpha => Reducing::ByAlpha,
        names::Reducing::Grey => Reducing::Grey(opaque),
        names::Reducing::OpaqueColor => Reducing::OpaqueColor(opaque),
    }
}

/// Rooms for as many candidates as a picture can have: no more than it has
/// pixels, and no more than a mode has colours.
struct Places {
    places: Vec<u8>,
    oklab: Vec<f32>,
}

impl Places {
    fn new(shift: u32, picture: Picture) -> Places {
        let count = (picture.pixels.len() / 4).min(1 << (3 * (8 - shift)));
        Places { places: vec![0; 4 * count], oklab: vec![0.0; 3 * count] }
    }

    fn rooms(&mut self) -> Rooms<'_> {
        Rooms { places: &mut self.places, oklab: &mut self.oklab }
    }
}

fn cells(kind: u32, count: usize) -> Vec<i16> {
    vec![0; if kind::is_diffusion(kind) { 3 * count } else { 0 }]
}

fn drawn_into(picture: Picture, pixels: Vec<u8>) -> Image {
    Image { width: picture.width, height: picture.height, pixels }
}

/// The mode pass.
pub fn draw(console: &Console, kind: u32, frame: &Frame, picture: Picture) -> Result<Image, Refusal> {
    let opaque = opaque(console, picture);
    let settings = Settings {
        shift: console.mode.shift,
        reducing: reducing(console, &opaque),
        kind,
        origin: frame.origin,
        tile: frame.tile,
        limit: frame.limit,
        color_zero: frame.zero,
    };
    let mut places = Places::new(settings.shift, picture);
    let (mut out, mut cells) = (vec![0; picture.pixels.len()], cells(kind, picture.pixels.len() / 4));
    let output = Output { out: &mut out, cells: &mut cells };
    badge_dither::dither_to_mode(settings, picture, lent(&console.tables), places.rooms(), output)?;
    Ok(drawn_into(picture, out))
}

/// The palette's pass: the drawn picture, and an index a pixel.
pub fn quantize(console: &Console, kind: u32, palette: &[u8], picture: Picture) -> Result<(Image, Vec<u8>), Refusal> {
    let count = picture.pixels.len() / 4;
    let (mut indices, mut out, mut cells) = (vec![0; count], vec![0; 4 * count], cells(kind, count));
    let output = Output { out: &mut out, cells: &mut cells };
    let (opaque, tables) = (opaque(console, picture), lent(&console.tables));
    let (shift, reducing) = (console.mode.shift, reducing(console, &opaque));
    badge_dither::quantize_pixels(shift, reducing, kind, picture, tables, palette, &mut indices, output)?;
    Ok((drawn_into(picture, out), indices))
}

/// Which pixels are transparent: those to which the palette's pass gives no
/// entry, and so no alpha.
pub fn transparent(console: &Console, picture: Picture) -> Result<Vec<bool>, Refusal> {
    let (drawn, _) = quantize(console, kind::OFF, &[0, 0, 0, 255], picture)?;
    Ok(drawn.pixels.chunks_exact(4).map(|pixel| pixel[3] == 0).collect())
}

fn candidates(console: &Console, picture: Picture, rooms: Rooms) -> Result<usize, Refusal> {
    let opaque = opaque(console, picture);
    let (shift, reducing) = (console.mode.shift, reducing(console, &opaque));
    badge_dither::candidate_colors_in(shift, reducing, picture, lent(&console.tables), rooms)
}

/// How many different reduced colours a picture has, transparent pixels left
/// out.
pub fn colors(console: &Console, picture: Picture) -> Result<usize, Refusal> {
    candidates(console, picture, Places::new(console.mode.shift, picture).rooms())
}

/// A colour as the mode reduces it: the one candidate of a picture that has it
/// as its one pixel.
pub fn reduced(console: &Console, color: &[u8]) -> Result<ReducedColor, Refusal> {
    let picture = Picture { width: 1, height: 1, pixels: color };
    let (mut place, mut oklab) = ([0; 4], [0.0; 3]);
    candidates(console, picture, Rooms { places: &mut place, oklab: &mut oklab })?;
    // A transparent pixel gives no candidate, and the place stays as it was.
    Ok(ReducedColor(place))
}

/// A palette of a file's pixels, row by row. Of those that are too many one is
/// kept, for the library to refuse.
pub fn palette(console: &Console, file: &Image) -> Result<Vec<u8>, Refusal> {
    let entries = file.pixels.chunks_exact(4).take(257).map(|color| reduced(console, color).map(|entry| entry.0));
    Ok(entries.collect::<Result<Vec<_>, _>>()?.concat())
}

/// Asks the library whether a tile and a limit are within their bounds.
pub fn check_tile(console: &Console, tile: [u32; 2], limit: u32) -> Result<(), Refusal> {
    let frame = Frame { origin: [0; 2], tile, limit, zero: None };
    draw(console, kind::OFF, &frame, Picture { width: 0, height: 0, pixels: &[] }).map(|_| ())
}
