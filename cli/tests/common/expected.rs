//! What has to come out, by the library called directly with the tables that
//! the README has as formulas.

use badge_dither::pam::Image;
use badge_dither::{Output, Reducing, Rooms, Settings, Tables, dither_to_mode, kind, quantize_pixels};

#[derive(Clone, Copy)]
pub struct Mode {
    pub name: &'static str,
    pub shift: u32,
    pub reduction: &'static str,
}

/// The modes with their shifts and reductions, as the README has them.
pub fn modes() -> impl Iterator<Item = Mode> {
    let lists = [
        ("snes snes-mode7 gbc gba gba-affine", 3, "by alpha"),
        ("gg ngpc wsc wsc-packed", 4, "by alpha"),
        ("md pce pce-sprite", 5, "by alpha"),
        ("ngp ws", 5, "grey"),
        ("gb", 6, "grey"),
        ("sms", 6, "opaque colour"),
    ];
    lists
        .into_iter()
        .flat_map(|(names, shift, reduction)| names.split(' ').map(move |name| Mode { name, shift, reduction }))
}

/// The modes that have no transparent pixels.
pub const WITHOUT_ALPHA: [&str; 4] = ["ngp", "ws", "gb", "sms"];

/// The kinds that are drawn, by number.
pub const DRAWN: [u32; 9] = [0, 1, 2, 3, 4, 7, 8, 9, 10];

/// Pixels with alpha below 128 as four zeros.
fn opaque(pixels: &[u8]) -> Vec<u8> {
    pixels.chunks(4).flat_map(|pixel| if pixel[3] < 128 { &[0; 4] } else { pixel }).copied().collect()
}

/// The luma of a colour, in the original's steps.
fn luma(r: u8, g: u8, b: u8) -> u8 {
    let [r, g, b] = [r, g, b].map(|v| f32::from(v) / 255.0);
    ((r * 0.2126 + g * 0.7152 + b * 0.0722) * 255.0).clamp(0.0, 255.0) as u8
}

pub struct Console {
    mode: Mode,
    reduction: Vec<u8>,
    scale: Vec<u8>,
}

impl Console {
    pub fn new(mode: Mode, rounding: &str) -> Console {
        let most = [31, 15, 7, 3][mode.shift as usize - 3];
        let reduced = |v: u32| if rounding == "nearest" { (most * v + 127) / 255 } else { v >> mode.shift };
        let scaled = |v: u32| match mode.shift {
            3 => v << 3 | v >> 2,
            4 => v << 4 | v,
            5 => v << 5 | v << 2 | v >> 1 | v >> 4,
            _ => v << 6 | v << 4 | v << 2 | v,
        };
        let table = |entry: &dyn Fn(u32) -> u32| (0..256).map(|v| entry(v) as u8).collect();
        Console { mode, reduction: table(&reduced), scale: table(&scaled) }
    }

    fn tables(&self) -> Tables<'_> {
        Tables { reduction: &self.reduction, scale: &self.scale }
    }

    fn reducing<'a>(&self, opaque: &'a [u8]) -> Reducing<'a> {
        match self.mode.reduction {
            "grey" => Reducing::Grey(opaque),
            "opaque colour" => Reducing::OpaqueColor(opaque),
            _ => Reducing::ByAlpha,
        }
    }

    /// A colour of full precision as the mode reduces it.
    fn reduced(&self, color: &[u8]) -> [u8; 4] {
        let through = |v: u8| self.reduction[usize::from(v)];
        let opaque = opaque(color);
        let [r, g, b] = match self.mode.reduction {
            "by alpha" if color[3] < 128 => return [0; 4],
            "grey" => [luma(opaque[0], opaque[1], opaque[2]); 3],
            _ => [opaque[0], opaque[1], opaque[2]],
        };
        [through(r), through(g), through(b), 255]
    }

    /// The mode pass: the pixels drawn. Shift and reduction are the mode's.
    pub fn drawn(&self, settings: Settings, image: &Image) -> Vec<u8> {
        let opaque = opaque(&image.pixels);
        let settings = Settings { shift: self.mode.shift, reducing: self.reducing(&opaque), ..settings };
        let (mut out, mut cells) = (image.pixels.clone(), cells(settings.kind, image));
        let (mut places, mut oklab) = (vec![0; 4 << 15], vec![0.0; 3 << 15]);
        let rooms = Rooms { places: &mut places, oklab: &mut oklab };
        let output = Output { out: &mut out, cells: &mut cells };
        dither_to_mode(settings, image.picture(), self.tables(), rooms, output).expect("no tile that is over");
        out
    }

    /// The palette's pass over a palette in full precision: the pixels drawn,
    /// and the indices.
    pub fn quantized(&self, kind: u32, palette: &Image, image: &Image) -> (Vec<u8>, Vec<u8>) {
        let palette: Vec<u8> = palette.pixels.chunks(4).flat_map(|color| self.reduced(color)).collect();
        let (mut out, mut cells) = (image.pixels.clone(), cells(kind, image));
        let (mut indices, opaque) = (vec![0; out.len() / 4], opaque(&image.pixels));
        let output = Output { out: &mut out, cells: &mut cells };
        let (shift, reducing, tables) = (self.mode.shift, self.reducing(&opaque), self.tables());
        quantize_pixels(shift, reducing, kind, image.picture(), tables, &palette, &mut indices, output).unwrap();
        (out, indices)
    }
}

fn cells(kind: u32, image: &Image) -> Vec<i16> {
    vec![0; if kind::is_diffusion(kind) { image.pixels.len() / 4 * 3 } else { 0 }]
}
