//! Luma over all 2^24 colours: what is known of it, held to the original and to the
//! model, and pictures in which a port shows its own of each colour.

use crate::case::{Candidates, Case, ToMode};
use crate::examples::greys::{DARKER, kept};
use crate::model::{self, GREY};
use crate::original;

fn color(number: u32) -> [u8; 3] {
    let [_, r, g, b] = number.to_be_bytes();
    [r, g, b]
}

/// The original's, by the number that a colour's bytes are.
pub fn all() -> Vec<u8> {
    (0..1 << 24).map(|number| original::luma(color(number))).collect()
}

/// What does not hold: that the model gives the same, that luma grows with each channel
/// or stays, that black has 0 and white 255, and of which greys it is their level.
pub fn wrong(lumas: &[u8]) -> Vec<String> {
    let mut wrong = Vec::new();
    for (number, &luma) in (0..).zip(lumas) {
        let [r, g, b] = color(number);
        if model::luma([r, g, b]) != luma {
            wrong.push(format!("the model has another luma of {r} {g} {b} than {luma}"));
        }
        for (channel, step) in [(r, 1 << 16), (g, 1 << 8), (b, 1)] {
            if channel < 255 && lumas[(number + step) as usize] < luma {
                wrong.push(format!("luma falls from {r} {g} {b}, by {step} in its number"));
            }
        }
    }
    if [lumas[0], lumas[0xff_ffff]] != [0, 255] {
        wrong.push(format!("black has {} and white {}", lumas[0], lumas[0xff_ffff]));
    }
    let darker = (0..=255).filter(|&k| lumas[usize::from(k) * 0x01_0101] != k);
    if !darker.clone().eq(DARKER) || DARKER.iter().any(|&k| lumas[usize::from(k) * 0x01_0101] != k - 1) {
        wrong.push(format!("these greys have not their level: {:?}", darker.collect::<Vec<u8>>()));
    }
    wrong
}

/// A picture's width, and the colours of each luma in whole rows of that, of any alpha:
/// the last one is repeated.
const WIDTH: u32 = 256;

pub fn pictures(lumas: &[u8]) -> Vec<Vec<u8>> {
    let mut pictures = vec![Vec::new(); 256];
    for (number, &luma) in (0..).zip(lumas) {
        let [r, g, b] = color(number);
        pictures[usize::from(luma)].extend([r, g, b, r ^ g ^ b]);
    }
    for picture in &mut pictures {
        let last: Vec<u8> = picture[picture.len() - 4..].to_vec();
        let length = picture.len().next_multiple_of(4 * WIDTH as usize);
        picture.extend(last.iter().cycle().take(length - picture.len()));
    }
    pictures
}

/// Calls that show the luma of all opaque pixels of such a picture. By tables that keep
/// every byte it has one candidate if it is the same of each, and has to have that one;
/// and each pixel is colour zero, which stays. The pixels themselves are of other
/// colours, and of any alpha.
pub fn cases(luma: u8, opaque: &[u8]) -> [Case; 2] {
    let collect = Candidates {
        shift: 5,
        reducing: GREY,
        width: WIDTH,
        height: opaque.len() as u32 / 4 / WIDTH,
        tables: (&kept()).into(),
        pixels: opaque.iter().map(|v| !v).collect(),
        opaque: opaque.to_vec(),
        places: vec![0xee; 4],
        oklab: vec![7.5; 3],
    };
    let Candidates { reducing, width, height, tables, pixels, opaque, places, oklab, .. } = collect.clone();
    let draw = ToMode {
        shift: 6,
        reducing,
        kind: model::OFF,
        width,
        height,
        origin: [0, 0],
        tile: [4096, 4096],
        limit: 1,
        has_zero: 1,
        zero: [luma, luma, luma, 0],
        tables,
        out: vec![0xed; pixels.len()],
        cells: vec![],
        pixels,
        opaque,
        places,
        oklab,
    };
    [Case::CandidateColorsIn(collect), Case::DitherToMode(draw)]
}
