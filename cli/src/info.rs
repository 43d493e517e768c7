//! `info`: what a file holds, and how its tiles stand to the limits.

use std::collections::HashSet;

use badge_dither::pam::Image;
use badge_dither::{Picture, Refusal};

use crate::options::{self, Console, LIMIT, MODE, ROUNDING, TILE};
use crate::passes::USUAL_LIMIT;
use crate::progress::Progress;
use crate::trouble::Trouble;
use crate::words::{Command, Words};
use crate::{FINE, files, passes, refused};

pub const COMMAND: Command = Command {
    name: "info",
    about: "says a picture's size, its colours, and which tiles are over which limit",
    operands: &["IN.pam"],
    options: &[&MODE, &ROUNDING, &TILE, &LIMIT],
    run,
};

/// The limits that are told of where none is given: tiles of two, four and
/// eight bits a pixel.
const USUAL: [u32; 3] = [4, 16, 256];

fn run(words: &Words) -> Result<u8, Trouble> {
    let (console, tile) = (options::console(words)?, options::tile(words)?);
    let limit = options::given_limit(words)?;
    let checked = passes::check_tile(&console, tile, limit.unwrap_or(USUAL_LIMIT));
    checked.map_err(|refusal| Trouble::refused(refusal, &refused::tiles(tile, limit.unwrap_or(USUAL_LIMIT))))?;
    let limits = limit.map_or(USUAL.to_vec(), |limit| vec![limit]);
    let image = files::picture(&words.operands[0])?;
    let progress = Progress::new();
    progress.now("counting colours");
    let lines = lines(&console, tile, &limits, &image)
        .map_err(|refusal| Trouble::refused(refusal, &refused::plain(refusal)))?;
    drop(progress);
    files::print(lines.as_bytes())?;
    Ok(FINE)
}

fn lines(console: &Console, tile: [u32; 2], limits: &[u32], image: &Image) -> Result<String, Refusal> {
    let transparent = passes::transparent(console, image.picture())?;
    let reduced = passes::colors(console, image.picture())?;
    let counts = tile_counts(console, tile, image)?;
    let pixels = count(image.pixels.len() / 4, "pixel");
    let mut text = line("size", &format!("{}x{}, {pixels}", image.width, image.height));
    text += &line("transparent", &count(transparent.iter().filter(|clear| **clear).count(), "pixel"));
    let full = full_colors(image, &transparent);
    text += &line("colours", &format!("{full}, and {reduced} in mode {}", console.mode.name));
    text += &line(&format!("tiles of {}x{}", tile[0], tile[1]), &fullest(&counts, image.width, tile));
    for &limit in limits {
        text += &line(&format!("over {limit} colours"), &over(&counts, limit));
    }
    Ok(text)
}

fn line(name: &str, said: &str) -> String {
    format!("{name:<20}{said}\n")
}

fn count(number: usize, what: &str) -> String {
    format!("{number} {what}{}", if number == 1 { "" } else { "s" })
}

/// How many different colours there are before reduction, transparent pixels
/// left out.
fn full_colors(image: &Image, transparent: &[bool]) -> usize {
    let opaque = image.pixels.chunks_exact(4).zip(transparent).filter(|(_, clear)| !**clear);
    opaque.map(|(pixel, _)| [pixel[0], pixel[1], pixel[2]]).collect::<HashSet<_>>().len()
}

/// The number of different reduced colours of each tile, row by row.
fn tile_counts(console: &Console, [width, height]: [u32; 2], image: &Image) -> Result<Vec<usize>, Refusal> {
    let corners = (0..image.height).step_by(height as usize);
    let corners = corners.flat_map(|y| (0..image.width).step_by(width as usize).map(move |x| [x, y]));
    let colors = |[x, y]: [u32; 2]| {
        let (width, height) = (width.min(image.width - x), height.min(image.height - y));
        let pixels = cut(image, [x, y], [width, height]);
        passes::colors(console, Picture { width, height, pixels: &pixels })
    };
    corners.map(colors).collect()
}

/// The pixels of a part.
fn cut(image: &Image, [x, y]: [u32; 2], [width, height]: [u32; 2]) -> Vec<u8> {
    let row = |row: u32| {
        let start = 4 * (row as usize * image.width as usize + x as usize);
        &image.pixels[start..start + 4 * width as usize]
    };
    (y..y + height).map(row).collect::<Vec<_>>().concat()
}

/// How many tiles there are, and the first of those that have most colours.
fn fullest(counts: &[usize], picture: u32, [width, _]: [u32; 2]) -> String {
    let most = counts.iter().copied().max().unwrap_or(0);
    let tile = counts.iter().position(|&count| count == most).unwrap_or(0);
    let [column, row] = refused::place(tile as u32, picture, width);
    format!("{}; most in tile {tile} (column {column}, row {row}): {}", counts.len(), count(most, "colour"))
}

/// The tiles that have more colours than a limit, as ranges.
fn over(counts: &[usize], limit: u32) -> String {
    let tiles: Vec<usize> = (0..counts.len()).filter(|&tile| counts[tile] > limit as usize).collect();
    if tiles.is_empty() {
        return "no tile".into();
    }
    format!("{}: {}", count(tiles.len(), "tile"), ranges(&tiles))
}

/// Rising numbers, each run of neighbours as one range.
fn ranges(numbers: &[usize]) -> String {
    let runs = numbers.chunk_by(|a, b| a + 1 == *b);
    let texts = runs.map(|run| match run {
        [one] => one.to_string(),
        [first, .., last] => format!("{first}-{last}"),
        [] => unreachable!("a run has a number"),
    });
    texts.collect::<Vec<_>>().join(", ")
}
