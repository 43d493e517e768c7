//! A canvas of three bytes a pixel: rectangles, lines, dots, text, and small
//! pictures enlarged. Only sums, products and square roots are taken, so that a
//! drawing is the same everywhere.

use crate::{font, png};

pub type Color = [u8; 3];

pub const WHITE: Color = [255; 3];

/// A place, in pixels from the upper left corner.
pub type Point = [f32; 2];

/// Where a text stands beside its place.
#[derive(Clone, Copy)]
pub enum Side {
    Left,
    Middle,
    Right,
}

pub struct Canvas {
    width: usize,
    height: usize,
    rgb: Vec<u8>,
}

impl Canvas {
    pub fn new(width: usize, height: usize, ground: Color) -> Canvas {
        Canvas { width, height, rgb: ground.repeat(width * height) }
    }

    pub fn size(&self) -> [usize; 2] {
        [self.width, self.height]
    }

    /// Three bytes a pixel, row by row.
    pub fn rgb(&self) -> &[u8] {
        &self.rgb
    }

    pub fn png(&self) -> Vec<u8> {
        png::encode(self.width as u32, self.height as u32, 3, &self.rgb)
    }

    /// Lays `color` over a pixel, `cover` (0 to 1) of it. What is outside the
    /// canvas is dropped.
    fn blend(&mut self, x: usize, y: usize, color: Color, cover: f32) {
        if x < self.width && y < self.height {
            let pixel = &mut self.rgb[3 * (y * self.width + x)..][..3];
            for (old, new) in pixel.iter_mut().zip(color) {
                *old = (f32::from(*old) * (1.0 - cover) + f32::from(new) * cover + 0.5) as u8;
            }
        }
    }

    /// A rectangle, as far as it is on the canvas.
    pub fn fill(&mut self, [x, y]: [usize; 2], [width, height]: [usize; 2], color: Color) {
        let [left, right] = [x, x + width].map(|x| x.min(self.width));
        let [top, bottom] = [y, y + height].map(|y| y.min(self.height));
        for row in top..bottom {
            let row = &mut self.rgb[3 * row * self.width..][3 * left..3 * right];
            row.as_chunks_mut().0.fill(color);
        }
    }

    /// The outline of a rectangle, as far as it is on the canvas: it lies just
    /// outside and is `thickness` wide.
    pub fn frame(&mut self, [x, y]: [usize; 2], [width, height]: [usize; 2], thickness: usize, color: Color) {
        let [left, top] = [x, y].map(|edge| edge.saturating_sub(thickness));
        let across = x + width + thickness - left;
        self.fill([left, top], [across, y - top], color);
        self.fill([left, y], [x - left, height], color);
        self.fill([x + width, y], [thickness, height], color);
        self.fill([left, y + height], [across, thickness], color);
    }

    /// A line with round ends and smooth edges.
    pub fn line(&mut self, from: Point, to: Point, thickness: f32, color: Color) {
        let [dx, dy] = [to[0] - from[0], to[1] - from[1]];
        let square = dx * dx + dy * dy;
        let edge = thickness / 2.0 + 1.0;
        let range = |k: usize| {
            let (low, high) = (from[k].min(to[k]) - edge, from[k].max(to[k]) + edge);
            low.max(0.0) as usize..high.max(0.0) as usize + 1
        };
        for y in range(1) {
            for x in range(0) {
                let [px, py] = [x as f32 + 0.5 - from[0], y as f32 + 0.5 - from[1]];
                let along = if square > 0.0 { ((px * dx + py * dy) / square).clamp(0.0, 1.0) } else { 0.0 };
                let [ex, ey] = [px - along * dx, py - along * dy];
                let cover = thickness / 2.0 + 0.5 - (ex * ex + ey * ey).sqrt();
                self.blend(x, y, color, cover.clamp(0.0, 1.0));
            }
        }
    }

    /// A line of dashes, with gaps about as long.
    pub fn dashes(&mut self, from: Point, to: Point, thickness: f32, color: Color) {
        const DASH: f32 = 4.0;
        let [dx, dy] = [to[0] - from[0], to[1] - from[1]];
        let pieces = ((dx * dx + dy * dy).sqrt() / DASH) as usize / 2 * 2 + 1;
        let at = |k: usize| [0, 1].map(|c| from[c] + [dx, dy][c] * k as f32 / pieces as f32);
        (0..pieces).step_by(2).for_each(|k| self.line(at(k), at(k + 1), thickness, color));
    }

    pub fn dot(&mut self, at: Point, across: f32, color: Color) {
        self.line(at, at, across, color);
    }

    /// A text whose upper edge is at `y`, each of its pixels `times` as large.
    pub fn text(&mut self, [x, y]: [usize; 2], side: Side, times: usize, color: Color, text: &str) {
        let width = times * font::width(text);
        let mut left = match side {
            Side::Right => x,
            Side::Middle => x.saturating_sub(width / 2),
            Side::Left => x.saturating_sub(width),
        };
        for sign in text.chars() {
            let rows = font::glyph(sign);
            for (row, top) in rows.iter().zip((y..).step_by(times)) {
                let inked = row.iter().enumerate().filter(|(_, dot)| **dot == b'#');
                inked.for_each(|(k, _)| self.fill([left + times * k, top], [times; 2], color));
            }
            left += times * (rows[0].len() + 1);
        }
    }

    /// A picture of four bytes a pixel, each pixel `times` as large. Where alpha
    /// is below 128, what is behind shows.
    pub fn picture(&mut self, [x, y]: [usize; 2], times: usize, width: usize, pixels: &[u8]) {
        for (i, &[red, green, blue, alpha]) in pixels.as_chunks().0.iter().enumerate() {
            if alpha >= 128 {
                let at = [x + times * (i % width), y + times * (i / width)];
                self.fill(at, [times; 2], [red, green, blue]);
            }
        }
    }
}

#[cfg(test)]
mod tests {
    use super::*;

    const INK: Color = [0; 3];

    /// A canvas of 6x5 pixels, drawn upon, with `#` for ink and `.` for ground.
    fn shown(draw: impl FnOnce(&mut Canvas)) -> String {
        let mut canvas = Canvas::new(6, 5, WHITE);
        draw(&mut canvas);
        assert_eq!((canvas.size(), canvas.rgb().len()), ([6, 5], 90));
        let sign = |pixel: &[u8; 3]| if *pixel == INK { '#' } else { '.' };
        let row = |row: &[u8]| row.as_chunks().0.iter().map(sign).collect::<String>();
        canvas.rgb().chunks_exact(18).map(row).collect::<Vec<_>>().join(" ")
    }

    #[test]
    fn rectangles_end_at_the_edges() {
        assert_eq!(shown(|c| c.fill([1, 1], [2, 3], INK)), "...... .##... .##... .##... ......");
        assert_eq!(shown(|c| c.fill([4, 3], [9, 9], INK)), "...... ...... ...... ....## ....##");
        assert_eq!(shown(|c| c.fill([7, 1], [1, 1], INK)), "...... ...... ...... ...... ......");
        assert_eq!(shown(|c| c.fill([1, 6], [1, 1], INK)), "...... ...... ...... ...... ......");
    }

    #[test]
    fn frames_lie_outside() {
        assert_eq!(shown(|c| c.frame([2, 2], [2, 1], 1, INK)), "...... .####. .#..#. .####. ......");
        assert_eq!(shown(|c| c.frame([1, 2], [2, 1], 2, INK)), "#####. #####. #..##. #####. #####.");
        assert_eq!(shown(|c| c.frame([0, 0], [3, 2], 1, INK)), "...#.. ...#.. ####.. ...... ......");
        assert_eq!(shown(|c| c.frame([3, 3], [3, 2], 2, INK)), "...... .##### .##### .##... .##...");
        assert_eq!(shown(|c| c.frame([0, 0], [6, 5], 3, INK)), "...... ...... ...... ...... ......");
    }

    #[test]
    fn what_is_behind_shows_through() {
        let pixels = [[0, 0, 0, 128], [0, 0, 0, 127], [0, 0, 0, 0], [0, 0, 0, 255]].concat();
        assert_eq!(shown(|c| c.picture([1, 0], 2, 2, &pixels)), ".##... .##... ...##. ...##. ......");
    }

    #[test]
    fn texts_stand_beside_their_place() {
        assert_eq!(shown(|c| c.text([2, 0], Side::Right, 1, INK, "'")), "..#... ..#... ...... ...... ......");
        assert_eq!(shown(|c| c.text([5, 0], Side::Left, 1, INK, "i'")), "..#.#. ....#. ..#... ..#... ..#...");
        assert_eq!(shown(|c| c.text([4, 0], Side::Middle, 2, INK, "'")), "...##. ...##. ...##. ...##. ......");
    }
}
