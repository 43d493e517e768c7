//! A labelled sheet: the source and each drawing of it, enlarged, in rows.

use badge_dither::pam::Image;
use sheet::canvas::{Canvas, Color, Side, WHITE};

/// A drawing, its caption, and the first tile over its limit with the tiles'
/// sides, if there is one.
pub struct Panel {
    pub caption: &'static str,
    pub drawn: Image,
    pub over: Option<(u32, [u32; 2])>,
}

const INK: Color = [40, 42, 54];
const MARK: Color = [220, 30, 50];
/// Panels side by side: the source and nine kinds fill two rows.
const ACROSS: usize = 5;
/// The space between panels, and a caption's line.
const GAP: usize = 10;
const LINE: usize = 22;
/// A small picture is enlarged up to this many pixels along its longer side,
/// and a panel is as wide as its caption needs.
const LARGE: usize = 256;
const NARROWEST: usize = 190;

/// Where the panels stand, how much each pixel is enlarged, and how high the
/// captions are.
struct Layout {
    times: usize,
    panel: [usize; 2],
    caption: usize,
}

impl Layout {
    fn of(image: &Image, panels: &[Panel]) -> Layout {
        let (width, height) = (image.width as usize, image.height as usize);
        let times = (LARGE / width.max(height)).max(1);
        let lines = if panels.iter().any(|panel| panel.over.is_some()) { 2 } else { 1 };
        Layout { times, panel: [(times * width).max(NARROWEST), times * height], caption: 6 + lines * LINE }
    }

    fn canvas(&self, count: usize) -> Canvas {
        let [width, height] = self.panel;
        let rows = count.div_ceil(ACROSS);
        Canvas::new(ACROSS * (width + GAP) + GAP, rows * (height + self.caption) + GAP, WHITE)
    }

    fn at(&self, place: usize) -> [usize; 2] {
        let [width, height] = self.panel;
        [GAP + place % ACROSS * (width + GAP), GAP + place / ACROSS * (height + self.caption)]
    }

    fn put(&self, canvas: &mut Canvas, place: usize, panel: &Panel) {
        let [x, y] = self.at(place);
        let width = panel.drawn.width as usize;
        let left = x + (self.panel[0] - self.times * width) / 2;
        canvas.picture([left, y], self.times, width, &panel.drawn.pixels);
        let [middle, under] = [x + self.panel[0] / 2, y + self.panel[1] + 6];
        canvas.text([middle, under], Side::Middle, 2, INK, panel.caption);
        if let Some((tile, sides)) = panel.over {
            self.mark(canvas, [left, y], &panel.drawn, tile, sides);
            canvas.text([middle, under + LINE], Side::Middle, 2, MARK, &format!("8: tile {tile}"));
        }
    }

    /// A frame around a tile.
    fn mark(&self, canvas: &mut Canvas, [x, y]: [usize; 2], drawn: &Image, tile: u32, sides: [u32; 2]) {
        let [column, row] = crate::refused::place(tile, drawn.width, sides[0]);
        let from = [column * sides[0], row * sides[1]];
        let size = [sides[0].min(drawn.width - from[0]), sides[1].min(drawn.height - from[1])];
        let at = [x + self.times * from[0] as usize, y + self.times * from[1] as usize];
        canvas.frame(at, size.map(|side| self.times * side as usize), 2, MARK);
    }
}

/// The source first, then the panels.
pub fn sheet(source: Image, panels: Vec<Panel>) -> Image {
    let layout = Layout::of(&source, &panels);
    let mut canvas = layout.canvas(1 + panels.len());
    layout.put(&mut canvas, 0, &Panel { caption: "Source", drawn: source, over: None });
    panels.iter().enumerate().for_each(|(place, panel)| layout.put(&mut canvas, place + 1, panel));
    let [width, height] = canvas.size().map(|side| side as u32);
    let pixels = canvas.rgb().chunks_exact(3).flat_map(|rgb| [rgb[0], rgb[1], rgb[2], 255]).collect();
    Image { width, height, pixels }
}
