//! What the hooked copy of the original asks for on this thread: the lent
//! tables, the lent opaque pixels, and a place for the error cells that a picture
//! leaves, in f32 as the original has them.

use std::cell::RefCell;

use crate::color::NormalizedColor;

/// The two tables that a caller lends.
#[derive(Clone, PartialEq, Eq)]
pub struct Tables {
    pub reduction: [u8; 256],
    pub scale: [u8; 256],
}

/// What a caller lends as the results of `opaque_threshold`, pixel by pixel.
///
/// The original asks for a colour's result and not for a pixel's, and pixels of one
/// colour may be lent different ones. So it is followed here which pixel it is at.
/// First, where it collects candidates, it reduces all pixels in their order; and
/// before it reduces a pixel to draw it, it asks for the pixel by its number. A colour
/// that is not the pixel's, or another turn of these, ends the run.
pub struct Opaque {
    pixels: Vec<NormalizedColor>,
    lent: Vec<NormalizedColor>,
    /// How many pixels are reduced in their order, and how many have been.
    collecting: usize,
    collected: usize,
    /// The pixel that was asked for and is not reduced yet.
    asked: Option<usize>,
}

impl Opaque {
    /// Both buffers as the original has them; `collects` where it goes through all
    /// pixels before it draws.
    pub fn new(pixels: Vec<NormalizedColor>, lent: Vec<NormalizedColor>, collects: bool) -> Opaque {
        assert_eq!(pixels.len(), lent.len(), "as many opaque pixels as pixels");
        Opaque { collecting: if collects { pixels.len() } else { 0 }, collected: 0, asked: None, pixels, lent }
    }

    fn ask(&mut self, pixel: usize) {
        let before = self.asked.replace(pixel);
        assert!(before.is_none(), "pixel {pixel} is asked for before pixel {before:?} is reduced");
        assert_eq!(self.collected, self.collecting, "pixel {pixel} is asked for before all are collected");
    }

    /// The result that is lent for the pixel that is reduced now.
    fn answer(&mut self, color: NormalizedColor) -> NormalizedColor {
        let pixel = self.asked.take().unwrap_or_else(|| {
            assert!(self.collected < self.collecting, "a pixel is reduced that was not asked for");
            self.collected += 1;
            self.collected - 1
        });
        assert_eq!(self.pixels[pixel], color, "this is not the colour of pixel {pixel}");
        self.lent[pixel]
    }

    /// Whether all pixels were collected, and each that was asked for was reduced.
    fn check_ended(&self) {
        assert_eq!(self.collected, self.collecting, "the run ends before all pixels are collected");
        assert_eq!(self.asked, None, "the run ends before a pixel is reduced that was asked for");
    }
}

thread_local! {
    static LENT: RefCell<Option<Tables>> = const { RefCell::new(None) };
    static OPAQUE: RefCell<Option<Opaque>> = const { RefCell::new(None) };
    static CELLS: RefCell<Vec<[f32; 3]>> = const { RefCell::new(Vec::new()) };
}

/// Runs the original with `tables` in place of its own.
pub fn with_tables<T>(tables: &Tables, run: impl FnOnce() -> T) -> T {
    LENT.replace(Some(tables.clone()));
    let result = run();
    LENT.take();
    result
}

pub fn lent_reduction(value: u8) -> Option<u8> {
    LENT.with_borrow(|lent| lent.as_ref().map(|t| t.reduction[usize::from(value)]))
}

pub fn lent_scale(value: u8) -> Option<u8> {
    LENT.with_borrow(|lent| lent.as_ref().map(|t| t.scale[usize::from(value)]))
}

/// Runs the original over a picture with lent opaque pixels in place of its own. It is
/// to reduce pixels by these: one that does so by alpha asks for none, and ends the run.
pub fn with_opaque<T>(opaque: Opaque, run: impl FnOnce() -> T) -> T {
    OPAQUE.replace(Some(opaque));
    let result = run();
    OPAQUE.take().expect("nothing else ends it").check_ended();
    result
}

/// Called where the original asks for a pixel by its number.
pub fn ask(pixel: usize) {
    OPAQUE.with_borrow_mut(|opaque| opaque.iter_mut().for_each(|opaque| opaque.ask(pixel)));
}

/// Called where the original asks for `opaque_threshold` of a colour.
pub fn lent_opaque(color: NormalizedColor) -> Option<NormalizedColor> {
    OPAQUE.with_borrow_mut(|opaque| opaque.as_mut().map(|opaque| opaque.answer(color)))
}

/// Called where a `Ditherer` ends.
pub fn keep_cells(cells: Vec<[f32; 3]>) {
    CELLS.replace(cells);
}

/// The cells of the last picture that the original drew.
pub fn take_cells() -> Vec<f32> {
    CELLS.take().into_flattened()
}
