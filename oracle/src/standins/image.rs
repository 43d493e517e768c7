// Stand-in for the original's picture: the fields and the two functions that
// dithering uses. The set of a picture's colours is not ported, so it stays
// empty here; the original is then measured without that work.

use std::collections::BTreeSet;

use crate::color::NormalizedColor;

#[derive(Debug, Clone)]
pub struct Image {
    pub width: u32,
    pub height: u32,
    pub src_x: u32,
    pub src_y: u32,
    pub data: Vec<NormalizedColor>,
    pub indexed_data: Vec<u8>,
    pub palette: Vec<NormalizedColor>,
    pub colors: BTreeSet<NormalizedColor>,
}

impl Image {
    pub fn color_at(&self, index: usize) -> NormalizedColor {
        self.data[index]
    }
}

pub fn colors_in(_data: &[NormalizedColor]) -> BTreeSet<NormalizedColor> {
    BTreeSet::new()
}
