
// Appended to the copy of the picture type that stands in: it tells which pixel
// the original asks for, since that one is reduced next.

impl Image {
    pub fn color_at(&self, index: usize) -> NormalizedColor {
        crate::hooks::ask(index);
        self.original_color_at(index)
    }
}
