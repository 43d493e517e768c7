
// Appended to the copy of src/dither.rs: ways to its private functions, and to
// the error cells that a whole picture leaves.

/// The cells are a local of the calls for whole pictures; they are handed over
/// where it goes out of scope.
impl Drop for Ditherer {
    fn drop(&mut self) {
        crate::hooks::keep_cells(std::mem::take(&mut self.error));
    }
}

pub(crate) mod probe {
    use super::*;

    /// The kinds in the original's order.
    pub const KINDS: [Dither; 11] = [
        Dither::Off,
        Dither::Bayer2x2,
        Dither::Bayer4x4,
        Dither::Bayer8x8,
        Dither::Checker,
        Dither::StippleV,
        Dither::StippleH,
        Dither::LineV,
        Dither::LineH,
        Dither::Atkinson,
        Dither::FloydSteinberg,
    ];

    /// The number of a kind is its place in the declaration.
    pub fn number(kind: Dither) -> u32 {
        kind as u32
    }

    /// A record handed back is one of the list; its place says which.
    fn position(list: &[CandidateColor], record: &CandidateColor) -> usize {
        list.iter().position(|c| std::ptr::eq(c, record)).unwrap()
    }

    pub fn nearest_record(list: &[CandidateColor], color: NormalizedColor) -> &CandidateColor {
        nearest(list, color)
    }

    pub fn nearest_position(list: &[CandidateColor], color: NormalizedColor) -> usize {
        position(list, nearest(list, color))
    }

    pub fn nearest_two_positions(
        color: NormalizedColor,
        list: &[CandidateColor],
        width: usize,
    ) -> (usize, Option<usize>) {
        let (a, b) = nearest_two(color, list, width);
        (position(list, a), b.map(|b| position(list, b)))
    }

    pub fn bracket(
        color: NormalizedColor,
        list: &[CandidateColor],
        width: usize,
    ) -> (ReducedColor, ReducedColor, f32) {
        let bracket = ordered_bracket(color, list, width);
        (bracket.dark, bracket.light, bracket.ratio)
    }

    /// Where dark and light stand in the list, and the ratio once more. The
    /// original answers two reduced colours and no positions, and twins have one
    /// colour. But it never looks at `reduced`, here or in what it asks; it only
    /// hands it back. So it is asked over the same list with each record's number
    /// for its reduced colour, and the two colours that come back are the positions.
    pub fn bracket_positions(
        color: NormalizedColor,
        list: &[CandidateColor],
        width: usize,
    ) -> (usize, usize, f32) {
        let number = |i: u32| ReducedColor(crate::color::Rgba8888::from_bytes(i.to_be_bytes()));
        let numbered: Vec<CandidateColor> =
            list.iter().zip(0..).map(|(c, i)| CandidateColor { reduced: number(i), ..*c }).collect();
        let bracket = ordered_bracket(color, &numbered, width);
        let [dark, light] = [bracket.dark, bracket.light].map(|c| u32::from_be_bytes(c.to_bytes()) as usize);
        (dark, light, bracket.ratio)
    }

    pub fn pick(
        (dark, light, ratio): (ReducedColor, ReducedColor, f32),
        dither: Dither,
        x: u32,
        y: u32,
    ) -> ReducedColor {
        Bracket { dark, light, ratio }.pick(dither, x, y)
    }

    pub fn threshold(dither: Dither, x: u32, y: u32) -> f32 {
        ordered_threshold(dither, x, y)
    }

    pub fn residual(a: NormalizedColor, b: NormalizedColor, t: f32, color: NormalizedColor) -> f32 {
        mix_residual(a, b, t, color)
    }

    pub fn rounded(v: f32) -> u8 {
        clamp_u8(v)
    }
}
