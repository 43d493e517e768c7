
// Appended to the copy of src/mode/color.rs: the three hooks, and the original's
// own tables and opaque pixels.

fn opaque_threshold(color: NormalizedColor) -> NormalizedColor {
    crate::hooks::lent_opaque(color).unwrap_or_else(|| original_opaque_threshold(color))
}

fn reduce_channel(value: u8, shift: u32, rounding: ColorRounding) -> u8 {
    crate::hooks::lent_reduction(value).unwrap_or_else(|| original_reduce_channel(value, shift, rounding))
}

fn scale_up(value: u8, shift: u32) -> u8 {
    crate::hooks::lent_scale(value).unwrap_or_else(|| original_scale_up(value, shift))
}

pub(crate) mod probe {
    use super::*;

    pub fn own_opaque(color: NormalizedColor) -> NormalizedColor {
        original_opaque_threshold(color)
    }

    pub fn own_reduction(shift: u32, rounding: ColorRounding) -> [u8; 256] {
        std::array::from_fn(|v| original_reduce_channel(v as u8, shift, rounding))
    }

    pub fn own_scale(shift: u32) -> [u8; 256] {
        std::array::from_fn(|v| original_scale_up(v as u8, shift))
    }
}
