//! The two tables of 256 bytes that the library is lent: how a channel is
//! reduced for a shift and a rounding, and how a reduced one is scaled up. They
//! are the original's own `reduce_channel` and `scale_up`, to which `oracle/`
//! holds them; README.md has them as formulas.

/// The original's `ColorRounding`.
#[derive(Clone, Copy, Debug, PartialEq, Eq)]
pub enum Rounding {
    Truncate,
    Nearest,
}

pub struct ModeTables {
    pub reduction: [u8; 256],
    pub scale: [u8; 256],
}

impl ModeTables {
    pub fn new(shift: u32, rounding: Rounding) -> ModeTables {
        ModeTables {
            reduction: std::array::from_fn(|v| reduce_channel(v as u32, shift, rounding)),
            scale: std::array::from_fn(|v| scale_up(v as u32, shift)),
        }
    }
}

fn reduce_channel(value: u32, shift: u32, rounding: Rounding) -> u8 {
    let reduced = match rounding {
        Rounding::Truncate => value >> shift,
        Rounding::Nearest => (value * (255 >> shift) + 127) / 255,
    };
    reduced as u8
}

/// The value's bits, repeated until eight are full.
fn scale_up(value: u32, shift: u32) -> u8 {
    let scaled = match shift {
        3 => value << 3 | value >> 2,
        4 => value << 4 | value,
        5 => value << 5 | value << 2 | value >> 1 | value >> 4,
        _ => value << 6 | value << 4 | value << 2 | value,
    };
    scaled as u8
}
