//! Stand-in for `quantette`: the two types and the one function that the
//! original imports, with a switch that says which conversion answers, and one
//! that says which cube root document 01's conversion takes.

pub mod exact;
pub mod published;

use std::cell::{Cell, RefCell};

/// The conversions that can answer for `srgb8_to_oklab`.
#[derive(Debug, Clone, Copy, PartialEq, Eq)]
pub enum Conversion {
    /// Document 01's whole numbers, remembered.
    Exact,
    /// Document 01's whole numbers, worked out for each colour.
    ExactAnew,
    /// The published definition in f64, rounded to f32 at the end.
    PublishedF64,
    /// The published definition in f32 throughout, with a table of linear values.
    PublishedF32,
}

/// Which whole number stands for a cube root in document 01's conversion.
#[derive(Debug, Clone, Copy, PartialEq, Eq)]
pub enum Root {
    /// The nearest, as document 02, Ask 2, amends it: what the port takes.
    Nearest,
    /// The largest whose cube does not exceed the number, as it was before.
    Down,
}

thread_local! {
    static ROOT: Cell<Root> = const { Cell::new(Root::Nearest) };
    static ANSWERING: Cell<Conversion> = const { Cell::new(Conversion::Exact) };
    static REMEMBERED: RefCell<Vec<(u32, [f32; 3])>> = const { RefCell::new(Vec::new()) };
}

/// Lets `conversion` answer on this thread while `run` runs.
pub fn with_conversion<T>(conversion: Conversion, run: impl FnOnce() -> T) -> T {
    let before = ANSWERING.replace(conversion);
    let result = run();
    ANSWERING.set(before);
    result
}

/// Lets document 01's conversion take `root` on this thread while `run` runs:
/// the one switch for that, in everything that is built on this stand-in.
pub fn with_root<T>(root: Root, run: impl FnOnce() -> T) -> T {
    let before = ROOT.replace(root);
    let result = run();
    ROOT.set(before);
    result
}

/// The root that is taken now.
pub fn root() -> Root {
    ROOT.get()
}

/// A power of two; a colour's answer is kept in one slot only, so that memory
/// stays bounded and a look takes one comparison.
const SLOTS: usize = 1 << 16;

/// Document 01's conversion, with answers remembered for each thread.
pub fn remembered(r: u8, g: u8, b: u8) -> [f32; 3] {
    let key = u32::from_be_bytes([1 + root() as u8, r, g, b]);
    let slot = (key.wrapping_mul(0x9e37_79b1) >> 16) as usize & (SLOTS - 1);
    REMEMBERED.with_borrow_mut(|slots| {
        if slots.is_empty() {
            // No colour has key 0, since the first byte of a key is 1 or 2.
            slots.resize(SLOTS, (0, [0.0; 3]));
        }
        if slots[slot].0 != key {
            slots[slot] = (key, exact::to_oklab(r, g, b));
        }
        slots[slot].1
    })
}

/// The conversion that answers now.
fn convert(r: u8, g: u8, b: u8) -> [f32; 3] {
    match ANSWERING.get() {
        Conversion::Exact => remembered(r, g, b),
        Conversion::ExactAnew => exact::to_oklab(r, g, b),
        Conversion::PublishedF64 => published::to_oklab_f64(r, g, b),
        Conversion::PublishedF32 => published::to_oklab_f32(r, g, b),
    }
}

pub mod deps {
    pub mod palette {
        //! The two colour types, as far as the original uses them.

        #[derive(Debug, Clone, Copy, PartialEq)]
        pub struct Oklab {
            pub l: f32,
            pub a: f32,
            pub b: f32,
        }

        impl Oklab {
            pub const fn new(l: f32, a: f32, b: f32) -> Self {
                Oklab { l, a, b }
            }
        }

        #[derive(Debug, Clone, Copy, PartialEq, Eq)]
        pub struct Srgb {
            pub red: u8,
            pub green: u8,
            pub blue: u8,
        }

        impl Srgb {
            pub const fn new(red: u8, green: u8, blue: u8) -> Self {
                Srgb { red, green, blue }
            }
        }
    }
}

pub mod color_space {
    //! The conversion under its published name.

    use crate::deps::palette::{Oklab, Srgb};

    /// An array comes back and not a `Vec`, so that the original is measured at
    /// its best, without an allocation for each colour.
    pub fn srgb8_to_oklab<const N: usize>(colors: &[Srgb; N]) -> [Oklab; N] {
        colors.map(|c| {
            let [l, a, b] = crate::convert(c.red, c.green, c.blue);
            Oklab::new(l, a, b)
        })
    }
}
