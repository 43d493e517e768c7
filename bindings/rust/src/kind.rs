//! The kinds of dithering, by number, under the C header's names without
//! their `BADGE_`. Calls take the number, and refuse one above 10 with
//! [`Refusal::KindOrShift`](crate::Refusal::KindOrShift).
//!
//! Two kinds are retired, and every call that takes a kind refuses them with
//! [`Refusal::RetiredKind`](crate::Refusal::RetiredKind). Their numbers are
//! never given to another kind, so that a number that somebody kept is not
//! drawn as something else.

/// No dithering: the nearest colour.
pub const OFF: u32 = 0;
/// Ordered, Bayer's matrix of 2x2.
pub const BAYER_2X2: u32 = 1;
/// Ordered, Bayer's matrix of 4x4.
pub const BAYER_4X4: u32 = 2;
/// Ordered, Bayer's matrix of 8x8.
pub const BAYER_8X8: u32 = 3;
/// Ordered, a checkerboard.
pub const CHECKER: u32 = 4;
/// Retired: vertical stipple.
#[deprecated(since = "0.4.0", note = "retired: every call refuses it with `Refusal::RetiredKind`")]
pub const STIPPLE_V: u32 = 5;
/// Retired: horizontal stipple.
#[deprecated(since = "0.4.0", note = "retired: every call refuses it with `Refusal::RetiredKind`")]
pub const STIPPLE_H: u32 = 6;
/// Ordered, vertical lines.
pub const LINE_V: u32 = 7;
/// Ordered, horizontal lines.
pub const LINE_H: u32 = 8;
/// Error diffusion by Atkinson's kernel.
pub const ATKINSON: u32 = 9;
/// Error diffusion by the kernel of Floyd and Steinberg.
pub const FLOYD_STEINBERG: u32 = 10;

/// Whether the kind passes error on, so that a picture needs three cells a
/// pixel.
pub const fn is_diffusion(kind: u32) -> bool {
    kind == ATKINSON || kind == FLOYD_STEINBERG
}
