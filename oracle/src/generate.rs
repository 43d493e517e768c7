//! Random cases of every call: good ones of many sizes and styles, and ones
//! that break one or several of the bounds. A case depends on its call, seed
//! and number only, so any of them can be made again alone. One module a group
//! of calls; the fixed cases at the largest bounds stand in `corners`.

mod corners;
mod lookups;
mod maker;
mod picture_calls;
mod pictures;
mod singles;
mod twins;

pub use corners::corners;
pub use maker::{Fixed, Style};

use crate::case::{Call, Case};
use crate::rng::Rng;
use maker::Maker;

/// Case `number` of a call.
pub fn case(call: Call, seed: u64, number: u64, style: Style) -> Case {
    case_with(call, seed, number, style, None)
}

/// Case `number` of a call, reduced in this way where it is on a picture.
pub fn case_with(call: Call, seed: u64, number: u64, style: Style, fixed: Option<Fixed>) -> Case {
    let mixed = Rng::new(seed ^ (call as u64) << 56).word() ^ number.wrapping_mul(0xd6e8_feb8_6659_fd93);
    let mut maker = Maker { rng: Rng::new(mixed), style, fixed };
    match call {
        Call::ToOklab => Case::ToOklab(maker.rgb()),
        Call::OklabSqdist => maker.oklab_sqdist(),
        Call::OrderedThreshold => maker.ordered_threshold(),
        Call::BracketWidth => maker.bracket_width(),
        Call::Lerp => maker.lerp(),
        Call::Nearest => Case::Nearest(maker.lookup()),
        Call::NearestTwo => Case::NearestTwo(maker.lookup()),
        Call::OrderedBracket => maker.ordered_bracket(),
        Call::Pick => maker.pick(),
        Call::CandidateColorsIn => Case::CandidateColorsIn(maker.candidates()),
        Call::QuantizePixels => Case::QuantizePixels(maker.quantize()),
        Call::DitherToMode => Case::DitherToMode(maker.to_mode()),
    }
}
