//! The twelve calls, one case of each with everything that is lent, and the
//! answer of a call as a list of named values.

use crate::hooks::Tables;
use crate::model::Lent;

/// The calls of the C interface, in its order.
#[derive(Debug, Clone, Copy, PartialEq, Eq)]
pub enum Call {
    ToOklab,
    OklabSqdist,
    OrderedThreshold,
    BracketWidth,
    Lerp,
    Nearest,
    NearestTwo,
    OrderedBracket,
    Pick,
    CandidateColorsIn,
    QuantizePixels,
    DitherToMode,
}

impl Call {
    pub const ALL: [Call; 12] = [
        Call::ToOklab,
        Call::OklabSqdist,
        Call::OrderedThreshold,
        Call::BracketWidth,
        Call::Lerp,
        Call::Nearest,
        Call::NearestTwo,
        Call::OrderedBracket,
        Call::Pick,
        Call::CandidateColorsIn,
        Call::QuantizePixels,
        Call::DitherToMode,
    ];

    /// The original's name, which is the C name without its first word.
    pub fn name(self) -> &'static str {
        match self {
            Call::ToOklab => "to_oklab",
            Call::OklabSqdist => "oklab_sqdist",
            Call::OrderedThreshold => "ordered_threshold",
            Call::BracketWidth => "bracket_width",
            Call::Lerp => "lerp",
            Call::Nearest => "nearest",
            Call::NearestTwo => "nearest_two",
            Call::OrderedBracket => "ordered_bracket",
            Call::Pick => "pick",
            Call::CandidateColorsIn => "candidate_colors_in",
            Call::QuantizePixels => "quantize_pixels",
            Call::DitherToMode => "dither_to_mode",
        }
    }

    pub fn from_name(name: &str) -> Option<Call> {
        Call::ALL.into_iter().find(|call| call.name() == name)
    }

    /// The letter of the call's lines in the recorded list.
    pub fn letter(self) -> char {
        match self {
            Call::ToOklab => 'o',
            Call::OklabSqdist => 'd',
            Call::OrderedThreshold => 't',
            Call::BracketWidth => 'w',
            Call::Lerp => 'l',
            Call::Nearest => 'n',
            Call::NearestTwo => 'm',
            Call::OrderedBracket => 'b',
            Call::Pick => 'p',
            Call::CandidateColorsIn => 'c',
            Call::QuantizePixels => 'q',
            Call::DitherToMode => 'x',
        }
    }
}

/// Flat lists of candidate records, of any lengths.
#[derive(Debug, Clone, Default)]
pub struct List {
    pub reduced: Vec<u8>,
    pub normalized: Vec<u8>,
    pub oklab: Vec<f32>,
}

/// Two lent tables, of any length.
#[derive(Debug, Clone, Default, PartialEq, Eq)]
pub struct LentTables {
    pub reduction: Vec<u8>,
    pub scale: Vec<u8>,
}

impl From<&Tables> for LentTables {
    fn from(tables: &Tables) -> LentTables {
        LentTables { reduction: tables.reduction.to_vec(), scale: tables.scale.to_vec() }
    }
}

impl LentTables {
    /// The tables of a call that is not refused for their lengths.
    pub fn accepted(&self) -> Tables {
        let [reduction, scale] = [&self.reduction, &self.scale].map(|t| t[..].try_into().expect("256 bytes"));
        Tables { reduction, scale }
    }
}

/// Buffers that a call may write are given as they are before it.
#[derive(Debug, Clone, Default)]
pub struct Candidates {
    pub shift: u32,
    pub reducing: u32,
    pub width: u32,
    pub height: u32,
    pub tables: LentTables,
    pub pixels: Vec<u8>,
    pub opaque: Vec<u8>,
    pub places: Vec<u8>,
    pub oklab: Vec<f32>,
}

#[derive(Debug, Clone, Default)]
pub struct Quantize {
    pub shift: u32,
    pub reducing: u32,
    pub kind: u32,
    pub width: u32,
    pub height: u32,
    pub tables: LentTables,
    pub palette: Vec<u8>,
    pub pixels: Vec<u8>,
    pub opaque: Vec<u8>,
    pub indices: Vec<u8>,
    pub out: Vec<u8>,
    pub cells: Vec<i16>,
}

#[derive(Debug, Clone, Default)]
pub struct ToMode {
    pub shift: u32,
    pub reducing: u32,
    pub kind: u32,
    pub width: u32,
    pub height: u32,
    pub origin: [u32; 2],
    pub tile: [u32; 2],
    pub limit: u32,
    pub has_zero: u32,
    pub zero: [u8; 4],
    pub tables: LentTables,
    pub pixels: Vec<u8>,
    pub opaque: Vec<u8>,
    pub places: Vec<u8>,
    pub oklab: Vec<f32>,
    pub out: Vec<u8>,
    pub cells: Vec<i16>,
}

/// The reduction and what is lent for it, with tables that fit.
macro_rules! lent {
    ($case:ty) => {
        impl $case {
            pub fn lent<'a>(&'a self, tables: &'a Tables) -> Lent<'a> {
                let (shift, reducing, pixels, opaque) = (self.shift, self.reducing, &self.pixels, &self.opaque);
                Lent { shift, reducing, tables, pixels, opaque }
            }
        }
    };
}

lent!(Candidates);
lent!(Quantize);
lent!(ToMode);

/// A lookup in a list, with the width of those that have one.
#[derive(Debug, Clone, Default)]
pub struct Lookup {
    pub list: List,
    pub color: [u8; 3],
    pub width: u64,
}

#[derive(Debug, Clone, Default)]
pub struct PickCase {
    pub dark: Vec<u8>,
    pub light: Vec<u8>,
    pub ratio: f32,
    pub kind: u32,
    pub x: u32,
    pub y: u32,
    pub chosen: Vec<u8>,
}

#[derive(Debug, Clone)]
pub enum Case {
    ToOklab([u8; 3]),
    OklabSqdist([f32; 6]),
    OrderedThreshold { kind: u32, x: u32, y: u32 },
    BracketWidth { shift: u32, max: u64 },
    Lerp { colors: [[u8; 3]; 3], clamp: u32 },
    Nearest(Lookup),
    NearestTwo(Lookup),
    OrderedBracket { lookup: Lookup, dark: Vec<u8>, light: Vec<u8> },
    Pick(PickCase),
    CandidateColorsIn(Candidates),
    QuantizePixels(Quantize),
    DitherToMode(ToMode),
}

impl Case {
    pub fn call(&self) -> Call {
        match self {
            Case::ToOklab(_) => Call::ToOklab,
            Case::OklabSqdist(_) => Call::OklabSqdist,
            Case::OrderedThreshold { .. } => Call::OrderedThreshold,
            Case::BracketWidth { .. } => Call::BracketWidth,
            Case::Lerp { .. } => Call::Lerp,
            Case::Nearest(_) => Call::Nearest,
            Case::NearestTwo(_) => Call::NearestTwo,
            Case::OrderedBracket { .. } => Call::OrderedBracket,
            Case::Pick(_) => Call::Pick,
            Case::CandidateColorsIn(_) => Call::CandidateColorsIn,
            Case::QuantizePixels(_) => Call::QuantizePixels,
            Case::DitherToMode(_) => Call::DitherToMode,
        }
    }

    /// The kind of the calls that take one.
    pub fn kind(&self) -> Option<u32> {
        match self {
            Case::OrderedThreshold { kind, .. } => Some(*kind),
            Case::Pick(c) => Some(c.kind),
            Case::QuantizePixels(c) => Some(c.kind),
            Case::DitherToMode(c) => Some(c.kind),
            _ => None,
        }
    }

    /// The case with another kind, where its call takes one.
    pub fn with_kind(mut self, other: u32) -> Case {
        match &mut self {
            Case::OrderedThreshold { kind, .. } => *kind = other,
            Case::Pick(c) => c.kind = other,
            Case::QuantizePixels(c) => c.kind = other,
            Case::DitherToMode(c) => c.kind = other,
            _ => {}
        }
        self
    }

    /// The shift and the reduction of the calls on pictures.
    pub fn pairing(&self) -> Option<[u32; 2]> {
        match self {
            Case::CandidateColorsIn(c) => Some([c.shift, c.reducing]),
            Case::QuantizePixels(c) => Some([c.shift, c.reducing]),
            Case::DitherToMode(c) => Some([c.shift, c.reducing]),
            _ => None,
        }
    }

    /// The lent tables of the calls that have them.
    pub fn tables(&self) -> Option<&LentTables> {
        match self {
            Case::CandidateColorsIn(c) => Some(&c.tables),
            Case::QuantizePixels(c) => Some(&c.tables),
            Case::DitherToMode(c) => Some(&c.tables),
            _ => None,
        }
    }
}

/// One named part of an answer. Floats are kept as their bits, so that NaN and
/// minus zero compare; cells are whole numbers, which compare as they are. A value
/// behind a pointer is none where it was not written.
#[derive(Debug, Clone, PartialEq, Eq)]
pub enum Value {
    Number(u32),
    Word32(Option<u32>),
    Word64(Option<u64>),
    Float(Option<u32>),
    Bytes(Vec<u8>),
    Floats(Vec<u32>),
    Cells(Vec<i16>),
}

impl Value {
    pub fn float(value: f32) -> Value {
        Value::Float(Some(value.to_bits()))
    }

    pub fn floats(values: &[f32]) -> Value {
        Value::Floats(values.iter().map(|v| v.to_bits()).collect())
    }

    pub fn bytes(bytes: &[u8]) -> Value {
        Value::Bytes(bytes.to_vec())
    }

    pub fn cells(counts: &[i16]) -> Value {
        Value::Cells(counts.to_vec())
    }
}

/// What comes back from a call and what every lent buffer holds afterwards.
#[derive(Debug, Clone, PartialEq, Eq)]
pub struct Answer(pub Vec<(&'static str, Value)>);

impl Answer {
    /// The number of the answer; calls without one always accept.
    pub fn number(&self) -> u32 {
        match self.0.first() {
            Some((_, Value::Number(number))) => *number,
            _ => 0,
        }
    }
}
