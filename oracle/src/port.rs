//! The twelve calls as a port offers them, and how a case is put to a port:
//! every buffer lies between margins, and every value behind a pointer starts
//! as rubbish.

use crate::case::{Answer, Call, Candidates, Case, Lookup, PickCase, Quantize, ToMode, Value};

/// Flat lists, lent.
#[derive(Clone, Copy)]
pub struct Lists<'a> {
    pub reduced: &'a [u8],
    pub normalized: &'a [u8],
    pub oklab: &'a [f32],
}

/// What a call over a picture only reads: its case, with tables, palette and
/// pixels in buffers of their own. Only both pixel buffers may be one.
#[derive(Clone, Copy)]
pub struct Read<'a> {
    pub reduction: &'a [u8],
    pub scale: &'a [u8],
    pub palette: &'a [u8],
    pub pixels: &'a [u8],
    pub opaque: &'a [u8],
}

/// A port. Methods have the order of the C parameters; sizes and settings are
/// read from the case.
pub trait Port {
    fn has(&self, _call: Call) -> bool {
        true
    }

    /// Whether empty buffers go over as null pointers from now on.
    fn null_for_empty(&self, _null: bool) {}

    fn to_oklab(&self, color: [u8; 3], lab: [&mut f32; 3]);
    fn oklab_sqdist(&self, six: [f32; 6], distance: &mut f32) -> u32;
    fn ordered_threshold(&self, kind: u32, x: u32, y: u32, threshold: &mut f32) -> u32;
    fn bracket_width(&self, shift: u32, max: u64, width: &mut u64) -> u32;
    fn lerp(&self, colors: [[u8; 3]; 3], clamp: u32) -> f32;
    fn nearest(&self, lists: Lists, color: [u8; 3], position: &mut u32) -> u32;
    fn nearest_two(&self, lists: Lists, color: [u8; 3], width: u64, first: &mut u32, second: &mut u32) -> u32;
    fn ordered_bracket(&self, lists: Lists, color: [u8; 3], width: u64, rooms: BracketRooms) -> u32;
    fn pick(&self, case: &PickCase, dark: &[u8], light: &[u8], chosen: &mut [u8]) -> u32;
    fn candidate_colors_in(
        &self,
        case: &Candidates,
        read: Read,
        places: &mut [u8],
        oklab: &mut [f32],
        count: &mut u32,
    ) -> u32;
    fn quantize_pixels(
        &self,
        case: &Quantize,
        read: Read,
        indices: &mut [u8],
        out: &mut [u8],
        cells: &mut [i16],
    ) -> u32;
    fn dither_to_mode(&self, case: &ToMode, read: Read, rooms: Rooms, count: &mut u32, tile: &mut u32) -> u32;
}

/// What `ordered_bracket` may write: two buffers, and values behind pointers.
pub struct BracketRooms<'a> {
    pub dark: &'a mut [u8],
    pub light: &'a mut [u8],
    pub ratio: &'a mut f32,
    pub dark_position: &'a mut u32,
    pub light_position: &'a mut u32,
}

/// The four buffers that `dither_to_mode` may write.
pub struct Rooms<'a> {
    pub places: &'a mut [u8],
    pub oklab: &'a mut [f32],
    pub out: &'a mut [u8],
    pub cells: &'a mut [i16],
}

/// Rubbish behind pointers: no call has these as an answer.
const RUBBISH: u32 = 0xdead_beef;
const RUBBISH_LONG: u64 = 0xdead_beef_0bad_f00d;
const RUBBISH_FLOAT: u32 = 0xffa5_5a77;

fn written(word: u32) -> Value {
    Value::Word32((word != RUBBISH).then_some(word))
}

fn written_float(value: f32) -> Value {
    let bits = value.to_bits();
    Value::Float((bits != RUBBISH_FLOAT).then_some(bits))
}

fn rubbish_float() -> f32 {
    f32::from_bits(RUBBISH_FLOAT)
}

/// Elements that can be compared bit for bit.
trait Bits: Copy {
    const MARGIN: Self;
    fn bits(self) -> u32;
}

impl Bits for u8 {
    const MARGIN: u8 = 0xa7;
    fn bits(self) -> u32 {
        self.into()
    }
}

impl Bits for f32 {
    const MARGIN: f32 = f32::from_bits(0x7fb1_2c39);
    fn bits(self) -> u32 {
        self.to_bits()
    }
}

/// The margin is no cell that a picture leaves, nor half of a float that was one.
impl Bits for i16 {
    const MARGIN: i16 = 0x5ac3;
    fn bits(self) -> u32 {
        self.cast_unsigned().into()
    }
}

/// A buffer between margins, with which a write outside it is noticed.
struct Room<T> {
    store: Vec<T>,
    /// Where the margin behind the buffer begins.
    end: usize,
}

const MARGIN: usize = 16;

impl<T: Bits> Room<T> {
    fn new(contents: &[T]) -> Room<T> {
        Room::before(contents, MARGIN)
    }

    /// A buffer before a margin of so many elements.
    fn before(contents: &[T], margin: usize) -> Room<T> {
        let end = MARGIN + contents.len();
        let mut store = Vec::with_capacity(end + margin);
        store.resize(MARGIN, T::MARGIN);
        store.extend_from_slice(contents);
        store.resize(end + margin, T::MARGIN);
        Room { store, end }
    }

    fn inner(&self) -> &[T] {
        &self.store[MARGIN..self.end]
    }

    fn inner_mut(&mut self) -> &mut [T] {
        &mut self.store[MARGIN..self.end]
    }

    /// Nothing around the buffer was written.
    fn margins_kept(&self) -> bool {
        self.store[..MARGIN].iter().chain(&self.store[self.end..]).all(|v| v.bits() == T::MARGIN.bits())
    }

    /// Neither the buffer nor what is around it was written.
    fn kept(&self, contents: &[T]) -> bool {
        self.margins_kept() && self.inner().iter().map(|v| v.bits()).eq(contents.iter().map(|v| v.bits()))
    }
}

/// Cells, before a margin that has room for as many floats: a port that writes these, as
/// all did before document 02's eleventh request, is to be noticed like any other that
/// writes outside what it was lent.
fn room_of_cells(cells: &[i16]) -> Room<i16> {
    Room::before(cells, MARGIN + cells.len())
}

/// Ends the run where a port writes what it may not: no answer is worth
/// comparing after that.
fn demand(kept: bool, what: &str, call: Call) {
    assert!(kept, "{}: the port wrote outside what it was lent ({what})", call.name());
}

/// Copies of a lookup's lists between margins.
struct LentLists {
    reduced: Room<u8>,
    normalized: Room<u8>,
    oklab: Room<f32>,
}

impl LentLists {
    fn new(lookup: &Lookup) -> LentLists {
        LentLists {
            reduced: Room::new(&lookup.list.reduced),
            normalized: Room::new(&lookup.list.normalized),
            oklab: Room::new(&lookup.list.oklab),
        }
    }

    fn lists(&self) -> Lists<'_> {
        Lists { reduced: self.reduced.inner(), normalized: self.normalized.inner(), oklab: self.oklab.inner() }
    }

    fn check(&self, lookup: &Lookup, call: Call) {
        let list = &lookup.list;
        let kept =
            self.reduced.kept(&list.reduced) && self.normalized.kept(&list.normalized) && self.oklab.kept(&list.oklab);
        demand(kept, "lists", call);
    }
}

/// Copies of what a call over a picture reads, between margins.
struct LentRead {
    rooms: [Room<u8>; 5],
}

impl LentRead {
    fn new(parts: [&[u8]; 5]) -> LentRead {
        LentRead { rooms: parts.map(Room::new) }
    }

    /// Opaque pixels that are the pixels themselves are lent as the same memory.
    fn read(&self) -> Read<'_> {
        let [reduction, scale, palette, pixels, opaque] = self.rooms.each_ref().map(|r| r.inner());
        Read { reduction, scale, palette, pixels, opaque: if opaque == pixels { pixels } else { opaque } }
    }

    fn check(&self, parts: [&[u8]; 5], call: Call) {
        demand(self.rooms.iter().zip(parts).all(|(room, part)| room.kept(part)), "inputs", call);
    }
}

fn run_to_oklab(port: &impl Port, color: [u8; 3]) -> Answer {
    let [mut l, mut a, mut b] = [rubbish_float(); 3];
    port.to_oklab(color, [&mut l, &mut a, &mut b]);
    Answer(vec![("lightness", written_float(l)), ("a", written_float(a)), ("b", written_float(b))])
}

fn run_oklab_sqdist(port: &impl Port, six: [f32; 6]) -> Answer {
    let mut distance = rubbish_float();
    let number = port.oklab_sqdist(six, &mut distance);
    Answer(vec![("number", Value::Number(number)), ("distance", written_float(distance))])
}

fn run_ordered_threshold(port: &impl Port, kind: u32, x: u32, y: u32) -> Answer {
    let mut threshold = rubbish_float();
    let number = port.ordered_threshold(kind, x, y, &mut threshold);
    Answer(vec![("number", Value::Number(number)), ("threshold", written_float(threshold))])
}

fn run_bracket_width(port: &impl Port, shift: u32, max: u64) -> Answer {
    let mut width = RUBBISH_LONG;
    let number = port.bracket_width(shift, max, &mut width);
    let width = Value::Word64((width != RUBBISH_LONG).then_some(width));
    Answer(vec![("number", Value::Number(number)), ("width", width)])
}

fn run_nearest(port: &impl Port, lookup: &Lookup) -> Answer {
    let lent = LentLists::new(lookup);
    let mut position = RUBBISH;
    let number = port.nearest(lent.lists(), lookup.color, &mut position);
    lent.check(lookup, Call::Nearest);
    Answer(vec![("number", Value::Number(number)), ("position", written(position))])
}

fn run_nearest_two(port: &impl Port, lookup: &Lookup) -> Answer {
    let lent = LentLists::new(lookup);
    let [mut first, mut second] = [RUBBISH; 2];
    let number = port.nearest_two(lent.lists(), lookup.color, lookup.width, &mut first, &mut second);
    lent.check(lookup, Call::NearestTwo);
    Answer(vec![("number", Value::Number(number)), ("first", written(first)), ("second", written(second))])
}

fn run_ordered_bracket(port: &impl Port, lookup: &Lookup, dark: &[u8], light: &[u8]) -> Answer {
    let lent = LentLists::new(lookup);
    let [mut dark, mut light] = [dark, light].map(Room::new);
    let (mut ratio, [mut dark_position, mut light_position]) = (rubbish_float(), [RUBBISH; 2]);
    let rooms = BracketRooms {
        dark: dark.inner_mut(),
        light: light.inner_mut(),
        ratio: &mut ratio,
        dark_position: &mut dark_position,
        light_position: &mut light_position,
    };
    let number = port.ordered_bracket(lent.lists(), lookup.color, lookup.width, rooms);
    lent.check(lookup, Call::OrderedBracket);
    demand(dark.margins_kept() && light.margins_kept(), "dark, light", Call::OrderedBracket);
    Answer(vec![
        ("number", Value::Number(number)),
        ("dark", Value::bytes(dark.inner())),
        ("light", Value::bytes(light.inner())),
        ("ratio", written_float(ratio)),
        ("dark_position", written(dark_position)),
        ("light_position", written(light_position)),
    ])
}

fn run_pick(port: &impl Port, case: &PickCase) -> Answer {
    let [dark, light] = [&case.dark, &case.light].map(|c| Room::new(c));
    let mut chosen = Room::new(&case.chosen);
    let number = port.pick(case, dark.inner(), light.inner(), chosen.inner_mut());
    let kept = dark.kept(&case.dark) && light.kept(&case.light) && chosen.margins_kept();
    demand(kept, "dark, light, chosen", Call::Pick);
    Answer(vec![("number", Value::Number(number)), ("chosen", Value::bytes(chosen.inner()))])
}

fn run_candidate_colors_in(port: &impl Port, case: &Candidates) -> Answer {
    let parts = [&case.tables.reduction[..], &case.tables.scale, &[], &case.pixels, &case.opaque];
    let lent = LentRead::new(parts);
    let (mut places, mut oklab) = (Room::new(&case.places), Room::new(&case.oklab));
    let mut count = RUBBISH;
    let number = port.candidate_colors_in(case, lent.read(), places.inner_mut(), oklab.inner_mut(), &mut count);
    lent.check(parts, Call::CandidateColorsIn);
    demand(places.margins_kept() && oklab.margins_kept(), "rooms", Call::CandidateColorsIn);
    Answer(vec![
        ("number", Value::Number(number)),
        ("count", written(count)),
        ("places", Value::bytes(places.inner())),
        ("oklab", Value::floats(oklab.inner())),
    ])
}

fn run_quantize_pixels(port: &impl Port, case: &Quantize) -> Answer {
    let parts = [&case.tables.reduction[..], &case.tables.scale, &case.palette, &case.pixels, &case.opaque];
    let lent = LentRead::new(parts);
    let [mut indices, mut out] = [&case.indices, &case.out].map(|b| Room::new(b));
    let mut cells = room_of_cells(&case.cells);
    let number = port.quantize_pixels(case, lent.read(), indices.inner_mut(), out.inner_mut(), cells.inner_mut());
    lent.check(parts, Call::QuantizePixels);
    let kept = indices.margins_kept() && out.margins_kept() && cells.margins_kept();
    demand(kept, "indices, out, cells", Call::QuantizePixels);
    Answer(vec![
        ("number", Value::Number(number)),
        ("indices", Value::bytes(indices.inner())),
        ("out", Value::bytes(out.inner())),
        ("cells", Value::cells(cells.inner())),
    ])
}

fn run_dither_to_mode(port: &impl Port, case: &ToMode) -> Answer {
    let parts = [&case.tables.reduction[..], &case.tables.scale, &[], &case.pixels, &case.opaque];
    let lent = LentRead::new(parts);
    let [mut places, mut out] = [&case.places, &case.out].map(|b| Room::new(b));
    let (mut oklab, mut cells) = (Room::new(&case.oklab), room_of_cells(&case.cells));
    let [mut count, mut tile] = [RUBBISH; 2];
    let rooms =
        Rooms { places: places.inner_mut(), oklab: oklab.inner_mut(), out: out.inner_mut(), cells: cells.inner_mut() };
    let number = port.dither_to_mode(case, lent.read(), rooms, &mut count, &mut tile);
    lent.check(parts, Call::DitherToMode);
    let kept = places.margins_kept() && out.margins_kept() && oklab.margins_kept() && cells.margins_kept();
    demand(kept, "rooms, out, cells", Call::DitherToMode);
    Answer(vec![
        ("number", Value::Number(number)),
        ("count", written(count)),
        ("tile", written(tile)),
        ("places", Value::bytes(places.inner())),
        ("oklab", Value::floats(oklab.inner())),
        ("out", Value::bytes(out.inner())),
        ("cells", Value::cells(cells.inner())),
    ])
}

/// Puts a case to a port.
pub fn run(port: &impl Port, case: &Case) -> Answer {
    match case {
        Case::ToOklab(color) => run_to_oklab(port, *color),
        Case::OklabSqdist(six) => run_oklab_sqdist(port, *six),
        Case::OrderedThreshold { kind, x, y } => run_ordered_threshold(port, *kind, *x, *y),
        Case::BracketWidth { shift, max } => run_bracket_width(port, *shift, *max),
        Case::Lerp { colors, clamp } => Answer(vec![("value", Value::float(port.lerp(*colors, *clamp)))]),
        Case::Nearest(lookup) => run_nearest(port, lookup),
        Case::NearestTwo(lookup) => run_nearest_two(port, lookup),
        Case::OrderedBracket { lookup, dark, light } => run_ordered_bracket(port, lookup, dark, light),
        Case::Pick(case) => run_pick(port, case),
        Case::CandidateColorsIn(case) => run_candidate_colors_in(port, case),
        Case::QuantizePixels(case) => run_quantize_pixels(port, case),
        Case::DitherToMode(case) => run_dither_to_mode(port, case),
    }
}
