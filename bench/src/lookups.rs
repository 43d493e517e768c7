//! The lookups alone, over flat lists: for each the original and a port, asked
//! for the same colours again and again. The original has its records made
//! beforehand, as within a picture; a call of the port looks whether its lists
//! fit and are in range, each time.

use std::hint::black_box;

use oracle::case::{Call, List};
use oracle::original::{Records, to_oklab};
use oracle::port::{BracketRooms, Lists, Port};
use oracle::rng::Rng;

use crate::cases::Row;

/// The lookups, in the order of their rows.
pub const CALLS: [Call; 3] = [Call::Nearest, Call::NearestTwo, Call::OrderedBracket];

/// How long the lists are.
pub const ENTRIES: [usize; 3] = [16, 256, 4096];

/// The widest shortlist, as a palette of 256 entries has it.
pub const WIDTH: u64 = 16;

/// A list, and the colours that are looked up in it.
pub struct Asked {
    pub list: List,
    records: Records,
    pub colors: Vec<[u8; 3]>,
}

impl Asked {
    /// Random entries, and as many colours as give a run some time.
    pub fn of(entries: usize) -> Asked {
        let mut rng = Rng::new(11);
        let reduced: Vec<u8> = (0..4 * entries).map(|_| rng.byte() & 31).collect();
        let normalized = rng.bytes(4 * entries);
        let oklab: Vec<f32> = normalized.chunks_exact(4).flat_map(|c| to_oklab([c[0], c[1], c[2]])).collect();
        let records = Records::new(&reduced, &normalized, &oklab);
        let colors = (0..(1 << 20) / entries.max(64)).map(|_| [rng.byte(), rng.byte(), rng.byte()]).collect();
        Asked { list: List { reduced, normalized, oklab }, records, colors }
    }

    /// The row of a lookup; `of` says what the list is of.
    pub fn row(&self, call: Call, of: &str, runs: usize) -> Row {
        let width = if call == Call::Nearest { String::new() } else { format!(", width {WIDTH}") };
        let name = format!("lookup {}, {} {of}{width}", call.name(), self.list.reduced.len() / 4);
        Row { call, name, count: self.colors.len(), runs }
    }

    fn original(&self, call: Call, color: [u8; 3]) {
        match call {
            Call::Nearest => _ = black_box(self.records.nearest(color)),
            Call::NearestTwo => _ = black_box(self.records.nearest_two(color, WIDTH as usize)),
            _ => _ = black_box(self.records.ordered_bracket(color, WIDTH as usize)),
        }
    }

    fn ported(&self, port: &impl Port, call: Call, color: [u8; 3]) {
        let List { reduced, normalized, oklab } = &self.list;
        let lists = Lists { reduced, normalized, oklab };
        let ([mut first, mut second], [mut dark, mut light], mut ratio) = ([0; 2], [[0; 4]; 2], 0.0);
        let number = match call {
            Call::Nearest => port.nearest(lists, color, &mut first),
            Call::NearestTwo => port.nearest_two(lists, color, WIDTH, &mut first, &mut second),
            _ => {
                let [dark_position, light_position] = [&mut first, &mut second];
                let (dark, light, ratio) = (&mut dark, &mut light, &mut ratio);
                let rooms = BracketRooms { dark, light, ratio, dark_position, light_position };
                port.ordered_bracket(lists, color, WIDTH, rooms)
            }
        };
        assert_eq!(number, 0);
        black_box((first, second, dark, light, ratio));
    }

    /// All colours, by the original and by a port.
    pub fn both<'a>(&'a self, port: &'a impl Port, call: Call) -> (impl Fn() + 'a, impl FnMut() + 'a) {
        let original = move || self.colors.iter().for_each(|&color| self.original(call, color));
        let ported = move || self.colors.iter().for_each(|&color| self.ported(port, call, color));
        (original, ported)
    }
}
