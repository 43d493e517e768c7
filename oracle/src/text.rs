//! Cases and answers as text: the lines of the recorded list, and readable
//! descriptions of differences.

use crate::case::{Answer, Call, Case, LentTables, Lookup, Value};

/// Bytes in hexadecimal, or a dash for none.
pub fn hex(bytes: &[u8]) -> String {
    if bytes.is_empty() {
        return "-".into();
    }
    bytes.iter().map(|b| format!("{b:02x}")).collect()
}

fn float_hex(values: &[f32]) -> String {
    hex(&values.iter().flat_map(|v| v.to_bits().to_be_bytes()).collect::<Vec<u8>>())
}

/// A cell has four digits, of its 16 bits in two's complement: -8 is fff8.
fn cell_hex(counts: &[i16]) -> String {
    hex(&counts.iter().flat_map(|c| c.to_be_bytes()).collect::<Vec<u8>>())
}

fn words(values: &[u32]) -> Vec<String> {
    values.iter().map(|v| hex(&v.to_be_bytes())).collect()
}

fn lookup_tokens(lookup: &Lookup) -> Vec<String> {
    let list = &lookup.list;
    vec![hex(&list.reduced), hex(&list.normalized), float_hex(&list.oklab), hex(&lookup.color)]
}

fn pixel_tokens(pixels: &[u8], opaque: &[u8]) -> Vec<String> {
    vec![hex(pixels), hex(opaque)]
}

/// The inputs of a case, without its tables.
pub fn input_tokens(case: &Case) -> Vec<String> {
    match case {
        Case::ToOklab(color) => vec![hex(color)],
        Case::OklabSqdist(six) => vec![float_hex(six)],
        Case::OrderedThreshold { kind, x, y } => words(&[*kind, *x, *y]),
        Case::BracketWidth { shift, max } => vec![hex(&shift.to_be_bytes()), hex(&max.to_be_bytes())],
        Case::Lerp { colors, clamp } => {
            // One byte in the list; a larger flag occurs only in descriptions.
            let flag = u8::try_from(*clamp).map_or_else(|_| hex(&clamp.to_be_bytes()), |flag| hex(&[flag]));
            vec![hex(colors.as_flattened()), flag]
        }
        Case::Nearest(lookup) => lookup_tokens(lookup),
        Case::NearestTwo(lookup) | Case::OrderedBracket { lookup, .. } => {
            [lookup_tokens(lookup), vec![hex(&lookup.width.to_be_bytes())]].concat()
        }
        Case::Pick(c) => {
            [vec![hex(&c.dark), hex(&c.light), float_hex(&[c.ratio])], words(&[c.kind, c.x, c.y])].concat()
        }
        Case::CandidateColorsIn(c) => {
            let rooms = vec![hex(&c.places), float_hex(&c.oklab)];
            [words(&[c.shift, c.reducing, c.width, c.height]), pixel_tokens(&c.pixels, &c.opaque), rooms].concat()
        }
        Case::QuantizePixels(c) => [
            words(&[c.shift, c.reducing, c.kind, c.width, c.height]),
            vec![hex(&c.palette)],
            pixel_tokens(&c.pixels, &c.opaque),
            vec![hex(&c.indices), hex(&c.out), cell_hex(&c.cells)],
        ]
        .concat(),
        Case::DitherToMode(c) => [
            words(&[c.shift, c.reducing, c.kind, c.width, c.height]),
            words(&[c.origin[0], c.origin[1], c.tile[0], c.tile[1], c.limit]),
            vec![hex(&[u8::from(c.has_zero != 0)]), hex(&c.zero)],
            pixel_tokens(&c.pixels, &c.opaque),
            vec![hex(&c.places), float_hex(&c.oklab), hex(&c.out), cell_hex(&c.cells)],
        ]
        .concat(),
    }
}

fn value_token(value: &Value) -> String {
    match value {
        Value::Number(number) => hex(&[*number as u8]),
        Value::Word32(word) | Value::Float(word) => word.map_or("-".into(), |w| hex(&w.to_be_bytes())),
        Value::Word64(word) => word.map_or("-".into(), |w| hex(&w.to_be_bytes())),
        Value::Bytes(bytes) => hex(bytes),
        Value::Floats(bits) => hex(&bits.iter().flat_map(|b| b.to_be_bytes()).collect::<Vec<u8>>()),
        Value::Cells(counts) => cell_hex(counts),
    }
}

/// The answer of a case as the recorded list has it: in one token for the
/// conversion, and with no colour after a refusal.
pub fn answer_tokens(case: &Case, answer: &Answer) -> Vec<String> {
    let tokens: Vec<String> = answer.0.iter().map(|(_, value)| value_token(value)).collect();
    match case {
        Case::ToOklab(_) => vec![tokens.concat()],
        Case::OrderedBracket { .. } | Case::Pick(_) if answer.number() != 0 => {
            let dashes = tokens.iter().skip(1).map(|_| "-".to_string());
            std::iter::once(tokens[0].clone()).chain(dashes).collect()
        }
        _ => tokens,
    }
}

/// One line of the recorded list.
pub fn line(case: &Case, answer: &Answer) -> String {
    let tokens = [input_tokens(case), answer_tokens(case, answer)].concat();
    format!("{} {}", case.call().letter(), tokens.join(" "))
}

/// The line that sets the lent tables.
pub fn tables_line(tables: &LentTables) -> String {
    format!("k {} {}", hex(&tables.reduction), hex(&tables.scale))
}

/// The names of a call's input tokens; a number is read as such.
fn labels(call: Call) -> &'static str {
    match call {
        Call::ToOklab => "color",
        Call::OklabSqdist => "components",
        Call::OrderedThreshold => "kind# x# y#",
        Call::BracketWidth => "shift# max#",
        Call::Lerp => "colors clamp#",
        Call::Nearest => "reduced normalized oklab color",
        Call::NearestTwo | Call::OrderedBracket => "reduced normalized oklab color width#",
        Call::Pick => "dark light ratio kind# x# y#",
        Call::CandidateColorsIn => "shift# reducing# width# height# pixels opaque places oklab",
        Call::QuantizePixels => "shift# reducing# kind# width# height# palette pixels opaque indices out cells",
        Call::DitherToMode => {
            "shift# reducing# kind# width# height# origin_x# origin_y# tile_width# tile_height# limit# has_zero# \
             zero pixels opaque places oklab out cells"
        }
    }
}

/// A token with its name, short enough to be read.
fn labelled(label: &str, token: &str) -> String {
    match label.strip_suffix('#') {
        Some(label) => format!("{label}={}", u64::from_str_radix(token, 16).unwrap()),
        None if token.len() <= 96 => format!("{label}={token}"),
        None => format!("{label}={}..({} bytes)", &token[..64], token.len() / 2),
    }
}

/// A case in one line.
pub fn describe(case: &Case) -> String {
    let inputs = input_tokens(case);
    let mut parts: Vec<String> =
        labels(case.call()).split_whitespace().zip(&inputs).map(|(label, token)| labelled(label, token)).collect();
    if let Some(tables) = case.tables() {
        parts.push(labelled("reduction", &hex(&tables.reduction)));
        parts.push(labelled("scale", &hex(&tables.scale)));
    }
    format!("{} {}", case.call().name(), parts.join(" "))
}

/// Where two values of one name differ.
fn difference(name: &str, expected: &Value, got: &Value) -> String {
    let (expected, got) = (value_token(expected), value_token(got));
    let pairs = expected.bytes().zip(got.bytes());
    let at = pairs.take_while(|(e, g)| e == g).count() / 2 * 2;
    let part = |token: &str| token[at.min(token.len())..(at + 24).min(token.len())].to_string();
    format!("{name} from byte {}: expected {} got {}", at / 2, part(&expected), part(&got))
}

/// All names whose values differ.
pub fn differences(expected: &Answer, got: &Answer) -> String {
    let pairs = expected.0.iter().zip(&got.0);
    let parts: Vec<String> = pairs.filter(|(e, g)| e != g).map(|((name, e), (_, g))| difference(name, e, g)).collect();
    parts.join("; ")
}
