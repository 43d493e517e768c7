//! Document 02's ninth request: kinds 5 and 6 are retired. Every call that takes a
//! kind refuses them with 15, directly after 1, and leaves all that it was lent; and
//! random and recorded cases have what shows it.

use std::collections::BTreeSet;

use oracle::case::{Answer, Call, Case, PickCase, Quantize, ToMode, Value};
use oracle::examples;
use oracle::generate::{self, Style};
use oracle::model::{DRAWN, RETIRED, is_retired};
use oracle::original;
use oracle::record::{behind, cases_of};
use oracle::reference::expected;

/// The calls that take a kind, and what each can refuse with behind 15. (9 is none
/// of these: the retired kinds have a matrix. A recorded `pick` has no lengths to be
/// wrong.)
const CALLS: [(Call, &[u32], &[u32]); 4] = [
    (Call::OrderedThreshold, &[0], &[0]),
    (Call::Pick, &[0, 3], &[0]),
    (Call::QuantizePixels, &[0, 2, 3, 4], &[0, 2, 3, 4]),
    (Call::DitherToMode, &[0, 2, 3, 5, 7, 8], &[0, 2, 3, 5, 7, 8]),
];

const BLACK: [u8; 4] = [0, 0, 0, 255];
const GREY: [u8; 4] = [128, 128, 128, 255];

fn quantize(kind: u32) -> Quantize {
    let Case::QuantizePixels(case) = examples::quantize(kind, &[BLACK], &[GREY; 4]) else { unreachable!() };
    case
}

fn to_mode(kind: u32) -> ToMode {
    let Case::DitherToMode(case) = examples::to_mode(kind, 2, 4, &[GREY; 4]) else { unreachable!() };
    case
}

fn pick(kind: u32, length: usize) -> Case {
    let [dark, light, chosen] = [1, 2, 3].map(|byte| vec![byte; length]);
    Case::Pick(PickCase { dark, light, ratio: 0.5, kind, x: 0, y: 0, chosen })
}

/// A case of each call with nothing wrong but its kind, and ones in which something
/// else is wrong that 15 comes before.
fn refused(kind: u32) -> Vec<Case> {
    let (fine, mode) = (quantize(kind), to_mode(kind));
    vec![
        Case::OrderedThreshold { kind, x: 3, y: 4 },
        pick(kind, 4),
        pick(kind, 5),
        Case::QuantizePixels(Quantize { width: 4097, ..fine.clone() }),
        Case::QuantizePixels(Quantize { out: vec![7; 15], ..fine.clone() }),
        Case::QuantizePixels(Quantize { cells: vec![8; 12], ..fine.clone() }),
        Case::QuantizePixels(Quantize { palette: vec![], ..fine.clone() }),
        Case::QuantizePixels(fine),
        Case::DitherToMode(ToMode { height: 4097, ..mode.clone() }),
        Case::DitherToMode(ToMode { origin: [u32::MAX, 0], ..mode.clone() }),
        Case::DitherToMode(ToMode { pixels: vec![7; 15], ..mode.clone() }),
        Case::DitherToMode(ToMode { tile: [0, 8], ..mode.clone() }),
        Case::DitherToMode(ToMode { places: vec![], oklab: vec![], ..mode.clone() }),
        Case::DitherToMode(ToMode { limit: 0, ..mode.clone() }),
        Case::DitherToMode(mode),
    ]
}

/// What a call that wrote nothing leaves.
fn untouched(case: &Case) -> Vec<Value> {
    match case {
        Case::OrderedThreshold { .. } => vec![Value::Float(None)],
        Case::Pick(c) => vec![Value::bytes(&c.chosen)],
        Case::QuantizePixels(c) => vec![Value::bytes(&c.indices), Value::bytes(&c.out), Value::cells(&c.cells)],
        Case::DitherToMode(c) => vec![
            Value::Word32(None),
            Value::Word32(None),
            Value::bytes(&c.places),
            Value::floats(&c.oklab),
            Value::bytes(&c.out),
            Value::cells(&c.cells),
        ],
        _ => unreachable!("no kind"),
    }
}

#[test]
fn the_stipples_are_retired_and_the_others_keep_their_numbers() {
    let names = original::kind_names();
    assert_eq!(RETIRED.map(|kind| names[kind as usize].as_str()), ["StippleV", "StippleH"]);
    assert!((0..11).filter(|&kind| !is_retired(kind)).eq(DRAWN));
}

#[test]
fn fifteen_comes_directly_after_one_and_leaves_everything() {
    for case in RETIRED.into_iter().flat_map(refused) {
        let Answer(said) = expected(&case);
        assert_eq!(said[0].1, Value::Number(15), "{case:?}");
        assert!(said.into_iter().skip(1).map(|(_, value)| value).eq(untouched(&case)), "{case:?}");
    }
}

#[test]
fn a_bad_shift_is_one_and_a_kind_above_ten_too() {
    for kind in RETIRED {
        for shift in [2, 6] {
            assert_eq!(expected(&Case::QuantizePixels(Quantize { shift, ..quantize(kind) })).number(), 1);
            assert_eq!(expected(&Case::DitherToMode(ToMode { shift, ..to_mode(kind) })).number(), 1);
        }
    }
    for case in refused(11) {
        assert_eq!(expected(&case).number(), 1, "{case:?}");
    }
}

#[test]
fn the_same_orders_of_another_kind_are_accepted() {
    for kind in [1, 2, 3, 4, 7, 8] {
        let cases = refused(kind).into_iter().map(|case| (case.call(), expected(&case).number()));
        let accepted: Vec<Call> = cases.filter(|(_, number)| *number == 0).map(|(call, _)| call).collect();
        assert_eq!(accepted, CALLS.map(|(call, ..)| call), "kind {kind}");
    }
}

/// The retired kinds of cases with 15, each with the number behind it, and those of
/// cases with 1.
fn shown(cases: impl Iterator<Item = Case>) -> (BTreeSet<(u32, u32)>, BTreeSet<u32>) {
    let (mut hidden, mut before) = (BTreeSet::new(), BTreeSet::new());
    for case in cases {
        let kind = case.kind().unwrap();
        match expected(&case).number() {
            15 => _ = hidden.insert((kind, behind(&case))),
            1 if is_retired(kind) => _ = before.insert(kind),
            _ => {}
        }
    }
    (hidden, before)
}

fn hold(call: Call, numbers: &[u32], cases: impl Iterator<Item = Case>) {
    let (hidden, before) = shown(cases);
    let all = RETIRED.into_iter().flat_map(|kind| numbers.iter().map(move |&number| (kind, number)));
    assert!(hidden.iter().copied().eq(all), "{}: {hidden:?}", call.name());
    let has_shift = matches!(call, Call::QuantizePixels | Call::DitherToMode);
    assert!(!has_shift || before.into_iter().eq(RETIRED), "{}", call.name());
}

#[test]
fn random_cases_have_every_number_behind_fifteen() {
    for (call, numbers, _) in CALLS {
        hold(call, numbers, (0..2000).map(|number| generate::case(call, 1, number, Style::DRIVER)));
    }
}

#[test]
fn recorded_cases_have_every_number_behind_fifteen() {
    for (call, _, numbers) in CALLS {
        hold(call, numbers, cases_of(call, 1).into_iter());
    }
}
