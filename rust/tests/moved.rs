//! A sheet moved to its other version: each trap of docs/FORMAT.md, "The sheet" and "Moving a sheet to the other version", with its bytes and
//! its answer written out; and the lengths of the longest sheets.
//!
//! The proved library is called by both its layers (support/proved.rs), and the reference and the fast implementation beside it.

mod support;

use support::fast::Workspace;
use support::generate::Draft;
use support::{proved, reference, Answer, Chosen, Done, Fault};
use zomuwedli::{Refusal, Written, HAND_STATE_LENGTH, MAX_SHEET, MAX_TRACE, STATE_LENGTH};

// ---- One call -----------------------------------------------------------------------------------------------------------------------

type Call = fn(&[u8], &mut [u8]) -> Answer<Written>;

const ALL: [(&str, Call); 3] = [
    ("proved", proved::move_sheet),
    ("reference", reference::move_sheet),
    ("fast", |sheet, target| Workspace::new().move_sheet(sheet, target)),
];

/// What all three answer with a target of this length, and the target afterwards: all alike, old bytes after the sheet, and none changed
/// where the call is refused.
fn moves(sheet: &[u8], length: usize) -> (Answer<Written>, Vec<u8>) {
    // On the heap, in a box of exactly their number: memcheck sees every access beyond.
    let sheet: Box<[u8]> = Box::from(sheet);
    let old: Vec<u8> = (0..length).map(|place| (place * 31 + 7) as u8).collect();
    let results = ALL.map(|(name, call)| {
        let mut target = old.clone();
        let answer = call(&sheet, &mut target);
        let written = answer.map_or(0, |written| written.bytes);
        assert_eq!(target[written..], old[written..], "{name} writes beyond the sheet: {answer:?}");
        (answer, target)
    });
    let [proved, reference, fast] = results;
    assert!(proved == reference, "proved {:?}, reference {:?}: {sheet:02x?}", proved.0, reference.0);
    assert!(proved == fast, "proved {:?}, fast {:?}: {sheet:02x?}", proved.0, fast.0);
    proved
}

/// The one sheet moved is the other and the other way round: with a target of the very length and with a longer one. With one byte less, and
/// with none, it is 26.
fn are_moved(sheet: &[u8], other: &[u8]) {
    for (sheet, moved) in [(sheet, other), (other, sheet)] {
        for length in [moved.len(), moved.len() + 1, MAX_SHEET] {
            let (answer, target) = moves(sheet, length);
            assert_eq!(answer, Ok(Written { bytes: moved.len() }), "{sheet:02x?}");
            assert!(target[..moved.len()] == *moved, "{:02x?} for {moved:02x?}", &target[..moved.len()]);
        }
        for length in [moved.len() - 1, 0] {
            assert_eq!(moves(sheet, length).0, Err(Refusal::TargetBuffer.into()), "{sheet:02x?}");
        }
    }
}

/// Every job of every implementation refuses the sheet with this number, whatever else it is lent: the move with an empty target too.
fn refused(sheet: &[u8], refusal: Refusal) {
    let mut fast = Workspace::new();
    let (mut trace, mut state, mut plan) = ([0; 1], [0; STATE_LENGTH], [0; 1]);
    let numbers = [
        told(proved::read(sheet)),
        told(reference::read(sheet)),
        told(fast.read(sheet)),
        told(proved::run(sheet, &mut trace, &mut state)),
        told(reference::run(sheet, &mut trace, &mut state)),
        told(fast.run(sheet, &mut trace, &mut state)),
        told(proved::start(sheet, &mut state)),
        told(reference::start(sheet, &mut state)),
        told(fast.start(sheet, &mut state)),
        told(proved::hand_call(sheet, &mut state, 99)),
        told(reference::hand_call(sheet, &mut state, 99)),
        told(fast.hand_call(sheet, &mut state, 99)),
        told(proved::put_back(sheet, &[], &[], &mut plan)),
        told(reference::put_back(sheet, &[], &[], &mut plan)),
        told(fast.put_back(sheet, &[], &[], &mut plan)),
        told(proved::pick(sheet, &mut trace, &mut plan, &mut state)),
        told(reference::pick(sheet, &mut trace, &mut plan, &mut state)),
        told(fast.pick(sheet, &mut trace, &mut plan, &mut state)),
        told(moves(sheet, 0).0),
        told(moves(sheet, MAX_SHEET).0),
    ];
    assert_eq!(numbers, [refusal.number(); 20], "{sheet:02x?}");
}

/// The number of an answer, 0 for accepted.
fn told<T>(answer: Answer<T>) -> u8 {
    answer.map_or_else(Fault::number, |_| 0)
}

/// A sheet from its parts, with its own length stated.
fn sheet(version: u8, sizes: &[u8], blocks: &[&[u8]]) -> Vec<u8> {
    let rest = [sizes, &blocks.concat()].concat();
    let length = 8 + rest.len() as u8;
    [&[version, 0, 0, 0, length, sizes.len() as u8, 0, blocks.len() as u8], &rest[..]].concat()
}

// ---- The traps ----------------------------------------------------------------------------------------------------------------------

const B: [u8; 16] = [1, 0, 0, 0, 16, 2, 0, 1, 2, 2, 0, 1, 0, 2, 0, 1];
const B_MOVED: [u8; 14] = [2, 0, 0, 0, 14, 2, 0, 1, 2, 2, 0, 1, 2, 1];

/// "Sheet B, with a target of 16 bytes that are `aa` each; and back, with a target of 16."
#[test]
fn sheet_b_and_back() {
    let mut target = [0xaa; 16];
    assert_eq!(zomuwedli::move_sheet(&B, &mut target), Ok(Written { bytes: 14 }));
    assert_eq!(target, [2, 0, 0, 0, 14, 2, 0, 1, 2, 2, 0, 1, 2, 1, 0xaa, 0xaa]);
    assert_eq!(zomuwedli::move_sheet(&target[..14], &mut [0xaa; 15]), Err(Refusal::TargetBuffer));
    are_moved(&B, &B_MOVED);
}

/// "Both widths in one sheet, and the width goes by j": 40 bytes in version 2, 49 in version 1.
#[rustfmt::skip]
const WIDTHS: [u8; 40] = [
    2, 0, 0, 0, 40, 3, 0, 2, 8, 9, 8,
    0, 1, 0, 0x03, 0, 0x06, 0, 0x0c, 0, 0x18, 0, 0x30, 0, 0x60, 0, 0xc0, 1, 0x80,
    1, 2, 0x01, 0x02, 0x04, 0x08, 0x10, 0x20, 0x40, 0x80, 0x01,
];
#[rustfmt::skip]
const WIDTHS_MOVED: [u8; 49] = [
    1, 0, 0, 0, 49, 3, 0, 2, 8, 9, 8,
    0, 1, 0, 0x03, 0, 0x06, 0, 0x0c, 0, 0x18, 0, 0x30, 0, 0x60, 0, 0xc0, 1, 0x80,
    1, 2, 0, 0x01, 0, 0x02, 0, 0x04, 0, 0x08, 0, 0x10, 0, 0x20, 0, 0x40, 0, 0x80, 0, 0x01,
];

/// Items of 8 and 9 settings in both orders, by themselves and in one sheet.
#[test]
fn the_width_goes_by_j() {
    are_moved(&WIDTHS, &WIDTHS_MOVED);
    // 8 rows for a j of 9: two bytes in both versions, though i has 8.
    let eight_nine: &[u8] = &[0, 1, 1, 0xff, 0, 0, 0, 1, 1, 0, 0, 0xff, 1, 0x80, 0, 0x80, 0, 7];
    are_moved(&sheet(1, &[8, 9], &[eight_nine]), &sheet(2, &[8, 9], &[eight_nine]));
    // 9 rows for a j of 8: one byte in version 2, though i has 9.
    let wide: &[u8] = &[0, 1, 0, 0xff, 0, 0, 0, 1, 0, 0x80, 0, 2, 0, 0x7f, 0, 3, 0, 0xfe, 0, 9];
    let narrow: &[u8] = &[0, 1, 0xff, 0, 1, 0x80, 2, 0x7f, 3, 0xfe, 9];
    are_moved(&sheet(1, &[9, 8], &[wide]), &sheet(2, &[9, 8], &[narrow]));
    assert_eq!((sheet(1, &[9, 8], &[wide]).len(), sheet(2, &[9, 8], &[narrow]).len()), (30, 21));
}

/// "Where no block's j has 8 settings or fewer the two differ in byte 0 only": whatever the i have, and where there is no block.
#[test]
fn above_8_only_byte_0_differs() {
    let (one_sixteen, nine_sixteen): (&[u8], &[u8]) =
        (&[0, 2, 0x80, 1], &[1, 2, 0, 0, 0, 1, 0xff, 0xff, 0, 2, 0, 3, 0, 4, 0, 5, 0, 6, 0x7f, 0xff]);
    for (sizes, blocks) in [(&[1, 9, 16][..], &[one_sixteen, nine_sixteen][..]), (&[2], &[]), (&[9], &[]), (&[1; 32], &[])] {
        let [first, second] = [1, 2].map(|version| sheet(version, sizes, blocks));
        assert_eq!(first[1..], second[1..]);
        are_moved(&first, &second);
    }
}

/// "A row of one byte for a j of 8 settings has no bit beyond; for a j of 7 settings the bit worth 128 is one, and 8."
#[test]
fn bits_beyond() {
    let two = |size: u8, row: &[u8], other: &[u8]| sheet(2, &[2, size], &[&[&[0, 1], row, other].concat()]);
    refused(&two(7, &[0x80], &[0]), Refusal::RowBeyond);
    refused(&two(7, &[0], &[0xff]), Refusal::RowBeyond);
    are_moved(&two(7, &[0x7f], &[0]), &sheet(1, &[2, 7], &[&[0, 1, 0, 0x7f, 0, 0]]));
    are_moved(&two(8, &[0x80], &[0]), &sheet(1, &[2, 8], &[&[0, 1, 0, 0x80, 0, 0]]));
    are_moved(&two(8, &[0xff], &[0x7f]), &sheet(1, &[2, 8], &[&[0, 1, 0, 0xff, 0, 0x7f]]));
    refused(&two(9, &[2, 0], &[0, 0]), Refusal::RowBeyond);
    are_moved(&two(9, &[1, 0], &[0, 0]), &sheet(1, &[2, 9], &[&[0, 1, 1, 0, 0, 0]]));
    // In version 1 the first byte of a row for a j of 8 has such a bit.
    refused(&sheet(1, &[2, 8], &[&[0, 1, 1, 0, 0, 0]]), Refusal::RowBeyond);
    // 8 before 9, and 9 by the widths of the version.
    refused(&two(7, &[0x7f], &[0x7f]), Refusal::BarsNothing);
    refused(&two(7, &[0xff], &[0xff]), Refusal::RowBeyond);
    refused(&two(8, &[0xff], &[0xff]), Refusal::BarsNothing);
    refused(&two(9, &[1, 0xff], &[1, 0xff]), Refusal::BarsNothing);
}

/// A byte less or more, by the widths of version 2: 3 where the stated length is not mended, 6 where it is.
#[test]
fn cut_by_one_byte() {
    let stated = |bytes: &[u8]| [&bytes[..4], &[bytes.len() as u8], &bytes[5..]].concat();
    for sheet in [&B_MOVED[..], &WIDTHS] {
        let (cut, longer) = (&sheet[..sheet.len() - 1], [sheet, &[0]].concat());
        refused(cut, Refusal::SheetLength);
        refused(&longer, Refusal::SheetLength);
        refused(&stated(cut), Refusal::BlockBytes);
        refused(&stated(&longer), Refusal::BlockBytes);
    }
    // The rows of the one version under the byte of the other: left over, and cut short.
    refused(&[&[2], &B[1..]].concat(), Refusal::BlockBytes);
    refused(&[&[1], &B_MOVED[1..]].concat(), Refusal::BlockBytes);
    refused(&[&[1], &WIDTHS[1..]].concat(), Refusal::BlockBytes);
}

/// "2 looks at the sheet's byte 0 and at nothing else."
#[test]
fn other_versions_are_2() {
    for version in (0..=255).filter(|version| ![1, 2].contains(version)) {
        for sheet in [&B[..], &B_MOVED, &WIDTHS, &[1, 9, 9, 9, 9, 9, 9, 9]] {
            refused(&[&[version], &sheet[1..]].concat(), Refusal::SheetVersion);
        }
        refused(&[version, 0, 0, 0, 7, 1, 0], Refusal::SheetFront);
    }
}

/// The sheet's own number before 26: each of 1 to 9, by the widths of version 2.
#[test]
fn the_sheet_comes_before_the_target() {
    let faulty: [(&[u8], Refusal); 10] = [
        (&B_MOVED[..7], Refusal::SheetFront),
        (&[3, 0, 0, 0, 14, 2, 0, 1, 2, 2, 0, 1, 2, 1], Refusal::SheetVersion),
        (&[2, 0, 0, 0, 16, 2, 0, 1, 2, 2, 0, 1, 2, 1], Refusal::SheetLength),
        (&[2, 0, 0, 0, 14, 33, 0, 1, 2, 2, 0, 1, 2, 1], Refusal::ItemCount),
        (&[2, 0, 0, 0, 14, 2, 0, 1, 2, 17, 0, 1, 2, 1], Refusal::ItemSize),
        (&[2, 0, 0, 0, 14, 2, 0, 2, 2, 2, 0, 1, 2, 1], Refusal::BlockBytes),
        (&[2, 0, 0, 0, 14, 2, 0, 0, 2, 2, 0, 1, 2, 1], Refusal::BlockBytes),
        (&[2, 0, 0, 0, 14, 2, 0, 1, 2, 2, 1, 0, 2, 1], Refusal::BlockOrder),
        (&[2, 0, 0, 0, 14, 2, 0, 1, 2, 2, 0, 1, 4, 1], Refusal::RowBeyond),
        (&[2, 0, 0, 0, 14, 2, 0, 1, 2, 2, 0, 1, 3, 3], Refusal::BarsNothing),
    ];
    faulty.iter().for_each(|(sheet, refusal)| refused(sheet, *refusal));
}

/// "A trace's own version byte is 1 with both": what a run writes, and what putting back takes. The answers are those of version 1.
#[test]
fn a_trace_is_of_version_1() {
    for sheet in [&B[..], &B_MOVED] {
        let (mut trace, mut state, mut plan) = ([0; MAX_TRACE], [0; STATE_LENGTH], [7; 2]);
        let mut fast = Workspace::new();
        for run in [proved::run, reference::run] {
            assert_eq!(run(sheet, &mut trace, &mut state).map(|done| done.written), Ok(9));
            assert_eq!(trace[..9], [1, 3, 2, 0, 0, 3, 2, 1, 0]);
            trace[0] = 0;
        }
        assert_eq!(fast.run(sheet, &mut trace, &mut state).map(|done| done.written), Ok(9));
        assert_eq!(trace[..9], [1, 3, 2, 0, 0, 3, 2, 1, 0]);
        assert_eq!(proved::put_back(sheet, &trace[..9], &[255, 255], &mut plan), Ok(()));
        assert_eq!(plan, [0, 1]);
        trace[0] = 2;
        let answers = [
            proved::put_back(sheet, &trace[..9], &[255, 255], &mut plan),
            reference::put_back(sheet, &trace[..9], &[255, 255], &mut plan),
            fast.put_back(sheet, &trace[..9], &[255, 255], &mut plan),
        ];
        assert_eq!(answers, [Err(Refusal::TraceFront.into()); 3]);
    }
}

/// The sheet with both widths, by its words: every job answers on the one version as on the other.
#[test]
fn both_versions_are_answered_alike() {
    let results = [&WIDTHS[..], &WIDTHS_MOVED].map(|sheet| {
        let (mut trace, mut picked_trace) = (vec![7; MAX_TRACE], vec![7; MAX_TRACE]);
        let (mut state, mut picked_state, mut hand_state) = ([7; STATE_LENGTH], [7; STATE_LENGTH], [7; HAND_STATE_LENGTH]);
        let (mut plan, mut full) = (vec![7; 3], vec![7; 3]);
        let done: Done = proved::run(sheet, &mut trace, &mut state).expect("a run");
        let chosen: Chosen = proved::pick(sheet, &mut picked_trace, &mut plan, &mut picked_state).expect("a pick");
        assert_eq!(proved::start(sheet, &mut hand_state), Ok(()));
        let called = proved::hand_call(sheet, &mut hand_state, 1);
        // Setting 8 of item 1 is allowed with 7 of item 0 and with 0 of item 2.
        assert_eq!(proved::put_back(sheet, &[1], &[7, 8, 0], &mut full), Ok(()));
        assert_eq!(proved::put_back(sheet, &[1], &[0, 8, 0], &mut full), Err(Refusal::PlanUnfit.into()));
        assert_eq!(proved::put_back(sheet, &[1], &[7, 8, 7], &mut full), Err(Refusal::PlanUnfit.into()));
        (done, chosen, called, [trace, picked_trace], [state, picked_state, hand_state], [plan, full], proved::read(sheet))
    });
    assert!(results[0] == results[1], "{results:02x?}");
}

// ---- The longest --------------------------------------------------------------------------------------------------------------------

/// A block for each two of 32 items, and their lengths in version 1 and in version 2.
#[test]
fn the_longest_sheets() {
    let alternating: Vec<u8> = (0..32).map(|item| 8 + item % 2).collect();
    let cases = [(vec![16; 32], 16_904, 16_904), (vec![9; 32], 9_960, 9_960), (vec![8; 32], 8_968, 5_000), (alternating, 9_448, 7_408)];
    for (sizes, length, other_length) in cases {
        let draft = Draft::new(sizes, |_, a, _, b| a != b);
        let [sheet, other] = [1, 2].map(|version| draft.clone().in_version(version).bytes());
        assert_eq!((sheet.len(), other.len()), (length, other_length));
        are_moved(&sheet, &other);
        if length == other_length {
            assert!(sheet[1..] == other[1..]);
        }
    }
}
