//! Frontiers and packing lists over the sample chain, in owned lists and in lent room.

#[path = "common/sample.rs"]
mod sample;

use sample::tables;
use snowknoll::{Answer, Frontier, LogState, Store};

/// The store of the sample chain.
fn store() -> Store {
    tables().store().unwrap()
}

/// A frontier of any numbers.
fn frontier(numbers: &[u16]) -> Frontier {
    Frontier::from(numbers.to_vec())
}

/// A at G3.
const A3: [u16; 5] = [1, 0, 3, 0, 0];
/// A at G4, and B at G8.
const A4_B8: [u16; 10] = [1, 0, 4, 0, 0, 2, 0, 8, 0, 0];
/// Their merge.
const BOTH: [u16; 10] = [1, 1, 2, 3, 4, 2, 0, 8, 0, 0];

#[test]
fn a_merge_joins_entries_and_keeps_those_in_one() {
    let store = store();
    let (f, g) = (frontier(&A3), frontier(&A4_B8));
    assert_eq!(store.merge_frontiers(&f, &g), Ok(frontier(&BOTH)));
    assert_eq!(store.merge_frontiers(&g, &f), Ok(frontier(&BOTH)));
    let none = Frontier::new();
    assert_eq!(store.merge_frontiers(&none, &g), Ok(g));
    assert_eq!(store.merge_frontiers(&none, &none), Ok(none));
}

#[test]
fn the_order_of_frontiers() {
    let store = store();
    let (f, g, both) = (frontier(&A3), frontier(&A4_B8), frontier(&BOTH));
    assert_eq!(store.frontier_at_or_below(&f, &both), Ok(true));
    assert_eq!(store.frontier_at_or_below(&g, &both), Ok(true));
    assert_eq!(store.frontier_at_or_below(&both, &g), Ok(false));
    assert_eq!(store.frontier_at_or_below(&f, &g), Ok(false));
    assert_eq!(store.frontier_at_or_below(&Frontier::new(), &f), Ok(true));
    assert_eq!(store.frontier_at_or_below(&f, &Frontier::new()), Ok(false));
}

#[test]
fn an_appended_row_makes_or_changes_its_entry() {
    let store = store();
    let mut f = Frontier::new();
    for (row, numbers) in [
        (8, &[2, 0, 8, 0, 0][..]),
        (4, &A4_B8[..]),
        (3, &BOTH[..]),
        (4, &BOTH[..]),
    ] {
        assert_eq!(store.append_entry(&mut f, row), Ok(()));
        assert_eq!(f.numbers(), numbers);
    }
    for row in [0, 11, u16::MAX] {
        assert_eq!(store.append_entry(&mut f, row), Err(Answer::Row));
        assert_eq!(f.numbers(), BOTH);
    }
}

#[test]
fn the_states_of_a_frontier() {
    let f = frontier(&BOTH);
    let a = LogState::forked(1, 2, 3, 4);
    let b = LogState::growing(2, 8);
    assert_eq!(f.states(), Ok(vec![a, b]));
    assert_eq!(
        (f.state(1), f.state(2), f.state(3)),
        (Some(a), Some(b), None)
    );
    assert_eq!(Frontier::from_iter([a, b]), f);
    assert_eq!(f.into_numbers(), BOTH);
    for damaged in [&BOTH[..9], &[1, 2, 3, 0, 0], &[1, 0, 3, 0, 4]] {
        assert_eq!(frontier(damaged).states(), Err(Answer::Frontier));
    }
    assert_eq!(frontier(&[1, 2, 3, 0, 0]).state(1), None);
}

#[test]
fn packing_lists() {
    let store = store();
    let pack = |numbers: &[u16]| store.packing_list(&frontier(numbers));
    assert_eq!(pack(&[]), Ok(vec![]));
    assert_eq!(pack(&A3), Ok(vec![1, 2, 3]));
    assert_eq!(pack(&A4_B8), Ok(vec![1, 2, 3, 4, 5, 8]));
    assert_eq!(pack(&[1, 0, 0, 0, 0, 2, 0, 5, 0, 0]), Ok(vec![1, 2, 3, 5]));
    assert_eq!(pack(&[1, 1, 0, 1, 10]), Ok(vec![1, 10]));
    assert_eq!(pack(&BOTH), Ok(vec![1, 2, 3, 4, 5, 8]));
}

#[test]
fn short_room_is_refused_and_stays_and_room_beyond_stays() {
    let store = store();
    let mut out = [99; 9];
    let merged = store.merge_frontiers_into(&A3, &A4_B8, &mut out);
    assert_eq!((merged, out), (Err(Answer::Room), [99; 9]));
    let mut out = [99; 11];
    let merged = store.merge_frontiers_into(&A3, &A4_B8, &mut out);
    assert_eq!((merged, &out[..10], out[10]), (Ok(10), &BOTH[..], 99));

    let mut out = [99; 5];
    let packed = store.packing_list_into(&A4_B8, &mut out);
    assert_eq!((packed, out), (Err(Answer::Room), [99; 5]));
    let mut out = [99; 8];
    let packed = store.packing_list_into(&A4_B8, &mut out);
    assert_eq!((packed, out), (Ok(6), [1, 2, 3, 4, 5, 8, 99, 99]));
}

#[test]
fn an_entry_is_appended_within_the_room_there_is() {
    let store = store();
    let mut room = [1, 0, 3, 0, 0, 99, 99, 99, 99];
    let before = room;
    let given = store.append_entry_within(&mut room, 5, 8);
    assert_eq!((given, room), (Err(Answer::Room), before));
    let given = store.append_entry_within(&mut room, 10, 8);
    assert_eq!((given, room), (Err(Answer::Frontier), before));
    let given = store.append_entry_within(&mut room, 5, 4);
    assert_eq!((given, room), (Ok(5), [1, 1, 2, 3, 4, 99, 99, 99, 99]));
}
