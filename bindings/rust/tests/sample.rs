//! The sample chain of document 01: rows, merges, order, packing lists.

#[path = "common/sample.rs"]
mod sample;

use sample::{name, tables};
use snowknoll::{Answer, Branch, Frontier, LogState, Phase, Prefix, Row, Store};

/// The store of the sample chain.
fn store() -> Store {
    tables().store().unwrap()
}

/// A is growing at a row.
fn g(last: u16) -> LogState {
    LogState::growing(1, last)
}

/// A is forked.
fn f(last: u16, low: u16, high: u16) -> LogState {
    LogState::forked(1, last, low, high)
}

#[test]
fn the_rows_ids_and_keys_are_those_of_the_page() {
    let store = store();
    assert!(store.well_formed());
    assert_eq!((store.rows(), store.authors()), (10, 2));
    let row = |author, previous, index, dependencies| Row {
        author,
        previous,
        index,
        dependencies,
    };
    assert_eq!(store.row(1), Some(row(1, None, 1, &[])));
    assert_eq!(store.row(5), Some(row(2, None, 1, &[3])));
    assert_eq!(store.row(6), Some(row(1, Some(4), 4, &[])));
    assert_eq!(store.row(8), Some(row(2, Some(5), 2, &[])));
    assert_eq!(store.id(9), Some(&name(1)));
    assert_eq!(store.key(2), Some(&name(66)));
    assert_eq!((store.row(0), store.row(11)), (None, None));
    assert_eq!((store.id(0), store.id(11)), (None, None));
    assert_eq!((store.key(0), store.key(3)), (None, None));
}

#[test]
fn lookups_find_what_is_held_and_nothing_beyond() {
    let store = store();
    assert_eq!(store.find_id(&name(10)), Some(8));
    assert_eq!(store.find_id(&name(7)), Some(1));
    assert_eq!(store.find_key(&name(66)), Some(2));
    // Room beyond the counts holds zeros, which are no row's id and no author's key.
    assert_eq!(store.find_id(&name(0)), None);
    assert_eq!(store.find_key(&name(0)), None);
}

#[test]
fn saving_and_loading_keep_the_tables() {
    let tables = tables();
    let store = tables.store().unwrap();
    let parts = store.parts();
    assert_eq!(parts.keys, tables.keys);
    assert_eq!(parts.ids, tables.ids);
    assert_eq!(parts.rows, tables.rows);
    assert_eq!(parts.deps, tables.deps);
    assert_eq!(parts.firsts, tables.firsts);
    assert_eq!(parts.successors, tables.successors);
    assert_eq!(Store::from_parts(parts).unwrap().parts(), parts);
}

#[test]
fn prefixes() {
    let store = store();
    let gives = |a, b, row, first, second| {
        let some = |x: u16| (x != 0).then_some(x);
        let (row, first, second) = (some(row), some(first), some(second));
        assert_eq!(store.prefix(a, b), Ok(Prefix { row, first, second }));
    };
    gives(6, 3, 2, 4, 3);
    gives(9, 7, 1, 2, 7);
    gives(2, 6, 2, 0, 4);
    gives(3, 3, 3, 0, 0);
    gives(10, 1, 0, 10, 1);
    gives(0, 3, 0, 0, 1);
    gives(0, 0, 0, 0, 0);
    assert_eq!(store.prefix(3, 5), Err(Answer::Row));
    assert_eq!(store.prefix(11, 1), Err(Answer::Row));
    assert_eq!(store.prefix(1, 11), Err(Answer::Row));
}

#[test]
fn the_nine_merges() {
    let store = store();
    for (first, second, merged) in [
        (g(3), g(4), f(2, 3, 4)),
        (f(2, 3, 4), g(9), f(2, 9, 3)),
        (g(6), f(2, 9, 3), f(2, 9, 3)),
        (g(7), f(2, 3, 4), f(1, 2, 7)),
        (g(10), g(1), f(0, 1, 10)),
        (g(0), g(3), g(3)),
        (g(2), f(2, 3, 4), f(2, 3, 4)),
        (f(1, 2, 7), f(2, 9, 4), f(1, 2, 7)),
        (f(2, 3, 4), f(2, 9, 4), f(2, 9, 3)),
    ] {
        assert_eq!(store.merge(first, second), Ok(merged));
        assert_eq!(store.merge(second, first), Ok(merged));
        assert_eq!(store.at_or_below(first, merged), Ok(true));
    }
}

#[test]
fn the_three_order_lines() {
    let store = store();
    assert_eq!(store.at_or_below(g(7), f(2, 3, 4)), Ok(false));
    assert_eq!(store.at_or_below(f(2, 3, 4), f(2, 9, 3)), Ok(true));
    assert_eq!(store.at_or_below(f(2, 9, 3), f(2, 3, 4)), Ok(false));
}

#[test]
fn an_append_is_a_merge_with_growing_at_the_row() {
    let store = store();
    assert_eq!(store.append(LogState::empty(1), 1), Ok(g(1)));
    assert_eq!(store.append(g(2), 3), Ok(g(3)));
    assert_eq!(store.append(g(3), 4), Ok(f(2, 3, 4)));
    assert_eq!(store.append(f(2, 3, 4), 9), Ok(f(2, 9, 3)));
    assert_eq!(store.append(f(2, 3, 4), 10), Ok(f(0, 1, 10)));
    for row in [0, 5, 11] {
        assert_eq!(store.append(g(2), row), Err(Answer::Row), "row {row}");
    }
}

#[test]
fn states_that_are_not_valid() {
    let store = store();
    for bad in [f(2, 4, 3), f(2, 3, 3), f(1, 3, 4)] {
        assert_eq!(store.merge(bad, g(3)), Err(Answer::State));
        assert_eq!(store.merge(g(3), bad), Err(Answer::State));
    }
}

#[test]
fn states_of_two_authors_are_no_pair() {
    let store = store();
    let b = LogState::growing(2, 8);
    assert_eq!(store.merge(g(3), b), Err(Answer::Pair));
    assert_eq!(store.at_or_below(b, g(3)), Err(Answer::Pair));
}

#[test]
fn the_packing_list_of_b() {
    let b = Frontier::from_iter([LogState::growing(2, 8)]);
    assert_eq!(store().packing_list(&b), Ok(vec![1, 2, 3, 5, 8]));
}

#[test]
fn the_packing_list_of_a_has_the_evidence() {
    let a = Frontier::from_iter([f(2, 3, 4)]);
    assert_eq!(store().packing_list(&a), Ok(vec![1, 2, 3, 4]));
}

#[test]
fn a_state_reads_as_the_page_writes_it() {
    let forked = f(0, 1, 10);
    assert_eq!(forked.author(), 1);
    assert_eq!(forked.last(), None);
    assert_eq!(forked.phase(), Phase::Forked { low: 1, high: 10 });
    assert_eq!(forked.numbers(), [1, 1, 0, 1, 10]);
    assert_eq!(LogState::from_numbers([1, 1, 0, 1, 10]), Ok(forked));
    assert_eq!(g(3).last(), Some(3));
    assert_eq!(g(3).phase(), Phase::Growing);
    assert_eq!(LogState::from_numbers([1, 0, 3, 0, 0]), Ok(g(3)));
}

#[test]
fn every_branch_is_listed_by_rising_id_with_the_child_that_it_runs_through() {
    let store = store();
    let branch = |(tip, child)| Branch { tip, child };
    let behind_two = [(9, 9), (3, 3), (6, 4)].map(branch).to_vec();
    let behind_one = [(9, 2), (3, 2), (6, 2), (7, 7)].map(branch).to_vec();
    let behind_none = [(9, 1), (3, 1), (6, 1), (7, 1), (10, 10)].map(branch);
    assert_eq!(store.branches(f(2, 3, 4)), Ok(behind_two.clone()));
    assert_eq!(store.branches(f(2, 9, 3)), Ok(behind_two));
    assert_eq!(store.branches(f(1, 2, 7)), Ok(behind_one));
    assert_eq!(store.branches(f(0, 1, 10)), Ok(behind_none.to_vec()));
    assert_eq!(store.branches(g(6)), Err(Answer::Whole));
    assert_eq!(store.branches(f(2, 4, 3)), Err(Answer::State));
    let mut room = [77; 7];
    assert_eq!(store.branches_into(f(2, 3, 4), &mut room), Ok(6));
    assert_eq!(room, [9, 9, 3, 3, 6, 4, 77]);
    let mut short = [77; 5];
    let given = store.branches_into(f(2, 3, 4), &mut short);
    assert_eq!((given, short), (Err(Answer::Room), [77; 5]));
}
