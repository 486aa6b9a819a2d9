//! The numbers beside rows and authors: how many rows follow each, and how many first messages there are.

#[path = "common/making.rs"]
mod making;

use making::Message;
use snowknoll::{item, Admitted, Answer, Parts, Store};

/// A message that follows another of the same author.
fn after(previous: &Message, signature: u16) -> Message {
    Message {
        previous: item::id(&previous.bytes()).unwrap(),
        index: previous.index + 1,
        ..Message::first(previous.author, signature)
    }
}

/// Admits a message as a new row.
fn admits(store: &mut Store, message: &Message, row: u16) {
    assert_eq!(store.admit(&message.bytes(), 0), Ok(Admitted::Done(row)));
}

/// A store with two messages of author 1 and one of author 2, and these messages.
fn three() -> (Store, [Message; 3]) {
    let first = Message::first(1, 0);
    let messages = [first.clone(), after(&first, 0), Message::first(2, 0)];
    let mut store = Store::new();
    for (row, message) in (1..).zip(&messages) {
        admits(&mut store, message, row);
    }
    (store, messages)
}

#[test]
fn the_numbers_beside_rows_and_authors_are_kept() {
    let (mut store, [first, second, _]) = three();
    admits(&mut store, &after(&first, 1), 4);
    admits(&mut store, &after(&first, 2), 5);
    admits(&mut store, &Message::first(1, 3), 6);
    admits(&mut store, &after(&second, 4), 7);
    let stray = after(&Message::first(9, 9), 5).bytes();
    assert_eq!(store.admit(&stray, 0), Err(Answer::Prev));
    let beside = |row| store.successors(row);
    assert_eq!([1, 2, 3].map(beside), [Some(3), Some(1), Some(0)]);
    assert_eq!([0, 7, 8].map(beside), [None, Some(0), None]);
    let firsts = [0, 1, 2, 3].map(|author| store.firsts(author));
    assert_eq!(firsts, [None, Some(2), Some(1), None]);
    assert!(store.well_formed());
}

#[test]
fn an_author_may_have_1024_first_messages() {
    let mut store = Store::new();
    for signature in 1..=1024 {
        admits(&mut store, &Message::first(1, signature), signature);
        assert_eq!(store.firsts(1), Some(signature));
    }
    assert_eq!(store.parts().successors, [0; 1024]);
    assert!(store.well_formed());
}

#[test]
fn an_old_store_is_counted_at_loading() {
    let (mut store, [first, ..]) = three();
    admits(&mut store, &after(&first, 1), 4);
    admits(&mut store, &Message::first(2, 1), 5);
    let old = Parts {
        firsts: &[],
        successors: &[],
        ..store.parts()
    };
    assert_eq!(Store::from_parts(old).err(), Some(Answer::Store));
    let mut loaded = Store::from_old_parts(old).unwrap();
    assert_eq!(loaded.parts(), store.parts());
    admits(&mut loaded, &after(&first, 2), 6);
    assert_eq!(loaded.successors(1), Some(3));
    let empty = Store::from_old_parts(Parts::default()).unwrap();
    assert_eq!(empty.parts(), Parts::default());
}

#[test]
fn old_tables_that_are_damaged_are_refused() {
    let (store, _) = three();
    let parts = store.parts();
    for rows in [
        &[0, 0, 1, 0, 1, 1, 2, 0, 2, 0, 1, 0],
        &[1, 0, 1, 0, 1, u16::MAX, 2, 0, 2, 0, 1, 0],
        &[1, 0, 1, 0, 1, 1, 2, 0, 65, 0, 1, 0],
        &[1, 0, 1, 0, 1, 1, 2, 0, u16::MAX, 0, 1, 0],
    ] {
        let damaged = Store::from_old_parts(Parts { rows, ..parts });
        assert_eq!(damaged.err(), Some(Answer::Store), "{rows:?}");
    }
    let many = [1, 0, 1, 0].repeat(70_000);
    let ids = vec![0; 32 * 70_000];
    let damaged = Store::from_old_parts(Parts {
        rows: &many,
        ids: &ids,
        ..parts
    });
    assert_eq!(damaged.err(), Some(Answer::Store));
}
