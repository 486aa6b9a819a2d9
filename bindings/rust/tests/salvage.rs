//! Sticks with holes: what is kept, in which order, and what becomes of the rest.

#[path = "common/following.rs"]
mod following;
#[path = "common/making.rs"]
mod making;

use following::next;
use making::Message;
use snowknoll::{Admitted, Answer, Salvage, Store};

/// A log of so many messages, as items.
fn log(count: usize) -> Vec<Vec<u8>> {
    let mut messages = vec![Message::first(1, 0)];
    while messages.len() < count {
        messages.push(next(&messages[messages.len() - 1], 0));
    }
    messages.iter().map(Message::bytes).collect()
}

#[test]
fn a_stick_in_reverse_is_kept_whole() {
    let log = log(20);
    let mut reversed = log.clone();
    reversed.reverse();
    let salvage = Salvage::of(&reversed.concat()).unwrap();
    assert_eq!(salvage.clean, log.concat());
    let places: Vec<_> = (1..=20)
        .rev()
        .map(|place| Ok(Admitted::Done(place)))
        .collect();
    assert_eq!(salvage.items, places);
    let mut store = Store::new();
    let answers = store.take_in(&salvage.clean, 0).unwrap();
    assert!(answers
        .iter()
        .all(|answer| matches!(answer, Ok(Admitted::Done(_)))));
    assert_eq!(salvage.store.parts(), store.parts());
    let again = Salvage::of(&salvage.clean).unwrap();
    assert_eq!(again.clean, salvage.clean);
}

#[test]
fn what_is_dropped_has_the_answer_of_the_final_store() {
    let log = log(4);
    let unsigned = Message {
        mark: 0,
        ..Message::first(2, 0)
    };
    let stick = [
        log[3].clone(),
        log[1].clone(),
        unsigned.bytes(),
        log[1].clone(),
        log[0].clone(),
        log[2][..100].to_vec(),
    ];
    let salvage = Salvage::of(&stick.concat()).unwrap();
    assert_eq!(salvage.clean, [&log[0][..], &log[1]].concat());
    let expected = [
        Err(Answer::Prev),
        Ok(Admitted::Done(2)),
        Err(Answer::Sign),
        Ok(Admitted::Held(2)),
        Ok(Admitted::Done(1)),
        Err(Answer::Short),
    ];
    assert_eq!(salvage.items, expected);
    assert_eq!(salvage.store.rows(), 2);
}

#[test]
fn a_stick_has_at_most_1024_items() {
    let empty = Salvage::of(&[]).unwrap();
    assert!(empty.clean.is_empty() && empty.items.is_empty());
    let full = Salvage::of(&[0; 4 * 1024]).unwrap();
    assert_eq!(full.items, vec![Err(Answer::Short); 1024]);
    assert_eq!(Salvage::of(&[0; 4 * 1025]).err(), Some(Answer::Size));
}
