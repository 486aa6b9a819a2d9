//! Standings: sent by one store, read by another that numbers its rows otherwise.

#[path = "common/following.rs"]
mod following;
#[path = "common/making.rs"]
mod making;

use following::next;
use making::Message;
use snowknoll::{Answer, Frontier, LogState, Store, LONGEST_STANDING};

/// Items of two authors: the first forks right after its first message.
fn items() -> [Vec<u8>; 4] {
    let root = Message::first(1, 0);
    let one = next(&root, 1);
    let other = next(&root, 2);
    [
        root.bytes(),
        one.bytes(),
        other.bytes(),
        Message::first(2, 0).bytes(),
    ]
}

/// A store of the items in an order, and the frontier of all of them.
fn studio(order: &[usize]) -> (Store, Frontier) {
    let mut store = Store::new();
    let mut frontier = Frontier::new();
    for &item in order {
        let row = store.admit(&items()[item], 0).unwrap().row();
        store.append_entry(&mut frontier, row).unwrap();
    }
    (store, frontier)
}

#[test]
fn a_standing_says_the_same_by_ids_in_a_store_with_other_row_numbers() {
    let (one, frontier) = studio(&[0, 1, 2, 3]);
    let (other, its_own) = studio(&[3, 0, 2, 1]);
    let sent = one.standing(&frontier).unwrap();
    assert_eq!(sent.len(), 8 + 2 * 130);
    assert_eq!(one.read_standing(&sent), Ok(frontier.clone()));
    let read = other.read_standing(&sent).unwrap();
    assert_ne!(read, frontier);
    assert_eq!(read, its_own);
    assert_eq!(other.standing(&read), Ok(sent));
}

#[test]
fn a_standing_of_nobody_and_the_longest_one() {
    let (store, _) = studio(&[]);
    let sent = store.standing(&Frontier::new()).unwrap();
    assert_eq!(sent, [4, 0, 0, 0, 3, 0, 0, 0]);
    assert_eq!(store.read_standing(&sent), Ok(Frontier::new()));
    assert_eq!(LONGEST_STANDING, 8328);
}

#[test]
fn each_refusal_comes_before_the_next_and_writes_nothing() {
    let (store, frontier) = studio(&[0, 1, 2, 3]);
    let (less, _) = studio(&[0, 1, 3]);
    let sent = store.standing(&frontier).unwrap();
    let mut out = [61166; 10];
    assert_eq!(
        store.read_standing_into(&sent, &mut out[..9]),
        Err(Answer::Room)
    );
    assert_eq!(less.read_standing(&sent), Err(Answer::Unknown));
    let mut damaged = sent.clone();
    damaged[8 + 130 + 34] = 1;
    assert_eq!(damaged[8 + 130 + 33], 1);
    assert_eq!(less.read_standing(&damaged), Err(Answer::Unknown));
    damaged[8 + 32] = 2;
    assert_eq!(less.read_standing(&damaged), Err(Answer::Flag));
    damaged[4] = 1;
    assert_eq!(store.read_standing(&damaged), Err(Answer::Kind));
    assert_eq!(store.read_standing(&sent[..200]), Err(Answer::Short));
    let mut twice = sent.clone();
    twice.copy_within(8..138, 138);
    assert_eq!(store.read_standing(&twice), Err(Answer::Frontier));
    let beside = Frontier::from_iter([LogState::growing(3, 1)]);
    assert_eq!(store.standing(&beside), Err(Answer::Frontier));
    let mut short = [238; 267];
    let numbers = frontier.numbers();
    assert_eq!(store.standing_into(numbers, &mut short), Err(Answer::Room));
    assert_eq!((out, short), ([61166; 10], [238; 267]));
}
