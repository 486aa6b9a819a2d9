//! A whole intake in one call: what it gives and leaves is what admission of each item does.

#[path = "common/making.rs"]
mod making;

use making::Message;
use snowknoll::{Admitted, Answer, Store};

/// Items of two authors among damaged ones, some of them twice.
fn items() -> Vec<Vec<u8>> {
    let first = Message::first(1, 0);
    let unsigned = Message {
        mark: 0,
        ..Message::first(2, 0)
    };
    let marked = Message {
        mark: 102,
        ..Message::first(2, 0)
    };
    let payload = vec![7; 300];
    let large = Message {
        payload,
        ..Message::first(2, 1)
    };
    let orphan = Message {
        index: 2,
        ..Message::first(1, 0)
    };
    vec![
        first.bytes(),
        unsigned.bytes(),
        marked.bytes(),
        first.bytes(),
        vec![0; 4],
        large.bytes(),
        orphan.bytes(),
        Message::first(1, 1).bytes(),
        vec![2, 0, 0, 0, 2, 0],
    ]
}

/// A store with room for so many rows, and what admission gives for each item in turn.
fn one_by_one(room: usize, items: &[Vec<u8>]) -> (Store, Vec<Result<Admitted, Answer>>) {
    let mut store = Store::with_room(room, 2, 0);
    let answers = items.iter().map(|item| store.admit(item, 9)).collect();
    (store, answers)
}

#[test]
fn one_call_is_one_admission_after_another() {
    for room in 0..4 {
        for count in 0..=items().len() {
            let items = &items()[..count];
            let (admitted, answers) = one_by_one(room, items);
            let mut store = Store::with_room(room, 2, 0);
            assert_eq!(
                store.take_in(&items.concat(), 9),
                Ok(answers),
                "{room} {count}"
            );
            assert_eq!(store.parts(), admitted.parts(), "{room} {count}");
            assert!(store.well_formed());
        }
    }
    let (_, answers) = one_by_one(4, &items());
    let expected = [
        Ok(Admitted::Done(1)),
        Err(Answer::Sign),
        Err(Answer::Flag),
        Ok(Admitted::Held(1)),
        Err(Answer::Short),
        Ok(Admitted::Done(2)),
        Err(Answer::Prev),
        Ok(Admitted::Done(3)),
        Err(Answer::Kind),
    ];
    assert_eq!(answers, expected);
}

#[test]
fn the_cutting_ends_at_a_damaged_length_or_inside_an_item() {
    let whole = Message::first(1, 0).bytes();
    let mut long = Message::first(1, 1).bytes();
    long[..4].copy_from_slice(&6254_u32.to_le_bytes());
    for (last, why) in [
        (vec![1], Answer::Short),
        (whole[..144].to_vec(), Answer::Short),
        (long, Answer::Size),
    ] {
        let stretch = [&whole, &last, &whole].map(|item| item.as_slice());
        let behind = if why == Answer::Size { 3 } else { 2 };
        let mut store = Store::new();
        let answers = store.take_in(&stretch[..behind].concat(), 0);
        assert_eq!(answers, Ok(vec![Ok(Admitted::Done(1)), Err(why)]));
        assert_eq!(store.rows(), 1);
    }
    assert_eq!(Store::new().take_in(&[], 0), Ok(vec![]));
}

#[test]
fn all_rows_have_one_origin_and_a_held_one_keeps_its_first() {
    let mut store = Store::new();
    let [one, other] = [1, 2].map(|author| Message::first(author, 0).bytes());
    store.admit(&one, 5).unwrap();
    let answers = store.take_in(&[&one[..], &other].concat(), 7);
    assert_eq!(
        answers,
        Ok(vec![Ok(Admitted::Held(1)), Ok(Admitted::Done(2))])
    );
    assert_eq!(store.parts().origins, [5, 7]);
}

#[test]
fn a_list_that_is_too_short_is_refused_and_nothing_is_taken_in() {
    let stretch = items().concat();
    let mut store = Store::new();
    let mut list = [61166; 20];
    for room in 0..18 {
        let given = store.take_in_listing(&stretch, 0, &mut list[..room]);
        assert_eq!(given, Err(Answer::Room), "{room}");
    }
    assert_eq!((store.rows(), list), (0, [61166; 20]));
    assert_eq!(store.take_in_listing(&stretch, 0, &mut list), Ok(9));
    assert_eq!(list[..4], [0, 1, 7, 0]);
    assert_eq!(list[16..], [5, 0, 61166, 61166]);
    assert_eq!(store.rows(), 3);
}
