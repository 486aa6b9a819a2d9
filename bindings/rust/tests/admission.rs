//! Admission: each answer, in the order of document 01, and what a refusal leaves.

#[path = "common/making.rs"]
mod making;

use making::Message;
use snowknoll::{item, Admitted, Answer, Frontier, LogState, Parts, Row, Store};

/// The id of a message.
fn id(message: &Message) -> [u8; 32] {
    item::id(&message.bytes()).unwrap()
}

/// A message that follows another of the same author.
fn after(previous: &Message, signature: u16) -> Message {
    Message {
        previous: id(previous),
        index: previous.index + 1,
        ..Message::first(previous.author, signature)
    }
}

/// Admits a message as a new row.
fn admits(store: &mut Store, message: &Message, row: u16) {
    assert_eq!(store.admit(&message.bytes(), 0), Ok(Admitted::Done(row)));
}

/// Refuses an item, and changes nothing.
fn refuses_bytes(store: &mut Store, bytes: &[u8], why: Answer) {
    let before = store.clone();
    assert_eq!(store.admit(bytes, 0), Err(why));
    assert_eq!(store.parts(), before.parts());
}

/// Refuses a message, and changes nothing.
fn refuses(store: &mut Store, message: &Message, why: Answer) {
    refuses_bytes(store, &message.bytes(), why);
}

/// A store with two messages of author 1 and one of author 2, and these messages.
fn three() -> (Store, [Message; 3]) {
    let first = Message::first(1, 0);
    let second = after(&first, 0);
    let other = Message {
        dependencies: vec![id(&second)],
        ..Message::first(2, 0)
    };
    let mut store = Store::new();
    admits(&mut store, &first, 1);
    admits(&mut store, &second, 2);
    admits(&mut store, &other, 3);
    (store, [first, second, other])
}

#[test]
fn the_intake_of_document_01() {
    let sound = Message::first(0, 0);
    let with = |mark, index| Message {
        mark,
        index,
        ..sound.clone()
    };
    let mut store = Store::new();
    let mut frontier = Frontier::new();
    refuses(&mut store, &with(0, 0), Answer::Sign);
    refuses(&mut store, &with(102, 0), Answer::Flag);
    admits(&mut store, &sound, 1);
    assert_eq!(store.append_entry(&mut frontier, 1), Ok(()));
    let held = store.admit(&sound.bytes(), 0).unwrap();
    assert_eq!(held, Admitted::Held(1));
    assert_eq!((held.row(), held.answer()), (1, Answer::Held));
    refuses(&mut store, &with(1, 0), Answer::Index);
    assert_eq!(frontier.states(), Ok(vec![LogState::growing(1, 1)]));
    assert_eq!((store.rows(), store.authors()), (1, 1));
}

#[test]
fn an_item_is_judged_where_it_lies_in_an_intake() {
    let (first, other) = (Message::first(1, 0), Message::first(2, 0));
    let intake = [vec![9; 7], first.bytes(), other.bytes()].concat();
    let (start, between, end) = (7, intake.len() - other.bytes().len(), intake.len());
    let mut store = Store::new();
    for (from, to, why) in [
        (start, start, Answer::Short),
        (between, start, Answer::Short),
        (usize::MAX, usize::MAX, Answer::Short),
        (start, between - 1, Answer::Short),
        (start, between + 1, Answer::Long),
        (start, usize::MAX, Answer::Long),
    ] {
        assert_eq!(store.admit_at(&intake, from..to, 0), Err(why));
        assert_eq!(store.parts(), Parts::default());
    }
    let done = |row| Ok(Admitted::Done(row));
    assert_eq!(store.admit_at(&intake, between..usize::MAX, 0), done(1));
    assert_eq!(store.admit_at(&intake, start..between, 0), done(2));
    assert_eq!(
        store.admit_at(&intake, between..end, 0),
        Ok(Admitted::Held(1))
    );
    assert_eq!(store.parts().ids, [id(&other), id(&first)].concat());
}

#[test]
fn an_admission_writes_the_row_its_id_its_dependencies_a_new_key_and_its_numbers() {
    let (store, [first, second, other]) = three();
    let parts = store.parts();
    assert_eq!(parts.keys, [[1; 32], [2; 32]].concat());
    assert_eq!(parts.ids, [id(&first), id(&second), id(&other)].concat());
    assert_eq!(parts.rows, [1, 0, 1, 0, 1, 1, 2, 0, 2, 0, 1, 1]);
    assert_eq!(parts.deps, [2]);
    assert_eq!(parts.firsts, [1, 1]);
    assert_eq!(parts.successors, [1, 0, 0]);
    let row = Row {
        author: 2,
        previous: None,
        index: 1,
        dependencies: &[2],
    };
    assert_eq!(store.row(3), Some(row));
    assert_eq!(store.find_id(&id(&other)), Some(3));
    assert_eq!(store.find_key(&[2; 32]), Some(2));
    assert!(store.well_formed());
}

#[test]
fn no_mark_but_1_is_yes() {
    let (mut store, [first, ..]) = three();
    for mark in 0..=255 {
        let message = Message {
            mark,
            ..after(&first, 7)
        };
        match mark {
            0 => refuses(&mut store, &message, Answer::Sign),
            1 => continue,
            _ => refuses(&mut store, &message, Answer::Flag),
        }
    }
    admits(&mut store, &after(&first, 7), 4);
}

#[test]
fn the_layout_is_judged_first() {
    let (mut store, [first, ..]) = three();
    let bytes = after(&first, 7).bytes();
    for end in 0..bytes.len() {
        refuses_bytes(&mut store, &bytes[..end], Answer::Short);
    }
    refuses_bytes(&mut store, &[&bytes[..], &[0]].concat(), Answer::Long);
    refuses_bytes(&mut store, &[255; 300], Answer::Size);
    let mut other = bytes.clone();
    other[4] = 2;
    refuses_bytes(&mut store, &other, Answer::Kind);
}

#[test]
fn each_later_refusal() {
    let (mut store, [first, second, other]) = three();
    let mut refuse = |why, message: Message| refuses(&mut store, &message, why);
    let new = Message::first(3, 0);
    let next = after(&second, 5);
    refuse(
        Answer::Index,
        Message {
            previous: id(&first),
            ..new.clone()
        },
    );
    refuse(
        Answer::Prev,
        Message {
            previous: [9; 32],
            ..next.clone()
        },
    );
    refuse(
        Answer::Owner,
        Message {
            author: 2,
            ..next.clone()
        },
    );
    refuse(
        Answer::Step,
        Message {
            index: 2,
            ..next.clone()
        },
    );
    refuse(
        Answer::Step,
        Message {
            index: 65_539,
            ..next.clone()
        },
    );
    let depends = |message: &Message, on: &[[u8; 32]]| Message {
        dependencies: on.to_vec(),
        ..message.clone()
    };
    refuse(Answer::Dep, depends(&new, &[id(&other), [9; 32]]));
    refuse(Answer::DepOwner, depends(&next, &[id(&first)]));
    refuse(Answer::DepOwner, depends(&new, &[id(&first), id(&second)]));
    refuse(Answer::DepOwner, depends(&new, &[id(&first), id(&first)]));
    admits(&mut store, &depends(&new, &[id(&first), id(&other)]), 4);
    assert_eq!(store.row(4).unwrap().dependencies, [1, 3]);
}

#[test]
fn a_store_is_full_where_its_room_ends() {
    let first = Message::first(1, 0);
    let other = Message {
        dependencies: vec![id(&first)],
        ..Message::first(2, 0)
    };
    for (rows, authors, deps) in [(1, 2, 1), (2, 1, 1), (2, 2, 0)] {
        let mut store = Store::with_room(rows, authors, deps);
        admits(&mut store, &first, 1);
        refuses(&mut store, &other, Answer::Full);
    }
    let mut store = Store::with_room(2, 2, 1);
    admits(&mut store, &first, 1);
    admits(&mut store, &other, 2);
    refuses(&mut store, &after(&other, 0), Answer::Full);
    refuses(&mut Store::with_room(0, 0, 0), &first, Answer::Full);
}

#[test]
fn a_store_starts_empty_and_goes_on_after_loading() {
    assert_eq!(Store::default().parts(), Parts::default());
    let (store, [_, second, _]) = three();
    let mut loaded = Store::from_parts(store.parts()).unwrap();
    assert_eq!(loaded.admit(&second.bytes(), 0), Ok(Admitted::Held(2)));
    admits(&mut loaded, &after(&second, 0), 4);
    assert_eq!(loaded.parts().rows[12..], [1, 2, 3, 0]);
}
