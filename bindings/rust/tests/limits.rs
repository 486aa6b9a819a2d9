//! The last that fits of each limit of a store, and one more.

#[path = "common/making.rs"]
mod making;

use making::Message;
use snowknoll::{item, Admitted, Answer, Frontier, LogState, Store};

/// The chain of an author, from the first message on.
fn chain(author: u8, length: u32) -> Vec<Message> {
    let mut made: Vec<Message> = Vec::new();
    for index in 1..=length {
        let mut message = Message::first(author, 0);
        if let Some(previous) = made.last() {
            message.index = index;
            message.previous = item::id(&previous.bytes()).unwrap();
        }
        made.push(message);
    }
    made
}

#[test]
fn row_1024_fits_and_is_packed_with_all_before_it() {
    let mut store = Store::with_room(usize::MAX, usize::MAX, usize::MAX);
    let mut messages = chain(1, 1025);
    let last = messages.pop().unwrap();
    for (row, message) in (1..).zip(&messages) {
        assert_eq!(store.admit(&message.bytes(), 0), Ok(Admitted::Done(row)));
    }
    assert_eq!(store.admit(&last.bytes(), 0), Err(Answer::Full));
    assert_eq!(store.rows(), 1024);
    let standing = Frontier::from_iter([LogState::growing(1, 1024)]);
    let all: Vec<u16> = (1..=1024).collect();
    assert_eq!(store.packing_list(&standing), Ok(all));
}

#[test]
fn author_64_fits_and_so_do_63_dependencies_and_4096_in_all() {
    let mut store = Store::new();
    let mut ids = Vec::new();
    for author in 1..=64 {
        let first = Message::first(author, 0).bytes();
        assert!(store.admit(&first, 0).is_ok());
        ids.push(item::id(&first).unwrap());
    }
    assert_eq!(
        store.admit(&Message::first(65, 0).bytes(), 0),
        Err(Answer::Full)
    );
    assert_eq!(store.authors(), 64);
    let wide = |signature, count: usize| Message {
        dependencies: ids[..count].to_vec(),
        ..Message::first(64, signature)
    };
    for signature in 1..=65 {
        assert!(store.admit(&wide(signature, 63).bytes(), 0).is_ok());
    }
    // 65 times 63 dependencies are 4,095.
    assert_eq!(store.admit(&wide(66, 2).bytes(), 0), Err(Answer::Full));
    assert!(store.admit(&wide(66, 1).bytes(), 0).is_ok());
    assert_eq!(store.admit(&wide(67, 1).bytes(), 0), Err(Answer::Full));
    assert_eq!(store.parts().deps.len(), 4096);
}
