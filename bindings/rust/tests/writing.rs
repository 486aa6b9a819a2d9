//! Writing one item.

use snowknoll::item::{self, Message};
use snowknoll::{Admitted, Answer, Store};

/// A message with a payload and two dependencies.
fn release<'a>() -> Message<'a> {
    Message {
        mark: 1,
        payload: b"gear",
        dependencies: &[[3; 32], [4; 32]],
        signature: [6; 64],
        ..Message::after([2; 32], [5; 32], 70_000)
    }
}

/// The bytes of an item, laid by hand.
fn by_hand(m: &Message) -> Vec<u8> {
    let mut body = vec![1, 0, m.mark];
    body.extend(m.key);
    body.extend(m.previous);
    body.extend(m.index.to_le_bytes());
    body.extend((m.payload.len() as u32).to_le_bytes());
    body.extend(m.payload);
    body.extend((m.dependencies.len() as u16).to_le_bytes());
    body.extend(m.dependencies.concat());
    body.extend(m.signature);
    let mut item = (body.len() as u32).to_le_bytes().to_vec();
    item.extend(body);
    item
}

#[test]
fn the_fields_stand_where_document_01_lays_them() {
    let first = Message::first([9; 32]);
    for message in [
        release(),
        first,
        Message {
            index: u32::MAX,
            ..release()
        },
    ] {
        assert_eq!(message.to_vec(), Ok(by_hand(&message)));
    }
    assert_eq!(first.to_vec().unwrap().len(), item::SMALLEST);
}

#[test]
fn reading_what_was_written_gives_the_fields() {
    let message = release();
    let bytes = message.to_vec().unwrap();
    let layout = item::layout(&bytes).unwrap();
    assert_eq!(layout.mark, message.mark);
    assert_eq!(layout.index, 70_000);
    assert_eq!(&bytes[layout.payload], message.payload);
    assert_eq!(&bytes[layout.dependencies], message.dependencies.concat());
}

#[test]
fn the_bytes_after_the_item_stay() {
    let bytes = release().to_vec().unwrap();
    let mut room = vec![238; bytes.len() + 3];
    assert_eq!(release().write_to(&mut room), Ok(bytes.len()));
    assert_eq!(room[..bytes.len()], bytes);
    assert_eq!(room[bytes.len()..], [238; 3]);
}

#[test]
fn a_refusal_changes_nothing() {
    let long = vec![1; 4097];
    let wide = vec![[1; 32]; 64];
    let marked = Message {
        mark: 2,
        ..release()
    };
    refused(marked, Answer::Flag);
    refused(
        Message {
            payload: &long,
            ..marked
        },
        Answer::Size,
    );
    refused(
        Message {
            dependencies: &wide,
            ..marked
        },
        Answer::Size,
    );
    let short = release().to_vec().unwrap().len() - 1;
    let mut room = vec![238; short];
    assert_eq!(release().write_to(&mut room), Err(Answer::Room));
    assert_eq!(marked.write_to(&mut room), Err(Answer::Flag));
    assert_eq!(room, vec![238; short]);
}

#[test]
fn the_largest_item_is_written() {
    let largest = Message {
        payload: &[1; 4096],
        dependencies: &[[1; 32]; 63],
        ..release()
    };
    assert_eq!(largest.to_vec().unwrap().len(), item::LARGEST);
}

#[test]
fn what_was_written_is_admitted() {
    let first = Message {
        mark: 1,
        ..Message::first([9; 32])
    }
    .to_vec()
    .unwrap();
    let after = Message::after([9; 32], item::id(&first).unwrap(), 2);
    let second = Message {
        mark: 1,
        payload: b"cogs",
        ..after
    }
    .to_vec()
    .unwrap();
    let mut store = Store::new();
    assert_eq!(store.admit(&first, 0), Ok(Admitted::Done(1)));
    assert_eq!(store.admit(&second, 0), Ok(Admitted::Done(2)));
    assert_eq!(store.admit(&after.to_vec().unwrap(), 0), Err(Answer::Sign));
}

/// Both calls refuse the message so, and the room stays as it was.
fn refused(message: Message, why: Answer) {
    let mut room = vec![238; 8192];
    assert_eq!(message.write_to(&mut room), Err(why));
    assert_eq!(message.to_vec(), Err(why));
    assert_eq!(room, vec![238; 8192]);
}
