//! Reading one item.

#[path = "common/making.rs"]
mod making;

use making::Message;
use snowknoll::{item, Answer};

/// A message with a payload of three bytes and two dependencies.
fn release() -> Message {
    Message {
        mark: 102,
        previous: [5; 32],
        index: 70_000,
        payload: vec![9, 8, 7],
        dependencies: vec![[3; 32], [4; 32]],
        ..Message::first(1, 2)
    }
}

/// Bytes as a line of hexadecimal.
fn hex(bytes: &[u8]) -> String {
    bytes.iter().map(|byte| format!("{byte:02x}")).collect()
}

#[test]
fn the_parts_lie_where_document_01_lays_them() {
    let bytes = release().bytes();
    assert_eq!(bytes.len(), 145 + 3 + 64);
    let layout = item::layout(&bytes).unwrap();
    assert_eq!(layout.mark, 102);
    assert_eq!(layout.index, 70_000);
    assert_eq!(layout.payload, 79..82);
    assert_eq!(layout.dependencies, 84..148);
    assert_eq!(&bytes[layout.dependencies], [[3; 32], [4; 32]].concat());
}

#[test]
fn the_payload_is_a_part_of_the_callers_record() {
    let bytes = release().bytes();
    let payload = item::payload(&bytes).unwrap();
    assert_eq!(payload, [9, 8, 7]);
    assert_eq!(payload.as_ptr(), bytes[79..].as_ptr());
    let smallest = Message::first(1, 0).bytes();
    assert_eq!(item::payload(&smallest), Ok(&[][..]));
}

#[test]
fn the_id_is_sha_256_over_the_body_without_the_mark() {
    // Made by sha256sum of the items' bytes from the eighth on.
    let zeros = Message::first(0, 0).bytes();
    let id = item::id(&zeros).unwrap();
    assert_eq!(
        hex(&id),
        "0442a4e406f3c57e9dc714ec57e0e2e5402ca424e5d06661c311354a1725fc15"
    );
    let id = item::id(&release().bytes()).unwrap();
    assert_eq!(
        hex(&id),
        "e40fccc5f234aa5974be59c6b2a75fdff6f7e8bc8b639198845c42ab619d0b90"
    );
    let marked = Message {
        mark: 1,
        ..release()
    };
    assert_eq!(item::id(&marked.bytes()), Ok(id));
}

#[test]
fn each_cut_is_short() {
    let bytes = release().bytes();
    for end in 0..bytes.len() {
        refused(&bytes[..end], Answer::Short);
    }
    refused(&[1, 0, 0, 0, 1], Answer::Short);
    refused(&[2, 0, 0, 0, 1, 0], Answer::Short);
}

#[test]
fn bytes_left_over_are_long() {
    let mut bytes = release().bytes();
    bytes.push(0);
    refused(&bytes, Answer::Long);
    bytes[0] += 1;
    refused(&bytes, Answer::Long);
}

#[test]
fn another_kind_is_refused() {
    let bytes = release().bytes();
    for (place, value) in [(4, 0), (4, 2), (5, 1)] {
        let mut other = bytes.clone();
        other[place] = value;
        refused(&other, Answer::Kind);
    }
}

#[test]
fn one_more_than_each_limit_is_size() {
    let largest = Message {
        payload: vec![1; 4096],
        dependencies: vec![[1; 32]; 63],
        ..release()
    };
    assert_eq!(largest.bytes().len(), 4 + 6253);
    assert_eq!(item::payload(&largest.bytes()), Ok(&[1; 4096][..]));
    let longer = Message {
        payload: vec![1; 4097],
        ..release()
    };
    refused(&longer.bytes(), Answer::Size);
    let wider = Message {
        dependencies: vec![[1; 32]; 64],
        ..release()
    };
    refused(&wider.bytes(), Answer::Size);
    refused(&6254u32.to_le_bytes(), Answer::Size);
    refused(&[255; 4], Answer::Size);
    refused(&6253u32.to_le_bytes(), Answer::Short);
}

/// All three calls refuse the bytes so.
fn refused(bytes: &[u8], why: Answer) {
    assert_eq!(item::layout(bytes), Err(why));
    assert_eq!(item::payload(bytes), Err(why));
    assert_eq!(item::id(bytes), Err(why));
}
