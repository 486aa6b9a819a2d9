//! The release desk: what each row's payload says, who owns which component, and what is current.

#[path = "common/following.rs"]
mod following;
#[path = "common/making.rs"]
mod making;

use following::next;
use making::Message;
use snowknoll::{Admitted, Answer, Desk, Frontier, LogState, Release, COMPONENTS};

/// A message with a payload.
fn with(message: Message, payload: &[u8]) -> Message {
    Message {
        payload: payload.to_vec(),
        ..message
    }
}

/// A desk with three releases of author 1: component 7 closed, component 8, component 7 expanded.
fn desk() -> Desk {
    let mut desk = Desk::new();
    let first = with(Message::first(1, 0), &Desk::payload(7, false));
    let second = with(next(&first, 0), &Desk::payload(8, false));
    let third = with(next(&second, 0), &Desk::payload(7, true));
    for (message, row) in [&first, &second, &third].into_iter().zip(1..) {
        assert_eq!(desk.admit(&message.bytes(), 0), Ok(Admitted::Done(row)));
    }
    desk.set_owner(7, Some(1)).unwrap();
    desk
}

/// The frontier in which author 1 grows at a row.
fn at(row: u16) -> Frontier {
    Frontier::from_iter([LogState::growing(1, row)])
}

#[test]
fn the_current_release_is_the_one_with_the_highest_index() {
    let desk = desk();
    for (row, shown, expanded) in [(1, 1, false), (2, 1, false), (3, 3, true)] {
        let release = Release {
            row: shown,
            index: shown,
            expanded,
            frozen: false,
        };
        assert_eq!(desk.release(&at(row), 7), Ok(Some(release)));
    }
    assert_eq!(desk.release(&at(3), 8), Ok(None));
    assert_eq!(desk.release(&Frontier::new(), 7), Ok(None));
    assert_eq!(desk.release(&at(3), 0), Err(Answer::Component));
    assert_eq!(desk.release(&at(3), 513), Err(Answer::Component));
    assert_eq!(desk.release(&at(4), 7), Err(Answer::Frontier));
}

#[test]
fn a_fork_freezes_what_is_shown() {
    let mut desk = desk();
    let first = with(Message::first(1, 0), &Desk::payload(7, false));
    let other = with(next(&first, 1), &Desk::payload(7, true));
    let row = desk.admit(&other.bytes(), 0).unwrap().row();
    let mut frontier = at(3);
    desk.store().append_entry(&mut frontier, row).unwrap();
    let release = desk.release(&frontier, 7).unwrap().unwrap();
    assert_eq!(
        (release.row, release.expanded, release.frozen),
        (1, false, true)
    );
}

#[test]
fn a_payload_that_is_no_release_is_refused_and_nothing_is_written() {
    let mut desk = desk();
    let message = Message::first(2, 0);
    let payloads: [&[u8]; 6] = [
        b"",
        &[7, 0],
        &[7, 0, 1, 0],
        &[7, 0, 2],
        &[7, 0, 255],
        b"false",
    ];
    let before = desk.clone();
    for payload in payloads {
        let item = with(message.clone(), payload).bytes();
        assert_eq!(desk.admit(&item, 0), Err(Answer::Payload));
    }
    assert_eq!(desk.parts(), before.parts());
    assert_eq!(desk.store().parts(), before.store().parts());
}

#[test]
fn a_desk_is_saved_and_loaded_and_a_damaged_one_is_not() {
    let desk = desk();
    let (components, expanded, owners) = desk.parts();
    let load = |components: &[u16], expanded: &[u8], owners: &[u16]| {
        Desk::from_parts(desk.store().clone(), components, expanded, owners)
    };
    let again = load(components, expanded, owners).unwrap();
    assert_eq!(again.parts(), desk.parts());
    assert_eq!(again.release(&at(3), 7), desk.release(&at(3), 7));
    let refused = |components: &[u16], expanded: &[u8], owners: &[u16]| {
        load(components, expanded, owners).err()
    };
    assert_eq!(
        refused(components, &[0, 0, 2], owners),
        Some(Answer::Payload)
    );
    assert_eq!(refused(components, &[0, 0], owners), Some(Answer::Payload));
    assert_eq!(refused(&[7, 8], expanded, owners), Some(Answer::Payload));
    assert_eq!(
        refused(components, expanded, &owners[..511]),
        Some(Answer::Payload)
    );
    assert_eq!(
        refused(components, expanded, &[2; COMPONENTS]),
        Some(Answer::Ownerless)
    );
}

#[test]
fn only_an_author_of_the_store_can_own() {
    let mut desk = desk();
    assert_eq!(desk.set_owner(8, Some(2)), Err(Answer::Ownerless));
    assert_eq!(desk.set_owner(0, Some(1)), Err(Answer::Component));
    assert_eq!(desk.set_owner(513, None), Err(Answer::Component));
    desk.set_owner(7, None).unwrap();
    assert_eq!(desk.release(&at(3), 7), Ok(None));
}
