//! The catalogue: steady authors are taken, others are not.

#[path = "common/following.rs"]
mod following;
#[path = "common/making.rs"]
mod making;

use following::next;
use making::Message;
use snowknoll::{item, Admitted, Answer, Backstep, Store};

/// Author 1 has three messages; author 2 depends on the second one, then on one that is given.
fn log(then: usize) -> Vec<Vec<u8>> {
    let first = Message::first(1, 0);
    let second = next(&first, 0);
    let third = next(&second, 0);
    let ids = [&first, &second, &third].map(|message| item::id(&message.bytes()).unwrap());
    let depends = Message {
        dependencies: vec![ids[1]],
        ..Message::first(2, 0)
    };
    let again = Message {
        dependencies: vec![ids[then]],
        ..next(&depends, 0)
    };
    [first, second, third, depends, again]
        .iter()
        .map(Message::bytes)
        .collect()
}

#[test]
fn steady_authors_are_taken_and_a_step_back_is_not() {
    for (then, steady) in [(0, false), (1, true), (2, true)] {
        let items = log(then);
        let mut catalogue = Store::new();
        for item in &items[..4] {
            assert!(catalogue.admit_catalogue(item, 3).is_ok());
        }
        let before = catalogue.clone();
        let given = catalogue.admit_catalogue(&items[4], 3);
        if steady {
            assert_eq!(given, Ok(Admitted::Done(5)));
        } else {
            assert_eq!(given, Err(Answer::Backstep));
            assert_eq!(catalogue.parts(), before.parts());
        }
        assert_eq!(catalogue.steady(), Ok(true));
        assert_eq!(catalogue.backstep(), Ok(None));
        assert_eq!(catalogue.origin(4), Ok(3));
    }
}

#[test]
fn a_store_that_is_not_steady_names_its_row_and_takes_nothing() {
    let mut store = Store::new();
    for item in log(0) {
        store.admit(&item, 0).unwrap();
    }
    assert_eq!(store.steady(), Ok(false));
    assert_eq!(store.backstep(), Ok(Some(Backstep { row: 5, earlier: 4 })));
    let another = Message::first(3, 0).bytes();
    assert_eq!(store.admit_catalogue(&another, 0), Err(Answer::Backstep));
    assert_eq!(store.admit_catalogue(&[], 0), Err(Answer::Backstep));
    assert_eq!(store.admit(&another, 0), Ok(Admitted::Done(6)));
}
