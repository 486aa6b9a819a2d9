//! Origins: who handed us each row, kept from its first admission, and seen by its report alone.

#[path = "common/making.rs"]
mod making;
#[path = "common/sample.rs"]
mod sample;

use making::Message;
use sample::tables;
use snowknoll::{Admitted, Answer, Frontier, LogState, Parts, Phase, Store};

#[test]
fn a_row_keeps_the_origin_of_its_first_admission() {
    let mut store = Store::new();
    for (row, origin) in [(1, 7), (2, 0), (3, 255)] {
        let item = Message::first(1, row).bytes();
        assert_eq!(store.admit(&item, origin), Ok(Admitted::Done(row)));
        assert_eq!(store.admit(&item, 9), Ok(Admitted::Held(row)));
    }
    assert!(store.admit(&[0; 3], 9).is_err());
    let intake = [vec![5], Message::first(2, 0).bytes()].concat();
    let place = 1..usize::MAX;
    assert_eq!(
        store.admit_at(&intake, place.clone(), 8),
        Ok(Admitted::Done(4))
    );
    assert_eq!(store.admit_at(&intake, place, 9), Ok(Admitted::Held(4)));
    assert_eq!(
        [1, 2, 3, 4].map(|row| store.origin(row)),
        [7, 0, 255, 8].map(Ok)
    );
    assert_eq!(store.parts().origins, [7, 0, 255, 8]);
    for row in [0, 5, u16::MAX] {
        assert_eq!(store.origin(row), Err(Answer::Row));
    }
    assert_eq!(Store::new().origin(1), Err(Answer::Row));
}

#[test]
fn the_evidence_rows_say_whom_to_ring() {
    let store = tables().store().unwrap();
    let state = store.merge(LogState::growing(1, 3), LogState::growing(1, 4));
    let Phase::Forked { low, high } = state.unwrap().phase() else {
        panic!("not forked");
    };
    assert_eq!([low, high].map(|row| store.origin(row)), [Ok(1), Ok(2)]);
}

#[test]
fn nothing_but_the_report_depends_on_origins() {
    let (one, mut other) = (tables(), tables());
    other.origins = vec![0; 10];
    let mut stores = [one.store().unwrap(), other.store().unwrap()];
    let frontier = Frontier::from(vec![1, 1, 2, 3, 4, 2, 0, 8, 0, 0]);
    let [first, second] = &stores;
    assert_eq!(
        first.packing_list(&frontier),
        second.packing_list(&frontier)
    );
    assert_eq!(first.prefix(3, 4), second.prefix(3, 4));
    assert_eq!((first.origin(10), second.origin(10)), (Ok(255), Ok(0)));
    let item = Message::first(3, 0).bytes();
    let given = [0, 1].map(|k| stores[k].admit(&item, 3 * k as u8));
    assert_eq!(given, [Ok(Admitted::Done(11)); 2]);
    let parts = [0, 1].map(|k| Parts {
        origins: &[],
        ..stores[k].parts()
    });
    assert_eq!(parts[0], parts[1]);
}

#[test]
fn origins_are_saved_and_loaded() {
    let store = tables().store().unwrap();
    assert_eq!(store.parts().origins, tables().origins);
    for count in [0, 9, 11] {
        let mut wrong = tables();
        wrong.origins.resize(count, 0);
        assert_eq!(wrong.store().err(), Some(Answer::Store), "{count}");
        let old = Store::from_old_parts(wrong.parts());
        assert_eq!(old.is_ok(), count == 0, "{count}");
    }
    let mut none = tables();
    none.origins.clear();
    let old = Store::from_old_parts(none.parts()).unwrap();
    assert_eq!(old.parts().origins, [0; 10]);
    let kept = Store::from_old_parts(tables().parts()).unwrap();
    assert_eq!(kept.parts(), store.parts());
}
