//! Damaged tables, states and frontiers, and noise: each is refused by its number, and nothing changes.

#[path = "common/sample.rs"]
mod sample;

use sample::{name, tables, Tables};
use snowknoll::{item, Answer, Frontier, LogState, Store};

/// What is damaged, and how.
type Damage = (&'static str, fn(&mut Tables));

#[test]
fn damaged_tables_are_refused_at_loading() {
    let edits: [Damage; 21] = [
        ("a key cut short", |t| t.keys.truncate(63)),
        ("a byte after the keys", |t| t.keys.push(0)),
        ("a key too few", |t| t.keys.truncate(32)),
        ("a key without a row", |t| t.keys.extend(name(67))),
        ("one key twice", |t| t.keys[32] = 65),
        ("an id cut short", |t| t.ids.truncate(319)),
        ("a byte after the ids", |t| t.ids.push(0)),
        ("an id too few", |t| t.ids.truncate(288)),
        ("an id too many", |t| t.ids.extend(name(11))),
        ("one id twice", |t| t.ids[32] = 7),
        ("a row cut short", |t| t.rows.truncate(39)),
        ("a number after the rows", |t| t.rows.push(0)),
        ("author 0", |t| t.rows[0] = 0),
        ("authors not by first appearance", |t| t.rows[0] = 2),
        ("a previous row that is later", |t| t.rows[5] = 3),
        ("a previous row of another author", |t| {
            t.rows[37..39].copy_from_slice(&[5, 2])
        }),
        ("an index that skips", |t| t.rows[22] = 5),
        ("a dependency too many", |t| t.deps.push(1)),
        ("a dependency missing", |t| t.deps.clear()),
        ("a dependency on none", |t| t.deps[0] = 0),
        ("a dependency on a later row", |t| t.deps[0] = 6),
    ];
    assert!(tables().store().is_ok());
    for (what, edit) in edits {
        let mut damaged = tables();
        edit(&mut damaged);
        assert_eq!(damaged.store().err(), Some(Answer::Store), "{what}");
        let counted = Store::from_old_parts(damaged.parts());
        assert_eq!(counted.err(), Some(Answer::Store), "{what}, counted anew");
    }
}

#[test]
fn wrong_numbers_beside_rows_and_authors_are_refused_at_loading() {
    let edits: [Damage; 7] = [
        ("a number of an author too few", |t| t.firsts.truncate(1)),
        ("a number of an author too many", |t| t.firsts.push(0)),
        ("a first message not counted", |t| t.firsts[0] = 1),
        ("a number of a row too few", |t| t.successors.truncate(9)),
        ("a number of a row too many", |t| t.successors.push(0)),
        ("a successor not counted", |t| t.successors[0] = 1),
        ("a successor of a row that has none", |t| {
            t.successors[9] = 1
        }),
    ];
    for (what, edit) in edits {
        let mut damaged = tables();
        edit(&mut damaged);
        assert_eq!(damaged.store().err(), Some(Answer::Store), "{what}");
        assert!(Store::from_old_parts(damaged.parts()).is_ok(), "{what}");
    }
}

#[test]
fn damaged_dependencies_are_refused_at_loading() {
    // Row 8, of B, depends on rows of its own choice.
    for (rows, answer) in [
        (&[4][..], None),
        (&[5][..], Some(Answer::Store)),
        (&[3, 4][..], Some(Answer::Store)),
        (&[8][..], Some(Answer::Store)),
        (&[u16::MAX][..], Some(Answer::Store)),
    ] {
        let mut edited = tables();
        edited.rows[31] = rows.len() as u16;
        edited.deps.extend(rows);
        assert_eq!(edited.store().err(), answer, "{rows:?}");
    }
}

#[test]
fn tables_above_the_limits_are_refused_at_loading() {
    let firsts = |count: u16| {
        let mut made = tables();
        made.keys.truncate(32);
        made.rows = [1, 0, 1, 0].repeat(usize::from(count));
        made.ids.clear();
        for row in 1..=count {
            let mut id = [0; 32];
            id[..2].copy_from_slice(&row.to_le_bytes());
            made.ids.extend(id);
        }
        made.deps.clear();
        made.firsts = vec![count];
        made.successors = vec![0; usize::from(count)];
        made.origins = vec![0; usize::from(count)];
        made.store().map(|store| store.rows())
    };
    assert_eq!(firsts(1024), Ok(1024));
    assert_eq!(firsts(1025), Err(Answer::Store));
}

#[test]
fn damaged_states_are_refused_on_either_side() {
    let store = tables().store().unwrap();
    let sound = LogState::growing(1, 3);
    for bad in [
        LogState::empty(0),
        LogState::empty(3),
        LogState::growing(1, 5),
        LogState::growing(1, 11),
        LogState::growing(u16::MAX, u16::MAX),
        LogState::forked(1, 2, 0, 0),
        LogState::forked(1, 2, 3, 5),
        LogState::forked(1, 2, 3, 11),
        LogState::forked(1, 2, 4, 3),
        LogState::forked(2, 0, 1, 10),
    ] {
        assert_eq!(store.merge(bad, sound), Err(Answer::State), "{bad:?}");
        assert_eq!(store.merge(sound, bad), Err(Answer::State), "{bad:?}");
        assert_eq!(store.at_or_below(bad, sound), Err(Answer::State), "{bad:?}");
        assert_eq!(store.at_or_below(sound, bad), Err(Answer::State), "{bad:?}");
        assert_eq!(store.append(bad, 3), Err(Answer::State), "{bad:?}");
    }
    for numbers in [[1, 2, 3, 0, 0], [1, 0, 3, 4, 0], [1, 0, 3, 0, 4]] {
        assert_eq!(LogState::from_numbers(numbers), Err(Answer::State));
    }
}

#[test]
fn damaged_frontiers_are_refused_on_either_side() {
    let store = tables().store().unwrap();
    let sound = Frontier::from(vec![1, 0, 3, 0, 0]);
    assert_eq!(store.valid_frontier(&sound), Ok(true));
    assert_eq!(store.valid_frontier(&Frontier::new()), Ok(true));
    for bad in [
        vec![1],
        vec![1, 0, 3, 0],
        vec![1, 0, 3, 0, 0, 2],
        vec![1, 2, 3, 0, 0],
        vec![1, 0, 3, 4, 0],
        vec![1, 0, 3, 0, 4],
        vec![0, 0, 0, 0, 0],
        vec![3, 0, 0, 0, 0],
        vec![1, 0, 5, 0, 0],
        vec![1, 0, 11, 0, 0],
        vec![1, 1, 2, 4, 3],
        vec![1, 0, 3, 0, 0, 1, 0, 3, 0, 0],
        vec![2, 0, 8, 0, 0, 1, 0, 3, 0, 0],
        vec![u16::MAX; 500],
    ] {
        let mut bad = Frontier::from(bad);
        let before = bad.clone();
        assert_eq!(store.valid_frontier(&bad), Ok(false), "{bad:?}");
        let refused = Err(Answer::Frontier);
        assert_eq!(store.merge_frontiers(&bad, &sound), refused);
        assert_eq!(store.merge_frontiers(&sound, &bad), refused);
        let refused = Err(Answer::Frontier);
        assert_eq!(store.frontier_at_or_below(&bad, &sound), refused);
        assert_eq!(store.frontier_at_or_below(&sound, &bad), refused);
        assert_eq!(store.packing_list(&bad), Err(Answer::Frontier));
        assert_eq!(store.append_entry(&mut bad, 1), Err(Answer::Frontier));
        assert_eq!(bad, before);
        let mut out = [99; 600];
        let packed = store.packing_list_into(bad.numbers(), &mut out);
        assert_eq!((packed, out), (Err(Answer::Frontier), [99; 600]));
    }
}

/// Seeded random numbers (splitmix64) below a bound.
fn random(seed: &mut u64, bound: u64) -> u64 {
    *seed = seed.wrapping_add(0x9e37_79b9_7f4a_7c15);
    let mixed = (*seed ^ (*seed >> 30)).wrapping_mul(0xbf58_476d_1ce4_e5b9);
    let mixed = (mixed ^ (mixed >> 27)).wrapping_mul(0x94d0_49bb_1331_11eb);
    (mixed ^ (mixed >> 31)) % bound
}

#[test]
fn noise_is_answered_and_changes_nothing() {
    let mut seed = 1;
    let mut store = tables().store().unwrap();
    let before = store.clone();
    let mut sound = 0;
    for _ in 0..20_000 {
        let length = random(&mut seed, 200) as usize;
        let mut bytes: Vec<u8> = (0..length).map(|_| random(&mut seed, 256) as u8).collect();
        if length >= 145 {
            // A length that fits and kind 1, so that some noise gets further.
            bytes[..6].copy_from_slice(&[length as u8 - 4, 0, 0, 0, 1, 0]);
        }
        assert!(store.admit(&bytes, 0).is_err());
        assert!(item::id(&bytes).is_err() || length >= 145);
        let numbers: Vec<u16> = (0..random(&mut seed, 13))
            .map(|_| random(&mut seed, 12) as u16)
            .collect();
        let frontier = Frontier::from(numbers);
        let valid = store.valid_frontier(&frontier).unwrap();
        assert_eq!(store.merge_frontiers(&frontier, &frontier).is_ok(), valid);
        assert_eq!(store.packing_list(&frontier).is_ok(), valid);
        let five = std::array::from_fn(|_| random(&mut seed, 5) as u16);
        if let Ok(state) = LogState::from_numbers(five) {
            let merged = store.merge(state, state);
            assert!(merged == Ok(state) || merged == Err(Answer::State));
            sound += usize::from(merged.is_ok());
        }
    }
    assert!(sound > 20, "{sound}");
    assert_eq!(store.parts(), before.parts());
    assert_eq!(Store::from_parts(store.parts()).map(|s| s.rows()), Ok(10));
}
