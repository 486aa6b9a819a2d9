//! A fork is found in any order of arrival: stores that admit the same items in different orders stand
//! frozen at the same id, on the same two evidence ids, and these are the ones that document 01 defines.

#[path = "common/making.rs"]
mod making;

use std::collections::BTreeMap;

use making::Message;
use snowknoll::{item, Admitted, Answer, Frontier, LogState, Phase, Store};

type Id = [u8; 32];

/// Seeded random numbers (splitmix64).
struct Random(u64);

impl Random {
    /// A number below a bound, which is not 0.
    fn below(&mut self, bound: usize) -> usize {
        self.0 = self.0.wrapping_add(0x9e37_79b9_7f4a_7c15);
        let mixed = (self.0 ^ (self.0 >> 30)).wrapping_mul(0xbf58_476d_1ce4_e5b9);
        let mixed = (mixed ^ (mixed >> 27)).wrapping_mul(0x94d0_49bb_1331_11eb);
        ((mixed ^ (mixed >> 31)) % bound as u64) as usize
    }

    /// Brings things into a random order.
    fn shuffle<T>(&mut self, things: &mut [T]) {
        for place in (1..things.len()).rev() {
            things.swap(place, self.below(place + 1));
        }
    }
}

/// A message with its id; the previous field of a first one is zero.
#[derive(Clone)]
struct Made {
    message: Message,
    id: Id,
}

/// Where an author's log stands, in ids.
#[derive(Debug, PartialEq)]
enum Standing {
    Growing(Option<Id>),
    Forked(Option<Id>, Id, Id),
}

/// Messages of three authors. An author mostly goes on from its deepest message, and now and then from
/// any other or from none; a message may depend on one message of each other author.
fn messages(random: &mut Random, count: u16) -> Vec<Made> {
    let mut made: Vec<Made> = Vec::new();
    for signature in 0..count {
        let mut message = Message::first(1 + random.below(3) as u8, signature);
        let own: Vec<&Made> = of(&made, message.author).collect();
        let deepest = own.iter().max_by_key(|made| made.message.index);
        let previous = match random.below(12) {
            0 => None,
            1 if !own.is_empty() => Some(&own[random.below(own.len())]),
            _ => deepest,
        };
        if let Some(previous) = previous {
            message.previous = previous.id;
            message.index = previous.message.index + 1;
        }
        for other in (1..=3).filter(|&other| other != message.author) {
            let theirs: Vec<&Made> = of(&made, other).collect();
            if !theirs.is_empty() && random.below(3) == 0 {
                message
                    .dependencies
                    .push(theirs[random.below(theirs.len())].id);
            }
        }
        let id = item::id(&message.bytes()).unwrap();
        made.push(Made { message, id });
    }
    made
}

/// The messages of one author.
fn of(made: &[Made], author: u8) -> impl Iterator<Item = &Made> {
    made.iter()
        .filter(move |made| made.message.author == author)
}

/// The standing that document 01 defines from the set of all of an author's messages: forked at the
/// shallowest shared predecessor, on the two lowest ids among its children, or growing at the deepest.
fn defined(made: &[Made], author: u8) -> Standing {
    let mut children: BTreeMap<(u32, Id), Vec<Id>> = BTreeMap::new();
    for made in of(made, author) {
        let predecessor = (made.message.index, made.message.previous);
        children.entry(predecessor).or_default().push(made.id);
    }
    for ((index, predecessor), mut ids) in children {
        ids.sort();
        if let [low, high, ..] = ids[..] {
            return Standing::Forked((index > 1).then_some(predecessor), low, high);
        }
    }
    let deepest = of(made, author).max_by_key(|made| made.message.index);
    Standing::Growing(deepest.map(|made| made.id))
}

/// A store after all items have arrived in some order, and its standing gathered in three frontiers:
/// one of all rows, and two that share the rows between them.
struct Studio {
    store: Store,
    all: Frontier,
    shares: [Frontier; 2],
}

/// Admits all items in a random order. One that comes too early waits for the next round.
fn studio(random: &mut Random, made: &[Made]) -> Studio {
    let mut waiting: Vec<&Made> = made.iter().collect();
    random.shuffle(&mut waiting);
    let mut studio = Studio {
        store: Store::new(),
        all: Frontier::new(),
        shares: [Frontier::new(), Frontier::new()],
    };
    while !waiting.is_empty() {
        waiting.retain(|made| match studio.store.admit(&made.message.bytes(), 0) {
            Ok(Admitted::Done(row)) => {
                let share = &mut studio.shares[random.below(2)];
                studio.store.append_entry(&mut studio.all, row).unwrap();
                studio.store.append_entry(share, row).unwrap();
                false
            }
            other => {
                assert!(
                    matches!(other, Err(Answer::Prev | Answer::Dep)),
                    "{other:?}"
                );
                true
            }
        });
    }
    studio
}

/// The standing of a state in ids.
fn standing(store: &Store, state: LogState) -> Standing {
    let id = |row| *store.id(row).unwrap();
    match state.phase() {
        Phase::Growing => Standing::Growing(state.last().map(id)),
        Phase::Forked { low, high } => Standing::Forked(state.last().map(id), id(low), id(high)),
    }
}

impl Studio {
    /// The standing of the author with a key, in ids; growing at none where it has no message.
    fn stands(&self, author: u8) -> Standing {
        let Some(number) = self.store.find_key(&[author; 32]) else {
            return Standing::Growing(None);
        };
        standing(&self.store, self.all.state(number).unwrap())
    }
}

#[test]
fn every_order_of_arrival_ends_at_the_defined_standing() {
    let mut random = Random(1);
    let mut seen = BTreeMap::new();
    for _ in 0..300 {
        let count = 1 + random.below(30) as u16;
        let made = messages(&mut random, count);
        let studios = [studio(&mut random, &made), studio(&mut random, &made)];
        for author in 1..=3 {
            let defined = defined(&made, author);
            for studio in &studios {
                assert_eq!(studio.stands(author), defined);
            }
            let kind = match defined {
                Standing::Growing(None) => "no message",
                Standing::Growing(_) => "growing",
                Standing::Forked(None, ..) => "forked at none",
                Standing::Forked(..) => "forked",
            };
            *seen.entry(kind).or_insert(0) += 1;
        }
        for Studio { store, all, shares } in &studios {
            let [first, second] = shares;
            assert_eq!(store.merge_frontiers(first, second).as_ref(), Ok(all));
            assert_eq!(store.merge_frontiers(second, first).as_ref(), Ok(all));
            assert_eq!(store.frontier_at_or_below(first, all), Ok(true));
        }
    }
    assert_eq!(seen.len(), 4);
    assert!(seen.values().all(|&times| times >= 20), "{seen:?}");
}

#[test]
fn three_branches_in_all_orders_leave_the_two_lowest_ids() {
    let first = Message::first(1, 0);
    let start = item::id(&first.bytes()).unwrap();
    let mut branches: Vec<Made> = (1..=3)
        .map(|signature| {
            let message = Message {
                previous: start,
                index: 2,
                ..Message::first(1, signature)
            };
            let id = item::id(&message.bytes()).unwrap();
            Made { message, id }
        })
        .collect();
    branches.sort_by_key(|made| made.id);
    let frozen = Standing::Forked(Some(start), branches[0].id, branches[1].id);
    for order in [
        [0, 1, 2],
        [0, 2, 1],
        [1, 0, 2],
        [1, 2, 0],
        [2, 0, 1],
        [2, 1, 0],
    ] {
        let mut store = Store::new();
        let mut state = LogState::empty(1);
        let items = order.map(|place: usize| branches[place].message.bytes());
        for bytes in [vec![first.bytes()], items.to_vec()].concat() {
            let row = store.admit(&bytes, 0).unwrap().row();
            state = store.append(state, row).unwrap();
        }
        assert_eq!(standing(&store, state), frozen);
    }
}
