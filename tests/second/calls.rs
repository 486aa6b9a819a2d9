//! The bytes of replay's calls, and scripts of them.

use crate::desk::Desk;
use crate::replay::Replay;
use crate::sha256::DIGEST;
use crate::store::{Graph, Store};
use crate::writing::Fields;

/// A script under way: its bytes, and the replay that its calls so far have led to.
pub struct Script {
    pub replay: Replay,
    pub bytes: Vec<u8>,
}

impl Script {
    /// A script with no calls yet.
    pub fn new() -> Script {
        Script {
            replay: Replay::new(),
            bytes: Vec::new(),
        }
    }

    /// Adds a call.
    pub fn call(&mut self, call: &[u8]) {
        self.bytes.extend((call.len() as u32).to_le_bytes());
        self.bytes.extend(call);
        self.replay.call(call);
    }

    /// Adds the calls that show the whole store: dump and check.
    pub fn show(&mut self) {
        self.call(&[3]);
        self.call(&[4]);
    }

    /// What the store says now; an empty graph where it is not well formed.
    pub fn graph(&self) -> Graph {
        self.replay.store.judged().unwrap_or_default()
    }
}

/// An operation and 2-byte numbers.
pub fn with_numbers(operation: u8, numbers: &[u16]) -> Vec<u8> {
    let mut call = vec![operation];
    call.extend(numbers.iter().flat_map(|number| number.to_le_bytes()));
    call
}

/// An operation and bytes: an item.
pub fn with_bytes(operation: u8, bytes: &[u8]) -> Vec<u8> {
    let mut call = vec![operation];
    call.extend(bytes);
    call
}

/// An operation, 8-byte numbers, and what follows them.
fn with_wide(operation: u8, wide: &[usize], rest: &[u8]) -> Vec<u8> {
    let mut call = vec![operation];
    call.extend(wide.iter().flat_map(|number| number.to_le_bytes()));
    call.extend(rest);
    call
}

/// The call that loads a store.
pub fn load(store: &Store) -> Vec<u8> {
    let lengths = [
        store.keys.len(),
        store.ids.len(),
        store.rows.len(),
        store.deps.len(),
        store.branches.len(),
        store.origins.len(),
    ];
    let counts = [store.row_count, store.author_count, store.dep_count];
    let mut call = vec![2];
    call.extend(
        lengths
            .iter()
            .chain(&counts)
            .flat_map(|&number| (number as u32).to_le_bytes()),
    );
    call.extend(&store.keys);
    call.extend(&store.ids);
    call.extend(
        store
            .rows
            .iter()
            .chain(&store.deps)
            .chain(&store.branches)
            .flat_map(|number| number.to_le_bytes()),
    );
    call.extend(&store.origins);
    call
}

/// The call that sets the counts of rows, authors and dependencies.
pub fn set_counts(counts: [usize; 3]) -> Vec<u8> {
    with_wide(46, &counts, &[])
}

/// The calls that look for a name among the first so many: 41 for an id, 42 for a key.
pub fn find(operation: u8, count: usize, name: &[u8; DIGEST]) -> Vec<u8> {
    with_wide(operation, &[count], name)
}

/// The call that admits an item with an origin.
pub fn admit_from(origin: u8, item: &[u8]) -> Vec<u8> {
    with_bytes(14, &[&[origin], item].concat())
}

/// The call that admits an item to the catalogue, with an origin.
pub fn admit_to_catalogue(origin: u8, item: &[u8]) -> Vec<u8> {
    with_bytes(22, &[&[origin], item].concat())
}

/// The call that admits, with an origin, what lies in an intake from one place up to another.
pub fn admit_at(origin: u8, start: usize, end: usize, intake: &[u8]) -> Vec<u8> {
    let mut call = with_wide(43, &[start, end], intake);
    call.insert(1, origin);
    call
}

/// The call that takes in a stretch of items with an origin, its list of so many numbers.
pub fn batch(origin: u8, room: usize, stretch: &[u8]) -> Vec<u8> {
    let mut call = vec![19, origin];
    call.extend((room as u32).to_le_bytes());
    call.extend(stretch);
    call
}

/// A call on two states: their merge, or whether the first is at or below the second.
pub fn on_states(operation: u8, first: &[u16; 5], second: &[u16; 5]) -> Vec<u8> {
    with_numbers(operation, &[*first, *second].concat())
}

/// The call that appends a row to a state.
pub fn append(state: &[u16; 5], row: u16) -> Vec<u8> {
    with_numbers(6, &[&state[..], &[row]].concat())
}

/// The call that lists the branches of a state into a room.
pub fn branches(room: usize, state: &[u16; 5]) -> Vec<u8> {
    with_numbers(24, &[&[room as u16], &state[..]].concat())
}

/// A call on one or two frontiers, with a room where it writes.
pub fn on_frontiers(operation: u8, room: Option<usize>, frontiers: &[&[u16]]) -> Vec<u8> {
    let mut numbers: Vec<u16> = room.iter().map(|&room| room as u16).collect();
    numbers.extend(frontiers.iter().map(|list| list.len() as u16));
    numbers.extend(frontiers.iter().copied().flatten());
    with_numbers(operation, &numbers)
}

/// The call that appends a row to the frontier that the first numbers of a list are.
pub fn append_entry(row: u16, used: usize, list: &[u16]) -> Vec<u8> {
    let mut call = with_numbers(45, &[row]);
    call.extend(used.to_le_bytes());
    call.extend(with_numbers(0, &[&[list.len() as u16], list].concat()).split_off(1));
    call
}

/// The call that writes the standing of a frontier into a room of so many bytes.
pub fn standing(room: usize, frontier: &[u16]) -> Vec<u8> {
    let mut call = vec![17];
    call.extend((room as u32).to_le_bytes());
    call.extend(on_frontiers(0, None, &[frontier]).split_off(1));
    call
}

/// The call that reads a standing into a room of so many numbers.
pub fn read_standing(room: usize, item: &[u8]) -> Vec<u8> {
    let mut call = with_numbers(18, &[room as u16]);
    call.extend(item);
    call
}

/// The call that salvages a stick into a clean intake of so many bytes and a list of so many numbers.
pub fn salvage(clean: usize, list: usize, stick: &[u8]) -> Vec<u8> {
    let mut call = vec![23];
    call.extend((clean as u32).to_le_bytes());
    call.extend((list as u32).to_le_bytes());
    call.extend(stick);
    call
}

/// The call that loads a desk.
pub fn load_desk(desk: &Desk) -> Vec<u8> {
    let lengths = [
        desk.components.len(),
        desk.expanded.len(),
        desk.owners.len(),
    ];
    let mut call = vec![25];
    call.extend(
        lengths
            .iter()
            .flat_map(|&length| (length as u32).to_le_bytes()),
    );
    call.extend(with_numbers(0, &desk.components).split_off(1));
    call.extend(&desk.expanded);
    call.extend(with_numbers(0, &desk.owners).split_off(1));
    call
}

/// The call that admits a release to the desk, with an origin.
pub fn release_in(origin: u8, item: &[u8]) -> Vec<u8> {
    with_bytes(26, &[&[origin], item].concat())
}

/// The call that asks for the current release of a component.
pub fn ask_release(component: u16, frontier: &[u16]) -> Vec<u8> {
    let numbers = [&[component, frontier.len() as u16], frontier].concat();
    with_numbers(27, &numbers)
}

/// The call that writes an item from its fields into a room of so many bytes.
pub fn write_item(room: usize, fields: &Fields) -> Vec<u8> {
    let parts = [
        &fields.key,
        &fields.previous,
        &fields.payload,
        &fields.dependencies,
        &fields.signature,
    ];
    let mut call = vec![16];
    call.extend((room as u32).to_le_bytes());
    call.push(fields.mark);
    call.extend(fields.index.to_le_bytes());
    call.extend(
        parts
            .iter()
            .flat_map(|part| (part.len() as u32).to_le_bytes()),
    );
    call.extend(parts.into_iter().flatten());
    call
}
