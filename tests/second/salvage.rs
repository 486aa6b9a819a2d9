//! The rescue of a stick with holes: document 02, by the letter. Each next item is the lowest-numbered one
//! not yet kept that the store, as it then stands, admits.

use crate::admission::admit;
use crate::answers::*;
use crate::arguments::Arguments;
use crate::frontiers::written;
use crate::intake::items_of;
use crate::lines::apart;
use crate::replay::Replay;
use crate::sha256::{hex, sha256};
use crate::store::{Store, ROWS_LIMIT};

/// The most items of a stick.
const ITEMS_LIMIT: usize = ROWS_LIMIT;

/// The store that admits an item with origin 0, where the store as it stands does.
fn admitted(store: &Store, item: &[u8]) -> Option<Store> {
    let mut grown = store.clone();
    (admit(&mut grown, item, 0).0 == DONE).then_some(grown)
}

/// Keeps what can be kept: the store then, and the items kept, in order.
fn kept(mut store: Store, items: &[&[u8]]) -> (Store, Vec<usize>) {
    let mut order: Vec<usize> = Vec::new();
    loop {
        let mut left = (0..items.len()).filter(|item| !order.contains(item));
        let next = left.find_map(|item| Some((item, admitted(&store, items[item])?)));
        let Some((item, grown)) = next else {
            return (store, order);
        };
        order.push(item);
        store = grown;
    }
}

/// The two numbers of each item: 0 and its place when kept, or else the answer and row that the final
/// store gives it.
fn listed(store: &Store, items: &[&[u8]], order: &[usize]) -> Vec<u16> {
    let answer = |item: usize| match order.iter().position(|&one| one == item) {
        Some(place) => [DONE, place as u16 + 1],
        None => {
            let (answer, row) = admit(&mut store.clone(), items[item], 0);
            [answer, row]
        }
    };
    (0..items.len()).flat_map(answer).collect()
}

/// Salvages a stick into a store, whatever its counts say, a clean intake and a list: how many items there
/// were, and how many bytes were written.
pub fn salvage(
    store: &mut Store,
    stick: &[u8],
    clean: &mut [u8],
    list: &mut [u16],
) -> Result<(usize, usize), Answer> {
    let items = items_of(stick);
    if items.len() > ITEMS_LIMIT {
        return Err(SIZE);
    }
    if clean.len() < stick.len() || list.len() < 2 * items.len() {
        return Err(ROOM);
    }
    let mut empty = store.clone();
    (empty.row_count, empty.author_count, empty.dep_count) = (0, 0, 0);
    let (last, order) = kept(empty, &items);
    let whole: Vec<u8> = order
        .iter()
        .flat_map(|&item| items[item].to_vec())
        .collect();
    clean[..whole.len()].copy_from_slice(&whole);
    written(&listed(&last, &items, &order), list)?;
    *store = last;
    Ok((items.len(), whole.len()))
}

impl Replay {
    /// Operation 23: a salvage.
    pub fn salvage(&mut self, mut arguments: Arguments) -> Option<String> {
        let mut clean = arguments.room_of_bytes()?;
        let mut list = arguments.wide_room()?;
        let result = salvage(&mut self.store, arguments.rest(), &mut clean, &mut list);
        let (answer, (items, written)) = apart(result, (0, 0));
        let listed: Vec<u8> = list
            .iter()
            .flat_map(|number| number.to_le_bytes())
            .collect();
        let sums = [&clean, &listed].map(|part| hex(&sha256(part))).join(" ");
        Some(format!("salvage {answer} {items} {written} {sums}"))
    }
}
