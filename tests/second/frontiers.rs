//! Frontiers entry by entry, and packing lists by the closure of "happened before".

use std::collections::{BTreeMap, BTreeSet};

use crate::answers::*;
use crate::states::{at_or_below, is_valid, merged, LogState};
use crate::store::Graph;

/// The numbers of one entry.
pub const ENTRY_NUMBERS: usize = 5;

/// A frontier, by author.
pub type Frontier = BTreeMap<u16, LogState>;

/// The frontier of a list of numbers, or FRONTIER where it is not valid.
pub fn read_frontier(graph: &Graph, numbers: &[u16]) -> Result<Frontier, Answer> {
    let mut frontier = Frontier::new();
    if numbers.len() % ENTRY_NUMBERS != 0 {
        return Err(FRONTIER);
    }
    for entry in numbers.chunks(ENTRY_NUMBERS) {
        let state = LogState::of_numbers(entry).ok_or(FRONTIER)?;
        let rises = frontier.keys().all(|&before| before < state.author);
        if !rises || !is_valid(graph, &state) {
            return Err(FRONTIER);
        }
        frontier.insert(state.author, state);
    }
    Ok(frontier)
}

/// The numbers of a frontier, entry after entry.
fn numbers_of(frontier: &Frontier) -> Vec<u16> {
    frontier
        .values()
        .flat_map(|state| state.numbers())
        .collect()
}

/// Writes a result into a room, or refuses with ROOM; room beyond the result stays.
pub fn written(result: &[u16], room: &mut [u16]) -> Result<usize, Answer> {
    let place = room.get_mut(..result.len()).ok_or(ROOM)?;
    place.copy_from_slice(result);
    Ok(result.len())
}

/// Each author of either frontier once; in one it keeps its entry, in both it has the merge.
fn union(graph: &Graph, first: &Frontier, second: &Frontier) -> Frontier {
    let mut result = first.clone();
    for (author, state) in second {
        let joined = first
            .get(author)
            .map_or(*state, |own| merged(graph, own, state));
        result.insert(*author, joined);
    }
    result
}

/// The call that merges two frontiers into a room: how many numbers it wrote.
pub fn merge(
    graph: &Graph,
    first: &[u16],
    second: &[u16],
    room: &mut [u16],
) -> Result<usize, Answer> {
    let first = read_frontier(graph, first)?;
    let second = read_frontier(graph, second)?;
    written(&numbers_of(&union(graph, &first, &second)), room)
}

/// The call that appends a row to its author's entry in the frontier that the first `used` numbers
/// of a list are, and leaves the result at the start of the list: how many numbers it has.
pub fn append(graph: &Graph, list: &mut [u16], used: usize, row: u16) -> Result<usize, Answer> {
    let mut frontier = read_frontier(graph, list.get(..used).ok_or(FRONTIER)?)?;
    let author = graph.author_of(row).ok_or(ROW)?;
    let grown = LogState::growing(author, row);
    let own = frontier.get(&author).copied().unwrap_or(grown);
    frontier.insert(author, merged(graph, &own, &grown));
    written(&numbers_of(&frontier), list)
}

/// The call that asks whether one frontier is at or below another.
pub fn below(graph: &Graph, lower: &[u16], upper: &[u16]) -> Result<bool, Answer> {
    let lower = read_frontier(graph, lower)?;
    let upper = read_frontier(graph, upper)?;
    let fits = |(author, state): (&u16, &LogState)| {
        upper
            .get(author)
            .is_some_and(|other| at_or_below(graph, state, other))
    };
    Ok(lower.iter().all(fits))
}

/// The rows one step back from a row: its previous row and its dependencies.
fn one_step_back(graph: &Graph, row: u16) -> Vec<u16> {
    let message = graph.message(row);
    let mut back = message.dependencies.clone();
    back.extend(Some(message.previous).filter(|&previous| previous != 0));
    back
}

/// The rows with everything that happened before any of them: steps back until nothing is new.
fn closure(graph: &Graph, rows: BTreeSet<u16>) -> BTreeSet<u16> {
    let mut reached = rows;
    loop {
        let before = reached.len();
        let back: Vec<u16> = reached
            .iter()
            .flat_map(|&row| one_step_back(graph, row))
            .collect();
        reached.extend(back);
        if reached.len() == before {
            return reached;
        }
    }
}

/// The rows that an entry's packing begins with: its last row, where it has one, and both evidence
/// rows of a forked one.
fn packed_first(state: &LogState) -> Vec<u16> {
    let mut rows = Vec::new();
    if state.last != 0 {
        rows.push(state.last);
    }
    if let Some((low, high)) = state.fork {
        rows.extend([low, high]);
    }
    rows
}

/// The call that writes a packing list into a room: how many numbers it wrote.
pub fn pack(graph: &Graph, frontier: &[u16], room: &mut [u16]) -> Result<usize, Answer> {
    let frontier = read_frontier(graph, frontier)?;
    let first = frontier.values().flat_map(packed_first).collect();
    let list: Vec<u16> = closure(graph, first).into_iter().collect();
    written(&list, room)
}
