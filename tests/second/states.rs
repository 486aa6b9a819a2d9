//! Log states by sets and paths: what a state stands on is a set of rows, a merge is the state that
//! document 01 defines from the union of two such sets, the prefix is the deepest row in both
//! histories, and its children are the shallowest rows of each that it has not.

use std::collections::{BTreeMap, BTreeSet};

use crate::answers::*;
use crate::store::Graph;

/// A log state. Row 0 is none; a fork has its two evidence rows, the lower id first.
#[derive(Clone, Copy, Debug, PartialEq, Eq)]
pub struct LogState {
    pub author: u16,
    pub last: u16,
    pub fork: Option<(u16, u16)>,
}

impl LogState {
    /// Growing at a row or at none.
    pub fn growing(author: u16, last: u16) -> LogState {
        LogState {
            author,
            last,
            fork: None,
        }
    }

    /// The five numbers of a frontier's entry: author, phase, last, low, high.
    pub fn numbers(&self) -> [u16; 5] {
        let (low, high) = self.fork.unwrap_or((0, 0));
        [
            self.author,
            self.fork.is_some() as u16,
            self.last,
            low,
            high,
        ]
    }

    /// The state of five numbers, where the phase is 0 or 1 and a growing one has low and high 0.
    pub fn of_numbers(numbers: &[u16]) -> Option<LogState> {
        let (author, last) = (numbers[0], numbers[2]);
        match (numbers[1], numbers[3], numbers[4]) {
            (0, 0, 0) => Some(LogState::growing(author, last)),
            (1, low, high) => Some(LogState {
                author,
                last,
                fork: Some((low, high)),
            }),
            _ => None,
        }
    }
}

/// The rows that previous links lead to from a row, itself included; none has no history.
pub fn history(graph: &Graph, row: u16) -> BTreeSet<u16> {
    let mut path = BTreeSet::new();
    let mut at = row;
    while at != 0 {
        path.insert(at);
        at = graph.message(at).previous;
    }
    path
}

/// The deepest row of a set that lies on one path, 0 for the empty set.
fn deepest(graph: &Graph, set: &BTreeSet<u16>) -> u16 {
    set.iter()
        .copied()
        .max_by_key(|&row| graph.message(row).index)
        .unwrap_or(0)
}

/// How deep a row stands; none counts 0.
fn depth(graph: &Graph, row: u16) -> u16 {
    if row == 0 {
        0
    } else {
        graph.message(row).index
    }
}

/// The first row is at or before the second in the log; none is before all.
fn at_or_before(graph: &Graph, first: u16, second: u16) -> bool {
    first == 0 || history(graph, second).contains(&first)
}

/// A state is valid: CL1 to FL7 as document 01 lists them.
pub fn is_valid(graph: &Graph, state: &LogState) -> bool {
    let own = |row: u16| graph.author_of(row) == Some(state.author);
    if state.author == 0 || state.author as usize > graph.keys.len() {
        return false;
    }
    if state.last != 0 && !own(state.last) {
        return false;
    }
    let Some((low, high)) = state.fork else {
        return true;
    };
    own(low)
        && own(high)
        && low != high
        && graph.message(low).previous == state.last
        && graph.message(high).previous == state.last
        && graph.message(low).id < graph.message(high).id
}

/// What a state stands on: the log history of last and the evidence rows.
pub fn stands_on(graph: &Graph, state: &LogState) -> BTreeSet<u16> {
    let mut set = history(graph, state.last);
    if let Some((low, high)) = state.fork {
        set.extend([low, high]);
    }
    set
}

/// The state of a set of one author's messages that is closed under previous links.
pub fn state_of_set(graph: &Graph, author: u16, set: &BTreeSet<u16>) -> LogState {
    let mut children: BTreeMap<u16, Vec<u16>> = BTreeMap::new();
    for &row in set {
        children
            .entry(graph.message(row).previous)
            .or_default()
            .push(row);
    }
    let shared = children.into_iter().filter(|(_, rows)| rows.len() > 1);
    let Some((last, mut rows)) = shared.min_by_key(|(row, _)| depth(graph, *row)) else {
        return LogState::growing(author, deepest(graph, set));
    };
    rows.sort_by_key(|&row| graph.message(row).id);
    LogState {
        author,
        last,
        fork: Some((rows[0], rows[1])),
    }
}

/// The state of the union of what two states of one author stand on.
pub fn merged(graph: &Graph, first: &LogState, second: &LogState) -> LogState {
    let mut union = stands_on(graph, first);
    union.extend(stands_on(graph, second));
    state_of_set(graph, first.author, &union)
}

/// The first of two states of one author is at or below the second, by document 01's clauses.
pub fn at_or_below(graph: &Graph, lower: &LogState, upper: &LogState) -> bool {
    let Some((low, high)) = upper.fork else {
        return lower.fork.is_none() && at_or_before(graph, lower.last, upper.last);
    };
    let admissible = |row: u16| row == low || graph.message(row).id >= graph.message(high).id;
    if lower.fork.is_none() && at_or_before(graph, lower.last, upper.last) {
        return true;
    }
    if upper.last != lower.last && at_or_before(graph, upper.last, lower.last) {
        let path = history(graph, lower.last);
        return path
            .into_iter()
            .any(|row| graph.message(row).previous == upper.last && admissible(row));
    }
    match lower.fork {
        Some((one, other)) => lower.last == upper.last && admissible(one) && admissible(other),
        None => false,
    }
}

/// The row through which a row goes beyond a row of its history or none: the shallowest of what the one has
/// in its history and the other has not; 0 where there is nothing.
fn way_to(graph: &Graph, side: u16, from: u16) -> u16 {
    let beyond = &history(graph, side) - &history(graph, from);
    beyond
        .into_iter()
        .min_by_key(|&row| graph.message(row).index)
        .unwrap_or(0)
}

/// The last row at or before both of two rows of one author, none included, and the child of it
/// that leads to the first, and to the second; 0 stands for none.
pub fn prefix(graph: &Graph, first: u16, second: u16) -> Result<[u16; 3], Answer> {
    let stands = |row: u16| row == 0 || graph.author_of(row).is_some();
    if !stands(first) || !stands(second) {
        return Err(ROW);
    }
    if first != 0 && second != 0 && graph.author_of(first) != graph.author_of(second) {
        return Err(ROW);
    }
    let common = &history(graph, first) & &history(graph, second);
    let row = deepest(graph, &common);
    Ok([row, way_to(graph, first, row), way_to(graph, second, row)])
}

/// Two valid states of one author, or the refusal.
fn judged_pair(graph: &Graph, first: &LogState, second: &LogState) -> Result<(), Answer> {
    if !is_valid(graph, first) || !is_valid(graph, second) {
        return Err(STATE);
    }
    if first.author != second.author {
        return Err(PAIR);
    }
    Ok(())
}

/// The call that merges two states.
pub fn merge(graph: &Graph, first: &LogState, second: &LogState) -> Result<LogState, Answer> {
    judged_pair(graph, first, second)?;
    Ok(merged(graph, first, second))
}

/// The call that asks whether one state is at or below another.
pub fn below(graph: &Graph, lower: &LogState, upper: &LogState) -> Result<bool, Answer> {
    judged_pair(graph, lower, upper)?;
    Ok(at_or_below(graph, lower, upper))
}

/// The call that appends a row to a state: a merge with growing at that row.
pub fn append(graph: &Graph, state: &LogState, row: u16) -> Result<LogState, Answer> {
    if !is_valid(graph, state) {
        return Err(STATE);
    }
    if graph.author_of(row) != Some(state.author) {
        return Err(ROW);
    }
    Ok(merged(graph, state, &LogState::growing(state.author, row)))
}
