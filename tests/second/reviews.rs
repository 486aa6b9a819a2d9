//! Every branch of a forked state: document 02, "Every branch for the author's review", from its words.

use crate::answers::*;
use crate::frontiers::written;
use crate::states::{history, is_valid, LogState};
use crate::store::{Graph, Name};

/// The rows that follow a row in the log, or none: those that have it in their history, and all of an
/// author's rows where it is none.
fn follow(graph: &Graph, author: u16, last: u16) -> Vec<u16> {
    let mut rows = graph.rows_of(author);
    rows.retain(|&row| row != last && (last == 0 || history(graph, row).contains(&last)));
    rows
}

/// The row of a row's own history whose previous row is the one asked for.
fn child(graph: &Graph, last: u16, tip: u16) -> u16 {
    let mut path = history(graph, tip).into_iter();
    path.find(|&row| graph.message(row).previous == last)
        .unwrap_or(0)
}

/// Every branch, by rising id of its tip: the tip and the child.
fn branches(graph: &Graph, state: &LogState) -> Vec<u16> {
    let followed = |tip: u16| graph.rows().any(|row| graph.message(row).previous == tip);
    let mut tips: Vec<(Name, u16)> = follow(graph, state.author, state.last)
        .into_iter()
        .filter(|&tip| !followed(tip))
        .map(|tip| (graph.message(tip).id, tip))
        .collect();
    tips.sort();
    tips.into_iter()
        .flat_map(|(_, tip)| [tip, child(graph, state.last, tip)])
        .collect()
}

/// The call that lists the branches of a state into a room: how many numbers it wrote.
pub fn list(graph: &Graph, state: &LogState, room: &mut [u16]) -> Result<usize, Answer> {
    if !is_valid(graph, state) {
        return Err(STATE);
    }
    if state.fork.is_none() {
        return Err(WHOLE);
    }
    written(&branches(graph, state), room)
}
