//! Saving and loading a store.

use super::{Store, MOST_AUTHORS, MOST_ROWS, NAME, ROW};
use crate::calls::{self, Tables};
use crate::raw::Counts;
use crate::Answer;

/// The tables of a store, with no room beyond what they hold, for saving and loading.
#[derive(Clone, Copy, Debug, Default, PartialEq, Eq)]
pub struct Parts<'a> {
    /// 32 bytes for each author.
    pub keys: &'a [u8],
    /// 32 bytes for each row.
    pub ids: &'a [u8],
    /// Four numbers for each row: author, previous row or 0, index, number of dependencies.
    pub rows: &'a [u16],
    /// The dependencies, row after row.
    pub deps: &'a [u16],
    /// A number for each author: how many first messages it has.
    pub firsts: &'a [u16],
    /// A number for each row: how many rows have it as their previous row.
    pub successors: &'a [u16],
    /// A byte for each row: who handed it to us.
    pub origins: &'a [u8],
}

impl Store {
    /// The store with these tables, and room up to the limits; [`Answer::Store`] where they are damaged,
    /// a wrong number of first messages or successors included, and where a row has no origin.
    pub fn from_parts(parts: Parts<'_>) -> Result<Store, Answer> {
        let counts = counts_of(&parts)?;
        let numbered =
            parts.firsts.len() == counts.authors && parts.successors.len() == counts.rows;
        if !numbered || parts.origins.len() != counts.rows {
            return Err(Answer::Store);
        }
        loaded(parts, counts, laid(parts.firsts, parts.successors))
    }

    /// The same for tables that were saved before stores kept the numbers of first messages and of
    /// successors, or origins: the numbers of the parts are not looked at, and are counted from the rows;
    /// where the parts have no origins at all, every row has origin 0.
    pub fn from_old_parts(parts: Parts<'_>) -> Result<Store, Answer> {
        let counts = counts_of(&parts)?;
        if !parts.origins.is_empty() && parts.origins.len() != counts.rows {
            return Err(Answer::Store);
        }
        loaded(parts, counts, counted(parts.rows))
    }

    /// The tables, for saving.
    pub fn parts(&self) -> Parts<'_> {
        let (of_authors, of_rows) = self.branches.split_at(MOST_AUTHORS);
        Parts {
            keys: front(&self.keys, self.counts.authors * NAME),
            ids: front(&self.ids, self.counts.rows * NAME),
            rows: front(&self.rows, self.counts.rows * ROW),
            deps: front(&self.deps, self.counts.deps),
            firsts: front(of_authors, self.counts.authors),
            successors: front(of_rows, self.counts.rows),
            origins: front(&self.origins, self.counts.rows),
        }
    }
}

/// How much tables hold, where each of theirs is whole.
fn counts_of(parts: &Parts<'_>) -> Result<Counts, Answer> {
    let keys = parts.keys.chunks_exact(NAME);
    let ids = parts.ids.chunks_exact(NAME);
    let rows = parts.rows.chunks_exact(ROW);
    let whole = keys.remainder().is_empty()
        && ids.remainder().is_empty()
        && rows.remainder().is_empty()
        && ids.len() == rows.len();
    if !whole {
        return Err(Answer::Store);
    }
    Ok(Counts {
        rows: rows.len(),
        authors: keys.len(),
        deps: parts.deps.len(),
    })
}

/// The store of these tables and branches, where they are well formed.
fn loaded(parts: Parts<'_>, counts: Counts, branches: Vec<u16>) -> Result<Store, Answer> {
    Answer::checked(calls::well_formed(&Tables {
        keys: parts.keys,
        ids: parts.ids,
        rows: parts.rows,
        deps: parts.deps,
        branches: &branches,
        counts,
    }))?;
    let mut store = Store::new();
    fill(&mut store.keys, parts.keys);
    fill(&mut store.ids, parts.ids);
    fill(&mut store.rows, parts.rows);
    fill(&mut store.deps, parts.deps);
    fill(&mut store.origins, parts.origins);
    store.branches = branches;
    store.counts = counts;
    Ok(store)
}

/// The part branches at its limit: the numbers of the authors, then from their limit on those of the rows.
fn laid(firsts: &[u16], successors: &[u16]) -> Vec<u16> {
    let mut branches = vec![0; MOST_AUTHORS + MOST_ROWS];
    let (of_authors, of_rows) = branches.split_at_mut(MOST_AUTHORS);
    fill(of_authors, firsts);
    fill(of_rows, successors);
    branches
}

/// The same numbers, counted from the rows: each row is one more of its previous row's or, where it has
/// none, of its author's. A row or author that no store has counts nowhere; the check refuses it.
fn counted(rows: &[u16]) -> Vec<u16> {
    let (mut firsts, mut successors) = ([0; MOST_AUTHORS], [0; MOST_ROWS]);
    for numbers in rows.chunks_exact(ROW) {
        let (counts, place) = match (numbers[0], numbers[1]) {
            (author, 0) => (&mut firsts[..], author),
            (_, previous) => (&mut successors[..], previous),
        };
        if let Some(count) = counts.get_mut(usize::from(place).wrapping_sub(1)) {
            *count = u16::saturating_add(*count, 1);
        }
    }
    laid(&firsts, &successors)
}

/// The first so many of a table, or all of it where it has fewer.
fn front<T>(table: &[T], count: usize) -> &[T] {
    table.get(..count).unwrap_or(table)
}

/// Puts values at the start of a table.
fn fill<T: Copy>(table: &mut [T], values: &[T]) {
    for (place, value) in table.iter_mut().zip(values) {
        *place = *value;
    }
}
