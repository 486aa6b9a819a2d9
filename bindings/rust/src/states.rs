//! The calls on log states.

use crate::calls;
use crate::raw::StateAnswer;
use crate::{Answer, LogState, Store};

/// The prefix of two rows, and which way each of them goes from it.
#[derive(Clone, Copy, Debug, PartialEq, Eq, Hash)]
pub struct Prefix {
    /// The last row at or before both, if there is one.
    pub row: Option<u16>,
    /// The row on the prefix that leads to the first; none where the first stands at the prefix itself.
    pub first: Option<u16>,
    /// The row on the prefix that leads to the second; none where the second stands at the prefix itself.
    pub second: Option<u16>,
}

/// The numbers of a branch.
const BRANCH: usize = 2;

/// One branch of a forked log.
#[derive(Clone, Copy, Debug, PartialEq, Eq, Hash)]
pub struct Branch {
    /// Its tip: no row's previous row.
    pub tip: u16,
    /// The row on the state's last one (or on none) through which it runs.
    pub child: u16,
}

impl Store {
    /// The prefix of two rows of one author, with the way to each. Row 0 stands for none. Where the prefix
    /// is none, each side's way is its first message. [`Answer::Row`] where there is no such row, or the
    /// second is another author's.
    pub fn prefix(&self, a: u16, b: u16) -> Result<Prefix, Answer> {
        let given = calls::prefix(&self.tables(), a, b);
        Answer::checked(given.number)?;
        Ok(Prefix {
            row: some(given.row),
            first: some(given.first),
            second: some(given.second),
        })
    }

    /// The state with one more message of its author. [`Answer::State`] where the state is not valid,
    /// [`Answer::Row`] where the row is not one of its author's.
    pub fn append(&self, state: LogState, row: u16) -> Result<LogState, Answer> {
        merged(calls::append(&self.tables(), state.to_raw(), row))
    }

    /// The merge of two states of one author. [`Answer::State`] where one is not valid,
    /// [`Answer::Pair`] where they are of different authors.
    pub fn merge(&self, first: LogState, second: LogState) -> Result<LogState, Answer> {
        merged(calls::merge(
            &self.tables(),
            first.to_raw(),
            second.to_raw(),
        ))
    }

    /// Whether the first state is at or below the second; refused as [`Store::merge`] is.
    pub fn at_or_below(&self, first: LogState, second: LogState) -> Result<bool, Answer> {
        let given = calls::at_or_below(&self.tables(), first.to_raw(), second.to_raw());
        Answer::checked(given.number)?;
        Ok(given.yes == 1)
    }

    /// Every branch of a forked state, by rising id of its tip: the author's rows that follow its last
    /// row and are no row's previous row. [`Answer::State`] where the state is not valid,
    /// [`Answer::Whole`] where it is growing.
    pub fn branches(&self, state: LogState) -> Result<Vec<Branch>, Answer> {
        let mut out = vec![0; usize::from(self.rows()) * BRANCH];
        let count = self.branches_into(state, &mut out)?;
        let branches = out[..count].chunks(BRANCH);
        Ok(branches
            .map(|two| Branch {
                tip: two[0],
                child: two[1],
            })
            .collect())
    }

    /// Writes every branch of a forked state to the start of out, tip and child, and gives how many
    /// numbers that is. Refused as [`Store::branches`] is, and by [`Answer::Room`] where out is
    /// shorter; out then stays as it was.
    pub fn branches_into(&self, state: LogState, out: &mut [u16]) -> Result<usize, Answer> {
        let given = calls::branches(&self.tables(), state.to_raw(), out);
        Answer::checked(given.number)?;
        Ok(given.count)
    }
}

/// A row, where it is not 0.
fn some(row: u16) -> Option<u16> {
    (row != 0).then_some(row)
}

/// The state of a merge or an append.
fn merged(given: StateAnswer) -> Result<LogState, Answer> {
    Answer::checked(given.number)?;
    LogState::from_raw(given.state)
}
