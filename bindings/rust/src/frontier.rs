//! Frontiers.

use crate::{Answer, LogState};

/// A frontier: a log state for each of some authors, rising by author, as a list of five numbers each.
///
/// A frontier may be made of any numbers. Whether it is a frontier of a store is judged by the calls,
/// which answer [`Answer::Frontier`] where it is not.
#[derive(Clone, Debug, Default, PartialEq, Eq, Hash)]
pub struct Frontier(Vec<u16>);

impl Frontier {
    /// The frontier of no author.
    pub fn new() -> Frontier {
        Frontier::default()
    }

    /// The numbers, five for each entry: author, phase, last, low, high.
    pub fn numbers(&self) -> &[u16] {
        &self.0
    }

    /// The numbers, for keeping.
    pub fn into_numbers(self) -> Vec<u16> {
        self.0
    }

    /// The states of all entries. [`Answer::Frontier`] where the numbers are no entries.
    pub fn states(&self) -> Result<Vec<LogState>, Answer> {
        self.0.chunks(5).map(entry).collect()
    }

    /// The state of an author, if it has an entry.
    pub fn state(&self, author: u16) -> Option<LogState> {
        let found = self.0.chunks(5).find(|numbers| numbers[0] == author)?;
        entry(found).ok()
    }

    /// The list itself, for the calls that change it.
    pub(crate) fn list(&mut self) -> &mut Vec<u16> {
        &mut self.0
    }
}

/// The state of an entry.
fn entry(numbers: &[u16]) -> Result<LogState, Answer> {
    let five = numbers.try_into().map_err(|_| Answer::Frontier)?;
    LogState::from_numbers(five).map_err(|_| Answer::Frontier)
}

impl From<Vec<u16>> for Frontier {
    /// Any numbers, as they are.
    fn from(numbers: Vec<u16>) -> Frontier {
        Frontier(numbers)
    }
}

impl FromIterator<LogState> for Frontier {
    /// Entries in the order given, which has to rise by author.
    fn from_iter<I: IntoIterator<Item = LogState>>(states: I) -> Frontier {
        Frontier(
            states
                .into_iter()
                .flat_map(|state| state.numbers())
                .collect(),
        )
    }
}
