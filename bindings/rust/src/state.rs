//! Log states.

use crate::raw;
use crate::Answer;

/// The phase of a log state.
#[derive(Clone, Copy, Debug, PartialEq, Eq, Hash)]
pub enum Phase {
    /// No fork is known.
    Growing,
    /// Frozen, on the evidence of two messages that follow the last one.
    Forked {
        /// The evidence row with the lower id.
        low: u16,
        /// The evidence row with the higher id.
        high: u16,
    },
}

/// The state of one author's log: the author, the last row or none, and the phase.
///
/// A state may be made of any numbers. Whether it is a state of a store is judged by the calls, which
/// answer [`Answer::State`] where it is not.
#[derive(Clone, Copy, Debug, PartialEq, Eq, Hash)]
pub struct LogState {
    author: u16,
    last: u16,
    phase: Phase,
}

impl LogState {
    /// Growing at none: nothing of the author is known.
    pub fn empty(author: u16) -> LogState {
        LogState::growing(author, 0)
    }

    /// Growing at a row; 0 stands for none.
    pub fn growing(author: u16, last: u16) -> LogState {
        LogState {
            author,
            last,
            phase: Phase::Growing,
        }
    }

    /// Forked at a row (0 stands for none), with the evidence row of the lower id before the other.
    pub fn forked(author: u16, last: u16, low: u16, high: u16) -> LogState {
        LogState {
            author,
            last,
            phase: Phase::Forked { low, high },
        }
    }

    /// The author.
    pub fn author(&self) -> u16 {
        self.author
    }

    /// The last row, if there is one.
    pub fn last(&self) -> Option<u16> {
        (self.last != 0).then_some(self.last)
    }

    /// The phase.
    pub fn phase(&self) -> Phase {
        self.phase
    }

    /// The state of five numbers in the order of a frontier's entry: author, phase (0 growing, 1
    /// forked), last, low, high. [`Answer::State`] where the phase is neither, or low or high is not 0
    /// in a growing one.
    pub fn from_numbers(numbers: [u16; 5]) -> Result<LogState, Answer> {
        match numbers {
            [author, 0, last, 0, 0] => Ok(LogState::growing(author, last)),
            [author, 1, last, low, high] => Ok(LogState::forked(author, last, low, high)),
            _ => Err(Answer::State),
        }
    }

    /// The five numbers, in the order of a frontier's entry.
    pub fn numbers(&self) -> [u16; 5] {
        match self.phase {
            Phase::Growing => [self.author, 0, self.last, 0, 0],
            Phase::Forked { low, high } => [self.author, 1, self.last, low, high],
        }
    }

    /// The state as the calls take it.
    pub(crate) fn to_raw(self) -> raw::State {
        let [author, phase, last, low, high] = self.numbers();
        raw::State {
            author,
            phase,
            last,
            low,
            high,
        }
    }

    /// The state as the calls give it.
    pub(crate) fn from_raw(state: raw::State) -> Result<LogState, Answer> {
        LogState::from_numbers([state.author, state.phase, state.last, state.low, state.high])
    }
}
