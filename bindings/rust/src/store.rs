//! The store: its tables, admission, and what stands in it; saving and loading below it.

mod parts;

use std::fmt;
use std::ops::Range;

use crate::calls::{self, Tables, TablesMut};
use crate::raw::{AdmitAnswer, Counts};
use crate::Answer;
pub use parts::Parts;

/// The most rows of a store.
pub const MOST_ROWS: usize = 1024;
/// The most authors of a store.
pub const MOST_AUTHORS: usize = 64;
/// The most dependencies of a store.
pub const MOST_DEPENDENCIES: usize = 4096;

/// The bytes of a key or an id.
const NAME: usize = 32;
/// The numbers of a row: author, previous row, index, number of dependencies.
const ROW: usize = 4;

/// A store of messages. Rows and authors are numbered from 1.
///
/// Only admission changes it, so it is always well formed.
#[derive(Clone)]
pub struct Store {
    keys: Vec<u8>,
    ids: Vec<u8>,
    rows: Vec<u16>,
    deps: Vec<u16>,
    /// A number for each author up to the limit, of its first messages; then one for each row, of those
    /// that follow it.
    branches: Vec<u16>,
    /// A byte for each row: who handed it to us.
    origins: Vec<u8>,
    counts: Counts,
}

/// What an admission does with an item that it does not refuse.
#[derive(Clone, Copy, Debug, PartialEq, Eq, Hash)]
pub enum Admitted {
    /// The item is in the store now, as this new row.
    Done(u16),
    /// The store held the item already, as this row (answer 8, HELD); nothing changed.
    Held(u16),
}

impl Admitted {
    /// What the number and the row of an answer say.
    pub(crate) fn of(number: u16, row: u16) -> Result<Admitted, Answer> {
        match Answer::refusal(number) {
            Answer::Done => Ok(Admitted::Done(row)),
            Answer::Held => Ok(Admitted::Held(row)),
            why => Err(why),
        }
    }

    /// The row of the item.
    pub fn row(self) -> u16 {
        match self {
            Admitted::Done(row) | Admitted::Held(row) => row,
        }
    }

    /// The answer: done or HELD.
    pub fn answer(self) -> Answer {
        match self {
            Admitted::Done(_) => Answer::Done,
            Admitted::Held(_) => Answer::Held,
        }
    }
}

/// A message of a store.
#[derive(Clone, Copy, Debug, PartialEq, Eq)]
pub struct Row<'a> {
    /// The author's number.
    pub author: u16,
    /// The previous row of the same author, if there is one.
    pub previous: Option<u16>,
    /// The index: 1 for an author's first message.
    pub index: u16,
    /// The rows that it depends on.
    pub dependencies: &'a [u16],
}

impl Store {
    /// An empty store with room up to the limits.
    pub fn new() -> Store {
        Store::with_room(MOST_ROWS, MOST_AUTHORS, MOST_DEPENDENCIES)
    }

    /// An empty store with room for so many rows, authors and dependencies. Room above a limit is not
    /// made, since it would never be used.
    pub fn with_room(rows: usize, authors: usize, deps: usize) -> Store {
        let rows = rows.min(MOST_ROWS);
        Store {
            keys: vec![0; authors.min(MOST_AUTHORS) * NAME],
            ids: vec![0; rows * NAME],
            rows: vec![0; rows * ROW],
            deps: vec![0; deps.min(MOST_DEPENDENCIES)],
            branches: vec![0; MOST_AUTHORS + rows],
            origins: vec![0; rows],
            counts: Counts::default(),
        }
    }

    /// Judges an item and admits it; the origin says who handed it to us, and is kept for its row. An
    /// item that the store holds already is no error: it is [`Admitted::Held`], and keeps its first
    /// origin. A refusal is one of the answers from [`Answer::Short`] to [`Answer::Full`], and changes
    /// nothing. No answer but [`Store::origin`] depends on origins.
    pub fn admit(&mut self, item: &[u8], origin: u8) -> Result<Admitted, Answer> {
        let given = calls::admit(item, origin, self.tables_mut());
        self.admitted(given)
    }

    /// The same for the item that lies at a place of an intake, where it lies. Places past the intake's
    /// end are its end; an end before the start makes no bytes.
    pub fn admit_at(
        &mut self,
        intake: &[u8],
        place: Range<usize>,
        origin: u8,
    ) -> Result<Admitted, Answer> {
        let given = calls::admit_at(intake, place, origin, self.tables_mut());
        self.admitted(given)
    }

    /// The origin of a row, as it was given at its admission. [`Answer::Row`] where there is no such row.
    pub fn origin(&self, row: u16) -> Result<u8, Answer> {
        let given = calls::origin(&self.tables(), &self.origins, row);
        Answer::checked(given.number)?;
        Ok(given.origin)
    }

    /// What an admission gives. The counts after it are the store's from now on.
    pub(crate) fn admitted(&mut self, given: AdmitAnswer) -> Result<Admitted, Answer> {
        self.set_counts(given.counts);
        Admitted::of(given.number, given.row)
    }

    /// The counts that a call which writes the store has left.
    pub(crate) fn set_counts(&mut self, counts: Counts) {
        self.counts = counts;
    }

    /// Whether the tables are well formed, which they are: a check for those who want to see it.
    pub fn well_formed(&self) -> bool {
        Answer::checked(calls::well_formed(&self.tables())).is_ok()
    }

    /// How many rows there are.
    pub fn rows(&self) -> u16 {
        small(self.counts.rows)
    }

    /// How many authors there are.
    pub fn authors(&self) -> u16 {
        small(self.counts.authors)
    }

    /// The row that has an id.
    pub fn find_id(&self, id: &[u8; 32]) -> Option<u16> {
        place(calls::find_id(&self.ids, self.counts.rows, id))
    }

    /// The author that has a key.
    pub fn find_key(&self, key: &[u8; 32]) -> Option<u16> {
        place(calls::find_key(&self.keys, self.counts.authors, key))
    }

    /// The id of a row, if there is that row.
    pub fn id(&self, row: u16) -> Option<&[u8; 32]> {
        piece(self.parts().ids, row, NAME)?.try_into().ok()
    }

    /// The key of an author, if there is that author.
    pub fn key(&self, author: u16) -> Option<&[u8; 32]> {
        piece(self.parts().keys, author, NAME)?.try_into().ok()
    }

    /// The message of a row, if there is that row.
    pub fn row(&self, row: u16) -> Option<Row<'_>> {
        let parts = self.parts();
        let &[author, previous, index, count] = piece(parts.rows, row, ROW)? else {
            return None;
        };
        let earlier = parts.rows.chunks_exact(ROW).take(usize::from(row) - 1);
        let start: usize = earlier.map(|numbers| usize::from(numbers[ROW - 1])).sum();
        Some(Row {
            author,
            previous: (previous != 0).then_some(previous),
            index,
            dependencies: parts.deps.get(start..)?.get(..usize::from(count))?,
        })
    }

    /// How many rows follow a row directly, if there is that row: the number to show beside it. More
    /// than 1 is a fork.
    pub fn successors(&self, row: u16) -> Option<u16> {
        piece(self.parts().successors, row, 1)?.first().copied()
    }

    /// How many first messages an author has, if there is that author. More than 1 is a fork.
    pub fn firsts(&self, author: u16) -> Option<u16> {
        piece(self.parts().firsts, author, 1)?.first().copied()
    }

    /// The tables as the calls take them.
    pub(crate) fn tables(&self) -> Tables<'_> {
        Tables {
            keys: &self.keys,
            ids: &self.ids,
            rows: &self.rows,
            deps: &self.deps,
            branches: &self.branches,
            counts: self.counts,
        }
    }

    /// The tables as an admission takes them.
    pub(crate) fn tables_mut(&mut self) -> TablesMut<'_> {
        TablesMut {
            keys: &mut self.keys,
            ids: &mut self.ids,
            rows: &mut self.rows,
            deps: &mut self.deps,
            branches: &mut self.branches,
            origins: &mut self.origins,
            counts: self.counts,
        }
    }
}

impl Default for Store {
    fn default() -> Store {
        Store::new()
    }
}

impl fmt::Debug for Store {
    fn fmt(&self, f: &mut fmt::Formatter<'_>) -> fmt::Result {
        f.debug_struct("Store")
            .field("rows", &self.counts.rows)
            .field("authors", &self.counts.authors)
            .field("deps", &self.counts.deps)
            .finish()
    }
}

/// The piece with a number, from 1, of a table of pieces of one size.
fn piece<T>(table: &[T], number: u16, size: usize) -> Option<&[T]> {
    table
        .chunks_exact(size)
        .nth(usize::from(number).checked_sub(1)?)
}

/// A count as a number of 2 bytes; counts are at most 4,096.
fn small(count: usize) -> u16 {
    u16::try_from(count).unwrap_or(u16::MAX)
}

/// A row or author number, of which 0 means none.
fn place(number: usize) -> Option<u16> {
    u16::try_from(number).ok().filter(|&number| number != 0)
}
