//! The calls on frontiers, and packing lists.
//!
//! The calls whose names end in `into` or `within` write to the caller's own room and make nothing
//! themselves; they take a frontier as its numbers.

use crate::calls;
use crate::raw::{CountAnswer, YesAnswer};
use crate::{Answer, Frontier, Store};

/// The numbers of an entry.
const ENTRY: usize = 5;

impl Store {
    /// Whether a frontier is one of this store.
    pub fn valid_frontier(&self, f: &Frontier) -> Result<bool, Answer> {
        judged(calls::valid_frontier(&self.tables(), f.numbers()))
    }

    /// Whether the frontier f is at or below g: g has all its authors, each at or below.
    /// [`Answer::Frontier`] where one is not valid.
    pub fn frontier_at_or_below(&self, f: &Frontier, g: &Frontier) -> Result<bool, Answer> {
        judged(calls::frontier_at_or_below(
            &self.tables(),
            f.numbers(),
            g.numbers(),
        ))
    }

    /// The merge of two frontiers. [`Answer::Frontier`] where one is not valid.
    pub fn merge_frontiers(&self, f: &Frontier, g: &Frontier) -> Result<Frontier, Answer> {
        let mut out = vec![0; usize::from(self.authors()) * ENTRY];
        let count = self.merge_frontiers_into(f.numbers(), g.numbers(), &mut out)?;
        out.truncate(count);
        Ok(Frontier::from(out))
    }

    /// Writes the merge of two frontiers to the start of out, and gives how many numbers it has.
    /// Refused as [`Store::merge_frontiers`] is, and by [`Answer::Room`] where out is shorter; out then
    /// stays as it was.
    pub fn merge_frontiers_into(
        &self,
        f: &[u16],
        g: &[u16],
        out: &mut [u16],
    ) -> Result<usize, Answer> {
        wrote(calls::merge_frontiers(&self.tables(), f, g, out))
    }

    /// Appends a row to its author's entry, which is made where there is none. [`Answer::Frontier`]
    /// where the frontier is not valid, [`Answer::Row`] where there is no such row; the frontier then
    /// stays as it was.
    pub fn append_entry(&self, frontier: &mut Frontier, row: u16) -> Result<(), Answer> {
        let list = frontier.list();
        let used = list.len();
        list.resize(used + ENTRY, 0);
        let given = self.append_entry_within(list, used, row);
        list.truncate(*given.as_ref().unwrap_or(&used));
        given.map(|_| ())
    }

    /// Appends a row to its author's entry in the frontier of the first `used` numbers of room, and
    /// gives how many numbers the frontier has then. Refused as [`Store::append_entry`] is, and by
    /// [`Answer::Room`] where the room is shorter; the room then stays as it was.
    pub fn append_entry_within(
        &self,
        room: &mut [u16],
        used: usize,
        row: u16,
    ) -> Result<usize, Answer> {
        wrote(calls::append_entry(&self.tables(), room, used, row))
    }

    /// The packing list of a frontier: the rows, rising, that are the last row of an entry, one of the
    /// evidence rows of a forked one, or happened before any of them. [`Answer::Frontier`] where the
    /// frontier is not valid.
    ///
    /// The call goes as deep as there are rows, about 150 bytes of stack each: some 200 KiB in a full
    /// store.
    pub fn packing_list(&self, frontier: &Frontier) -> Result<Vec<u16>, Answer> {
        let mut out = vec![0; usize::from(self.rows())];
        let count = self.packing_list_into(frontier.numbers(), &mut out)?;
        out.truncate(count);
        Ok(out)
    }

    /// Writes the packing list of a frontier to the start of out, and gives how many rows it has.
    /// Refused as [`Store::packing_list`] is, and by [`Answer::Room`] where out is shorter; out then
    /// stays as it was.
    pub fn packing_list_into(&self, frontier: &[u16], out: &mut [u16]) -> Result<usize, Answer> {
        wrote(calls::packing_list(&self.tables(), frontier, out))
    }
}

/// Yes or no.
fn judged(given: YesAnswer) -> Result<bool, Answer> {
    Answer::checked(given.number)?;
    Ok(given.yes == 1)
}

/// How many numbers were written.
fn wrote(given: CountAnswer) -> Result<usize, Answer> {
    Answer::checked(given.number)?;
    Ok(given.count)
}
