//! Standings: a frontier as bytes that another studio reads.

use crate::calls;
use crate::{Answer, Frontier, Store};

/// The bytes of a standing before its entries, and of an entry.
const HEAD: usize = 8;
const ENTRY_BYTES: usize = 130;
/// The numbers of a frontier's entry.
const ENTRY: usize = 5;

/// The longest standing has this many bytes.
pub const LONGEST_STANDING: usize = HEAD + crate::MOST_AUTHORS * ENTRY_BYTES;

impl Store {
    /// The standing of a frontier, to send: who stands where, by keys and ids, so that a store with other
    /// row numbers can read it. [`Answer::Frontier`] where the frontier is not valid.
    pub fn standing(&self, frontier: &Frontier) -> Result<Vec<u8>, Answer> {
        let entries = frontier.numbers().len() / ENTRY;
        let mut out = vec![0; LONGEST_STANDING.min(HEAD + entries * ENTRY_BYTES)];
        let count = self.standing_into(frontier.numbers(), &mut out)?;
        out.truncate(count);
        Ok(out)
    }

    /// Writes the standing of a frontier to the start of out, and gives how many bytes it has. Refused as
    /// [`Store::standing`] is, and by [`Answer::Room`] where out is shorter; out then stays as it was.
    pub fn standing_into(&self, frontier: &[u16], out: &mut [u8]) -> Result<usize, Answer> {
        let given = calls::write_standing(&self.tables(), frontier, out);
        Answer::checked(given.number)?;
        Ok(given.count)
    }

    /// The frontier of this store that a standing says. Refused by the layout's answers, by
    /// [`Answer::Flag`] where a phase or presence byte is neither 0 nor 1, by [`Answer::Unknown`] where
    /// this store lacks a key or an id that it names, and by [`Answer::Frontier`] where it says no valid
    /// frontier.
    pub fn read_standing(&self, standing: &[u8]) -> Result<Frontier, Answer> {
        let mut out = vec![0; usize::from(self.authors()) * ENTRY];
        let count = self.read_standing_into(standing, &mut out)?;
        out.truncate(count);
        Ok(Frontier::from(out))
    }

    /// Writes the frontier that a standing says to the start of out, and gives how many numbers it has.
    /// Refused as [`Store::read_standing`] is, and by [`Answer::Room`] where out is shorter; out then stays
    /// as it was.
    pub fn read_standing_into(&self, standing: &[u8], out: &mut [u16]) -> Result<usize, Answer> {
        let given = calls::read_standing(&self.tables(), standing, out);
        Answer::checked(given.number)?;
        Ok(given.count)
    }
}
