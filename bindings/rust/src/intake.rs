//! A whole intake in one call.

use crate::calls;
use crate::{Admitted, Answer, Store};

/// The numbers of an item's answer in the list: its number and its row.
const ANSWER: usize = 2;
/// The fewest bytes that an item is cut to, but for the last: its length.
const LENGTH: usize = 4;

impl Store {
    /// Takes in a whole stretch of items: admits each in turn, all with one origin, and gives what
    /// [`Store::admit`] gives for each of them one by one in order. The store is checked once and not
    /// at every item: many items take less than half the time so.
    ///
    /// Each item is cut at its length. Where a length is above 6,253 or the stretch ends inside an
    /// item, all the rest is the last item, and its answer is [`Answer::Size`] or [`Answer::Short`].
    pub fn take_in(
        &mut self,
        stretch: &[u8],
        origin: u8,
    ) -> Result<Vec<Result<Admitted, Answer>>, Answer> {
        let mut list = vec![0; ANSWER * (stretch.len() / LENGTH + 1)];
        let items = self.take_in_listing(stretch, origin, &mut list)?;
        let answers = list.chunks_exact(ANSWER).take(items);
        Ok(answers.map(|two| Admitted::of(two[0], two[1])).collect())
    }

    /// The same, with the number and the row of each answer written to the start of list, two numbers
    /// an item; gives how many items there are. [`Answer::Room`] where the list is shorter; then nothing
    /// is taken in, and the list stays as it was.
    pub fn take_in_listing(
        &mut self,
        stretch: &[u8],
        origin: u8,
        list: &mut [u16],
    ) -> Result<usize, Answer> {
        let given = calls::take_in(stretch, origin, self.tables_mut(), list);
        Answer::checked(given.number)?;
        self.set_counts(given.counts);
        Ok(given.items)
    }
}
