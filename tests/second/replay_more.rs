//! The operations of replay from 40 on: the calls that the others do not reach.

use crate::admission::admit;
use crate::arguments::Arguments;
use crate::frontiers;
use crate::lines::{choice_line, room_line};
use crate::replay::Replay;
use crate::sha256::DIGEST;

/// The number of the first of so many names in a part that is a name, 0 where none is.
fn place_of(part: &[u8], count: usize, name: &[u8]) -> usize {
    let mut names = part.chunks_exact(DIGEST).take(count);
    names.position(|held| held == name).map_or(0, |at| at + 1)
}

impl Replay {
    /// Operation 41: the row of an id among the first so many.
    pub fn find_id(&self, mut arguments: Arguments) -> Option<String> {
        let (count, id) = (arguments.number8()?, arguments.bytes(DIGEST)?);
        arguments.end()?;
        let row = place_of(&self.store.ids, count, id);
        Some(format!("find-id {row}"))
    }

    /// Operation 42: the author of a key among the first so many.
    pub fn find_key(&self, mut arguments: Arguments) -> Option<String> {
        let (count, key) = (arguments.number8()?, arguments.bytes(DIGEST)?);
        arguments.end()?;
        let author = place_of(&self.store.keys, count, key);
        Some(format!("find-key {author}"))
    }

    /// Operation 43: an admission of what lies in an intake from one place up to another.
    pub fn admit_at(&mut self, mut arguments: Arguments) -> Option<String> {
        let origin = arguments.bytes(1)?[0];
        let (start, end) = (arguments.number8()?, arguments.number8()?);
        let intake = arguments.rest();
        let end = end.min(intake.len());
        let (answer, row) = admit(&mut self.store, &intake[start.min(end)..end], origin);
        Some(format!("admit-at {answer} {row}"))
    }

    /// Operation 44: whether a list is a valid frontier.
    pub fn valid_frontier(&self, mut arguments: Arguments) -> Option<String> {
        let count = arguments.number()? as usize;
        let list = arguments.numbers(count)?;
        arguments.end()?;
        let result = self.on_graph(|graph| Ok(frontiers::read_frontier(graph, &list).is_ok()));
        Some(choice_line("fvalid", result))
    }

    /// Operation 45: a row appended to the frontier that the first numbers of a list are.
    pub fn append_entry(&self, mut arguments: Arguments) -> Option<String> {
        let (row, used) = (arguments.number()?, arguments.number8()?);
        let count = arguments.number()? as usize;
        let mut list = arguments.numbers(count)?;
        arguments.end()?;
        let result = self.on_graph(|graph| frontiers::append(graph, &mut list, used, row));
        Some(room_line("fappend", result, &list))
    }

    /// Operation 46: other counts for the store.
    pub fn set_counts(&mut self, mut arguments: Arguments) -> Option<String> {
        let [rows, authors, deps] = [(); 3].map(|()| arguments.number8());
        let counts = (rows?, authors?, deps?);
        arguments.end()?;
        let store = &mut self.store;
        (store.row_count, store.author_count, store.dep_count) = counts;
        Some("counts".into())
    }
}
