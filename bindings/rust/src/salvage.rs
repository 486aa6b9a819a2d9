//! The rescue of a stick with holes.

use crate::calls;
use crate::{Admitted, Answer, Store, MOST_ROWS};

/// The numbers of an item in the list.
const LISTED: usize = 2;

/// What a salvage leaves.
#[derive(Clone, Debug)]
pub struct Salvage {
    /// The kept items one after the other, in an order in which an empty store admits each.
    pub clean: Vec<u8>,
    /// For each item of the stick, in its order: [`Admitted::Done`] and its place in the clean intake,
    /// from 1, when kept; else the answer that the final store gives it, for a repeat
    /// [`Admitted::Held`] and its row.
    pub items: Vec<Result<Admitted, Answer>>,
    /// The store of the kept items, each with origin 0; the place of a kept item is its row.
    pub store: Store,
}

impl Salvage {
    /// Salvages a stick: keeps, again and again, the first item that is not kept yet and that the store, as
    /// it then stands, admits. [`Answer::Size`] where the stick has more than 1,024 items.
    pub fn of(stick: &[u8]) -> Result<Salvage, Answer> {
        let mut store = Store::new();
        let mut clean = vec![0; stick.len()];
        let mut list = vec![0; LISTED * MOST_ROWS];
        let given = calls::salvage(stick, store.tables_mut(), &mut clean, &mut list);
        Answer::checked(given.number)?;
        store.set_counts(given.counts);
        clean.truncate(given.bytes);
        let listed = list.chunks_exact(LISTED).take(given.items);
        Ok(Salvage {
            clean,
            items: listed.map(|two| Admitted::of(two[0], two[1])).collect(),
            store,
        })
    }
}
