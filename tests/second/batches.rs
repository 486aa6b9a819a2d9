//! A whole morning's intake in one call: what admitting its items one by one gives and leaves.

use crate::admission::admit;
use crate::answers::{Answer, ROOM, STORE};
use crate::arguments::Arguments;
use crate::intake::items_of;
use crate::lines::apart;
use crate::replay::Replay;
use crate::sha256::{hex, sha256};
use crate::store::Store;

/// How many numbers of the list an item takes: its answer and its row.
pub const ANSWER_NUMBERS: usize = 2;

/// Admits the items of a stretch one by one, all with one origin, and lists the answer and the row of
/// each: how many there are. 1 comes first, then 21.
pub fn take_in(
    store: &mut Store,
    stretch: &[u8],
    origin: u8,
    list: &mut [u16],
) -> Result<usize, Answer> {
    store.judged_with_origins().ok_or(STORE)?;
    let items = items_of(stretch);
    let places = list.get_mut(..ANSWER_NUMBERS * items.len()).ok_or(ROOM)?;
    for (item, places) in items.iter().zip(places.chunks_mut(ANSWER_NUMBERS)) {
        let (answer, row) = admit(store, item, origin);
        places.copy_from_slice(&[answer, row]);
    }
    Ok(items.len())
}

impl Replay {
    /// Operation 19: a whole intake.
    pub fn batch(&mut self, mut arguments: Arguments) -> Option<String> {
        let origin = arguments.bytes(1)?[0];
        let mut list = arguments.wide_room()?;
        let result = take_in(&mut self.store, arguments.rest(), origin, &mut list);
        let (answer, items) = apart(result, 0);
        let bytes: Vec<u8> = list
            .iter()
            .flat_map(|number| number.to_le_bytes())
            .collect();
        Some(format!("batch {answer} {items} {}", hex(&sha256(&bytes))))
    }
}
