//! The release desk: document 02's product above the library, from its words.

use crate::admission::{admit_under, NewRow};
use crate::answers::*;
use crate::arguments::Arguments;
use crate::frontiers::read_frontier;
use crate::item::{number2, read, Item};
use crate::lines::apart;
use crate::replay::{Replay, PART_TIMES};
use crate::sha256::{hex, sha256};
use crate::states::history;
use crate::store::{Graph, Store, ROWS_LIMIT};

/// How many components there are.
pub const COMPONENTS: usize = 512;

/// What is lent to the desk beside the store: a component number and an expanded byte for each row, and the
/// owner of each component.
#[derive(Clone)]
pub struct Desk {
    pub components: Vec<u16>,
    pub expanded: Vec<u8>,
    pub owners: Vec<u16>,
}

/// A current release: its row, its index, whether its menu starts expanded, whether the owner's log is
/// frozen.
#[derive(Default, PartialEq, Debug)]
pub struct Release {
    pub row: u16,
    pub index: u16,
    pub expanded: u8,
    pub frozen: u8,
}

/// The component number and the expanded byte of a payload.
fn payload_of(item: &Item) -> Result<(u16, u8), Answer> {
    match *item.payload {
        [low, high, expanded] if expanded <= 1 => Ok((number2(&[low, high]), expanded)),
        _ => Err(PAYLOAD),
    }
}

impl Desk {
    /// A desk whose parts are at their limits and all zero.
    pub fn empty() -> Desk {
        Desk {
            components: vec![0; ROWS_LIMIT],
            expanded: vec![0; ROWS_LIMIT],
            owners: vec![0; COMPONENTS],
        }
    }

    /// The desk's admission: PAYLOAD after 15 and before 16; where it is done the new row's two places are
    /// written.
    pub fn admit(&mut self, store: &mut Store, record: &[u8], origin: u8) -> (Answer, u16) {
        let places = self.components.len().min(self.expanded.len());
        let reads = |_: &Graph, item: &Item, _: &NewRow| payload_of(item).map(|_| ());
        let (answer, row) = admit_under(store, record, origin, reads, places);
        if answer == DONE {
            let said = read(record).and_then(|item| payload_of(&item));
            let place = row as usize - 1;
            (self.components[place], self.expanded[place]) = said.unwrap_or_default();
        }
        (answer, row)
    }

    /// Whether the columns have a place for each row, with bytes that are 0 or 1, and the table is whole.
    fn is_sound(&self, rows: usize) -> bool {
        self.components.len() >= rows
            && self.owners.len() >= COMPONENTS
            && self
                .expanded
                .get(..rows)
                .is_some_and(|bytes| bytes.iter().all(|&byte| byte <= 1))
    }

    /// The current release of a component: of all messages of its owner's entry that carry it, the one with
    /// the highest index; nothing where there is no owner, no entry or no such message.
    pub fn release(
        &self,
        graph: &Graph,
        frontier: &[u16],
        component: u16,
    ) -> Result<Option<Release>, Answer> {
        let frontier = read_frontier(graph, frontier)?;
        if !self.is_sound(graph.messages.len()) {
            return Err(PAYLOAD);
        }
        let owners = &self.owners[..COMPONENTS];
        if owners
            .iter()
            .any(|&owner| owner as usize > graph.keys.len())
        {
            return Err(OWNERLESS);
        }
        let place = (component as usize).checked_sub(1);
        let owner = place.and_then(|place| owners.get(place)).ok_or(COMPONENT)?;
        let found = frontier.get(owner).and_then(|entry| {
            let mut rows = history(graph, entry.last);
            rows.retain(|&row| self.components[row as usize - 1] == component);
            let row = rows
                .into_iter()
                .max_by_key(|&row| graph.message(row).index)?;
            Some(Release {
                row,
                index: graph.message(row).index,
                expanded: self.expanded[row as usize - 1],
                frozen: entry.fork.is_some() as u8,
            })
        });
        Ok(found)
    }
}

impl Replay {
    /// Operation 25: these parts are the desk from now on.
    pub fn load_desk(&mut self, mut arguments: Arguments) -> Option<String> {
        let lengths = [ROWS_LIMIT, ROWS_LIMIT, COMPONENTS].map(|limit| {
            let length = arguments.number4();
            length.filter(|&length| length <= PART_TIMES * limit)
        });
        let desk = Desk {
            components: arguments.numbers(lengths[0]?)?,
            expanded: arguments.bytes(lengths[1]?)?.to_vec(),
            owners: arguments.numbers(lengths[2]?)?,
        };
        arguments.end()?;
        self.desk = desk;
        Some("desk".into())
    }

    /// Operation 26: the desk's admission.
    pub fn release_in(&mut self, mut arguments: Arguments) -> Option<String> {
        let origin = arguments.bytes(1)?[0];
        let (answer, row) = self.desk.admit(&mut self.store, arguments.rest(), origin);
        Some(format!("release-in {answer} {row}"))
    }

    /// Operation 27: the current release of a component.
    pub fn release(&self, mut arguments: Arguments) -> Option<String> {
        let (component, count) = (arguments.number()?, arguments.number()?);
        let frontier = arguments.numbers(count as usize)?;
        arguments.end()?;
        let result = self.on_graph(|graph| self.desk.release(graph, &frontier, component));
        let (answer, release) = apart(result, None);
        let Release {
            row,
            index,
            expanded,
            frozen,
        } = release.unwrap_or_default();
        Some(format!(
            "release {answer} {row} {index} {expanded} {frozen}"
        ))
    }

    /// Operation 28: both columns.
    pub fn columns(&self, arguments: Arguments) -> Option<String> {
        arguments.end()?;
        let numbers = self.desk.components.iter();
        let components: Vec<u8> = numbers.flat_map(|number| number.to_le_bytes()).collect();
        let sums = [&components, &self.desk.expanded].map(|part| hex(&sha256(part)));
        Some(format!("columns {}", sums.join(" ")))
    }
}
