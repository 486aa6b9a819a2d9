//! The release desk, a product above the library.

use crate::calls::{self, Columns};
use crate::{Admitted, Answer, Frontier, Store, MOST_ROWS};

/// How many components there are; they are numbered from 1.
pub const COMPONENTS: usize = 512;

/// The current release of a component.
#[derive(Clone, Copy, Debug, PartialEq, Eq, Hash)]
pub struct Release {
    /// Its row.
    pub row: u16,
    /// Its index in its owner's log.
    pub index: u16,
    /// Whether its menu starts expanded.
    pub expanded: bool,
    /// Whether its owner's log is frozen.
    pub frozen: bool,
}

/// A store of releases, with what each row's payload says, and the owner of each component.
#[derive(Clone, Debug)]
pub struct Desk {
    store: Store,
    components: Vec<u16>,
    expanded: Vec<u8>,
    owners: Vec<u16>,
}

impl Desk {
    /// A desk with an empty store, and nobody as the owner of any component.
    pub fn new() -> Desk {
        Desk {
            store: Store::new(),
            components: vec![0; MOST_ROWS],
            expanded: vec![0; MOST_ROWS],
            owners: vec![0; COMPONENTS],
        }
    }

    /// The desk with a store, a component number and an expanded byte for each of its rows, and the owner of
    /// each component, or 0. [`Answer::Payload`] where there are not as many, or a byte is neither 0 nor 1;
    /// [`Answer::Ownerless`] where an owner is no author of the store.
    pub fn from_parts(
        store: Store,
        components: &[u16],
        expanded: &[u8],
        owners: &[u16],
    ) -> Result<Desk, Answer> {
        let rows = usize::from(store.rows());
        if components.len() != rows || expanded.len() != rows || owners.len() != COMPONENTS {
            return Err(Answer::Payload);
        }
        let mut desk = Desk {
            store,
            components: components.to_vec(),
            expanded: expanded.to_vec(),
            owners: owners.to_vec(),
        };
        desk.release(&Frontier::new(), 1)?;
        desk.components.resize(MOST_ROWS, 0);
        desk.expanded.resize(MOST_ROWS, 0);
        Ok(desk)
    }

    /// The component number and the expanded byte of each row, and the owners, for saving.
    pub fn parts(&self) -> (&[u16], &[u8], &[u16]) {
        let rows = usize::from(self.store.rows());
        (
            &self.components[..rows],
            &self.expanded[..rows],
            &self.owners,
        )
    }

    /// The payload of a release: its component, and whether its menu starts expanded.
    pub fn payload(component: u16, expanded: bool) -> [u8; 3] {
        let [low, high] = component.to_le_bytes();
        [low, high, u8::from(expanded)]
    }

    /// The store, for all other calls.
    pub fn store(&self) -> &Store {
        &self.store
    }

    /// Admits a release as [`Store::admit`] does, and notes what its payload says. [`Answer::Payload`],
    /// before [`Answer::Full`], where that is no payload of a release.
    pub fn admit(&mut self, item: &[u8], origin: u8) -> Result<Admitted, Answer> {
        let tables = self.store.tables_mut();
        let (components, expanded) = (&mut self.components, &mut self.expanded);
        let given = calls::desk_admit(item, origin, tables, components, expanded);
        self.store.admitted(given)
    }

    /// Makes an author of the store, or nobody, the owner of a component. [`Answer::Component`] where there
    /// is no such component, [`Answer::Ownerless`] where there is no such author.
    pub fn set_owner(&mut self, component: u16, author: Option<u16>) -> Result<(), Answer> {
        let place = usize::from(component).checked_sub(1);
        let owner = place.and_then(|place| self.owners.get_mut(place));
        let owner = owner.ok_or(Answer::Component)?;
        let author = author.unwrap_or(0);
        if author > self.store.authors() {
            return Err(Answer::Ownerless);
        }
        *owner = author;
        Ok(())
    }

    /// The current release of a component, as a frontier has it: the owner's message with the highest index
    /// among those at or before the last row of the owner's entry that carry the component. None where it
    /// has no owner, the owner has no entry, or there is no such message. [`Answer::Frontier`] where the
    /// frontier is not valid, [`Answer::Component`] where there is no such component.
    pub fn release(&self, frontier: &Frontier, component: u16) -> Result<Option<Release>, Answer> {
        let columns = Columns {
            components: &self.components,
            expanded: &self.expanded,
            owners: &self.owners,
        };
        let tables = self.store.tables();
        let given = calls::current_release(&tables, frontier.numbers(), &columns, component);
        Answer::checked(given.number)?;
        Ok((given.row != 0).then_some(Release {
            row: given.row,
            index: given.index,
            expanded: given.expanded == 1,
            frozen: given.frozen == 1,
        }))
    }
}

impl Default for Desk {
    fn default() -> Desk {
        Desk::new()
    }
}
