//! The public catalogue, which takes steady authors only.

use crate::calls;
use crate::{Admitted, Answer, Store};

/// A row that breaks the rule of steady authors.
#[derive(Clone, Copy, Debug, PartialEq, Eq, Hash)]
pub struct Backstep {
    /// The lowest row that breaks it.
    pub row: u16,
    /// The latest earlier row of the same log that it breaks it against.
    pub earlier: u16,
}

impl Store {
    /// Whether all authors of the store are steady: where two messages of one log depend on one third
    /// author, the dependency of the earlier is that of the later, or happened before it.
    pub fn steady(&self) -> Result<bool, Answer> {
        let given = calls::steady(&self.tables());
        Answer::checked(given.number)?;
        Ok(given.yes == 1)
    }

    /// The lowest row that is not steady, if there is one.
    pub fn backstep(&self) -> Result<Option<Backstep>, Answer> {
        let given = calls::backstep(&self.tables());
        Answer::checked(given.number)?;
        Ok((given.row != 0).then_some(Backstep {
            row: given.row,
            earlier: given.earlier,
        }))
    }

    /// Admits an item as [`Store::admit`] does, but only to a store whose authors are all steady, and only
    /// where they stay so: else it is refused by [`Answer::Backstep`].
    pub fn admit_catalogue(&mut self, item: &[u8], origin: u8) -> Result<Admitted, Answer> {
        let given = calls::admit_catalogue(item, origin, self.tables_mut());
        self.admitted(given)
    }
}
