//! The sample chain of document 01: ten rows of the authors A, 1, and B, 2.

use snowknoll::{Answer, Parts, Store};

/// The tables of the sample chain.
#[derive(Clone)]
pub struct Tables {
    pub keys: Vec<u8>,
    pub ids: Vec<u8>,
    pub rows: Vec<u16>,
    pub deps: Vec<u16>,
    pub firsts: Vec<u16>,
    pub successors: Vec<u16>,
    pub origins: Vec<u8>,
}

/// 32 bytes, the rest zero after the first.
pub fn name(first: u8) -> [u8; 32] {
    let mut bytes = [0; 32];
    bytes[0] = first;
    bytes
}

/// The sample chain, as a page of four numbers a row: author, previous row, index, dependencies.
#[rustfmt::skip]
pub fn tables() -> Tables {
    Tables {
        keys: [name(65), name(66)].concat(),
        ids: [7, 5, 2, 3, 9, 4, 6, 10, 1, 8].map(name).concat(),
        rows: vec![
            1, 0, 1, 0,
            1, 1, 2, 0,
            1, 2, 3, 0,
            1, 2, 3, 0,
            2, 0, 1, 1,
            1, 4, 4, 0,
            1, 1, 2, 0,
            2, 5, 2, 0,
            1, 2, 3, 0,
            1, 0, 1, 0,
        ],
        deps: vec![3],
        firsts: vec![2, 1],
        successors: vec![2, 3, 0, 1, 1, 0, 0, 0, 0, 0],
        origins: vec![1, 1, 1, 2, 2, 2, 1, 2, 3, 255],
    }
}

impl Tables {
    /// The tables, lent.
    pub fn parts(&self) -> Parts<'_> {
        Parts {
            keys: &self.keys,
            ids: &self.ids,
            rows: &self.rows,
            deps: &self.deps,
            firsts: &self.firsts,
            successors: &self.successors,
            origins: &self.origins,
        }
    }

    /// The store with these tables.
    pub fn store(&self) -> Result<Store, Answer> {
        Store::from_parts(self.parts())
    }
}
