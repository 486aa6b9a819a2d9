//! The store: its lent parts, the well-formed rule of document 01 clause by clause, with the numbers of
//! branches of document 02, and the graph of messages that a well-formed store stands for.

use std::collections::{BTreeMap, BTreeSet};

use crate::sha256::DIGEST;

/// The most rows of a store.
pub const ROWS_LIMIT: usize = 1024;
/// The most authors of a store.
pub const AUTHORS_LIMIT: usize = 64;
/// The most dependencies of a store.
pub const DEPS_LIMIT: usize = 4096;
/// The most numbers of branches: one for each author, then one for each row.
pub const BRANCHES_LIMIT: usize = AUTHORS_LIMIT + ROWS_LIMIT;
/// The numbers that each row has in the part of rows.
pub const ROW_NUMBERS: usize = 4;

/// A key or an id.
pub type Name = [u8; DIGEST];

/// The lent parts and the three counts beside them.
#[derive(Clone)]
pub struct Store {
    pub keys: Vec<u8>,
    pub ids: Vec<u8>,
    pub rows: Vec<u16>,
    pub deps: Vec<u16>,
    pub branches: Vec<u16>,
    pub origins: Vec<u8>,
    pub row_count: usize,
    pub author_count: usize,
    pub dep_count: usize,
}

/// One row of a store, taken apart.
#[derive(Clone)]
pub struct Message {
    pub id: Name,
    pub author: u16,
    pub previous: u16,
    pub index: u16,
    pub dependencies: Vec<u16>,
}

/// What a store says: keys by author number and messages by row number, both from 1.
#[derive(Clone, Default)]
pub struct Graph {
    pub keys: Vec<Name>,
    pub messages: Vec<Message>,
}

/// The 32 bytes of one key or id.
pub fn name(bytes: &[u8]) -> Name {
    let mut copy = [0; DIGEST];
    copy.copy_from_slice(bytes);
    copy
}

impl Graph {
    /// The message of a row, which is 1 to the row count.
    pub fn message(&self, row: u16) -> &Message {
        &self.messages[row as usize - 1]
    }

    /// The author of a row, or none for row 0 and rows above the count.
    pub fn author_of(&self, row: u16) -> Option<u16> {
        (row != 0 && row as usize <= self.messages.len()).then(|| self.message(row).author)
    }

    /// The rows of one author, rising.
    pub fn rows_of(&self, author: u16) -> Vec<u16> {
        self.rows()
            .filter(|&row| self.message(row).author == author)
            .collect()
    }

    /// All rows, rising.
    pub fn rows(&self) -> std::ops::RangeInclusive<u16> {
        1..=self.messages.len() as u16
    }

    /// The row that has an id.
    pub fn row_of_id(&self, id: &[u8]) -> Option<u16> {
        self.rows().find(|&row| self.message(row).id == id)
    }

    /// The author that has a key.
    pub fn author_of_key(&self, key: &[u8]) -> Option<u16> {
        (1..)
            .zip(&self.keys)
            .find(|(_, held)| *held == key)
            .map(|(author, _)| author)
    }

    /// The numbers of branches: of each author how many first messages it has, and of each row how
    /// many rows have it as their previous row.
    pub fn branches(&self) -> (Vec<u16>, Vec<u16>) {
        let mut authors_after: BTreeMap<u16, Vec<u16>> = BTreeMap::new();
        for message in &self.messages {
            let after = authors_after.entry(message.previous).or_default();
            after.push(message.author);
        }
        let after = |row| authors_after.get(&row).map_or(&[][..], Vec::as_slice);
        let firsts = |author| after(0).iter().filter(|&&one| one == author).count() as u16;
        let of_authors = (1..=self.keys.len() as u16).map(firsts).collect();
        let of_rows = self.rows().map(|row| after(row).len() as u16).collect();
        (of_authors, of_rows)
    }

    /// Keys are distinct and ids are distinct.
    fn names_are_distinct(&self) -> bool {
        let keys: BTreeSet<&Name> = self.keys.iter().collect();
        let ids: BTreeSet<&Name> = self.messages.iter().map(|message| &message.id).collect();
        keys.len() == self.keys.len() && ids.len() == self.messages.len()
    }

    /// Authors are numbered by first appearance and each has a row.
    fn authors_are_numbered(&self) -> bool {
        let mut order: Vec<u16> = Vec::new();
        for message in &self.messages {
            if !order.contains(&message.author) {
                order.push(message.author);
            }
        }
        order.into_iter().eq((1..).take(self.keys.len()))
    }

    /// The row has no previous row and index 1, or an earlier row of the same author whose index is
    /// one less.
    fn previous_fits(&self, row: u16) -> bool {
        let message = self.message(row);
        if message.previous == 0 {
            return message.index == 1;
        }
        message.previous < row && {
            let previous = self.message(message.previous);
            previous.author == message.author && previous.index as u32 + 1 == message.index as u32
        }
    }

    /// The row's dependencies are earlier rows, of other authors, at most one per author.
    fn dependencies_fit(&self, row: u16) -> bool {
        let message = self.message(row);
        let earlier = message.dependencies.iter().all(|&on| 1 <= on && on < row);
        earlier && {
            let authors: BTreeSet<u16> = message
                .dependencies
                .iter()
                .map(|&on| self.message(on).author)
                .collect();
            authors.len() == message.dependencies.len() && !authors.contains(&message.author)
        }
    }
}

impl Store {
    /// An empty store with every part at its limit.
    pub fn empty() -> Store {
        Store {
            keys: vec![0; AUTHORS_LIMIT * DIGEST],
            ids: vec![0; ROWS_LIMIT * DIGEST],
            rows: vec![0; ROWS_LIMIT * ROW_NUMBERS],
            deps: vec![0; DEPS_LIMIT],
            branches: vec![0; BRANCHES_LIMIT],
            origins: vec![0; ROWS_LIMIT],
            row_count: 0,
            author_count: 0,
            dep_count: 0,
        }
    }

    /// How many rows the parts can hold.
    pub fn row_places(&self) -> usize {
        ROWS_LIMIT
            .min(self.ids.len() / DIGEST)
            .min(self.rows.len() / ROW_NUMBERS)
            .min(self.branches.len().saturating_sub(AUTHORS_LIMIT))
    }

    /// How many authors the parts can hold.
    pub fn author_places(&self) -> usize {
        AUTHORS_LIMIT
            .min(self.keys.len() / DIGEST)
            .min(self.branches.len())
    }

    /// How many dependencies the parts can hold.
    pub fn dep_places(&self) -> usize {
        DEPS_LIMIT.min(self.deps.len())
    }

    /// The counts keep the limits and fit the lent parts.
    fn counts_fit(&self) -> bool {
        self.row_count <= self.row_places()
            && self.author_count <= self.author_places()
            && self.dep_count <= self.dep_places()
    }

    /// The four numbers of a row, counted from 0.
    fn row_numbers(&self, place: usize) -> &[u16] {
        &self.rows[ROW_NUMBERS * place..ROW_NUMBERS * (place + 1)]
    }

    /// The rows' numbers of dependencies add up to the dependency count.
    fn dependencies_add_up(&self) -> bool {
        let sum: usize = (0..self.row_count)
            .map(|place| self.row_numbers(place)[3] as usize)
            .sum();
        sum == self.dep_count
    }

    /// The keys and rows within the counts, taken apart with no judgement of what they say.
    fn taken_apart(&self) -> Graph {
        let mut deps = &self.deps[..self.dep_count];
        let mut graph = Graph::default();
        graph
            .keys
            .extend(self.keys.chunks(DIGEST).take(self.author_count).map(name));
        for place in 0..self.row_count {
            let numbers = self.row_numbers(place);
            let (own, rest) = deps.split_at(numbers[3] as usize);
            deps = rest;
            graph.messages.push(Message {
                id: name(&self.ids[DIGEST * place..DIGEST * (place + 1)]),
                author: numbers[0],
                previous: numbers[1],
                index: numbers[2],
                dependencies: own.to_vec(),
            });
        }
        graph
    }

    /// Each number of branches within the counts is the one that the graph gives.
    fn branches_are_right(&self, graph: &Graph) -> bool {
        let (of_authors, of_rows) = graph.branches();
        let rows_begin = AUTHORS_LIMIT.min(self.branches.len());
        let (authors_part, rows_part) = self.branches.split_at(rows_begin);
        authors_part.starts_with(&of_authors) && rows_part.starts_with(&of_rows)
    }

    /// The graph of a well-formed store whose every row has an origin.
    pub fn judged_with_origins(&self) -> Option<Graph> {
        self.judged()
            .filter(|graph| graph.messages.len() <= self.origins.len())
    }

    /// The graph of a well-formed store; nothing where some clause of the rule fails.
    pub fn judged(&self) -> Option<Graph> {
        if !self.counts_fit() || !self.dependencies_add_up() {
            return None;
        }
        let graph = self.taken_apart();
        let named = graph.names_are_distinct() && graph.authors_are_numbered();
        let linked = graph
            .rows()
            .all(|row| graph.previous_fits(row) && graph.dependencies_fit(row));
        (named && linked && self.branches_are_right(&graph)).then_some(graph)
    }
}
