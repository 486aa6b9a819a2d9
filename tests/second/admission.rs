//! Admission of one item into a store: answers 0 to 16, in document 01's order.

use std::collections::BTreeSet;

use crate::answers::*;
use crate::item::{read, Item};
use crate::sha256::DIGEST;
use crate::store::{Graph, Store, AUTHORS_LIMIT, ROW_NUMBERS};

/// A refusal: its number, and the row that goes with it.
type Refusal = (Answer, u16);

/// The numbers that an admission writes: the author (perhaps one above the count), the previous
/// row, the index and the rows that the message depends on.
pub struct NewRow {
    pub author: u16,
    pub previous: u16,
    pub index: u16,
    pub dependencies: Vec<u16>,
}

/// The previous row of an item that keeps M1 and M2, 0 for a first message: answers 9 to 12.
fn previous_row(graph: &Graph, item: &Item) -> Result<u16, Answer> {
    let no_previous = item.previous.iter().all(|&byte| byte == 0);
    if item.index == 0 || (item.index == 1 && !no_previous) {
        return Err(INDEX);
    }
    if item.index == 1 {
        return Ok(0);
    }
    let row = graph.row_of_id(item.previous).ok_or(PREV)?;
    let previous = graph.message(row);
    if graph.author_of_key(item.key) != Some(previous.author) {
        return Err(OWNER);
    }
    if item.index as u64 != previous.index as u64 + 1 {
        return Err(STEP);
    }
    Ok(row)
}

/// The rows that an item depends on, where it keeps M3 and M4: answers 14 and 15.
fn dependency_rows(graph: &Graph, item: &Item) -> Result<Vec<u16>, Answer> {
    let found: Option<Vec<u16>> = item
        .dependencies
        .iter()
        .map(|id| graph.row_of_id(id))
        .collect();
    let rows = found.ok_or(DEP)?;
    let authors: BTreeSet<u16> = rows.iter().map(|&row| graph.message(row).author).collect();
    let own = graph
        .author_of_key(item.key)
        .is_some_and(|author| authors.contains(&author));
    if own || authors.len() != rows.len() {
        return Err(DEPOWNER);
    }
    Ok(rows)
}

/// What an item whose layout is right would write, or its refusal: answers 6 to 15.
fn judged_item(store: &Store, graph: &Graph, item: &Item) -> Result<NewRow, Refusal> {
    if item.mark > 1 {
        return Err((FLAG, 0));
    }
    if item.mark == 0 {
        return Err((SIGN, 0));
    }
    if let Some(row) = graph.row_of_id(&item.id) {
        return Err((HELD, row));
    }
    let previous = previous_row(graph, item).map_err(|answer| (answer, 0))?;
    let dependencies = dependency_rows(graph, item).map_err(|answer| (answer, 0))?;
    let newcomer = store.author_count as u16 + 1;
    Ok(NewRow {
        author: graph.author_of_key(item.key).unwrap_or(newcomer),
        previous,
        index: item.index as u16,
        dependencies,
    })
}

/// Whether the store has a place for a row, where what is lent beside it has so many.
fn has_place(store: &Store, new: &NewRow, beside: usize) -> bool {
    let rows = store.row_places().min(store.origins.len()).min(beside);
    store.row_count < rows
        && new.author as usize <= store.author_places().max(store.author_count)
        && store.dep_count + new.dependencies.len() <= store.dep_places()
}

/// Writes 0 for the last row, and for its previous row, or for its author where it has none, how many
/// rows there are of that author with that previous row.
fn write_branches(store: &mut Store, new: &NewRow) {
    let rows = store.rows.chunks(ROW_NUMBERS).take(store.row_count);
    let alike = rows.filter(|row| (row[0], row[1]) == (new.author, new.previous));
    let number = alike.count() as u16;
    let place = match new.previous {
        0 => new.author as usize - 1,
        previous => AUTHORS_LIMIT + previous as usize - 1,
    };
    store.branches[place] = number;
    store.branches[AUTHORS_LIMIT + store.row_count - 1] = 0;
}

/// Writes one row, its id, its dependencies, its numbers of branches and, for a new key, that key.
fn write(store: &mut Store, item: &Item, new: &NewRow) {
    if new.author as usize > store.author_count {
        let place = DIGEST * store.author_count;
        store.keys[place..place + DIGEST].copy_from_slice(item.key);
        store.author_count += 1;
    }
    let place = DIGEST * store.row_count;
    store.ids[place..place + DIGEST].copy_from_slice(&item.id);
    let numbers = [
        new.author,
        new.previous,
        new.index,
        new.dependencies.len() as u16,
    ];
    let place = ROW_NUMBERS * store.row_count;
    store.rows[place..place + ROW_NUMBERS].copy_from_slice(&numbers);
    store.row_count += 1;
    let end = store.dep_count + new.dependencies.len();
    store.deps[store.dep_count..end].copy_from_slice(&new.dependencies);
    store.dep_count = end;
    write_branches(store, new);
}

/// Judges one record against a store and admits it, with an origin for its row, where nothing speaks
/// against it: the answer and the row. A further rule is asked after 15, before 16; what is lent beside the
/// store has so many places for rows.
pub fn admit_under(
    store: &mut Store,
    record: &[u8],
    origin: u8,
    rule: impl FnOnce(&Graph, &Item, &NewRow) -> Result<(), Answer>,
    beside: usize,
) -> (Answer, u16) {
    let Some(graph) = store.judged_with_origins() else {
        return (STORE, 0);
    };
    let item = match read(record) {
        Ok(item) => item,
        Err(answer) => return (answer, 0),
    };
    let judged = judged_item(store, &graph, &item).and_then(|new| {
        rule(&graph, &item, &new).map_err(|answer| (answer, 0))?;
        let fits = has_place(store, &new, beside);
        fits.then_some(new).ok_or((FULL, 0))
    });
    match judged {
        Ok(new) => {
            write(store, &item, &new);
            store.origins[graph.messages.len()] = origin;
            (DONE, store.row_count as u16)
        }
        Err(refusal) => refusal,
    }
}

/// The same with no further rule and nothing lent beside the store.
pub fn admit(store: &mut Store, record: &[u8], origin: u8) -> (Answer, u16) {
    admit_under(store, record, origin, |_, _, _| Ok(()), usize::MAX)
}

/// The origin of a row, or why there is none: 1, then 19.
pub fn origin(store: &Store, row: u16) -> Result<u8, Answer> {
    let graph = store.judged_with_origins().ok_or(STORE)?;
    let rows = &store.origins[..graph.messages.len()];
    let place = (row as usize).checked_sub(1).ok_or(ROW)?;
    rows.get(place).copied().ok_or(ROW)
}
