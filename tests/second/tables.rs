//! Stores for `load`: graphs laid out in lent parts, and damage to every clause of the
//! well-formed rule.

use crate::damage_branches::{count_anew, damage_branches, BRANCH_WAYS};
use crate::random::Random;
use crate::replay::PART_TIMES;
use crate::sha256::DIGEST;
use crate::store::*;

/// How many ways there are to damage a store but for its numbers of branches.
const OTHER_WAYS: usize = 26;
/// How many ways there are to damage a store, the last of which leaves too few origins.
pub const STORE_WAYS: usize = OTHER_WAYS + BRANCH_WAYS + 1;

/// How long the parts of a laid-out store are.
#[derive(Clone, Copy, PartialEq)]
pub enum Room {
    AtLimit,
    Exact,
    Spare,
    Beyond,
}

/// The length of a part by the kind of room: what is needed, some more up to the limit, the limit,
/// or above it.
fn part_length(
    random: &mut Random,
    room: Room,
    entry: usize,
    needed: usize,
    limit: usize,
) -> usize {
    match room {
        Room::AtLimit => limit,
        Room::Exact => needed,
        Room::Spare => (needed + random.between(0, 3 * entry)).min(limit),
        Room::Beyond => random.between(limit + 1, PART_TIMES * limit),
    }
}

/// A graph laid out in lent parts, with noise in every place beyond the counts.
pub fn laid_out(random: &mut Random, graph: &Graph, room: Room) -> Store {
    let deps: Vec<u16> = graph
        .messages
        .iter()
        .flat_map(|message| message.dependencies.clone())
        .collect();
    let (row_count, author_count, dep_count) = (graph.messages.len(), graph.keys.len(), deps.len());
    let keys_length = part_length(
        random,
        room,
        DIGEST,
        DIGEST * author_count,
        DIGEST * AUTHORS_LIMIT,
    );
    let ids_length = part_length(
        random,
        room,
        DIGEST,
        DIGEST * row_count,
        DIGEST * ROWS_LIMIT,
    );
    let rows_length = part_length(
        random,
        room,
        ROW_NUMBERS,
        ROW_NUMBERS * row_count,
        ROW_NUMBERS * ROWS_LIMIT,
    );
    let deps_length = part_length(random, room, 1, dep_count, DEPS_LIMIT);
    let branches_needed = AUTHORS_LIMIT + row_count;
    let branches_length = part_length(random, room, 1, branches_needed, BRANCHES_LIMIT);
    let origins_length = part_length(random, room, 1, row_count, ROWS_LIMIT);
    let mut store = Store {
        keys: random.bytes(keys_length),
        ids: random.bytes(ids_length),
        rows: random.numbers(rows_length),
        deps: random.numbers(deps_length),
        branches: random.numbers(branches_length),
        origins: random.bytes(origins_length),
        row_count,
        author_count,
        dep_count,
    };
    for (place, key) in graph.keys.iter().enumerate() {
        store.keys[DIGEST * place..DIGEST * (place + 1)].copy_from_slice(key);
    }
    for (place, message) in graph.messages.iter().enumerate() {
        store.ids[DIGEST * place..DIGEST * (place + 1)].copy_from_slice(&message.id);
        let numbers = [
            message.author,
            message.previous,
            message.index,
            message.dependencies.len() as u16,
        ];
        store.rows[ROW_NUMBERS * place..ROW_NUMBERS * (place + 1)].copy_from_slice(&numbers);
    }
    store.deps[..dep_count].copy_from_slice(&deps);
    let (of_authors, of_rows) = graph.branches();
    store.branches[..author_count].copy_from_slice(&of_authors);
    store.branches[AUTHORS_LIMIT..branches_needed].copy_from_slice(&of_rows);
    store
}

/// Changes the counts or cuts a part short.
fn damage_counts(random: &mut Random, store: &mut Store, way: usize) {
    let far = random.pick(&[1, 2, 65536, u32::MAX as usize]);
    match way {
        0 => store.row_count = (store.row_count + far) & u32::MAX as usize,
        1 => store.author_count = (store.author_count + far) & u32::MAX as usize,
        2 => store.dep_count = (store.dep_count + far) & u32::MAX as usize,
        3 => {
            store.row_count = random.pick(&[
                ROWS_LIMIT,
                ROWS_LIMIT + 1,
                store.row_count.saturating_sub(1),
            ])
        }
        4 => {
            store.author_count =
                random.pick(&[AUTHORS_LIMIT, AUTHORS_LIMIT + 1, store.author_count - 1])
        }
        5 => {
            store.dep_count = random.pick(&[
                DEPS_LIMIT,
                DEPS_LIMIT + 1,
                store.dep_count.saturating_sub(1),
            ])
        }
        6 => store
            .keys
            .truncate(DIGEST * store.author_count - random.pick(&[1, DIGEST])),
        7 => store
            .ids
            .truncate(DIGEST * store.row_count - random.pick(&[1, DIGEST])),
        8 => store
            .rows
            .truncate(ROW_NUMBERS * store.row_count - random.pick(&[1, ROW_NUMBERS])),
        _ => store.deps.truncate(store.dep_count.saturating_sub(1)),
    }
}

/// Makes two keys or two ids equal, the last ones among them or any.
fn damage_names(random: &mut Random, store: &mut Store, keys: bool) {
    let (part, count) = if keys {
        (&mut store.keys, store.author_count)
    } else {
        (&mut store.ids, store.row_count)
    };
    if count > 1 {
        let first = random.below(count - 1);
        let second = if random.chance(50) {
            count - 1
        } else {
            random.between(first + 1, count - 1)
        };
        part.copy_within(DIGEST * first..DIGEST * (first + 1), DIGEST * second);
    }
}

/// Changes the author, previous row, index or number of dependencies of some row.
fn damage_row(random: &mut Random, store: &mut Store, way: usize) {
    let row = random.between(1, store.row_count);
    let at = ROW_NUMBERS * (row - 1);
    let count = store.author_count as u16;
    let other_row = random.between(0, store.row_count + 1) as u16;
    let numbers = &mut store.rows[at..at + ROW_NUMBERS];
    match way {
        0 => numbers[0] = random.pick(&[0, count + 1, 65535]),
        1 => numbers[0] = random.between(1, count as usize) as u16,
        2 => numbers[1] = other_row,
        3 => numbers[1] = random.pick(&[0, row as u16, row as u16 + 1, 65535]),
        4 => {
            numbers[2] = random.pick(&[
                0,
                1,
                numbers[2].wrapping_add(1),
                numbers[2].wrapping_sub(1),
                65535,
            ])
        }
        5 => {
            numbers[3] = random.pick(&[
                numbers[3].wrapping_add(1),
                numbers[3].wrapping_sub(1),
                64,
                65535,
            ])
        }
        _ => (numbers[1], numbers[2]) = (other_row, random.between(0, 3) as u16),
    }
}

/// Changes a dependency, or moves one from a row to another so that the sum stays.
fn damage_dependency(random: &mut Random, store: &mut Store, way: usize) {
    if store.dep_count == 0 {
        return;
    }
    let place = random.below(store.dep_count);
    let count = store.row_count as u16;
    match way {
        0 => store.deps[place] = random.pick(&[0, count, count + 1, 65535]),
        1 => store.deps[place] = random.between(1, count as usize) as u16,
        2 => store.deps[place] = store.deps[random.below(store.dep_count)],
        _ => {
            let (from, to) = (random.below(store.row_count), random.below(store.row_count));
            if store.rows[ROW_NUMBERS * from + 3] > 0 {
                store.rows[ROW_NUMBERS * from + 3] -= 1;
                store.rows[ROW_NUMBERS * to + 3] += 1;
            }
        }
    }
}

/// Swaps the numbers of two authors in all rows, or counts an author that has no row.
fn damage_numbering(random: &mut Random, store: &mut Store, way: usize) {
    let count = store.author_count;
    if way == 0 && count < AUTHORS_LIMIT && store.keys.len() >= DIGEST * (count + 1) {
        store.author_count += 1;
        return;
    }
    let (one, other) = (
        random.between(1, count) as u16,
        random.between(1, count) as u16,
    );
    for place in 0..store.row_count {
        let author = &mut store.rows[ROW_NUMBERS * place];
        *author = if *author == one {
            other
        } else if *author == other {
            one
        } else {
            *author
        };
    }
}

/// Damages a store that has a row. In most cases its numbers of branches are right for what its rows
/// say then, so that they do not stand in for the clause that is broken.
pub fn damage_store(random: &mut Random, store: &mut Store, way: usize) {
    match way % STORE_WAYS {
        way @ 0..10 => damage_counts(random, store, way),
        way @ 10..12 => damage_names(random, store, way == 10),
        way @ 12..19 => damage_row(random, store, way - 12),
        way @ 19..23 => damage_dependency(random, store, way - 19),
        23 => damage_numbering(random, store, 0),
        24 => damage_numbering(random, store, 1),
        25 => {
            let ways = [random.below(10), random.between(10, 18)];
            damage_row(random, store, ways[1] % 7);
            damage_counts(random, store, ways[0]);
        }
        way @ 26..35 => return damage_branches(random, store, way - OTHER_WAYS),
        _ => return store.origins.truncate(random.below(store.row_count)),
    }
    if random.chance(70) {
        count_anew(store);
    }
}
