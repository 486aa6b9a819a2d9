//! Random calls of replay on a graph.

use crate::calls::*;
use crate::frontiers;
use crate::plans::Shape;
use crate::random::Random;
use crate::replay_catalogue::catalogue_admission;
use crate::replay_desk::{question, release_call};
use crate::replay_sending::{reading_call, standing_call};
use crate::reviews;
use crate::standings::*;
use crate::states;
use crate::store::Graph;

/// The numbers of a room that takes every result.
const ENOUGH: usize = 1024;
/// The numbers of the largest room that a call can name.
pub const LARGEST_ROOM: usize = 65535;
/// Counts and places far above everything that is lent.
const FAR: [usize; 5] = [usize::MAX, 1 << 63, 1 << 62, 1 << 32, (1 << 32) + 1];

/// A room for a result: exact, too small, none, somewhat larger, or much larger.
pub fn room_for(random: &mut Random, needed: usize) -> usize {
    match random.below(24) {
        0..8 => needed,
        8..13 => needed.saturating_sub(1),
        13..15 => random.between(0, needed),
        15 => 0,
        16 => random.pick(&[1025, 1025, 1025, 4096, 4097, LARGEST_ROOM]),
        _ => needed + random.between(1, 12),
    }
}

/// A call that reads an item: its payload, its id or its fields.
pub fn item_call(random: &mut Random, item: &[u8]) -> Vec<u8> {
    with_bytes(random.pick(&[12, 13, 40]), item)
}

/// A call that admits an item, by itself or in an intake, with origin 0 or any; at times to the catalogue.
pub fn admission(random: &mut Random, item: &[u8]) -> Vec<u8> {
    match random.below(5) {
        0 => with_bytes(1, item),
        1 => admit_from(random.below(256) as u8, item),
        2 => catalogue_admission(random, item),
        _ => in_intake(random, item),
    }
}

/// A call that asks for the origin of a row, of one that there is or of one beside them.
pub fn origin_call(random: &mut Random, graph: &Graph) -> Vec<u8> {
    let count = graph.messages.len();
    let row = match random.below(5) {
        0 => random.pick(&[0, count, count + 1, 1024, 65535]),
        _ => random.between(0, count),
    };
    with_numbers(15, &[row as u16])
}

/// A call that admits an item where it lies in an intake; at times it is taken from another place.
pub fn in_intake(random: &mut Random, item: &[u8]) -> Vec<u8> {
    let (before, after) = (
        random.pick(&[0, 0, 1, 2, 33, 145]),
        random.pick(&[0, 0, 1, 145]),
    );
    let intake = [random.bytes(before), item.to_vec(), random.bytes(after)].concat();
    let (start, end) = (before, before + item.len());
    let (start, end) = match random.below(40) {
        0 => (end, start),
        1 => (start + 1, end),
        2 => (start, end.saturating_sub(1)),
        3 => (start, end + random.between(1, 200)),
        4 => (random.pick(&FAR), end),
        5 => (random.pick(&FAR), usize::MAX),
        6..9 => (start, random.pick(&FAR)),
        _ => (start, end),
    };
    admit_at(random.below(256) as u8, start, end, &intake)
}

/// A call that looks for an id or a key that is held, or for one that is not.
pub fn find_call(random: &mut Random, graph: &Graph) -> Vec<u8> {
    let ids: Vec<_> = graph.messages.iter().map(|message| message.id).collect();
    let (operation, names) = random.pick(&[(41, &ids), (42, &graph.keys)]);
    let mut name = random.name();
    if !names.is_empty() && random.chance(80) {
        name = random.pick(names);
        if random.chance(15) {
            random.flip_bit(&mut name);
        }
    }
    let count = match random.below(8) {
        0 => random.between(0, names.len()),
        1 => names.len() + random.between(1, 2000),
        2 => random.pick(&FAR),
        3 => names.iter().position(|held| *held == name).unwrap_or(0),
        _ => names.len(),
    };
    find(operation, count, &name)
}

/// Two rows for the prefix, in most cases of one author.
fn prefix_call(random: &mut Random, graph: &Graph) -> Vec<u8> {
    let mut rows = graph.rows_of(any_author(random, graph));
    rows.push(0);
    let mut pair = [random.pick(&rows), random.pick(&rows)];
    if random.chance(35) {
        pair[random.below(2)] = any_row(random, graph);
    }
    with_numbers(5, &pair)
}

/// A random call on states or rows, its states damaged in so many of a hundred cases.
pub fn state_call(random: &mut Random, graph: &Graph, damaged: usize) -> Vec<u8> {
    let author = any_author(random, graph);
    let first = any_state(random, graph, author, damaged);
    let other = if random.chance(16) {
        any_author(random, graph)
    } else {
        author
    };
    let mut second = any_state(random, graph, other, damaged);
    match random.below(6) {
        0 => second = states::merge(graph, &first, &second).unwrap_or(second),
        1 => second = forked_alike(random, graph, &first),
        _ => {}
    }
    let first = five_numbers(random, graph, &first, damaged);
    let second = five_numbers(random, graph, &second, damaged);
    match random.below(8) {
        0 => prefix_call(random, graph),
        6 | 7 => branches_call(random, graph, damaged),
        1 => {
            let mut rows = graph.rows_of(author);
            rows.push(any_row(random, graph));
            append(&first, random.pick(&rows))
        }
        2 | 3 => on_states(7, &first, &second),
        _ => on_states(8, &first, &second),
    }
}

/// A random call that lists branches: of a forked state of the graph, or of any one, damaged in so many of
/// a hundred cases.
pub fn branches_call(random: &mut Random, graph: &Graph, damaged: usize) -> Vec<u8> {
    let author = any_author(random, graph);
    let mut state = any_state(random, graph, author, damaged);
    for _ in 0..12 {
        if state.fork.is_none() && random.chance(90) {
            let other = any_author(random, graph);
            state = any_state(random, graph, other, 0);
        }
    }
    let needed = reviews::list(graph, &state, &mut [0; 2 * ENOUGH]).unwrap_or(4);
    let state = five_numbers(random, graph, &state, damaged);
    branches(room_for(random, needed), &state)
}

/// A random packing call, its frontier damaged in so many of a hundred cases.
pub fn packing_call(random: &mut Random, graph: &Graph, damaged: usize) -> Vec<u8> {
    let frontier = any_frontier(random, graph, damaged);
    let needed = frontiers::pack(graph, &frontier, &mut [0; ENOUGH]).unwrap_or(3);
    on_frontiers(11, Some(room_for(random, needed)), &[&frontier])
}

/// A random call that appends a row to a frontier, damaged in so many of a hundred cases.
fn append_entry_call(random: &mut Random, graph: &Graph, damaged: usize) -> Vec<u8> {
    let mut list = any_frontier(random, graph, damaged);
    let used = match random.below(30) {
        0 => random.pick(&FAR),
        1 => list.len() + (1 << 32),
        2 => list.len() + random.between(1, 5),
        3 => list.len() - list.len() % frontiers::ENTRY_NUMBERS,
        _ => list.len(),
    };
    let spare = random.pick(&[0, 0, 1, 4, 5, 5, 6, 17]);
    list.extend(random.numbers(spare));
    append_entry(any_row(random, graph), used, &list)
}

/// A random call on frontiers, which are damaged in so many of a hundred cases.
pub fn frontier_call(random: &mut Random, graph: &Graph, damaged: usize) -> Vec<u8> {
    let first = any_frontier(random, graph, damaged);
    let second = any_frontier(random, graph, damaged);
    let mut room = [0; ENOUGH];
    let merged = frontiers::merge(graph, &first, &second, &mut room);
    match random.below(16) {
        0..5 => {
            let room = room_for(random, merged.unwrap_or(10));
            on_frontiers(9, Some(room), &[&first, &second])
        }
        5 | 6 => on_frontiers(10, None, &[&first, &second]),
        7 => on_frontiers(10, None, &[&first, &room[..merged.unwrap_or(0)]]),
        8 | 9 => on_frontiers(44, None, &[&first]),
        10..14 => append_entry_call(random, graph, damaged),
        _ => packing_call(random, graph, damaged),
    }
}

/// One call of each kind that reads the store, in turn, on a graph.
pub fn one_of_each(random: &mut Random, graph: &Graph, damaged: usize) -> Vec<Vec<u8>> {
    let author = any_author(random, graph);
    let [first, second] = [(); 2].map(|()| {
        let state = any_state(random, graph, author, damaged);
        five_numbers(random, graph, &state, damaged)
    });
    let frontier = any_frontier(random, graph, damaged);
    let row = any_row(random, graph);
    vec![
        prefix_call(random, graph),
        append(&first, row),
        on_states(7, &first, &second),
        on_states(8, &first, &second),
        on_frontiers(9, Some(random.below(30)), &[&frontier, &frontier]),
        on_frontiers(10, None, &[&frontier, &frontier]),
        on_frontiers(11, Some(random.below(30)), &[&frontier]),
        on_frontiers(44, None, &[&frontier]),
        append_entry_call(random, graph, damaged),
        branches(random.below(30), &first),
        vec![20],
        vec![21],
        question(random, graph, damaged),
        release_call(random, graph, &Shape::straight(2), damaged),
        standing_call(random, graph, damaged),
        reading_call(random, graph, damaged),
        find_call(random, graph),
        origin_call(random, graph),
    ]
}

/// Counts of which one is far away: what is left of it in 2, 4 or 8 bytes may be the true one.
pub fn far_counts(random: &mut Random, counts: [usize; 3]) -> Vec<u8> {
    let mut counts = counts;
    let count = &mut counts[random.below(3)];
    *count = count.wrapping_add(random.pick(&[1 << 16, 1 << 32, 1 << 48, 1 << 63, 1 << 60]));
    set_counts(counts)
}
