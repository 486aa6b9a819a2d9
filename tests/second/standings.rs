//! Random log states and frontiers, valid and damaged, as numbers.

use crate::frontiers::ENTRY_NUMBERS;
use crate::random::Random;
use crate::states::LogState;
use crate::store::Graph;

/// A forked state of an author at a row or none, on two random ones of its children; nothing where
/// it has fewer.
fn forked_at(random: &mut Random, graph: &Graph, author: u16, last: u16) -> Option<LogState> {
    let mut rows = graph.rows_of(author);
    rows.retain(|&row| graph.message(row).previous == last);
    random.shuffle(&mut rows);
    rows.truncate(2);
    rows.sort_by_key(|&row| graph.message(row).id);
    let fork = Some((*rows.first()?, *rows.get(1)?));
    Some(LogState { author, last, fork })
}

/// A forked state at the place of a valid state, perhaps with other evidence; where that has no two
/// children, the state itself.
pub fn forked_alike(random: &mut Random, graph: &Graph, state: &LogState) -> LogState {
    forked_at(random, graph, state.author, state.last).unwrap_or(*state)
}

/// A valid state of an author.
pub fn valid_state(random: &mut Random, graph: &Graph, author: u16) -> LogState {
    let mut rows = graph.rows_of(author);
    rows.push(0);
    if random.chance(55) {
        let places = rows.iter();
        let forked: Vec<LogState> = places
            .filter_map(|&last| forked_at(random, graph, author, last))
            .collect();
        if !forked.is_empty() {
            return random.pick(&forked);
        }
    }
    LogState::growing(author, random.pick(&rows))
}

/// A number near the rows of a graph: any row, none, one above the count, or far away.
pub fn any_row(random: &mut Random, graph: &Graph) -> u16 {
    let count = graph.messages.len();
    if random.chance(10) {
        return random.pick(&[0, count as u16 + 1, 1024, 65535]);
    }
    random.between(0, count) as u16
}

/// An author of a graph that has one.
pub fn any_author(random: &mut Random, graph: &Graph) -> u16 {
    random.between(1, graph.keys.len().max(1)) as u16
}

/// Damages one of the five numbers of a state; the phase stays 0 or 1, and a growing state keeps
/// low and high 0.
pub fn damage_state(random: &mut Random, graph: &Graph, state: &mut LogState) {
    let row = any_row(random, graph);
    match (random.below(7), state.fork) {
        (0, _) => state.author = random.pick(&[0, graph.keys.len() as u16 + 1, 65535]),
        (1, _) => state.author = any_author(random, graph),
        (2, _) => state.last = row,
        (3, Some((low, high))) => state.fork = Some((high, low)),
        (4, Some((low, _))) => state.fork = Some((low, low)),
        (5, Some((low, _))) => state.fork = Some((low, row)),
        (_, Some((_, high))) => state.fork = Some((row, high)),
        (_, None) => state.fork = Some((row, any_row(random, graph))),
    }
}

/// A state, in most cases valid.
pub fn any_state(random: &mut Random, graph: &Graph, author: u16, damaged: usize) -> LogState {
    let mut state = valid_state(random, graph, author);
    if random.chance(damaged) {
        damage_state(random, graph, &mut state);
    }
    state
}

/// The five numbers of a state; in some of the damaged cases no state at all: another phase, or low
/// or high beside growing.
pub fn five_numbers(
    random: &mut Random,
    graph: &Graph,
    state: &LogState,
    damaged: usize,
) -> [u16; 5] {
    let mut numbers = state.numbers();
    if random.chance(damaged / 3) {
        match random.below(3) {
            0 => numbers[1] = random.pick(&[2, 3, 256, 257, 65535]),
            1 => numbers[1] ^= 1,
            _ => numbers[random.between(3, 4)] = any_row(random, graph),
        }
    }
    numbers
}

/// A valid frontier that has each author in so many of a hundred cases.
pub fn valid_frontier(random: &mut Random, graph: &Graph, present: usize) -> Vec<u16> {
    let mut numbers = Vec::new();
    for author in 1..=graph.keys.len() as u16 {
        if random.chance(present) {
            numbers.extend(valid_state(random, graph, author).numbers());
        }
    }
    numbers
}

/// Damages a frontier: its length, its order, or one of its numbers.
pub fn damage_frontier(random: &mut Random, graph: &Graph, numbers: &mut Vec<u16>) {
    let entries = numbers.len() / ENTRY_NUMBERS;
    if entries == 0 {
        let length = random.between(1, 6);
        numbers.extend(random.numbers(length));
        return;
    }
    let entry = random.below(entries) * ENTRY_NUMBERS;
    match random.below(8) {
        0 => numbers.truncate(numbers.len() - random.between(1, 4)),
        1 => numbers.push(any_row(random, graph)),
        2 => numbers[entry + 1] = random.pick(&[2, 3, 256, 65535]),
        3 => numbers[entry + 1] ^= 1,
        4 => numbers[entry + random.between(3, 4)] = any_row(random, graph),
        5 => numbers.rotate_left(ENTRY_NUMBERS),
        6 => numbers.extend_from_within(entry..entry + ENTRY_NUMBERS),
        _ => {
            let whole = &numbers[entry..entry + ENTRY_NUMBERS];
            if let Some(mut state) = LogState::of_numbers(whole) {
                damage_state(random, graph, &mut state);
                numbers[entry..entry + ENTRY_NUMBERS].copy_from_slice(&state.numbers());
            }
        }
    }
}

/// A frontier, damaged in so many of a hundred cases.
pub fn any_frontier(random: &mut Random, graph: &Graph, damaged: usize) -> Vec<u16> {
    let present = random.pick(&[0, 40, 60, 70, 80, 90, 100, 100]);
    let mut numbers = valid_frontier(random, graph, present);
    if random.chance(damaged) {
        damage_frontier(random, graph, &mut numbers);
    }
    numbers
}
