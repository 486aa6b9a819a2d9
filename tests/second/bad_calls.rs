//! Calls of replay whose own layout is wrong, made from calls whose layout is right.

use crate::arguments::NUMBERS_LIMIT;
use crate::calls::*;
use crate::desk::Desk;
use crate::plans::Draft;
use crate::random::Random;
use crate::random_batches::batch_call;
use crate::random_calls::*;
use crate::replay::PART_TIMES;
use crate::replay_desk::question;
use crate::replay_items::write_call;
use crate::replay_sending::{reading_call, standing_call};
use crate::store::{Graph, Store};
use crate::tables::{laid_out, Room};

/// Numbers that no operation has.
const UNKNOWN: [u8; 8] = [0, 29, 30, 39, 47, 102, 128, 255];

/// Any call whose layout is right.
pub fn any_call(random: &mut Random, graph: &Graph) -> Vec<u8> {
    let item = Draft::any(random, graph).item();
    match random.below(17) {
        0 => item_call(random, &item),
        1 => admission(random, &item),
        2 => load(&laid_out(random, graph, Room::Spare)),
        3 => vec![random.pick(&[3, 4, 20, 21, 28])],
        4 => frontier_call(random, graph, 20),
        5 => find_call(random, graph),
        6 => origin_call(random, graph),
        7 => far_counts(random, [graph.messages.len(), graph.keys.len(), 0]),
        8 => write_call(random, graph),
        9 => {
            let store = laid_out(random, graph, Room::Spare);
            batch_call(random, &store)
        }
        10 => standing_call(random, graph, 20),
        11 => reading_call(random, graph, 20),
        12 => salvage(random.below(300), random.below(4), &item),
        13 => question(random, graph, 20),
        14 => load_desk(&Desk::empty()),
        _ => state_call(random, graph, 20),
    }
}

/// A load whose parts are all zero, each of its limit, four times that, or a little beside it.
fn long_load(random: &mut Random) -> Vec<u8> {
    let mut store = Store::empty();
    let mut length = |limit: usize| {
        let longest = PART_TIMES * limit;
        random.pick(&[0, limit, limit + 1, longest, longest, longest + 1])
    };
    let lengths = [
        length(store.keys.len()),
        length(store.ids.len()),
        length(store.rows.len()),
        length(store.deps.len()),
        length(store.branches.len()),
        length(store.origins.len()),
    ];
    store.keys.resize(lengths[0], 0);
    store.ids.resize(lengths[1], 0);
    store.rows.resize(lengths[2], 0);
    store.deps.resize(lengths[3], 0);
    store.branches.resize(lengths[4], 0);
    store.origins.resize(lengths[5], 0);
    load(&store)
}

/// A call whose own layout is wrong, but for some that another operation takes as they are.
pub fn bad_call(random: &mut Random, graph: &Graph) -> Vec<u8> {
    let mut call = any_call(random, graph);
    match random.below(9) {
        0 => call[0] = random.pick(&UNKNOWN),
        1 => call.truncate(random.between(0, call.len())),
        2 => call.push(0),
        3 => call[0] = random.between(1, 28) as u8,
        4 => call[0] = random.between(40, 46) as u8,
        5 => call = long_load(random),
        6 => call = batch(0, NUMBERS_LIMIT + random.below(2), &[0; 9]),
        7 => {
            let place = random.between(1, call.len());
            call.insert(place, random.pick(&[0, 1, 255]));
        }
        _ => {
            let numbers = random.between(0, 12);
            let operation = random.pick(&[5, 6, 7, 8, 9, 10, 11, 15, 24, 41, 42, 44, 45, 46]);
            call = with_numbers(operation, &random.numbers(numbers));
        }
    }
    call
}
