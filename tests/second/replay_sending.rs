//! Scripts about standings: written from frontiers, read where they were written and in stores that number
//! the same messages otherwise, with every field and every length damaged.

use crate::calls::*;
use crate::damage::{damage_length, set_true_length};
use crate::make_replay::load_graph;
use crate::random::Random;
use crate::random_calls::room_for;
use crate::sending::{item_of, sent, Sent};
use crate::standings::any_frontier;
use crate::store::{Graph, Message};
use crate::tables::{laid_out, Room};

/// A call that writes the standing of a frontier, damaged in so many of a hundred cases.
pub fn standing_call(random: &mut Random, graph: &Graph, damaged: usize) -> Vec<u8> {
    let frontier = any_frontier(random, graph, damaged);
    let needed = sent(graph, &frontier).map_or(138, |entries| item_of(&entries).len());
    let room = match random.below(12) {
        0 => random.pick(&[0, 1, 8328, 8329, 70000]),
        _ => room_for(random, needed),
    };
    standing(room, &frontier)
}

/// The id of some row, of the store or of nobody.
fn any_id(random: &mut Random, graph: &Graph) -> [u8; 32] {
    let ids: Vec<_> = graph.messages.iter().map(|message| message.id).collect();
    if ids.is_empty() || random.chance(15) {
        random.name()
    } else {
        random.pick(&ids)
    }
}

/// Makes one field of an entry wrong, or another that is as good.
fn damage_entry(random: &mut Random, graph: &Graph, entry: &mut Sent) {
    match random.below(17) {
        0 | 14 => entry.phase = random.pick(&[2, 3, 102, 128, 255]),
        1 | 15 => entry.presence = random.pick(&[2, 3, 102, 128, 255]),
        2 => entry.phase ^= 1,
        3 => entry.presence ^= 1,
        4 => random.flip_bit(&mut entry.key),
        5 if !graph.keys.is_empty() => entry.key = random.pick(&graph.keys),
        6 => random.flip_bit(&mut entry.last),
        7 => random.flip_bit(&mut entry.low),
        8 => random.flip_bit(&mut entry.high),
        9 => std::mem::swap(&mut entry.low, &mut entry.high),
        10 => entry.low = entry.high,
        11 => entry.last = any_id(random, graph),
        12 => entry.high = any_id(random, graph),
        _ => entry.low = any_id(random, graph),
    }
}

/// Damages entries: one of them, their order, or how often one is there.
fn damage_entries(random: &mut Random, graph: &Graph, entries: &mut Vec<Sent>) {
    if entries.is_empty() {
        return;
    }
    let place = random.below(entries.len());
    match random.below(9) {
        0 => entries.rotate_left(1),
        1 => random.shuffle(entries),
        2 => entries.push(entries[place].clone()),
        3 => entries.insert(place, entries[place].clone()),
        _ => damage_entry(random, graph, &mut entries[place]),
    }
}

/// Damages the bytes of a standing: its kind, its count, its end, or its length.
fn damage_bytes(random: &mut Random, item: &mut Vec<u8>) {
    match random.below(8) {
        0 | 7 => item[4] = random.pick(&[0, 1, 2, 4, 255]),
        1 => item[5] = random.pick(&[1, 3, 255]),
        2 => item[6] = random.pick(&[0, 1, 2, 3, 64, 65, 65, 255]),
        3 => item[7] = random.pick(&[1, 255]),
        4 => item.truncate(random.between(4, item.len())),
        5 => item.extend([0; 130]),
        _ => item.push(random.below(256) as u8),
    }
    set_true_length(item);
    if random.chance(30) {
        damage_length(random, item);
    }
}

/// A call that reads a standing which stands for a frontier of a graph, damaged in so many of a hundred
/// cases.
pub fn reading_call(random: &mut Random, graph: &Graph, damaged: usize) -> Vec<u8> {
    let frontier = any_frontier(random, graph, 0);
    let mut entries = sent(graph, &frontier).unwrap_or_default();
    let needed = 5 * entries.len();
    let times = random.pick(&[1, 1, 1, 2, 3]);
    let damage = random.chance(damaged);
    for _ in 0..if damage { times } else { 0 } {
        damage_entries(random, graph, &mut entries);
    }
    let mut item = item_of(&entries);
    if damage && random.chance(45) {
        damage_bytes(random, &mut item);
    }
    read_standing(room_for(random, needed), &item)
}

/// The same messages, or most of them, in another order that keeps each after what it is built on; their
/// authors numbered by their first ones.
pub fn renumbered(random: &mut Random, graph: &Graph, dropped: usize) -> Graph {
    let mut other = Graph::default();
    let mut place: Vec<u16> = vec![0; graph.messages.len() + 1];
    let mut left: Vec<u16> = graph.rows().collect();
    left.retain(|_| !random.chance(dropped));
    loop {
        let stands = |&row: &u16| row == 0 || place[row as usize] != 0;
        let ready = |row: &u16| {
            let message = graph.message(*row);
            stands(&message.previous) && message.dependencies.iter().all(stands)
        };
        let ready: Vec<u16> = left.iter().copied().filter(ready).collect();
        if ready.is_empty() {
            return other;
        }
        let row = random.pick(&ready);
        left.retain(|&one| one != row);
        let message = graph.message(row);
        let key = graph.keys[message.author as usize - 1];
        if other.author_of_key(&key).is_none() {
            other.keys.push(key);
        }
        let author = other.author_of_key(&key).unwrap_or(0);
        let dependencies = message.dependencies.iter();
        let moved = Message {
            id: message.id,
            author,
            previous: place[message.previous as usize],
            index: message.index,
            dependencies: dependencies.map(|&on| place[on as usize]).collect(),
        };
        other.messages.push(moved);
        place[row as usize] = other.messages.len() as u16;
    }
}

/// Standings written and read in one store, then read in others that hold the same messages, or most of
/// them, under other numbers.
pub fn standings(random: &mut Random, script: &mut Script) {
    let graph = load_graph(random, script, Room::Spare);
    for _ in 0..random.between(20, 36) {
        script.call(&standing_call(random, &graph, 15));
        script.call(&reading_call(random, &graph, 60));
    }
    for dropped in [0, 10] {
        let other = renumbered(random, &graph, dropped);
        script.call(&load(&laid_out(random, &other, Room::AtLimit)));
        for _ in 0..8 {
            script.call(&reading_call(random, &graph, 15));
            script.call(&standing_call(random, &other, 0));
        }
    }
    script.show();
}
