//! Scripts about sticks with holes: items in any order, damaged, repeated and cut off, salvaged into stores
//! of every length.

use crate::calls::*;
use crate::damage::{damage_layout, damage_length, damaged_draft, LAYOUT_WAYS};
use crate::intake::items_of;
use crate::item::{BODY_AT, SMALLEST_BODY};
use crate::plans::{Draft, Shape};
use crate::random::Random;
use crate::store::{Graph, Store};
use crate::tables::{laid_out, Room};
use crate::{admission, answers};

/// The bytes of the smallest item.
const SMALLEST: usize = BODY_AT + SMALLEST_BODY;

/// Sound items in an order in which each is admitted, with the graph that they lead to.
fn sound_items(random: &mut Random, shape: &Shape, count: usize) -> (Vec<Vec<u8>>, Graph) {
    let mut store = Store::empty();
    let mut items = Vec::new();
    for _ in 0..count {
        let graph = store.judged().unwrap_or_default();
        let item = Draft::sound(random, &graph, shape).item();
        if admission::admit(&mut store, &item, 0).0 == answers::DONE {
            items.push(item);
        }
    }
    (items, store.judged().unwrap_or_default())
}

/// Puts items in another order: reversed, shuffled, or nearly as they were.
fn reorder(random: &mut Random, items: &mut [Vec<u8>]) {
    match random.below(5) {
        0 => items.reverse(),
        1 | 2 => random.shuffle(items),
        3 => {
            let (one, other) = (random.below(items.len()), random.below(items.len()));
            items.swap(one, other);
        }
        _ => {}
    }
}

/// Makes holes: an item left out, repeated, repeated with another mark, damaged, or joined by one that is.
fn make_hole(random: &mut Random, graph: &Graph, shape: &Shape, items: &mut Vec<Vec<u8>>) {
    let place = random.below(items.len());
    let way = random.below(LAYOUT_WAYS);
    let mut item = items[place].clone();
    match random.below(8) {
        0 if items.len() > 1 => {
            items.remove(place);
            return;
        }
        0 | 1 => {}
        2 if item.len() >= SMALLEST => item[6] = random.pick(&[0, 2, 255]),
        3 if item.len() >= SMALLEST => damage_layout(random, &mut item, way),
        4 if item.len() >= SMALLEST => random.flip_bit(&mut item[6..]),
        5 if item.len() >= SMALLEST => {
            random.flip_bit(&mut items[place][6..]);
            return;
        }
        _ => {
            let sound = Draft::sound(random, graph, shape);
            item = damaged_draft(random, graph, &sound).item();
        }
    }
    items.insert(random.between(0, items.len()), item);
}

/// A stick: its items, with holes in them, and at times an end that is cut off or whose length is wrong.
fn stick(random: &mut Random, most: usize) -> Vec<u8> {
    let mut shape = Shape::any(random);
    shape.authors = random.pick(&[1, 2, 3, 6]);
    let count = random.between(1, most);
    let (mut items, graph) = sound_items(random, &shape, count);
    reorder(random, &mut items);
    for _ in 0..random.pick(&[0, 0, 1, 3, 8]) {
        make_hole(random, &graph, &shape, &mut items);
    }
    match random.below(6) {
        0 => {
            let place = random.below(items.len());
            damage_length(random, &mut items[place]);
        }
        1 => {
            let mut stick = items.concat();
            stick.truncate(random.between(0, stick.len()));
            return stick;
        }
        _ => {}
    }
    items.concat()
}

/// A call that salvages a stick into rooms that are exact, too small or larger.
fn salvage_call(random: &mut Random, stick: &[u8]) -> Vec<u8> {
    let needed = 2 * items_of(stick).len();
    let (bytes, numbers) = (stick.len(), needed);
    let beside = random.between(1, 40);
    let (clean, list) = match random.below(10) {
        0 => (bytes.saturating_sub(1), numbers + beside),
        1 => (bytes + beside, numbers.saturating_sub(1)),
        2 => (random.between(0, bytes), random.between(0, numbers)),
        3 | 4 => (bytes + beside, numbers + beside),
        _ => (bytes, numbers),
    };
    salvage(clean, list, stick)
}

/// More items than a stick may have, of which none is sound, and as many as it may have.
fn many_items(random: &mut Random, script: &mut Script) {
    for count in [1024, 1025, 1100] {
        let mut stick = vec![0; 4 * count];
        if random.chance(50) {
            stick.extend([9, 0]);
        }
        let list = random.pick(&[2 * count + 2, 2 * count + 2, 0]);
        script.call(&salvage(stick.len(), list, &stick));
    }
}

/// Sticks salvaged into the store as it stands: what a salvage has left, or another that is loaded between.
pub fn sticks(random: &mut Random, script: &mut Script) {
    for _ in 0..random.between(3, 6) {
        if random.chance(50) {
            let shape = Shape::any(random);
            let rows = random.between(1, 12);
            let graph = crate::graphs::random_graph(random, &shape, rows);
            let room = random.pick(&[Room::AtLimit, Room::Spare, Room::Exact]);
            script.call(&load(&laid_out(random, &graph, room)));
        }
        let stick = stick(random, 14);
        script.call(&salvage_call(random, &stick));
        script.show();
        script.call(&with_numbers(15, &[1]));
    }
    if random.chance(40) {
        many_items(random, script);
        script.show();
    }
}
