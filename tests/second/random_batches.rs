//! Scripts of whole intakes, each in one call.

use crate::admission::admit;
use crate::batches::ANSWER_NUMBERS;
use crate::calls::*;
use crate::damage::*;
use crate::intake::items_of;
use crate::make_replay::{any_room, load_graph};
use crate::plans::{Draft, Shape};
use crate::random::Random;
use crate::random_calls::{origin_call, room_for};
use crate::store::Store;

/// Items for a store, each built on those before it; damaged ones and repeats stand among them, and at
/// times all are in another order.
fn items_for(random: &mut Random, store: &Store) -> Vec<Vec<u8>> {
    let shape = Shape::any(random);
    let mut store = store.clone();
    let mut items: Vec<Vec<u8>> = Vec::new();
    for _ in 0..random.between(0, 12) {
        let graph = store.judged().unwrap_or_default();
        let sound = Draft::sound(random, &graph, &shape);
        if random.chance(30) {
            let mut damaged = damaged_draft(random, &graph, &sound).item();
            let way = random.below(LAYOUT_WAYS);
            if random.chance(30) {
                damage_layout(random, &mut damaged, way);
            }
            items.push(damaged);
        }
        if random.chance(15) && !items.is_empty() {
            items.push(items[random.below(items.len())].clone());
        }
        admit(&mut store, &sound.item(), 0);
        items.push(sound.item());
    }
    if random.chance(15) {
        random.shuffle(&mut items);
    }
    items
}

/// A stretch of items for a store; at times the length of one is damaged, or the end is cut.
fn stretch_for(random: &mut Random, store: &Store) -> Vec<u8> {
    let mut items = items_for(random, store);
    if random.chance(20) && !items.is_empty() {
        let place = random.below(items.len());
        damage_length(random, &mut items[place]);
    }
    let mut stretch = items.concat();
    match random.below(10) {
        0 => stretch.truncate(random.between(0, stretch.len())),
        1 => stretch.extend([0; 3]),
        2 => stretch.extend([0; 4]),
        _ => {}
    }
    stretch
}

/// A call that takes in a stretch of items for a store; its list is exact, too short or longer.
pub fn batch_call(random: &mut Random, store: &Store) -> Vec<u8> {
    let stretch = stretch_for(random, store);
    let needed = ANSWER_NUMBERS * items_of(&stretch).len();
    let room = room_for(random, needed);
    batch(random.below(256) as u8, room, &stretch)
}

/// Whole intakes into the first store, and into others with much room, little or none.
pub fn batches(random: &mut Random, script: &mut Script) {
    for turn in 0..4 {
        if turn > 0 {
            let room = any_room(random);
            load_graph(random, script, room);
        }
        for _ in 0..random.between(1, 3) {
            let call = batch_call(random, &script.replay.store);
            script.call(&call);
            script.show();
            script.call(&origin_call(random, &script.graph()));
        }
    }
}
