//! Seeded random scripts for `replay`. The seed's remainder chooses what a case is about, so that
//! consecutive seeds try everything in turn.

use crate::bad_calls::{any_call, bad_call};
use crate::calls::*;
use crate::damage::*;
use crate::damage_graph::damage_graph;
use crate::graphs::random_graph;
use crate::plans::{Draft, Shape};
use crate::random::Random;
use crate::random_batches::{batch_call, batches};
use crate::random_calls::*;
use crate::replay_catalogue::catalogue;
use crate::replay_desk::releases;
use crate::replay_items::*;
use crate::replay_limits::limit_script;
use crate::replay_salvage::sticks;
use crate::replay_sending::standings;
use crate::store::Graph;
use crate::tables::*;

/// How many subjects there are.
const SUBJECTS: u64 = 19;
/// How many damaged stores a script has.
const TURNS: usize = 5;

/// Loads a random graph and gives it.
pub fn load_graph(random: &mut Random, script: &mut Script, room: Room) -> Graph {
    let shape = Shape::any(random);
    let most = random.pick(&[4, 15, 30, 45]);
    let rows = random.between(1, most);
    let graph = random_graph(random, &shape, rows);
    script.call(&load(&laid_out(random, &graph, room)));
    graph
}

/// Any kind of room.
pub fn any_room(random: &mut Random) -> Room {
    if random.chance(4) {
        return Room::Beyond;
    }
    random.pick(&[Room::AtLimit, Room::Exact, Room::Spare, Room::Spare])
}

/// Admissions into the first store, sound and damaged, with calls on what stands between them.
fn admissions(random: &mut Random, script: &mut Script, damaged: usize) {
    let shape = Shape::any(random);
    let mut earlier: Vec<Vec<u8>> = Vec::new();
    for _ in 0..random.between(4, 30) {
        let graph = script.graph();
        let sound = Draft::sound(random, &graph, &shape);
        if random.chance(damaged) {
            let mut item = damaged_draft(random, &graph, &sound).item();
            let way = random.below(LAYOUT_WAYS);
            match random.below(4) {
                0 => damage_layout(random, &mut item, way),
                1 => damage_length(random, &mut item),
                _ => {}
            }
            script.call(&admission(random, &item));
            script.call(&[3]);
        }
        script.call(&admission(random, &sound.item()));
        earlier.push(sound.item());
        if random.chance(15) {
            let again = random.below(earlier.len());
            script.call(&admission(random, &earlier[again]));
        }
        script.call(&state_call(random, &graph, 10));
        script.call(&origin_call(random, &script.graph()));
    }
    let graph = script.graph();
    script.call(&frontier_call(random, &graph, 10));
    script.call(&find_call(random, &graph));
    script.show();
}

/// Many calls of one kind on a loaded graph.
fn calls_on_graph(
    random: &mut Random,
    script: &mut Script,
    call: impl Fn(&mut Random, &Graph) -> Vec<u8>,
) {
    let room = any_room(random);
    let graph = load_graph(random, script, room);
    for _ in 0..random.between(15, 45) {
        script.call(&call(random, &graph));
    }
    for _ in 0..4 {
        script.call(&find_call(random, &graph));
        script.call(&origin_call(random, &graph));
    }
    script.call(&[20]);
    script.call(&[21]);
    script.show();
}

/// Damaged stores, of each of two kinds, each followed by one call of every kind; then counts that
/// are far away.
fn damaged_stores(random: &mut Random, script: &mut Script, seed: u64) {
    for turn in 0..TURNS {
        let room = any_room(random);
        let graph = load_graph(random, script, room);
        let way = (seed / SUBJECTS) as usize * TURNS + turn;
        let mut store = script.replay.store.clone();
        if seed % 2 == 0 {
            damage_store(random, &mut store, way);
        } else {
            let mut damaged = graph.clone();
            damage_graph(random, &mut damaged, way);
            store = laid_out(random, &damaged, room);
        }
        script.call(&load(&store));
        script.show();
        let draft = Draft::any(random, &graph);
        script.call(&admission(random, &draft.item()));
        let damaged = damaged_draft(random, &graph, &draft).item();
        script.call(&admission(random, &damaged));
        script.call(&item_call(random, &draft.item()));
        let batch = batch_call(random, &script.replay.store);
        script.call(&batch);
        for call in one_of_each(random, &graph, 25) {
            script.call(&call);
        }
        script.call(&[3]);
    }
    let store = &script.replay.store;
    let counts = [store.row_count, store.author_count, store.dep_count];
    script.call(&far_counts(random, counts));
    script.show();
    script.call(&set_counts(counts));
    script.show();
}

/// Admissions into parts that are too short, exact or nearly so.
fn short_parts(random: &mut Random, script: &mut Script) {
    for _ in 0..3 {
        let room = random.pick(&[Room::Exact, Room::Spare, Room::Spare]);
        load_graph(random, script, room);
        let shape = Shape {
            authors: 6,
            fork: 20,
            another_first: 10,
            depend: 50,
        };
        for _ in 0..random.between(3, 9) {
            let graph = script.graph();
            let mut draft = Draft::sound(random, &graph, &shape);
            if random.chance(25) {
                draft = damaged_draft(random, &graph, &draft);
            }
            script.call(&admission(random, &draft.item()));
            script.call(&[3]);
        }
        let graph = script.graph();
        script.call(&frontier_call(random, &graph, 0));
        script.call(&[4]);
    }
}

/// Calls whose own layout is wrong among sound ones.
fn bad_calls(random: &mut Random, script: &mut Script) {
    let graph = load_graph(random, script, Room::Spare);
    for _ in 0..random.between(10, 30) {
        let call = if random.chance(70) {
            bad_call(random, &graph)
        } else {
            any_call(random, &graph)
        };
        script.call(&call);
    }
    script.show();
}

/// Whether the parts that are lent in the script of a seed begin at a guard: in every second script
/// of each subject.
pub fn begins(seed: u64) -> bool {
    (seed + seed / SUBJECTS) % 2 == 1
}

/// The script of a seed.
pub fn make(seed: u64) -> Vec<u8> {
    let random = &mut Random::new(!seed);
    let mut script = Script::new();
    if limit_script(random, &mut script, seed) {
        return script.bytes;
    }
    let subject = seed % SUBJECTS;
    match subject {
        0 => admissions(random, &mut script, 0),
        1 => admissions(random, &mut script, 60),
        2 => calls_on_graph(random, &mut script, |random, graph| {
            state_call(random, graph, 0)
        }),
        3 => calls_on_graph(random, &mut script, |random, graph| {
            frontier_call(random, graph, 0)
        }),
        4 => calls_on_graph(random, &mut script, |random, graph| {
            packing_call(random, graph, 5)
        }),
        5 | 6 => damaged_stores(random, &mut script, seed),
        7 => short_parts(random, &mut script),
        8 => bad_calls(random, &mut script),
        9 => calls_on_graph(random, &mut script, |random, graph| {
            state_call(random, graph, 40)
        }),
        10 => calls_on_graph(random, &mut script, |random, graph| {
            frontier_call(random, graph, 40)
        }),
        11 => chosen_ids(random, &mut script),
        12 => every_length(random, &mut script),
        13 => items(random, &mut script),
        14 => standings(random, &mut script),
        15 => catalogue(random, &mut script),
        16 => sticks(random, &mut script),
        17 => releases(random, &mut script),
        _ => batches(random, &mut script),
    }
    if random.chance(8) {
        let end = random.between(0, script.bytes.len());
        script.bytes.truncate(end);
    }
    script.bytes
}
