//! Scripts about the release desk: columns and owners, sound and damaged, admissions of releases, and
//! questions for the current one.

use crate::calls::*;
use crate::damage::{damage_layout, damage_length, damaged_draft, LAYOUT_WAYS};
use crate::desk::{Desk, COMPONENTS};
use crate::graphs::random_graph;
use crate::plans::{Draft, Shape};
use crate::random::Random;
use crate::standings::any_frontier;
use crate::store::{Graph, ROWS_LIMIT};
use crate::tables::{laid_out, Room};

/// The components that are tried most: the first ones, the last, and one that is none.
const TRIED: [u16; 6] = [1, 1, 1, 2, 512, 513];

/// A payload: of a release, or of another length, or with another byte.
fn payload(random: &mut Random) -> Vec<u8> {
    let component = random.pick(&TRIED).to_le_bytes();
    let mut payload = vec![component[0], component[1], random.below(2) as u8];
    match random.below(8) {
        0 => payload.push(0),
        1 => payload.truncate(random.below(3)),
        2 => payload[2] = random.pick(&[2, 102, 128, 255]),
        _ => {}
    }
    payload
}

/// The draft of a release on a graph.
fn release(random: &mut Random, graph: &Graph, shape: &Shape) -> Draft {
    let mut draft = Draft::sound(random, graph, shape);
    draft.payload = payload(random);
    draft
}

/// A call that admits a release, damaged in so many of a hundred cases, to the desk.
pub fn release_call(random: &mut Random, graph: &Graph, shape: &Shape, damaged: usize) -> Vec<u8> {
    let mut draft = release(random, graph, shape);
    let damage = random.chance(damaged);
    if damage {
        draft = damaged_draft(random, graph, &draft);
    }
    let mut item = draft.item();
    let way = random.below(LAYOUT_WAYS);
    match random.below(6) {
        0 | 2 if damage => damage_layout(random, &mut item, way),
        1 if damage => damage_length(random, &mut item),
        _ => {}
    }
    release_in(random.below(256) as u8, &item)
}

/// A call that asks for the current release of a component.
pub fn question(random: &mut Random, graph: &Graph, damaged: usize) -> Vec<u8> {
    let component = match random.below(12) {
        0 => random.pick(&[0, 513, 1024, 65535]),
        1 => random.between(1, COMPONENTS) as u16,
        _ => random.pick(&TRIED[..5]),
    };
    ask_release(component, &any_frontier(random, graph, damaged))
}

/// The owners of the components: authors of the graph, or nobody.
fn owners(random: &mut Random, graph: &Graph) -> Vec<u16> {
    let mut owner = || {
        random
            .between(0, graph.keys.len().max(1))
            .min(graph.keys.len()) as u16
    };
    (0..COMPONENTS).map(|_| owner()).collect()
}

/// A desk for a graph: what its rows carry is chosen at random, with noise in the places beyond them.
fn desk(random: &mut Random, graph: &Graph) -> Desk {
    let rows = graph.messages.len();
    let spare = random.pick(&[0, 0, 1, 3, ROWS_LIMIT - rows]);
    let components = (0..rows + spare).map(|_| random.pick(&TRIED)).collect();
    let bytes = (0..rows + spare).map(|row| {
        let byte = random.below(256) as u8;
        if row < rows {
            byte % 2
        } else {
            byte
        }
    });
    let expanded = bytes.collect();
    Desk {
        components,
        expanded,
        owners: owners(random, graph),
    }
}

/// Damages a desk: a byte, a column that is too short, a table that is, or an owner whom nobody knows.
fn damage_desk(random: &mut Random, graph: &Graph, desk: &mut Desk) {
    let rows = graph.messages.len();
    let row = random.below(rows);
    match random.below(6) {
        0 => {
            let byte = random.pick(&[2, 102, 128, 255]);
            desk.expanded
                .iter_mut()
                .skip(row)
                .take(1)
                .for_each(|place| *place = byte);
        }
        1 => desk.components.truncate(row),
        2 => desk.expanded.truncate(row),
        3 => desk.owners.truncate(random.pick(&[0, 511])),
        _ => {
            let place = random.pick(&[0, 1, 510, row]);
            let owner = random.pick(&[graph.keys.len() as u16 + 1, 64, 65535]);
            desk.owners
                .iter_mut()
                .skip(place)
                .take(1)
                .for_each(|one| *one = owner);
        }
    }
}

/// A store and desks for it, sound and damaged: releases are admitted to both, at times again, with questions
/// before, between and after.
pub fn releases(random: &mut Random, script: &mut Script) {
    for _ in 0..3 {
        let mut shape = Shape::any(random);
        shape.authors = random.pick(&[1, 2, 3]);
        let rows = random.between(1, 20);
        let graph = random_graph(random, &shape, rows);
        let room = random.pick(&[Room::AtLimit, Room::AtLimit, Room::Spare]);
        script.call(&load(&laid_out(random, &graph, room)));
        for damage in [random.pick(&[0, 1, 2]), 0] {
            let graph = script.graph();
            let mut desk = desk(random, &graph);
            for _ in 0..damage {
                damage_desk(random, &graph, &mut desk);
            }
            script.call(&load_desk(&desk));
            for _ in 0..random.between(3, 8) {
                script.call(&question(random, &graph, 8));
            }
            let mut earlier = Vec::new();
            for _ in 0..random.between(5, 10) {
                let graph = script.graph();
                earlier.push(release_call(random, &graph, &shape, 50));
                script.call(&earlier[earlier.len() - 1]);
                script.call(&[28]);
                script.call(&question(random, &script.graph(), 4));
                if random.chance(30) {
                    let again = random.below(earlier.len());
                    script.call(&earlier[again]);
                }
            }
        }
        script.show();
    }
}
