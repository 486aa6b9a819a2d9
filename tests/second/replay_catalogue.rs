//! Scripts about the catalogue: stores of steady authors and of others, asked, and admitted to.

use crate::calls::*;
use crate::catalogue::keeps;
use crate::damage::{damage_layout, damage_length, damaged_draft, LAYOUT_WAYS};
use crate::graphs::graph_of_plans;
use crate::plans::{Draft, Plan, Shape};
use crate::random::Random;
use crate::store::Graph;
use crate::tables::{laid_out, Room};

/// A call that admits an item to the catalogue, with any origin.
pub fn catalogue_admission(random: &mut Random, item: &[u8]) -> Vec<u8> {
    admit_to_catalogue(random.below(256) as u8, item)
}

/// Leaves out each dependency that would break the rule, but for so many of a hundred cases.
fn steady(random: &mut Random, graph: &Graph, plan: &mut Plan, breaks: usize) {
    if !random.chance(breaks) {
        let previous = plan.previous;
        plan.dependencies
            .retain(|&on| keeps(graph, previous, &[on]));
    }
}

/// The shape of logs that depend on each other.
fn shape(random: &mut Random) -> Shape {
    Shape {
        authors: random.pick(&[2, 3, 3, 4, 6]),
        fork: random.pick(&[0, 15, 50]),
        another_first: random.pick(&[0, 0, 10]),
        depend: random.pick(&[30, 60, 90]),
    }
}

/// An item for a graph: steady or not, damaged in so many of a hundred cases.
fn offered(random: &mut Random, graph: &Graph, shape: &Shape, damaged: usize) -> Vec<u8> {
    let mut plan = Plan::any(random, graph, shape);
    steady(random, graph, &mut plan, 35);
    let draft = Draft::of_plan(random, graph, &plan, 20);
    if !random.chance(damaged) {
        return draft.item();
    }
    let mut item = damaged_draft(random, graph, &draft).item();
    let way = random.below(LAYOUT_WAYS);
    match random.below(4) {
        0 => damage_layout(random, &mut item, way),
        1 => damage_length(random, &mut item),
        _ => {}
    }
    item
}

/// Stores that keep the rule, or break it in one row of many, asked whether they do, and admitted to.
pub fn catalogue(random: &mut Random, script: &mut Script) {
    for _ in 0..4 {
        let shape = shape(random);
        let rows = random.between(1, 30);
        let breaks = random.pick(&[0, 0, 0, 5, 30]);
        let graph = graph_of_plans(random, rows, |random, graph| {
            let mut plan = Plan::any(random, graph, &shape);
            steady(random, graph, &mut plan, breaks);
            plan
        });
        let room = random.pick(&[Room::AtLimit, Room::AtLimit, Room::Spare, Room::Exact]);
        script.call(&load(&laid_out(random, &graph, room)));
        script.call(&[20]);
        script.call(&[21]);
        let mut earlier: Vec<Vec<u8>> = Vec::new();
        for _ in 0..random.between(6, 14) {
            let graph = script.graph();
            let item = offered(random, &graph, &shape, 55);
            script.call(&catalogue_admission(random, &item));
            earlier.push(item);
            if random.chance(20) {
                let again = random.below(earlier.len());
                script.call(&catalogue_admission(random, &earlier[again]));
            }
            script.call(&[3]);
        }
        script.call(&[20]);
        script.call(&[21]);
        script.show();
    }
}
