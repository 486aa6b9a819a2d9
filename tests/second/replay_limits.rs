//! Scripts at the limits of the store, of an item, of a room and of a call: the last place and one
//! more.

use crate::arguments::CALL_LIMIT;
use crate::calls::{on_frontiers, with_bytes, Script};
use crate::graphs::random_graph;
use crate::plans::{Draft, Plan, Shape};
use crate::random::Random;
use crate::random_calls::{frontier_call, packing_call, state_call, LARGEST_ROOM};
use crate::standings::valid_frontier;
use crate::store::{Graph, AUTHORS_LIMIT, DEPS_LIMIT, ROWS_LIMIT};
use crate::tables::{laid_out, Room};
use crate::{calls, item};

/// The shape of one long log each.
const CHAINS: Shape = Shape {
    authors: 3,
    fork: 2,
    another_first: 0,
    depend: 20,
};
/// The shape in which each message is a new author's.
const NEWCOMERS: Shape = Shape {
    authors: 999,
    fork: 0,
    another_first: 0,
    depend: 0,
};

/// Loads a graph with every part at its limit or above it: the limits are the same.
fn load(random: &mut Random, script: &mut Script, graph: &Graph) {
    let room = random.pick(&[Room::AtLimit, Room::Beyond]);
    script.call(&calls::load(&laid_out(random, graph, room)));
}

/// A graph of so many authors with one message each.
fn graph_of_authors(random: &mut Random, authors: usize) -> Graph {
    let mut graph = Graph::default();
    for author in 1..=authors as u16 {
        let (id, key) = (random.name(), random.name());
        Plan {
            author,
            previous: 0,
            dependencies: Vec::new(),
        }
        .add(&mut graph, id, key);
    }
    graph
}

/// A message of an author, after its newest, that depends on the first rows of so many others.
fn plan_with(graph: &Graph, author: u16, dependencies: usize) -> Plan {
    let previous = graph.rows_of(author).last().copied().unwrap_or(0);
    let others = (1..=graph.keys.len() as u16).filter(|&other| other != author);
    let dependencies = others
        .map(|other| graph.rows_of(other)[0])
        .take(dependencies)
        .collect();
    Plan {
        author,
        previous,
        dependencies,
    }
}

/// Admits a planned message.
fn admit_plan(random: &mut Random, script: &mut Script, plan: &Plan, payload: usize) {
    let mut draft = Draft::of_plan(random, &script.graph(), plan, 0);
    draft.payload = random.bytes(payload);
    script.call(&with_bytes(1, &draft.item()));
}

/// The last row, and one more.
fn row_limit(random: &mut Random, script: &mut Script) {
    let graph = random_graph(random, &CHAINS, ROWS_LIMIT - 1);
    load(random, script, &graph);
    for _ in 0..2 {
        let plan = plan_with(&script.graph(), 1, 2);
        admit_plan(random, script, &plan, 1);
    }
    let graph = script.graph();
    script.call(&state_call(random, &graph, 0));
    script.call(&frontier_call(random, &graph, 0));
    script.call(&packing_call(random, &graph, 0));
    script.show();
}

/// The last rows, and more, in one call.
fn batch_limit(random: &mut Random, script: &mut Script) {
    let graph = random_graph(random, &CHAINS, ROWS_LIMIT - 3);
    load(random, script, &graph);
    let mut stretch = Vec::new();
    for _ in 0..5 {
        let plan = plan_with(&graph, 1, 2);
        stretch.extend(Draft::of_plan(random, &graph, &plan, 9).item());
    }
    script.call(&calls::batch(7, 10, &stretch));
    script.show();
}

/// The last author, and one more.
fn author_limit(random: &mut Random, script: &mut Script) {
    let graph = graph_of_authors(random, AUTHORS_LIMIT - 1);
    load(random, script, &graph);
    for _ in 0..2 {
        let draft = Draft::sound(random, &Graph::default(), &NEWCOMERS);
        script.call(&with_bytes(1, &draft.item()));
    }
    let graph = script.graph();
    for _ in 0..4 {
        script.call(&frontier_call(random, &graph, 0));
    }
    script.show();
}

/// The last dependency place, and one more.
fn dependency_limit(random: &mut Random, script: &mut Script) {
    let mut graph = graph_of_authors(random, AUTHORS_LIMIT);
    let mut left = DEPS_LIMIT - random.between(1, item::DEPENDENCIES_LIMIT);
    while left > 0 {
        let author = random.between(1, AUTHORS_LIMIT) as u16;
        let plan = plan_with(&graph, author, left.min(item::DEPENDENCIES_LIMIT));
        left -= plan.dependencies.len();
        plan.add(&mut graph, random.name(), [0; 32]);
    }
    load(random, script, &graph);
    let free = DEPS_LIMIT - script.replay.store.dep_count;
    for count in [free + 1, free, 1, 0] {
        let plan = plan_with(&script.graph(), 2, count);
        admit_plan(random, script, &plan, 0);
    }
    let graph = script.graph();
    script.call(&packing_call(random, &graph, 0));
    script.show();
}

/// The longest payload and the most dependencies of one item, and one more of each.
fn item_limit(random: &mut Random, script: &mut Script) {
    let graph = graph_of_authors(random, AUTHORS_LIMIT);
    load(random, script, &graph);
    for (payload, dependencies) in [(4096, 63), (4096, 0), (0, 63), (4097, 0), (4097, 63)] {
        let plan = plan_with(&script.graph(), 3, dependencies);
        admit_plan(random, script, &plan, payload);
    }
    let mut draft = Draft::of_plan(random, &graph, &plan_with(&graph, 3, 63), 4096);
    script.call(&with_bytes(12, &draft.item()));
    draft.dependencies.push(graph.message(3).id);
    script.call(&with_bytes(1, &draft.item()));
    script.show();
}

/// The longest frontiers and the largest room that a call can name.
fn room_limit(random: &mut Random, script: &mut Script) {
    let graph = graph_of_authors(random, AUTHORS_LIMIT);
    load(random, script, &graph);
    let frontier = valid_frontier(random, &graph, 100);
    let mut long = frontier.repeat(LARGEST_ROOM / frontier.len() + 1);
    long.truncate(LARGEST_ROOM);
    let room = Some(LARGEST_ROOM);
    script.call(&on_frontiers(9, room, &[&frontier, &frontier]));
    script.call(&on_frontiers(9, room, &[&frontier, &long]));
    script.call(&on_frontiers(10, None, &[&long, &long]));
    script.call(&on_frontiers(11, room, &[&frontier]));
    script.call(&on_frontiers(44, None, &[&long]));
    script.call(&calls::append_entry(1, frontier.len(), &long));
    script.show();
}

/// The longest call, one that is longer and so bad, and one that breaks off.
fn call_limit(random: &mut Random, script: &mut Script) {
    let mut item = Draft::any(random, &Graph::default()).item();
    item.resize(CALL_LIMIT - 1, 0);
    script.call(&with_bytes(random.pick(&[1, 12, 13, 40]), &item));
    item.push(0);
    script.call(&with_bytes(1, &item));
    script.show();
    script.bytes.extend(u32::MAX.to_le_bytes());
    script.bytes.extend(&item[..1000]);
}

/// Makes the script of a seed that tries a limit, for a few seeds of each five hundred; says
/// whether the seed is one of them.
pub fn limit_script(random: &mut Random, script: &mut Script, seed: u64) -> bool {
    match seed % 500 {
        109 | 360 => batch_limit(random, script),
        59 | 310 => row_limit(random, script),
        159 | 410 => dependency_limit(random, script),
        84 | 285 => call_limit(random, script),
        134 | 135 | 384 | 385 => room_limit(random, script),
        place if place % 50 == 21 => author_limit(random, script),
        place if place % 50 == 46 => item_limit(random, script),
        _ => return false,
    }
    true
}
