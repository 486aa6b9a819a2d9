//! Random graphs of messages.

use crate::plans::{Plan, Shape};
use crate::random::Random;
use crate::sha256::DIGEST;
use crate::store::{Graph, Name};

/// A name that differs from all given: random, or equal to the others but for one byte.
fn fresh_name(random: &mut Random, held: &[Name], alike: Option<usize>) -> Name {
    loop {
        let mut name = random.name();
        if let Some(place) = alike {
            let byte = name[place];
            name = [7; DIGEST];
            name[place] = byte;
        }
        if !held.contains(&name) {
            return name;
        }
    }
}

/// A graph of so many rows, each planned on what stands so far, whose ids come in no order of the rows.
pub fn graph_of_plans(
    random: &mut Random,
    rows: usize,
    mut next: impl FnMut(&mut Random, &Graph) -> Plan,
) -> Graph {
    let mut graph = Graph::default();
    let places = [None, Some(0), Some(1), Some(15), Some(31)];
    let alike = if rows <= 100 {
        random.pick(&places)
    } else {
        None
    };
    for _ in 0..rows {
        let plan = next(random, &graph);
        let ids: Vec<Name> = graph.messages.iter().map(|message| message.id).collect();
        let id = fresh_name(random, &ids, alike);
        let key = fresh_name(random, &graph.keys, alike);
        plan.add(&mut graph, id, key);
    }
    graph
}

/// A random graph of so many rows.
pub fn random_graph(random: &mut Random, shape: &Shape, rows: usize) -> Graph {
    graph_of_plans(random, rows, |random, graph| {
        Plan::any(random, graph, shape)
    })
}
