//! Intakes at the limits of the store and of an item: the last place and one more.

use crate::admission::admit;
use crate::plans::{Draft, Plan, Shape};
use crate::random::Random;
use crate::store::{Graph, Store};

/// One more author than the store holds, each with a first message, and some second messages.
fn too_many_authors(random: &mut Random) -> Vec<Vec<u8>> {
    let fresh = Shape::straight(99);
    let mut items = Vec::new();
    for author in 0..70 {
        let draft = Draft::sound(random, &Graph::default(), &fresh);
        let next = Draft {
            index: 2,
            previous: draft.id(),
            ..draft.clone()
        };
        items.push(draft.item());
        if author % 7 == 0 {
            items.push(next.item());
        }
    }
    items
}

/// A chain of one author that is longer than the store's rows.
fn too_many_rows(random: &mut Random) -> Vec<Vec<u8>> {
    let fresh = Shape::straight(1);
    let mut draft = Draft::sound(random, &Graph::default(), &fresh);
    let mut items = vec![draft.item()];
    for index in 2..1030 {
        draft = Draft {
            index,
            previous: draft.id(),
            ..draft
        };
        items.push(draft.item());
    }
    items
}

/// 64 authors, then messages of 63 dependencies each until their places run out.
fn too_many_dependencies(random: &mut Random) -> Vec<Vec<u8>> {
    let mut store = Store::empty();
    let mut items: Vec<Vec<u8>> = Vec::new();
    for author in 1..=64 + 68 {
        let graph = store.judged().unwrap_or_default();
        let author = if author <= 64 {
            author
        } else {
            random.between(1, 64) as u16
        };
        let others = (1..=64).filter(|&other| graph.keys.len() == 64 && other != author);
        let mut dependencies: Vec<u16> = others.map(|other| graph.rows_of(other)[0]).collect();
        if random.chance(20) {
            dependencies.truncate(random.below(63));
        }
        let previous = graph.rows_of(author).last().copied().unwrap_or(0);
        let draft = Draft::of_plan(
            random,
            &graph,
            &Plan {
                author,
                previous,
                dependencies,
            },
            3,
        );
        admit(&mut store, &draft.item(), 0);
        items.push(draft.item());
    }
    items
}

/// 64 authors, then the largest item that there is; larger ones before it, and one after it that
/// ends the intake.
fn largest_items(random: &mut Random) -> Vec<Vec<u8>> {
    let mut store = Store::empty();
    let mut items: Vec<Vec<u8>> = Vec::new();
    for author in 1..=64 {
        let graph = store.judged().unwrap_or_default();
        let plan = Plan {
            author,
            previous: 0,
            dependencies: Vec::new(),
        };
        items.push(Draft::of_plan(random, &graph, &plan, 0).item());
        admit(&mut store, &items[author as usize - 1], 0);
    }
    let graph = store.judged().unwrap_or_default();
    let plan = Plan {
        author: 1,
        previous: 1,
        dependencies: (2..=64).collect(),
    };
    let mut draft = Draft::of_plan(random, &graph, &plan, 0);
    for (payload, dependencies) in [
        (4097, 62),
        (4000, 64),
        (4096, 63),
        (4096, 63),
        (4097, 63),
        (0, 0),
    ] {
        draft.payload = random.bytes(payload);
        draft
            .dependencies
            .resize(dependencies, graph.message(64).id);
        items.push(draft.item());
    }
    items
}

/// The input of a case that tries a limit of the store, for a few seeds of each five hundred.
pub fn limit_case(random: &mut Random, seed: u64) -> Option<Vec<Vec<u8>>> {
    match seed % 500 {
        107 => Some(too_many_rows(random)),
        57 | 307 => Some(too_many_dependencies(random)),
        place if place % 50 == 19 => Some(too_many_authors(random)),
        place if place % 100 == 44 => Some(largest_items(random)),
        _ => None,
    }
}
