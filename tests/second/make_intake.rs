//! Seeded random inputs for `intake`. The seed's remainder chooses what a case is about, so that
//! consecutive seeds try everything in turn.

use crate::admission::admit;
use crate::damage::*;
use crate::intake_limits::limit_case;
use crate::plans::{Draft, Shape};
use crate::random::Random;
use crate::store::{Graph, Store};

/// How many subjects there are.
const SUBJECTS: u64 = 12;

/// Sound drafts, each built on those before it, and the graph of them all.
fn sound_drafts(random: &mut Random, shape: &Shape, count: usize) -> (Vec<Draft>, Graph) {
    let mut store = Store::empty();
    let mut graph = Graph::default();
    let mut drafts = Vec::new();
    for _ in 0..count {
        let draft = Draft::sound(random, &graph, shape);
        admit(&mut store, &draft.item(), 0);
        graph = store.judged().unwrap_or_default();
        drafts.push(draft);
    }
    (drafts, graph)
}

/// The shape that a subject asks for.
fn shape_of(random: &mut Random, subject: u64) -> Shape {
    let any = Shape::any(random);
    match subject {
        0 => Shape {
            fork: 0,
            another_first: 0,
            ..any
        },
        1 => Shape { fork: 25, ..any },
        2 => Shape {
            authors: 1,
            fork: 80,
            another_first: 5,
            depend: 0,
        },
        3 => Shape {
            another_first: 40,
            ..any
        },
        4 => Shape {
            authors: 6,
            depend: 80,
            ..any
        },
        _ => any,
    }
}

/// Items in another order, some of them twice.
fn shuffled(random: &mut Random, items: &mut Vec<Vec<u8>>) {
    for _ in 0..random.between(0, 6) {
        let again = items[random.below(items.len())].clone();
        items.insert(random.between(0, items.len()), again);
    }
    if random.chance(70) {
        random.shuffle(items);
    }
}

/// Puts one or two damaged neighbours beside each draft, before or after it.
fn with_damaged_fields(random: &mut Random, drafts: &[Draft], graph: &Graph) -> Vec<Vec<u8>> {
    let mut items = Vec::new();
    for draft in drafts {
        let [one, other] = [(); 2].map(|()| damaged_draft(random, graph, draft).item());
        match random.below(4) {
            0 => items.extend([one, draft.item()]),
            1 => items.extend([draft.item(), one]),
            2 => items.extend([one, draft.item(), other]),
            _ => items.extend([draft.item(), one, other]),
        }
    }
    items
}

/// Puts an item whose layout is damaged before some of the drafts; lengths stay true.
fn with_damaged_layout(random: &mut Random, drafts: &[Draft], graph: &Graph) -> Vec<Vec<u8>> {
    let mut items = Vec::new();
    for draft in drafts {
        let fields = if random.chance(40) {
            damaged_draft(random, graph, draft)
        } else {
            draft.clone()
        };
        let mut damaged = fields.item();
        for way in 0..LAYOUT_WAYS {
            if random.chance(30) && damaged.len() > 80 {
                damage_layout(random, &mut damaged, way);
            }
        }
        items.extend([damaged, draft.item()]);
    }
    items
}

/// One item cut at every place, its length true each time, then whole.
fn every_cut(random: &mut Random, drafts: &[Draft]) -> Vec<Vec<u8>> {
    let mut items: Vec<Vec<u8>> = drafts[..drafts.len() - 1].iter().map(Draft::item).collect();
    let mut last = drafts[drafts.len() - 1].clone();
    last.payload.truncate(random.between(0, 8));
    let whole = last.item();
    for end in 4..=whole.len() {
        let mut part = whole[..end].to_vec();
        set_true_length(&mut part);
        items.push(part);
    }
    items
}

/// Each draft under several marks before its own.
fn under_marks(random: &mut Random, drafts: &[Draft]) -> Vec<Vec<u8>> {
    let mut items = Vec::new();
    for draft in drafts {
        for _ in 0..2 {
            items.push(
                Draft {
                    mark: random.pick(&MARKS),
                    ..draft.clone()
                }
                .item(),
            );
        }
        items.push(draft.item());
    }
    items
}

/// The input of a seed.
pub fn make(seed: u64) -> Vec<u8> {
    let random = &mut Random::new(seed);
    if let Some(items) = limit_case(random, seed) {
        return items.concat();
    }
    let subject = seed % SUBJECTS;
    let shape = shape_of(random, subject);
    let count = random.between(1, 24);
    let (drafts, graph) = sound_drafts(random, &shape, count);
    let mut items: Vec<Vec<u8>> = match subject {
        6 | 10 => with_damaged_fields(random, &drafts, &graph),
        7 => with_damaged_layout(random, &drafts, &graph),
        8 => every_cut(random, &drafts),
        9 => under_marks(random, &drafts),
        _ => drafts.iter().map(Draft::item).collect(),
    };
    if matches!(subject, 5 | 10) || random.chance(10) {
        shuffled(random, &mut items);
    }
    if subject == 11 {
        let place = random.below(items.len());
        damage_length(random, &mut items[place]);
    }
    let mut input = items.concat();
    if subject == 10 || random.chance(5) {
        input.truncate(random.between(0, input.len()));
    }
    input
}
