//! Damaged items: every field, every part of the layout.

use crate::plans::Draft;
use crate::random::Random;
use crate::sha256::DIGEST;
use crate::store::{Graph, Name};

/// How many ways there are to damage a field.
pub const FIELD_WAYS: usize = 24;
/// How many ways there are to damage the layout with the length field still true.
pub const LAYOUT_WAYS: usize = 5;
/// The marks that are tried most.
pub const MARKS: [u8; 6] = [0, 1, 2, 102, 255, 128];
/// Where the payload's length stands in an item.
const PAYLOAD_LENGTH_AT: usize = 75;

/// The id of some row of the graph that the test picks out, or a random id.
fn id_where(random: &mut Random, graph: &Graph, wanted: impl Fn(u16) -> bool) -> Name {
    let ids: Vec<Name> = graph
        .rows()
        .filter(|&row| wanted(row))
        .map(|row| graph.message(row).id)
        .collect();
    if ids.is_empty() {
        random.name()
    } else {
        random.pick(&ids)
    }
}

/// Damages the mark, the key, the payload or the signature of a draft.
fn damage_ends(random: &mut Random, graph: &Graph, draft: &mut Draft, way: usize) {
    match way {
        0 => draft.mark = 0,
        1 => draft.mark = random.pick(&MARKS[2..]),
        2 => draft.mark = random.between(2, 255) as u8,
        3 => random.flip_bit(&mut draft.key),
        4 if !graph.keys.is_empty() => draft.key = random.pick(&graph.keys),
        4 => draft.key = random.name(),
        5 => random.flip_bit(&mut draft.signature),
        6 => draft.payload = random.bytes(4096),
        _ => draft.payload = random.bytes(4097),
    }
}

/// Damages the previous field or the index of a draft.
fn damage_link(random: &mut Random, graph: &Graph, draft: &mut Draft, way: usize) {
    let author = graph.author_of_key(&draft.key);
    match way {
        0 => random.flip_bit(&mut draft.previous),
        1 => draft.previous = id_where(random, graph, |row| graph.author_of(row) != author),
        2 => draft.previous = id_where(random, graph, |row| graph.author_of(row) == author),
        3 => draft.previous = [0; DIGEST],
        4 => draft.index = 0,
        5 => draft.index = random.pick(&[1, 2]),
        6 => {
            draft.index = draft
                .index
                .wrapping_add(random.pick(&[1, 65536, 1 << 24, u32::MAX]))
        }
        _ => draft.index = random.pick(&[255, 256, 65535, 65536, u32::MAX]),
    }
}

/// Damages the dependency list of a draft.
fn damage_dependencies(random: &mut Random, graph: &Graph, draft: &mut Draft, way: usize) {
    let author = graph.author_of_key(&draft.key);
    let count = draft.dependencies.len();
    let place = random.between(0, count);
    match way {
        0 if count > 0 => random.flip_bit(&mut draft.dependencies[place % count]),
        0 | 1 => draft.dependencies.insert(place, random.name()),
        2 => draft.dependencies.insert(
            place,
            id_where(random, graph, |row| graph.author_of(row) == author),
        ),
        3 if count > 0 => draft.dependencies.push(draft.dependencies[place % count]),
        3 | 4 => {
            let first = id_where(random, graph, |row| graph.author_of(row) != author);
            let other = graph.row_of_id(&first).and_then(|row| graph.author_of(row));
            let second = id_where(random, graph, |row| graph.author_of(row) == other);
            draft.dependencies = vec![first, second];
        }
        5 => draft.dependencies.insert(place, [0; DIGEST]),
        6 => draft.dependencies = vec![id_where(random, graph, |_| true); 63],
        _ => draft.dependencies = vec![id_where(random, graph, |_| true); 64],
    }
}

/// Damages one field of a draft; its layout stays right but for limits.
pub fn damage_field(random: &mut Random, graph: &Graph, draft: &mut Draft, way: usize) {
    match way % FIELD_WAYS {
        way @ 0..8 => damage_ends(random, graph, draft, way),
        way @ 8..16 => damage_link(random, graph, draft, way - 8),
        way => damage_dependencies(random, graph, draft, way - 16),
    }
}

/// A sound draft with one or two damaged fields.
pub fn damaged_draft(random: &mut Random, graph: &Graph, sound: &Draft) -> Draft {
    let mut draft = sound.clone();
    for _ in 0..random.pick(&[1, 1, 2]) {
        let way = random.below(FIELD_WAYS);
        damage_field(random, graph, &mut draft, way);
    }
    draft
}

/// Writes the true length into the length field of an item.
pub fn set_true_length(item: &mut [u8]) {
    let length = (item.len() - 4) as u32;
    item[..4].copy_from_slice(&length.to_le_bytes());
}

/// Changes a number of 2 or 4 bytes in an item: to one near it, or to one of some values.
fn change_number(random: &mut Random, item: &mut [u8], place: usize, bytes: usize, values: &[u32]) {
    let Some(field) = item.get_mut(place..place + bytes) else {
        return;
    };
    let mut old = [0; 4];
    old[..bytes].copy_from_slice(field);
    let step = random.pick(&[1, u32::MAX, 32, u32::MAX - 31]);
    let near = u32::from_le_bytes(old).wrapping_add(step);
    let new = if random.chance(50) {
        near
    } else {
        random.pick(values)
    };
    field.copy_from_slice(&new.to_le_bytes()[..bytes]);
}

/// Damages the layout of an item; its length field is true afterwards.
pub fn damage_layout(random: &mut Random, item: &mut Vec<u8>, way: usize) {
    let payload = u32::from_le_bytes(std::array::from_fn(|i| item[PAYLOAD_LENGTH_AT + i])) as usize;
    match way % LAYOUT_WAYS {
        0 => change_number(random, item, 4, 2, &[0, 2, 3, 256, 257, 65535]),
        1 => change_number(
            random,
            item,
            PAYLOAD_LENGTH_AT,
            4,
            &[0, 4096, 4097, 65536, u32::MAX, u32::MAX - 138],
        ),
        2 => change_number(
            random,
            item,
            PAYLOAD_LENGTH_AT + 4 + payload,
            2,
            &[0, 1, 63, 64, 256, 65535],
        ),
        3 => item.truncate(random.between(4, item.len())),
        _ => {
            let extra = random.pick(&[1, 2, 31, 32, 64]);
            item.extend(random.bytes(extra));
        }
    }
    set_true_length(item);
}

/// Damages the length field of an item, or cuts or extends it against its length.
pub fn damage_length(random: &mut Random, item: &mut Vec<u8>) {
    match random.below(4) {
        0 => item.truncate(random.between(0, item.len())),
        1 => {
            let extra = random.between(1, 40);
            item.extend(random.bytes(extra));
        }
        2 => change_number(random, item, 0, 4, &[0, 1, 2, 3, 139, 140, 141]),
        _ => {
            let length = random.pick(&[6252, 6253, 6254, 6255, 65536, u32::MAX - 3, u32::MAX]);
            item.resize(4.max(item.len()), 0);
            item[..4].copy_from_slice(&u32::to_le_bytes(length));
        }
    }
}
