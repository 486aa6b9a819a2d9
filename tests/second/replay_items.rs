//! Scripts that are about items: every field and every length of one.

use crate::calls::*;
use crate::damage::*;
use crate::make_replay::load_graph;
use crate::plans::{Draft, Shape};
use crate::random::Random;
use crate::random_calls::*;
use crate::sha256::DIGEST;
use crate::store::Graph;
use crate::tables::*;
use crate::writing::{Fields, SIGNATURE};

/// Items with every field damaged, into stores that hold their ids, so that HELD must come before
/// what follows it, and into stores that do not; and ids that are zero, which are ordinary ids at
/// every index but 1.
pub fn chosen_ids(random: &mut Random, script: &mut Script) {
    let mut graph = load_graph(random, script, Room::Spare);
    let shape = Shape {
        authors: 4,
        fork: 30,
        another_first: 10,
        depend: 60,
    };
    for way in 0..FIELD_WAYS {
        let mut draft = Draft::sound(random, &graph, &shape);
        damage_field(random, &graph, &mut draft, way);
        let place = random.below(graph.messages.len());
        let mut with_id = graph.clone();
        with_id.messages[place].id = draft.id();
        script.call(&load(&laid_out(random, &with_id, Room::Spare)));
        script.call(&admission(random, &draft.item()));
        for _ in 0..2 {
            let mut other = Draft::sound(random, &with_id, &shape);
            damage_field(random, &with_id, &mut other, way);
            script.call(&admission(random, &other.item()));
        }
    }
    let place = random.below(graph.messages.len());
    graph.messages[place].id = [0; DIGEST];
    script.call(&load(&laid_out(random, &graph, Room::AtLimit)));
    for way in [11, 13, 21] {
        let mut draft = Draft::sound(random, &graph, &shape);
        script.call(&with_bytes(1, &draft.item()));
        damage_field(random, &graph, &mut draft, way);
        script.call(&with_bytes(1, &draft.item()));
    }
    let zero_row = &graph.messages[place];
    let key = graph.keys[zero_row.author as usize - 1];
    let sound = Draft::sound(random, &Graph::default(), &shape);
    let next = Draft {
        key,
        index: zero_row.index as u32 + 1,
        ..sound
    };
    script.call(&with_bytes(1, &next.item()));
    script.show();
}

/// An item cut at every place, admitted and read; ids of items with payloads of every length.
pub fn every_length(random: &mut Random, script: &mut Script) {
    let graph = load_graph(random, script, Room::AtLimit);
    let mut draft = Draft::any(random, &graph);
    draft.payload.truncate(5);
    draft.dependencies.truncate(1);
    let whole = draft.item();
    for end in 0..=whole.len() {
        let mut part = whole[..end].to_vec();
        if end >= 4 && random.chance(60) {
            set_true_length(&mut part);
        }
        let call = if random.chance(50) {
            admission(random, &part)
        } else {
            item_call(random, &part)
        };
        script.call(&call);
    }
    for length in 0..130 {
        draft.payload = random.bytes(length);
        script.call(&with_bytes(13, &draft.item()));
    }
    script.show();
}

/// The fields of a draft, as they are handed in.
fn fields_of(draft: &Draft) -> Fields {
    Fields {
        mark: draft.mark,
        index: draft.index,
        key: draft.key.to_vec(),
        previous: draft.previous.to_vec(),
        payload: draft.payload.clone(),
        dependencies: draft.dependencies.concat(),
        signature: draft.signature.clone(),
    }
}

/// Makes one field wrong, or another that is as good.
fn damage_fields(random: &mut Random, fields: &mut Fields) {
    let beside = |random: &mut Random, full: usize| {
        let length = random.pick(&[0, full - 1, full + 1, 2 * full]);
        random.bytes(length)
    };
    match random.below(9) {
        0 => fields.key = beside(random, DIGEST),
        1 => fields.previous = beside(random, DIGEST),
        2 => fields.signature = beside(random, SIGNATURE),
        3 => {
            let ids = random.pick(&[0, 1, 63, 64]) * DIGEST;
            let length = ids + random.pick(&[1, 16, 31]);
            fields.dependencies = random.bytes(length);
        }
        4 => {
            let length = random.pick(&[4095, 4096, 4097, 4098, 65537]);
            fields.payload = random.bytes(length);
        }
        5 => {
            let ids = random.pick(&[1, 62, 63, 64, 65, 256]);
            fields.dependencies = random.bytes(ids * DIGEST);
        }
        6 | 7 => fields.mark = random.pick(&[0, 2, 3, 102, 128, 255]),
        _ => fields.index = random.pick(&[0, 255, 256, 65536, 16777216, u32::MAX]),
    }
}

/// A call that writes an item: its fields sound or damaged, its room exact, too small or larger.
pub fn write_call(random: &mut Random, graph: &Graph) -> Vec<u8> {
    let mut fields = fields_of(&Draft::any(random, graph));
    for _ in 0..random.pick(&[0, 0, 1, 1, 2, 3]) {
        damage_fields(random, &mut fields);
    }
    let needed = fields.item().len();
    let room = match random.below(8) {
        0 | 1 => needed - 1,
        2 => random.between(0, needed),
        3 => needed + random.between(1, 300),
        4 => 6257,
        _ => needed,
    };
    write_item(room, &fields)
}

/// Sound and damaged items, read, admitted and written.
pub fn items(random: &mut Random, script: &mut Script) {
    let graph = load_graph(random, script, Room::Spare);
    for _ in 0..20 {
        let mut item = Draft::any(random, &graph).item();
        let way = random.below(LAYOUT_WAYS);
        match random.below(4) {
            0 => {}
            1 => damage_length(random, &mut item),
            _ => damage_layout(random, &mut item, way),
        }
        for operation in [12, 13, 40, 1] {
            script.call(&with_bytes(operation, &item));
        }
        script.call(&in_intake(random, &item));
        script.call(&write_call(random, &graph));
    }
}
