//! Parts lent wrongly to the calls of document 02: an item that is written, a salvage, the desk.

use crate::calls::*;
use crate::desk::{Desk, COMPONENTS};
use crate::guard::*;
use crate::plans::{Draft, Plan};
use crate::random::Random;
use crate::sha256::DIGEST;
use crate::store::{Graph, Store};
use crate::tables::{laid_out, Room};
use crate::writing::{Fields, SIGNATURE};

/// The parts that the writing of an item is lent: with the element on the guard each has its full
/// length.
pub fn tries_on_writing(begins: bool) -> Vec<Try> {
    let full = Fields {
        key: vec![1; DIGEST],
        previous: vec![2; DIGEST],
        payload: vec![3; 5],
        dependencies: vec![4; 2 * DIGEST],
        signature: vec![5; SIGNATURE],
        ..Fields::default()
    };
    let room = full.item().len();
    let reaching = |part| {
        let mut fields = full.clone();
        let cut_part = match part {
            "key" => &mut fields.key,
            "previous" => &mut fields.previous,
            "payload" => &mut fields.payload,
            "dependencies" => &mut fields.dependencies,
            _ => &mut fields.signature,
        };
        *cut_part = cut(cut_part, begins);
        Try::new(
            REACHING,
            part,
            script_of(&Store::empty(), &write_item(room, &fields)),
        )
    };
    let on_room = |how, room| {
        let script = script_of(&Store::empty(), &write_item(room, &full));
        Try::new(how, "room", script)
    };
    ["key", "previous", "payload", "dependencies", "signature"]
        .into_iter()
        .map(reaching)
        .chain([on_room(REACHING, room - 1), on_room(SEALED, room)])
        .collect()
}

/// The parts that a salvage is lent beside the store: a stick of one item that is kept.
pub fn tries_on_salvage(begins: bool) -> Vec<Try> {
    let random = &mut Random::new(3);
    let stick = Draft::any(random, &Graph::default()).item();
    let bytes = stick.len();
    let try_of = |how, part, call: Vec<u8>| Try::new(how, part, script_of(&Store::empty(), &call));
    vec![
        try_of(REACHING, "stick", salvage(bytes, 2, &cut(&stick, begins))),
        try_of(REACHING, "clean", salvage(bytes - 1, 2, &stick)),
        try_of(REACHING, "list", salvage(bytes, 1, &stick)),
        try_of(SEALED, "clean", salvage(bytes, 2, &stick)),
        try_of(SEALED, "list", salvage(bytes, 2, &stick)),
        try_of(SEALED, "origins", salvage(bytes, 2, &stick)),
    ]
}

/// The desk's parts: a question reads every byte and owner and the component of its owner's row, an admission
/// writes the last place of each column.
pub fn tries_on_desk(begins: bool) -> Vec<Try> {
    let random = &mut Random::new(4);
    let graph = two_rows();
    let store = laid_out(random, &graph, Room::AtLimit);
    let whole = Desk {
        components: vec![1; 3],
        expanded: vec![0; 3],
        owners: vec![if begins { 1 } else { 2 }; COMPONENTS],
    };
    let mut draft = Draft::of_plan(random, &graph, &Plan::first_of(3), 0);
    draft.payload = vec![1, 0, 1];
    let admit = release_in(0, &draft.item());
    let row = whole.owners[0];
    let ask = ask_release(1, &[row, 0, row, 0, 0]);
    let script = |desk: &Desk, call: &[u8]| {
        let mut script = Script::new();
        script.call(&load(&store));
        script.call(&load_desk(desk));
        script.call(call);
        script.bytes
    };
    let mut rows_only = whole.clone();
    rows_only.components.truncate(2);
    rows_only.expanded.truncate(2);
    let mut tries = Vec::new();
    for part in ["components", "expanded", "owners"] {
        let mut desk = rows_only.clone();
        match part {
            "components" => desk.components = cut(&desk.components, begins),
            "expanded" => desk.expanded = cut(&desk.expanded, begins),
            _ => desk.owners = cut(&desk.owners, begins),
        }
        tries.push(Try::new(REACHING, part, script(&desk, &ask)));
    }
    for part in ["components", "expanded"] {
        tries.push(Try::new(SEALED, part, script(&whole, &admit)));
        if !begins {
            let mut desk = whole.clone();
            match part {
                "components" => desk.components.truncate(2),
                _ => desk.expanded.truncate(2),
            }
            tries.push(Try::new(REACHING, part, script(&desk, &admit)));
        }
    }
    tries
}
