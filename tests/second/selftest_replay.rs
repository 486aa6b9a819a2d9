//! The second program's own checks of replay's calls: lines worked out by hand, and the limits.

use crate::admission::admit;
use crate::answers::{DONE, FLAG, FULL, ROOM, SHORT, SIZE};
use crate::arguments::CALL_LIMIT;
use crate::random::Random;
use crate::replay::Replay;
use crate::selftest::{sample_chain, Checks};
use crate::sha256::DIGEST;
use crate::store::{Store, AUTHORS_LIMIT};
use crate::tables::{laid_out, Room};
use crate::writing::{Fields, SIGNATURE};
use crate::{calls, item, make_replay, replay};

/// Calls on the sample chain.
pub fn check_calls(checks: &mut Checks) {
    let mut replay = Replay::new();
    let store = laid_out(&mut Random::new(2), &sample_chain(), Room::Exact);
    let pack = calls::on_frontiers(11, Some(6), &[&[2, 0, 8, 0, 0]]);
    let mut id = [0; DIGEST];
    id[0] = 4;
    for (call, line) in [
        (calls::load(&store), "load"),
        (vec![4], "check 0"),
        (vec![4, 0], "bad"),
        (vec![], "bad"),
        (vec![14], "bad"),
        (calls::with_numbers(5, &[9, 6]), "prefix 0 2 9 4"),
        (calls::with_numbers(5, &[6, 2]), "prefix 0 2 4 0"),
        (calls::with_numbers(5, &[10, 6]), "prefix 0 0 10 1"),
        (calls::with_numbers(5, &[0, 9]), "prefix 0 0 0 1"),
        (calls::with_numbers(5, &[9, 5]), "prefix 19 0 0 0"),
        (calls::append(&[1, 0, 3, 0, 0], 4), "append 0 1 1 2 3 4"),
        (calls::append(&[1, 2, 3, 0, 0], 4), "append 17 0 0 0 0 0"),
        (calls::append(&[1, 0, 3, 0, 4], 4), "append 17 0 0 0 0 0"),
        (pack.clone(), "pack 0 5 1 2 3 5 8 61166"),
        (
            calls::on_frontiers(11, Some(5), &[&[1, 1, 2, 3, 4]]),
            "pack 0 4 1 2 3 4 61166",
        ),
        (
            calls::on_frontiers(11, Some(3), &[&[1, 1, 2, 3, 4]]),
            "pack 21 0 61166 61166 61166",
        ),
        (
            calls::branches(7, &[1, 1, 2, 3, 4]),
            "branches 0 6 9 9 3 3 6 4 61166",
        ),
        (
            calls::branches(8, &[1, 1, 1, 2, 7]),
            "branches 0 8 9 2 3 2 6 2 7 7",
        ),
        (
            calls::branches(10, &[1, 1, 0, 1, 10]),
            "branches 0 10 9 1 3 1 6 1 7 1 10 10",
        ),
        (
            calls::branches(3, &[1, 1, 2, 3, 4]),
            "branches 21 0 61166 61166 61166",
        ),
        (calls::branches(1, &[1, 0, 6, 0, 0]), "branches 24 0 61166"),
        (calls::branches(1, &[1, 1, 2, 4, 3]), "branches 17 0 61166"),
        (calls::find(41, 10, &id), "find-id 6"),
        (calls::find(41, 5, &id), "find-id 0"),
        (calls::find(41, usize::MAX, &id), "find-id 6"),
        (calls::find(42, 2, &[2; DIGEST]), "find-key 2"),
        (
            calls::on_frontiers(44, None, &[&[1, 1, 2, 3, 4]]),
            "fvalid 0 1",
        ),
        (
            calls::on_frontiers(44, None, &[&[1, 1, 2, 4, 3]]),
            "fvalid 0 0",
        ),
        (
            calls::append_entry(9, 5, &[1, 1, 2, 3, 4, 7]),
            "fappend 0 5 1 1 2 9 3 7",
        ),
        (
            calls::append_entry(8, 5, &[1, 1, 2, 3, 4, 7]),
            "fappend 21 0 1 1 2 3 4 7",
        ),
        (
            calls::append_entry(11, 5, &[1, 1, 2, 3, 4, 7]),
            "fappend 19 0 1 1 2 3 4 7",
        ),
        (
            calls::append_entry(9, 7, &[1, 1, 2, 3, 4, 7]),
            "fappend 20 0 1 1 2 3 4 7",
        ),
        (calls::set_counts([10, 2, 2]), "counts"),
        (pack, "pack 1 0 61166 61166 61166 61166 61166 61166"),
        (calls::set_counts([1 << 32 | 10, 2, 1]), "counts"),
        (vec![4], "check 1"),
    ] {
        checks.check(line, replay.call(&call) == line);
    }
}

/// Calls on items: document 01's third item, in an intake and by itself.
pub fn check_items(checks: &mut Checks) {
    let mut replay = Replay::new();
    let mut item = vec![0; 145];
    (item[0], item[4], item[6], item[71]) = (141, 1, 1, 1);
    let intake = [&[7, 7], &item[..], &[7]].concat();
    for (call, line) in [
        (calls::with_bytes(40, &item), "layout 0 1 1 79 0 81 0"),
        (calls::with_bytes(40, &item[..144]), "layout 2 0 0 0 0 0 0"),
        (calls::with_bytes(12, &item), "payload 0 0 -"),
        (
            calls::with_bytes(13, &item),
            "id 0 0442a4e406f3c57e9dc714ec57e0e2e5402ca424e5d06661c311354a1725fc15",
        ),
        (calls::with_bytes(13, &intake), "id 3 -"),
        (calls::admit_at(0, 2, 146, &intake), "admit-at 2 0"),
        (calls::admit_at(0, 147, 2, &intake), "admit-at 2 0"),
        (calls::admit_at(0, 2, usize::MAX, &intake), "admit-at 4 0"),
        (calls::admit_at(9, 2, 147, &intake), "admit-at 0 1"),
        (calls::with_bytes(1, &item), "admit 8 1"),
        (calls::with_numbers(15, &[1]), "origin 0 9"),
        (calls::with_bytes(1, &vec![0; CALL_LIMIT - 1]), "admit 2 0"),
        (calls::with_bytes(1, &vec![0; CALL_LIMIT]), "bad"),
    ] {
        checks.check(line, replay.call(&call) == line);
    }
}

/// An item that is written: read, it gives the fields; each refusal before the next, and the room it leaves.
pub fn check_writing(checks: &mut Checks) {
    let fields = Fields {
        mark: 1,
        index: 70_000,
        key: vec![1; DIGEST],
        previous: vec![2; DIGEST],
        payload: vec![3; 5],
        dependencies: [vec![4; DIGEST], vec![5; DIGEST]].concat(),
        signature: vec![6; SIGNATURE],
    };
    let mut room = vec![238; 216];
    checks.check("an item is written", fields.write(&mut room) == Ok(214));
    checks.check("the bytes after it stay", room[214..] == [238, 238]);
    let same = item::read(&room[..214]).is_ok_and(|item| {
        item.mark == 1
            && item.index == 70_000
            && item.key == fields.key
            && item.previous == fields.previous
            && item.payload == fields.payload
            && item.dependencies.concat() == fields.dependencies
            && room[150..214] == fields.signature
    });
    checks.check("its fields are read back", same);
    let mut wrong = fields.clone();
    let mut refused = |change: fn(&mut Fields), answer| {
        change(&mut wrong);
        let mut room = vec![238; 100];
        let given = wrong.write(&mut room);
        checks.check(
            "a refusal in its order",
            given == Err(answer) && room == [238; 100],
        );
    };
    refused(|_| (), ROOM);
    refused(|fields| fields.mark = 2, FLAG);
    refused(|fields| fields.dependencies = vec![4; 64 * DIGEST], SIZE);
    refused(|fields| fields.dependencies.push(4), SHORT);
}

/// A part of four times its limit is loaded, and one with an element more is not.
pub fn check_parts(checks: &mut Checks) {
    let mut replay = Replay::new();
    let longest = [8192, 131072, 16384, 16384, 4352, 4096];
    for (place, longest) in longest.into_iter().enumerate() {
        for (length, line) in [(longest, "load"), (longest + 1, "bad")] {
            let mut store = Store::empty();
            match place {
                0 => store.keys.resize(length, 0),
                1 => store.ids.resize(length, 0),
                2 => store.rows.resize(length, 0),
                3 => store.deps.resize(length, 0),
                4 => store.branches.resize(length, 0),
                _ => store.origins.resize(length, 0),
            }
            let printed = replay.call(&calls::load(&store));
            checks.check("four times a limit", printed == line);
        }
    }
}

/// Origins: kept from the first admission, a limit for FULL, and fewer than the rows are STORE for an
/// admission and a report alone.
pub fn check_origins(checks: &mut Checks) {
    let mut replay = Replay::new();
    let mut store = laid_out(&mut Random::new(4), &sample_chain(), Room::AtLimit);
    store.origins = vec![1, 1, 1, 2, 2, 2, 1, 2, 3, 255, 7];
    let mut item = vec![0; 145];
    (item[0], item[4], item[6], item[71]) = (141, 1, 1, 1);
    let ask = |row| calls::with_numbers(15, &[row]);
    let mut lines = |store: &Store, said: &[(Vec<u8>, &str)]| {
        replay.call(&calls::load(store));
        for (call, line) in said {
            checks.check(line, replay.call(call) == *line);
        }
    };
    lines(
        &store,
        &[
            (ask(3), "origin 0 1"),
            (ask(10), "origin 0 255"),
            (ask(0), "origin 19 0"),
            (ask(11), "origin 19 0"),
            (calls::admit_from(200, &item), "admit 0 11"),
            (ask(11), "origin 0 200"),
            (calls::admit_from(5, &item), "admit 8 11"),
            (ask(11), "origin 0 200"),
            (ask(10), "origin 0 255"),
        ],
    );
    store.origins.truncate(10);
    let full = (calls::admit_from(200, &item), "admit 16 0");
    lines(&store, &[full, (ask(10), "origin 0 255")]);
    store.origins.truncate(9);
    lines(
        &store,
        &[
            (vec![4], "check 0"),
            (calls::admit_from(200, &item), "admit 1 0"),
            (ask(3), "origin 1 0"),
            (ask(0), "origin 1 0"),
        ],
    );
}

/// The numbers of branches: those of the sample chain by hand, each held to the rows; and a part that
/// is too short for one more row.
pub fn check_branches(checks: &mut Checks) {
    let numbers = (vec![2, 1], vec![2, 3, 0, 1, 1, 0, 0, 0, 0, 0]);
    checks.check("the sample's numbers", sample_chain().branches() == numbers);
    let mut store = laid_out(&mut Random::new(3), &sample_chain(), Room::AtLimit);
    for place in 0..store.branches.len() {
        let within = place < 2 || (AUTHORS_LIMIT..AUTHORS_LIMIT + 10).contains(&place);
        store.branches[place] ^= 1;
        checks.check("a wrong number", store.judged().is_none() == within);
        store.branches[place] ^= 1;
    }
    let mut item = vec![0; 145];
    (item[0], item[4], item[6], item[71]) = (141, 1, 1, 1);
    store.branches.truncate(AUTHORS_LIMIT + 10);
    checks.check("no number more", admit(&mut store, &item, 0) == (FULL, 0));
    store.branches.extend([9, 9]);
    store.branches[2] = 9;
    checks.check("a number more", admit(&mut store, &item, 0) == (DONE, 11));
    let written = (store.branches[2], &store.branches[AUTHORS_LIMIT + 10..]);
    checks.check("its numbers", written == (1, &[0, 9]));
    store.branches.truncate(AUTHORS_LIMIT + 10);
    checks.check("a number too few", store.judged().is_none());
    let empty = Store {
        branches: Vec::new(),
        ..Store::empty()
    };
    checks.check("an empty store has no numbers", empty.judged().is_some());
}

/// The last row, author, dependency place, payload byte and dependency of an item are taken, and
/// one more of each is refused: the scripts that try the limits show it.
pub fn check_limits(checks: &mut Checks) {
    let lines_of = |seed| replay::run(&make_replay::make(seed));
    let rows = lines_of(59);
    checks.check(
        "row 1,024",
        rows.starts_with("load\nadmit 0 1024\nadmit 16 0\n"),
    );
    let authors = lines_of(21);
    checks.check(
        "author 64",
        authors.starts_with("load\nadmit 0 64\nadmit 16 0\n"),
    );
    let dependencies = lines_of(159);
    checks.check(
        "one dependency more",
        dependencies.contains("\nadmit 16 0\n"),
    );
    checks.check("dependency place 4,096", dependencies.contains(" 64 4096 "));
    let items = lines_of(46);
    let answers: Vec<&str> = items.lines().skip(1).take(5).collect();
    let expected = [
        "admit 0 65",
        "admit 0 66",
        "admit 0 67",
        "admit 3 0",
        "admit 3 0",
    ];
    checks.check("payload 4,096 and 63 dependencies", answers == expected);
    checks.check("64 dependencies", items.lines().nth(7) == Some("admit 3 0"));
}
