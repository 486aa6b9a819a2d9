//! The second program's own checks of a whole intake in one call.

use crate::answers::{DONE, FULL, HELD, ROOM, SHORT, SIZE, STORE};
use crate::arguments::NUMBERS_LIMIT;
use crate::batches::take_in;
use crate::intake::items_of;
use crate::replay::Replay;
use crate::selftest::Checks;
use crate::sha256::{hex, sha256};
use crate::store::Store;
use crate::{calls, make_replay, replay};

/// Document 01's five items, one after the other.
fn five_items() -> Vec<u8> {
    let mut items = vec![0; 5 * 145];
    for (item, (mark, index)) in
        items
            .chunks_mut(145)
            .zip([(0, 0), (102, 0), (1, 1), (1, 1), (1, 0)])
    {
        (item[0], item[4], item[6], item[71]) = (141, 1, mark, index);
    }
    items
}

/// What is listed for the five items, the last number untouched.
const LISTED: [u16; 11] = [7, 0, 6, 0, DONE, 1, HELD, 1, 9, 0, 61166];

/// The five items in one call, and the ends of the cutting.
fn check_taking(checks: &mut Checks) {
    let items = five_items();
    let mut store = Store::empty();
    let mut list = [61166; 11];
    let taken = take_in(&mut store, &items, 9, &mut list);
    checks.check("five items in one call", taken == Ok(5) && list == LISTED);
    let kept = store.origins[..2] == [9, 0] && store.row_count == 1;
    checks.check("the origin of its row", kept);
    let mut ends = |stretch: &[u8], answer| {
        let count = items_of(stretch).len();
        let given = take_in(&mut store, stretch, 0, &mut list[..2 * count]);
        let listed = list[2..4] == [answer, 0];
        checks.check("an end of the cutting", given == Ok(2) && listed);
    };
    ends(&items[..289], SHORT);
    ends(&items[..148], SHORT);
    let mut long = items.clone();
    long[145..149].copy_from_slice(&6254_u32.to_le_bytes());
    ends(&long, SIZE);
}

/// Each refusal of the whole call, and a store that is full.
fn check_refusals(checks: &mut Checks) {
    let items = five_items();
    let mut list = [61166; 10];
    let mut store = Store::empty();
    store.rows.clear();
    let taken = take_in(&mut store, &items[290..435], 0, &mut list);
    checks.check("no rows", taken == Ok(1) && list[0] == FULL);
    let refused = take_in(&mut store, &items, 0, &mut list[..9]);
    checks.check("no room", refused == Err(ROOM));
    store.row_count = 1;
    let refused = take_in(&mut store, &items, 0, &mut []);
    checks.check("a damaged store first", refused == Err(STORE));
}

/// The lines of replay: of the five items, of the last rows, of the largest room and of one more.
fn check_lines(checks: &mut Checks) {
    let mut calling = Replay::new();
    let listed = LISTED[..10].iter();
    let bytes: Vec<u8> = listed.flat_map(|number| number.to_le_bytes()).collect();
    let line = format!("batch 0 5 {}", hex(&sha256(&bytes)));
    let printed = calling.call(&calls::batch(9, 10, &five_items()));
    checks.check("the line of a whole intake", printed == line);
    let lines = replay::run(&make_replay::make(109));
    let full = lines.starts_with("load\nbatch 0 5 ") && lines.contains("\ndump 1024 ");
    checks.check("row 1,024 in one call", full);
    let largest = calling.call(&calls::batch(9, NUMBERS_LIMIT, &[]));
    checks.check("the largest room", largest.starts_with("batch 0 0 "));
    let larger = calling.call(&calls::batch(9, NUMBERS_LIMIT + 1, &[]));
    checks.check("one number more", larger == "bad");
}

/// All checks of a whole intake.
pub fn check_batches(checks: &mut Checks) {
    check_taking(checks);
    check_refusals(checks);
    check_lines(checks);
}
