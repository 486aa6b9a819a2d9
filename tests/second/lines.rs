//! The lines that replay prints.

use std::fmt::Write;

use crate::answers::{Answer, DONE};
use crate::item::{read, BODY_AT, PAYLOAD_AT};
use crate::sha256::hex;
use crate::states::LogState;

/// An answer and its value, which a refusal replaces.
pub fn apart<R>(result: Result<R, Answer>, refused: R) -> (Answer, R) {
    match result {
        Ok(value) => (DONE, value),
        Err(answer) => (answer, refused),
    }
}

/// The line of a call that answers yes or no: 0 on a refusal.
pub fn choice_line(word: &str, result: Result<bool, Answer>) -> String {
    let (answer, yes) = apart(result, false);
    format!("{word} {answer} {}", yes as u16)
}

/// The line of a call that gives a state: five 0 on a refusal.
pub fn state_line(word: &str, result: Result<LogState, Answer>) -> String {
    let (answer, [author, phase, last, low, high]) =
        apart(result.map(|state| state.numbers()), [0; 5]);
    format!("{word} {answer} {author} {phase} {last} {low} {high}")
}

/// The line of a call that writes into a room, with all numbers of the room.
pub fn room_line(word: &str, result: Result<usize, Answer>, room: &[u16]) -> String {
    let (answer, count) = apart(result, 0);
    let mut line = format!("{word} {answer} {count}");
    for number in room {
        let _ = write!(line, " {number}");
    }
    line
}

/// Operation 12: the payload of an item, with the layout's answer.
pub fn payload_line(record: &[u8]) -> String {
    let (answer, payload) = apart(read(record).map(|item| item.payload), &[]);
    let shown = if payload.is_empty() {
        "-".into()
    } else {
        hex(payload)
    };
    format!("payload {answer} {} {shown}", payload.len())
}

/// Operation 13: the id of an item, with the layout's answer.
pub fn id_line(record: &[u8]) -> String {
    let (answer, id) = apart(read(record).map(|item| hex(&item.id)), "-".into());
    format!("id {answer} {id}")
}

/// Operation 40: the fields of an item: mark, index, the place and length of the payload, the place
/// and number of the dependencies.
pub fn layout_line(record: &[u8]) -> String {
    let fields = read(record).map(|item| {
        let payload = BODY_AT + PAYLOAD_AT;
        let size = item.payload.len();
        let count = item.dependencies.len();
        let (mark, index) = (item.mark as usize, item.index as usize);
        [mark, index, payload, size, payload + size + 2, count]
    });
    let (answer, [mark, index, payload, size, dependencies, count]) = apart(fields, [0; 6]);
    format!("layout {answer} {mark} {index} {payload} {size} {dependencies} {count}")
}
