//! What the program `intake` must print.

use std::fmt::Write;

use crate::admission::admit;
use crate::item::{number4, LENGTH_LIMIT};
use crate::states::state_of_set;
use crate::store::{Graph, Store};

/// The next item cut from the input, and whether the intake goes on after it.
fn cut(input: &[u8]) -> (&[u8], bool) {
    if input.len() < 4 {
        return (input, false);
    }
    let length = number4(input) as usize;
    if length > LENGTH_LIMIT || input.len() < 4 + length {
        return (input, false);
    }
    (&input[..4 + length], true)
}

/// The items of a stretch: each cut at its length, the last one all that is left where it is not whole.
pub fn items_of(stretch: &[u8]) -> Vec<&[u8]> {
    let mut items = Vec::new();
    let mut rest = stretch;
    while !rest.is_empty() {
        let (item, goes_on) = cut(rest);
        items.push(item);
        rest = if goes_on { &rest[item.len()..] } else { &[] };
    }
    items
}

/// The lines of the authors: each has the state of the set of all its rows.
fn author_lines(graph: &Graph) -> String {
    let mut lines = String::from("author phase last low high\n");
    for author in 1..=graph.keys.len() as u16 {
        let rows = graph.rows_of(author).into_iter().collect();
        let [author, phase, last, low, high] = state_of_set(graph, author, &rows).numbers();
        let word = if phase == 1 { "forked" } else { "growing" };
        let _ = writeln!(lines, "{author} {word} {last} {low} {high}");
    }
    lines
}

/// The whole output of an intake.
pub fn run(input: &[u8]) -> String {
    let mut store = Store::empty();
    let mut lines = String::from("item answer row\n");
    for (place, item) in items_of(input).into_iter().enumerate() {
        let (answer, row) = admit(&mut store, item, 0);
        let _ = writeln!(lines, "{} {answer} {row}", place + 1);
    }
    lines + &author_lines(&store.judged().unwrap_or_default())
}
