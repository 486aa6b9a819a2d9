//! Graphs that break one clause of the well-formed rule and keep all others as far as they can: one
//! link, one dependency or one number is wrong.

use crate::random::Random;
use crate::store::Graph;

/// How many ways there are to damage a graph.
pub const GRAPH_WAYS: usize = 8;

/// One of the rows that the test picks out.
fn row_where(random: &mut Random, graph: &Graph, wanted: impl Fn(u16) -> bool) -> Option<u16> {
    let rows: Vec<u16> = graph.rows().filter(|&row| wanted(row)).collect();
    (!rows.is_empty()).then(|| random.pick(&rows))
}

/// Gives some row one more dependency: an earlier row of an author that it depends on already, or
/// of its own author, or a later row of an author that it does not depend on.
fn add_dependency(random: &mut Random, graph: &mut Graph, way: usize) -> Option<()> {
    let has_some = |row: u16| !graph.message(row).dependencies.is_empty();
    let row = row_where(random, graph, |row| way != 0 || has_some(row))?;
    let message = graph.message(row);
    let authors: Vec<u16> = message
        .dependencies
        .iter()
        .map(|&on| graph.message(on).author)
        .collect();
    let on = match way {
        0 => row_where(random, graph, |on| {
            on < row && graph.message(on).author == authors[0]
        })?,
        1 => row_where(random, graph, |on| {
            on < row && graph.message(on).author == message.author
        })?,
        _ => row_where(random, graph, |on| {
            let author = graph.message(on).author;
            on > row && author != message.author && !authors.contains(&author)
        })?,
    };
    graph.messages[row as usize - 1].dependencies.push(on);
    Some(())
}

/// Hangs some row on another previous row: an earlier row of another author whose index is one
/// less, or one of its own author whose index is not.
fn change_previous(random: &mut Random, graph: &mut Graph, own: bool) -> Option<()> {
    let row = row_where(random, graph, |row| graph.message(row).previous != 0)?;
    let message = graph.message(row);
    let previous = row_where(random, graph, |previous| {
        let other = graph.message(previous);
        let fits = other.index + 1 == message.index;
        previous < row && (other.author == message.author) == own && fits != own
    })?;
    graph.messages[row as usize - 1].previous = previous;
    Some(())
}

/// Swaps the numbers of two authors in all rows.
fn swap_authors(random: &mut Random, graph: &mut Graph) {
    let count = graph.keys.len();
    let (one, other) = (
        random.between(1, count) as u16,
        random.between(1, count) as u16,
    );
    for message in &mut graph.messages {
        if message.author == one {
            message.author = other;
        } else if message.author == other {
            message.author = one;
        }
    }
}

/// Damages a graph that has a row, where it has what the way needs.
pub fn damage_graph(random: &mut Random, graph: &mut Graph, way: usize) {
    let last = graph.messages.len() - 1;
    let place = random.between(0, last);
    match way % GRAPH_WAYS {
        way @ 0..3 => {
            add_dependency(random, graph, way);
        }
        3 => {
            change_previous(random, graph, false);
        }
        4 => {
            change_previous(random, graph, true);
        }
        5 => swap_authors(random, graph),
        6 => graph.messages[place].id = graph.messages[last].id,
        _ => graph.messages[place].index += 1,
    }
}
