//! The catalogue's rule M7, from its words in document 02: every two rows of a log, one before the other,
//! are compared.

use std::collections::BTreeSet;

use crate::admission::{admit_under, NewRow};
use crate::answers::{Answer, BACKSTEP};
use crate::arguments::Arguments;
use crate::item::Item;
use crate::lines::{apart, choice_line};
use crate::replay::Replay;
use crate::states::history;
use crate::store::{Graph, Store};

/// For each row in turn the rows that happened before it: those one step back, and what happened before
/// them.
fn happened_before(graph: &Graph) -> Vec<BTreeSet<u16>> {
    let mut before: Vec<BTreeSet<u16>> = Vec::new();
    for message in &graph.messages {
        let mut own = BTreeSet::new();
        let previous = Some(message.previous).filter(|&row| row != 0);
        for row in message.dependencies.iter().copied().chain(previous) {
            own.insert(row);
            own.extend(&before[row as usize - 1]);
        }
        before.push(own);
    }
    before
}

/// The earlier rows that a message, given by its previous row and its dependencies, breaks M7 against,
/// rising: both depend on messages of one author, and the earlier dependency is neither the later one nor
/// happened before it.
fn broken_against(
    graph: &Graph,
    before: &[BTreeSet<u16>],
    previous: u16,
    dependencies: &[u16],
) -> Vec<u16> {
    let steps_back = |&old: &u16, &new: &u16| {
        let alike = graph.author_of(old) == graph.author_of(new);
        alike && old != new && !before[new as usize - 1].contains(&old)
    };
    let breaks = |&row: &u16| {
        let earlier = &graph.message(row).dependencies;
        earlier
            .iter()
            .any(|old| dependencies.iter().any(|new| steps_back(old, new)))
    };
    history(graph, previous)
        .into_iter()
        .filter(breaks)
        .collect()
}

/// The lowest row that breaks M7 and the latest earlier row that it breaks it against, where one does.
pub fn backstep(graph: &Graph) -> Option<(u16, u16)> {
    let before = happened_before(graph);
    graph.rows().find_map(|row| {
        let message = graph.message(row);
        let against = broken_against(graph, &before, message.previous, &message.dependencies);
        against.last().map(|&earlier| (row, earlier))
    })
}

/// Whether one more message keeps M7.
pub fn keeps(graph: &Graph, previous: u16, dependencies: &[u16]) -> bool {
    broken_against(graph, &happened_before(graph), previous, dependencies).is_empty()
}

/// A catalogue admission: BACKSTEP for a store that breaks M7, straight after 1, and for a message that
/// would, after 15 and before 16.
pub fn admit(store: &mut Store, record: &[u8], origin: u8) -> (Answer, u16) {
    let held = store.judged_with_origins();
    if held.is_some_and(|graph| backstep(&graph).is_some()) {
        return (BACKSTEP, 0);
    }
    let steady = |graph: &Graph, _: &Item, new: &NewRow| {
        let kept = keeps(graph, new.previous, &new.dependencies);
        kept.then_some(()).ok_or(BACKSTEP)
    };
    admit_under(store, record, origin, steady, usize::MAX)
}

impl Replay {
    /// Operation 20: whether the store keeps M7.
    pub fn steady(&self, arguments: Arguments) -> Option<String> {
        arguments.end()?;
        let result = self.on_graph(|graph| Ok(backstep(graph).is_none()));
        Some(choice_line("steady", result))
    }

    /// Operation 21: the row that breaks M7, and the one against which.
    pub fn backstep(&self, arguments: Arguments) -> Option<String> {
        arguments.end()?;
        let result = self.on_graph(|graph| Ok(backstep(graph).unwrap_or((0, 0))));
        let (answer, (row, earlier)) = apart(result, (0, 0));
        Some(format!("backstep {answer} {row} {earlier}"))
    }

    /// Operation 22: a catalogue admission.
    pub fn catalogue(&mut self, mut arguments: Arguments) -> Option<String> {
        let origin = arguments.bytes(1)?[0];
        let (answer, row) = admit(&mut self.store, arguments.rest(), origin);
        Some(format!("catalogue {answer} {row}"))
    }
}
