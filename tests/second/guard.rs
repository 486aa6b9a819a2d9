//! Shows that the memory which replay lends is guarded: a part that is said to have one element
//! more than it has, and one that is written though it is lent for reading only, each end the
//! program by a signal, whether parts end or begin at a guard.

use std::os::unix::process::ExitStatusExt;
use std::process::ExitStatus;

use crate::calls::*;
use crate::compare::run;
use crate::guard_more::{tries_on_desk, tries_on_salvage, tries_on_writing};
use crate::plans::{Draft, Plan};
use crate::random::Random;
use crate::replay;
use crate::sending::{item_of, sent};
use crate::sha256::DIGEST;
use crate::store::{Graph, Store};
use crate::tables::{laid_out, Room};

/// The signals of an access to memory that may not be touched: SIGSEGV and SIGBUS.
const SIGNALS: [i32; 2] = [11, 7];

/// The word of replay that lends a part as one element longer than it is.
pub const REACHING: &str = "--reaching";
/// The word of replay that leaves a part read-only where it is written.
pub const SEALED: &str = "--sealed";

/// One try: how a part is lent wrongly, which, and a script whose last call meets it.
pub struct Try {
    how: &'static str,
    part: &'static str,
    script: Vec<u8>,
}

impl Try {
    /// A try.
    pub fn new(how: &'static str, part: &'static str, script: Vec<u8>) -> Try {
        Try { how, part, script }
    }
}

/// Two authors with one message each; the second depends on the first. Keys and ids differ in their
/// last byte alone, so that whoever compares them reads it.
pub fn two_rows() -> Graph {
    let mut graph = Graph::default();
    for author in 1..=2 {
        let mut name = [7; DIGEST];
        name[DIGEST - 1] = author as u8;
        let dependencies = (1..author).collect();
        let plan = Plan {
            author,
            previous: 0,
            dependencies,
        };
        plan.add(&mut graph, name, name);
    }
    graph
}

/// A list without the element that is to lie on the guard: its first, or its last.
pub fn cut<T: Clone>(list: &[T], begins: bool) -> Vec<T> {
    let (first, last) = (begins as usize, !begins as usize);
    list[first..list.len() - last].to_vec()
}

/// A store with a part that lacks the element which is to lie on the guard.
fn with_cut(store: &Store, part: &str, begins: bool) -> Store {
    let mut store = store.clone();
    match part {
        "keys" => store.keys = cut(&store.keys, begins),
        "ids" => store.ids = cut(&store.ids, begins),
        "rows" => store.rows = cut(&store.rows, begins),
        "deps" => store.deps = cut(&store.deps, begins),
        "branches" => store.branches = cut(&store.branches, begins),
        _ => store.origins = cut(&store.origins, begins),
    }
    store
}

/// The script of a load and one more call.
pub fn script_of(store: &Store, call: &[u8]) -> Vec<u8> {
    let mut script = Script::new();
    script.call(&load(store));
    script.call(call);
    script.bytes
}

/// The store's parts: a check reads every element, an admission writes the last ones.
fn tries_on_store(begins: bool) -> Vec<Try> {
    let random = &mut Random::new(1);
    let graph = two_rows();
    let whole = laid_out(random, &graph, Room::Exact);
    let mut first = graph.clone();
    first.messages.truncate(1);
    first.keys.truncate(1);
    let mut before = whole.clone();
    (before.row_count, before.author_count, before.dep_count) = (1, 1, 0);
    let plan = Plan {
        author: 2,
        previous: 0,
        dependencies: vec![1],
    };
    let item = Draft::of_plan(random, &first, &plan, 0).item();
    let (admit, take_in) = (with_bytes(1, &item), batch(0, 2, &item));
    let tries_on = |part| {
        let cut_whole = with_cut(&whole, part, begins);
        let cut_before = with_cut(&before, part, begins);
        [
            Try::new(REACHING, part, script_of(&cut_whole, &[4])),
            Try::new(REACHING, part, script_of(&cut_before, &admit)),
            Try::new(SEALED, part, script_of(&before, &admit)),
            Try::new(SEALED, part, script_of(&before, &take_in)),
        ]
    };
    ["keys", "ids", "rows", "deps", "branches"]
        .into_iter()
        .flat_map(tries_on)
        .chain(tries_on_origins(&whole, &before, &admit, begins))
        .collect()
}

/// The origins of a store: a report reads the one of its row, and an admission writes the new one.
fn tries_on_origins(whole: &Store, before: &Store, admit: &[u8], begins: bool) -> Vec<Try> {
    let part = "origins";
    let report = with_numbers(15, &[if begins { 1 } else { 2 }]);
    let cut_whole = with_cut(whole, part, begins);
    let mut tries = vec![
        Try::new(REACHING, part, script_of(&cut_whole, &report)),
        Try::new(SEALED, part, script_of(before, admit)),
    ];
    if !begins {
        let cut_before = with_cut(before, part, begins);
        tries.push(Try::new(REACHING, part, script_of(&cut_before, admit)));
    }
    tries
}

/// The parts that a call is lent beside the store.
fn tries_on_arguments(begins: bool) -> Vec<Try> {
    let random = &mut Random::new(2);
    let graph = two_rows();
    let store = laid_out(random, &graph, Room::Exact);
    let item = Draft::any(random, &graph).item();
    let short = cut(&item, begins);
    let entry: &[u16] = &[1, 0, 1, 0, 0];
    let cut_entry: &[u16] = &cut(entry, begins);
    let sent_one = item_of(&sent(&graph, entry).unwrap_or_default());
    // Lent one byte further on, its first 31 bytes are those of both names.
    let mut name = [7; DIGEST];
    name[0] = 9;
    let reaching = |part, call: Vec<u8>| Try::new(REACHING, part, script_of(&store, &call));
    let sealed = |part, call: Vec<u8>| Try::new(SEALED, part, script_of(&store, &call));
    vec![
        reaching("item", with_bytes(13, &short)),
        reaching("item", with_bytes(1, &short)),
        reaching("intake", admit_at(0, 0, item.len(), &short)),
        reaching("stretch", batch(0, 2, &short)),
        reaching("room", batch(0, 1, &item)),
        sealed("room", batch(0, 2, &item)),
        reaching("id", with_bytes(13, &item)),
        reaching("id", find(41, 2, &name)),
        reaching("key", find(42, 2, &name)),
        reaching("f", on_frontiers(44, None, &[cut_entry])),
        reaching("f", on_frontiers(11, Some(5), &[cut_entry])),
        reaching("g", on_frontiers(10, None, &[entry, cut_entry])),
        reaching("room", on_frontiers(9, Some(4), &[entry, entry])),
        reaching("room", on_frontiers(11, Some(0), &[entry])),
        reaching("list", append_entry(1, 0, cut_entry)),
        reaching("f", standing(138, cut_entry)),
        reaching("room", standing(137, entry)),
        reaching("item", read_standing(5, &cut(&sent_one, begins))),
        reaching("room", read_standing(4, &sent_one)),
        sealed("id", with_bytes(13, &item)),
        sealed("room", on_frontiers(9, Some(5), &[entry, entry])),
        sealed("room", on_frontiers(11, Some(1), &[entry])),
        sealed("list", append_entry(1, 0, entry)),
        sealed("room", standing(138, entry)),
        sealed("room", read_standing(5, &sent_one)),
    ]
}

/// A program was stopped by the guard: by its signal, or by a status that stands for it.
fn stopped(status: ExitStatus) -> bool {
    let stands_for = |&signal: &i32| status.code() == Some(128 + signal);
    status
        .signal()
        .is_some_and(|signal| SIGNALS.contains(&signal))
        || SIGNALS.iter().any(stands_for)
}

/// Makes one try: what is wrong, where something is. The same script has to run to its end where
/// nothing is lent wrongly.
fn fault(words: &[String], one: &Try) -> Option<String> {
    let about = format!("{} {}", one.how, one.part);
    let wrongly = [words, &[one.how.into(), one.part.into()]].concat();
    match (run(words, &one.script), run(&wrongly, &one.script)) {
        (Ok((printed, status)), Ok((_, ended))) => {
            if !status.success() || printed != replay::run(&one.script).as_bytes() {
                return Some(format!("{about}: without it the script does not run"));
            }
            (!stopped(ended)).then(|| format!("{about}: NOT caught, it ended with {ended}"))
        }
        (Err(error), _) | (_, Err(error)) => Some(format!("{about}: {error}")),
    }
}

/// Makes every try at both ends: whether each is caught. Prints what is not.
pub fn guarded(words: &[String]) -> bool {
    let (mut made, mut missed) = (0, 0);
    for (begins, manner) in [(false, None), (true, Some("--begins".to_string()))] {
        let words: Vec<String> = words.iter().cloned().chain(manner).collect();
        for one in tries_on_store(begins)
            .iter()
            .chain(&tries_on_arguments(begins))
            .chain(&tries_on_writing(begins))
            .chain(&tries_on_salvage(begins))
            .chain(&tries_on_desk(begins))
        {
            made += 1;
            if let Some(line) = fault(&words, one) {
                missed += 1;
                println!(
                    "guard, parts that {}: {line}",
                    if begins { "begin" } else { "end" }
                );
            }
        }
    }
    println!("guard: {made} parts lent wrongly, {missed} not caught");
    missed == 0
}
