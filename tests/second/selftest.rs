//! The second program's own checks against the documents: published SHA-256 vectors, the sample
//! chain, the program's example, the limits, and laws that hold of every graph.

use std::collections::BTreeSet;

use crate::graphs::random_graph;
use crate::plans::{Plan, Shape};
use crate::random::Random;
use crate::sha256::{hex, sha256, DIGEST};
use crate::standings::valid_state;
use crate::states::*;
use crate::store::Graph;
use crate::tables::{laid_out, Room};
use crate::{answers, frontiers, intake, selftest_batches, selftest_replay, selftest_requests};

/// The checks so far: how many were made, and those that failed.
#[derive(Default)]
pub struct Checks {
    made: usize,
    failed: Vec<String>,
}

impl Checks {
    /// One more check, with what it is about.
    pub fn check(&mut self, about: &str, holds: bool) {
        self.made += 1;
        if !holds {
            self.failed.push(about.into());
        }
    }
}

/// The published vectors: FIPS 180-4's examples, the empty message and a million times "a".
fn check_sha256(checks: &mut Checks) {
    let two_blocks = "abcdbcdecdefdefgefghfghighijhijkijkljklmklmnlmnomnopnopq";
    let four_words = "abcdefghbcdefghicdefghijdefghijkefghijklfghijklmghijklmn\
                      hijklmnoijklmnopjklmnopqklmnopqrlmnopqrsmnopqrstnopqrstu";
    let vectors = [
        (
            String::new(),
            "e3b0c44298fc1c149afbf4c8996fb92427ae41e4649b934ca495991b7852b855",
        ),
        (
            "abc".into(),
            "ba7816bf8f01cfea414140de5dae2223b00361a396177a9cb410ff61f20015ad",
        ),
        (
            two_blocks.into(),
            "248d6a61d20638b8e5c026930c3e6039a33ce45964ff2167f6ecedd419db06c1",
        ),
        (
            four_words.into(),
            "cf5b16a778af8380036ce59e7b0492370b249b11e8f07a51afac45037afee9d1",
        ),
        (
            "a".repeat(1_000_000),
            "cdc76e5c9914fb9281a1c7e284d73e67f1809a48a497200e046d39ccc7112cd0",
        ),
    ];
    for (message, digest) in vectors {
        checks.check(
            "a SHA-256 vector",
            hex(&sha256(message.as_bytes())) == digest,
        );
    }
}

/// Document 01's sample chain.
pub fn sample_chain() -> Graph {
    let mut graph = Graph::default();
    let rows: [(u16, u16, u8); 10] = [
        (1, 0, 7),
        (1, 1, 5),
        (1, 2, 2),
        (1, 2, 3),
        (2, 0, 9),
        (1, 4, 4),
        (1, 1, 6),
        (2, 5, 10),
        (1, 2, 1),
        (1, 0, 8),
    ];
    for (author, previous, first_byte) in rows {
        let dependencies = if first_byte == 9 { vec![3] } else { Vec::new() };
        let mut id = [0; DIGEST];
        id[0] = first_byte;
        let key = [author as u8; DIGEST];
        Plan {
            author,
            previous,
            dependencies,
        }
        .add(&mut graph, id, key);
    }
    graph
}

/// Growing at a row of the sample chain's A.
fn g(last: u16) -> LogState {
    LogState::growing(1, last)
}

/// Forked at a row of the sample chain's A.
fn f(last: u16, low: u16, high: u16) -> LogState {
    LogState {
        author: 1,
        last,
        fork: Some((low, high)),
    }
}

/// The sample chain's merges, order lines, refused states and packing lists.
fn check_sample(checks: &mut Checks) {
    let graph = sample_chain();
    let laid = laid_out(&mut Random::new(1), &graph, Room::Spare);
    checks.check("the sample chain is well formed", laid.judged().is_some());
    let merges = [
        (g(3), g(4), f(2, 3, 4)),
        (f(2, 3, 4), g(9), f(2, 9, 3)),
        (g(6), f(2, 9, 3), f(2, 9, 3)),
        (g(7), f(2, 3, 4), f(1, 2, 7)),
        (g(10), g(1), f(0, 1, 10)),
        (g(0), g(3), g(3)),
        (g(2), f(2, 3, 4), f(2, 3, 4)),
        (f(1, 2, 7), f(2, 9, 4), f(1, 2, 7)),
        (f(2, 3, 4), f(2, 9, 4), f(2, 9, 3)),
    ];
    for (first, second, result) in merges {
        checks.check(
            "a merge of the sample chain",
            merge(&graph, &first, &second) == Ok(result),
        );
        checks.check(
            "a merge, turned round",
            merge(&graph, &second, &first) == Ok(result),
        );
    }
    checks.check(
        "G7 is not below",
        below(&graph, &g(7), &f(2, 3, 4)) == Ok(false),
    );
    checks.check(
        "a third branch is above",
        below(&graph, &f(2, 3, 4), &f(2, 9, 3)) == Ok(true),
    );
    checks.check(
        "and not below",
        below(&graph, &f(2, 9, 3), &f(2, 3, 4)) == Ok(false),
    );
    for state in [f(2, 4, 3), f(2, 3, 3), f(1, 3, 4)] {
        checks.check(
            "a state that is not valid",
            merge(&graph, &state, &g(1)) == Err(answers::STATE),
        );
    }
    for (name, frontier, list) in [
        ("B's G8 packs", [2, 0, 8, 0, 0], &[1, 2, 3, 5, 8][..]),
        ("A's F(2;3,4) packs", [1, 1, 2, 3, 4], &[1, 2, 3, 4]),
        ("A's F(0;1,10) packs", [1, 1, 0, 1, 10], &[1, 10]),
        ("A's G0 packs nothing", [1, 0, 0, 0, 0], &[]),
    ] {
        let mut room = [0; 8];
        let written = frontiers::pack(&graph, &frontier, &mut room);
        let packed = written == Ok(list.len()) && room.starts_with(list);
        let beyond = room[list.len()..].iter().all(|&number| number == 0);
        checks.check(name, packed && beyond);
    }
}

/// The program's example in document 01.
fn check_example(checks: &mut Checks) {
    let mut input = Vec::new();
    for (mark, index) in [(0, 0), (102, 0), (1, 1), (1, 1), (1, 0)] {
        let mut item = vec![0; 145];
        (item[0], item[4], item[6], item[71]) = (141, 1, mark, index);
        input.extend(item);
    }
    let output = "item answer row\n1 7 0\n2 6 0\n3 0 1\n4 8 1\n5 9 0\nauthor phase last low high\n1 growing 1 0 0\n";
    checks.check("the example of the program", intake::run(&input) == output);
}

/// Laws of one author's states over random graphs: a merge is the least state above both inputs,
/// whatever the order and grouping, and appending every row gives the state of all rows.
fn check_laws(checks: &mut Checks) {
    for seed in 0..300 {
        let random = &mut Random::new(seed);
        let shape = Shape {
            authors: 2,
            fork: 45,
            another_first: 6,
            depend: 20,
        };
        let rows = random.between(2, 18);
        let graph = random_graph(random, &shape, rows);
        let [a, b, c] = std::array::from_fn(|_| valid_state(random, &graph, 1));
        let both = merged(&graph, &a, &b);
        checks.check("a merge is valid", is_valid(&graph, &both));
        checks.check(
            "order of a merge",
            both == merged(&graph, &b, &a) && merged(&graph, &a, &a) == a,
        );
        let right = merged(&graph, &a, &merged(&graph, &b, &c));
        checks.check("grouping of a merge", merged(&graph, &both, &c) == right);
        checks.check(
            "below is the order of merge",
            at_or_below(&graph, &a, &b) == (both == b),
        );
        checks.check(
            "a merge is above",
            at_or_below(&graph, &a, &both) && at_or_below(&graph, &b, &both),
        );
        let all: BTreeSet<u16> = graph.rows_of(1).into_iter().collect();
        let mut order: Vec<u16> = graph.rows_of(1);
        random.shuffle(&mut order);
        let appended = order.iter().fold(g(0), |state, &row| {
            append(&graph, &state, row).unwrap_or(state)
        });
        checks.check(
            "rows appended in any order",
            appended == state_of_set(&graph, 1, &all),
        );
    }
}

/// Runs every check: whether all hold.
pub fn run() -> bool {
    let mut checks = Checks::default();
    check_sha256(&mut checks);
    check_sample(&mut checks);
    check_example(&mut checks);
    check_laws(&mut checks);
    selftest_replay::check_calls(&mut checks);
    selftest_replay::check_items(&mut checks);
    selftest_replay::check_writing(&mut checks);
    selftest_requests::check_standings(&mut checks);
    selftest_requests::check_catalogue(&mut checks);
    selftest_requests::check_salvage(&mut checks);
    selftest_requests::check_desk(&mut checks);
    selftest_replay::check_parts(&mut checks);
    selftest_replay::check_branches(&mut checks);
    selftest_replay::check_origins(&mut checks);
    selftest_replay::check_limits(&mut checks);
    selftest_batches::check_batches(&mut checks);
    for failed in &checks.failed {
        println!("selftest: {failed}: FAILED");
    }
    println!(
        "selftest: {} checks, {} failed",
        checks.made,
        checks.failed.len()
    );
    checks.failed.is_empty()
}
