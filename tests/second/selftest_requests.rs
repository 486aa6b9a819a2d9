//! The second program's own checks of what document 02 adds: lines worked out by hand, and its sentences on
//! random graphs.

use crate::desk::Desk;
use crate::graphs::random_graph;
use crate::plans::{Draft, Plan, Shape};
use crate::random::Random;
use crate::replay::Replay;
use crate::replay_sending::renumbered;
use crate::selftest::{sample_chain, Checks};
use crate::sending::{self, item_of, sent};
use crate::standings::valid_frontier;
use crate::store::{Graph, Store};
use crate::tables::{laid_out, Room};
use crate::{admission, calls, catalogue, frontiers, salvage};

/// The numbers of a room that takes every frontier.
const ENOUGH: usize = 320;

/// The frontier that a graph reads in a standing.
fn read(graph: &Graph, item: &[u8]) -> Option<Vec<u16>> {
    let mut room = vec![0; ENOUGH];
    let count = sending::read(graph, item, &mut room).ok()?;
    room.truncate(count);
    Some(room)
}

/// The standing of a frontier.
fn item(graph: &Graph, frontier: &[u16]) -> Vec<u8> {
    item_of(&sent(graph, frontier).unwrap_or_default())
}

/// The merge of two frontiers.
fn merge(graph: &Graph, first: &[u16], second: &[u16]) -> Vec<u16> {
    let mut room = vec![0; ENOUGH];
    let count = frontiers::merge(graph, first, second, &mut room).unwrap_or(0);
    room.truncate(count);
    room
}

/// Standings on the sample chain, and on random graphs: read where it was written a standing is the frontier,
/// in a store with other row numbers it has the same ids, and so has the merge, made before or after.
pub fn check_standings(checks: &mut Checks) {
    let sample = sample_chain();
    let mut replay = Replay::new();
    replay.call(&calls::load(&laid_out(
        &mut Random::new(3),
        &sample,
        Room::Exact,
    )));
    let whole = item(&sample, &[1, 1, 2, 3, 4, 2, 0, 8, 0, 0]);
    checks.check(
        "two entries",
        whole.len() == 268 && whole[..8] == [8, 1, 0, 0, 3, 0, 2, 0],
    );
    checks.check(
        "forked at a row",
        whole[40..42] == [1, 1] && whole[170..172] == [0, 1],
    );
    let mut unknown = whole.clone();
    unknown[8] = 7;
    let mut flagged = unknown.clone();
    flagged[170] = 2;
    let mut beside = whole.clone();
    beside[267] = 1;
    for (call, line) in [
        (
            calls::read_standing(11, &whole),
            "read 0 10 1 1 2 3 4 2 0 8 0 0 61166",
        ),
        (calls::read_standing(1, &whole), "read 21 0 61166"),
        (calls::read_standing(1, &beside), "read 20 0 61166"),
        (calls::read_standing(1, &unknown), "read 22 0 61166"),
        (calls::read_standing(1, &flagged), "read 6 0 61166"),
        (calls::read_standing(1, &whole[..267]), "read 2 0 61166"),
    ] {
        checks.check(line, replay.call(&call) == line);
    }
    let random = &mut Random::new(4);
    for _ in 0..200 {
        let shape = Shape::any(random);
        let rows = random.between(1, 25);
        let graph = random_graph(random, &shape, rows);
        let other = renumbered(random, &graph, 0);
        let [f, g] = [(); 2].map(|()| valid_frontier(random, &graph, 70));
        let same = |frontier: &[u16]| {
            let whole = item(&graph, frontier);
            let carried = read(&other, &whole).is_some_and(|there| item(&other, &there) == whole);
            carried && read(&graph, &whole).is_some_and(|back| back == frontier)
        };
        checks.check("read as it was written", same(&f) && same(&g));
        let there = [&f, &g].map(|one| read(&other, &item(&graph, one)).unwrap_or_default());
        let after = merge(&other, &there[0], &there[1]);
        let before = item(&graph, &merge(&graph, &f, &g));
        checks.check("merged before or after", item(&other, &after) == before);
    }
}

/// Author 1 depends, in turn, on rows of author 2, which has a log of three and one beside it: the lowest row that
/// steps back, and the latest of the two rows that it steps back from.
pub fn check_catalogue(checks: &mut Checks) {
    let mut graph = Graph::default();
    let rows: [(u16, u16, &[u16]); 8] = [
        (1, 0, &[]),
        (1, 1, &[]),
        (1, 1, &[]),
        (1, 2, &[]),
        (2, 0, &[2]),
        (2, 5, &[4]),
        (2, 6, &[3]),
        (2, 7, &[1]),
    ];
    let mut random = Random::new(5);
    for (place, (author, previous, dependencies)) in rows.into_iter().enumerate() {
        let plan = Plan {
            author,
            previous,
            dependencies: dependencies.to_vec(),
        };
        let (id, key) = (random.name(), random.name());
        plan.add(&mut graph, id, key);
        let broken = catalogue::backstep(&graph);
        let first = if place < 6 { None } else { Some((7, 6)) };
        checks.check("the lowest row that steps back", broken == first);
    }
    checks.check(
        "the same row again is no step back",
        catalogue::keeps(&graph, 5, &[2]),
    );
    checks.check("nor is a later one", catalogue::keeps(&graph, 5, &[4]));
    checks.check("one that it follows is", !catalogue::keeps(&graph, 6, &[2]));
}

/// A log of three, laid in reverse, with a repeat and a broken rest: all three are kept, in order; and what
/// comes out comes back unchanged.
pub fn check_salvage(checks: &mut Checks) {
    let random = &mut Random::new(6);
    let mut store = Store::empty();
    let mut log = Vec::new();
    for _ in 0..3 {
        let graph = store.judged().unwrap_or_default();
        let item = Draft::sound(random, &graph, &Shape::straight(1)).item();
        admission::admit(&mut store, &item, 0);
        log.push(item);
    }
    let stick = [&log[2], &log[1], &log[1], &log[0], &log[0][..9]].concat();
    let (mut clean, mut list) = (vec![238; stick.len()], vec![7; 11]);
    let mut rescued = Store::empty();
    rescued.row_count = 9;
    let done = salvage::salvage(&mut rescued, &stick, &mut clean, &mut list);
    let whole = log.concat();
    checks.check("five items", done == Ok((5, whole.len())));
    checks.check("kept in order", clean[..whole.len()] == whole);
    checks.check(
        "the room beyond stays",
        clean[whole.len()..].iter().all(|&byte| byte == 238),
    );
    checks.check("each answer", list == [0, 3, 0, 2, 8, 2, 0, 1, 2, 0, 7]);
    checks.check(
        "the store",
        rescued.ids == store.ids && rescued.row_count == 3,
    );
    let mut again = vec![0; whole.len()];
    let done = salvage::salvage(&mut rescued, &whole, &mut again, &mut list);
    checks.check(
        "a clean intake comes back",
        done == Ok((3, whole.len())) && again == whole,
    );
}

/// The sample chain at a desk: what author 1 shows of component 1, each refusal before the next, and a byte
/// that is not 0 or 1.
pub fn check_desk(checks: &mut Checks) {
    let mut replay = Replay::new();
    replay.call(&calls::load(&laid_out(
        &mut Random::new(7),
        &sample_chain(),
        Room::Exact,
    )));
    let mut desk = Desk::empty();
    desk.components[..10].copy_from_slice(&[1, 1, 2, 2, 1, 1, 1, 1, 1, 1]);
    desk.expanded[..10].copy_from_slice(&[0, 1, 0, 0, 1, 0, 1, 1, 1, 1]);
    (desk.owners[0], desk.owners[1], desk.owners[511]) = (1, 2, 2);
    let mut unread = desk.clone();
    unread.expanded[9] = 2;
    let mut ownerless = desk.clone();
    ownerless.owners[511] = 3;
    let mut both = ownerless.clone();
    both.expanded[9] = 255;
    let frozen: &[u16] = &[1, 1, 2, 3, 4];
    for (desk, component, frontier, line) in [
        (&desk, 1, frozen, "release 0 2 2 1 1"),
        (&desk, 2, frozen, "release 0 0 0 0 0"),
        (&desk, 1, &[1, 0, 3, 0, 0], "release 0 2 2 1 0"),
        (&desk, 1, &[1, 0, 6, 0, 0], "release 0 6 4 0 0"),
        (&desk, 1, &[1, 1, 0, 1, 10], "release 0 0 0 0 0"),
        (&desk, 1, &[2, 0, 8, 0, 0], "release 0 0 0 0 0"),
        (&desk, 512, &[2, 0, 8, 0, 0], "release 0 0 0 0 0"),
        (&desk, 3, frozen, "release 0 0 0 0 0"),
        (&desk, 0, frozen, "release 27 0 0 0 0"),
        (&desk, 513, frozen, "release 27 0 0 0 0"),
        (&ownerless, 513, frozen, "release 26 0 0 0 0"),
        (&both, 513, frozen, "release 25 0 0 0 0"),
        (&both, 513, &[1, 1, 2, 4, 3], "release 20 0 0 0 0"),
        (&unread, 1, frozen, "release 25 0 0 0 0"),
    ] {
        replay.call(&calls::load_desk(desk));
        let given = replay.call(&calls::ask_release(component, frontier));
        checks.check(line, given == line);
    }
}
