//! What the program `replay` must print: calls from the input, one line each.

use crate::admission::{admit, origin};
use crate::answers::{Answer, STATE, STORE};
use crate::arguments::{Arguments, CALL_LIMIT};
use crate::desk::Desk;
use crate::frontiers;
use crate::lines::*;
use crate::reviews;
use crate::sha256::{hex, sha256, DIGEST};
use crate::states::{self, LogState};
use crate::store::*;
use crate::writing::write_line;

/// How many times its limit a part of the store may be long.
pub const PART_TIMES: usize = 4;
/// The word that a call whose own layout is wrong prints.
const BAD: &str = "bad";

/// A replay under way: the one store that it holds, and the desk beside it.
pub struct Replay {
    pub store: Store,
    pub desk: Desk,
}

impl Replay {
    /// A replay whose store is empty with every part at its limit, and so its desk.
    pub fn new() -> Replay {
        Replay {
            store: Store::empty(),
            desk: Desk::empty(),
        }
    }

    /// What a call on the graph of the store gives; STORE comes first.
    pub fn on_graph<R>(&self, call: impl FnOnce(&Graph) -> Result<R, Answer>) -> Result<R, Answer> {
        self.store
            .judged()
            .ok_or(STORE)
            .and_then(|graph| call(&graph))
    }

    /// Operations 1 and 14: an admission with an origin.
    fn admit(&mut self, mut arguments: Arguments, origin: u8) -> Option<String> {
        let (answer, row) = admit(&mut self.store, arguments.rest(), origin);
        Some(format!("admit {answer} {row}"))
    }

    /// Operation 15: the origin of a row.
    fn origin(&self, mut arguments: Arguments) -> Option<String> {
        let row = arguments.number()?;
        arguments.end()?;
        let (answer, origin) = apart(origin(&self.store, row), 0);
        Some(format!("origin {answer} {origin}"))
    }

    /// Operation 2: these parts at these lengths are the store from now on.
    fn load(&mut self, mut arguments: Arguments) -> Option<String> {
        let mut lengths = [0; 9];
        for length in &mut lengths {
            *length = arguments.number4()?;
        }
        let [keys, ids, rows, deps, branches, origins, row_count, author_count, dep_count] =
            lengths;
        let limits = [
            AUTHORS_LIMIT * DIGEST,
            ROWS_LIMIT * DIGEST,
            ROWS_LIMIT * ROW_NUMBERS,
            DEPS_LIMIT,
            BRANCHES_LIMIT,
            ROWS_LIMIT,
        ];
        let mut pairs = lengths.iter().zip(limits);
        if pairs.any(|(&length, limit)| length > PART_TIMES * limit) {
            return None;
        }
        let keys = arguments.bytes(keys)?.to_vec();
        let ids = arguments.bytes(ids)?.to_vec();
        let rows = arguments.numbers(rows)?;
        let deps = arguments.numbers(deps)?;
        let branches = arguments.numbers(branches)?;
        let origins = arguments.bytes(origins)?.to_vec();
        arguments.end()?;
        self.store = Store {
            keys,
            ids,
            rows,
            deps,
            branches,
            origins,
            row_count,
            author_count,
            dep_count,
        };
        Some("load".into())
    }

    /// Operation 3: the counts, and the SHA-256 of each whole part.
    fn dump(&self, arguments: Arguments) -> Option<String> {
        arguments.end()?;
        let bytes = |numbers: &[u16]| {
            numbers
                .iter()
                .flat_map(|number| number.to_le_bytes())
                .collect::<Vec<u8>>()
        };
        let store = &self.store;
        let parts = [
            store.keys.clone(),
            store.ids.clone(),
            bytes(&store.rows),
            bytes(&store.deps),
            bytes(&store.branches),
            store.origins.clone(),
        ];
        let sums: Vec<String> = parts.iter().map(|part| hex(&sha256(part))).collect();
        Some(format!(
            "dump {} {} {} {}",
            store.row_count,
            store.author_count,
            store.dep_count,
            sums.join(" ")
        ))
    }

    /// Operation 4: whether the store is well formed.
    fn check(&self, arguments: Arguments) -> Option<String> {
        arguments.end()?;
        Some(format!("check {}", self.store.judged().is_none() as u16))
    }

    /// Operation 5: the prefix of two rows, and its child toward each.
    fn prefix(&self, mut arguments: Arguments) -> Option<String> {
        let (first, second) = (arguments.number()?, arguments.number()?);
        arguments.end()?;
        let result = self.on_graph(|graph| states::prefix(graph, first, second));
        let (answer, [row, first, second]) = apart(result, [0; 3]);
        Some(format!("prefix {answer} {row} {first} {second}"))
    }

    /// Operation 6: a state with one more row.
    fn append(&self, mut arguments: Arguments) -> Option<String> {
        let (state, row) = (arguments.state()?, arguments.number()?);
        arguments.end()?;
        let result = self.on_graph(|graph| states::append(graph, &state_of(&state)?, row));
        Some(state_line("append", result))
    }

    /// Operation 7: the merge of two states.
    fn merge(&self, mut arguments: Arguments) -> Option<String> {
        let (first, second) = (arguments.state()?, arguments.state()?);
        arguments.end()?;
        let result =
            self.on_graph(|graph| states::merge(graph, &state_of(&first)?, &state_of(&second)?));
        Some(state_line("merge", result))
    }

    /// Operation 8: whether the first of two states is at or below the second.
    fn below(&self, mut arguments: Arguments) -> Option<String> {
        let (first, second) = (arguments.state()?, arguments.state()?);
        arguments.end()?;
        let result =
            self.on_graph(|graph| states::below(graph, &state_of(&first)?, &state_of(&second)?));
        Some(choice_line("below", result))
    }

    /// Operation 9: the merge of two frontiers.
    fn merge_frontiers(&self, mut arguments: Arguments) -> Option<String> {
        let mut room = arguments.room()?;
        let (first, second) = (arguments.number()?, arguments.number()?);
        let first = arguments.numbers(first as usize)?;
        let second = arguments.numbers(second as usize)?;
        arguments.end()?;
        let result = self.on_graph(|graph| frontiers::merge(graph, &first, &second, &mut room));
        Some(room_line("fmerge", result, &room))
    }

    /// Operation 10: whether the first of two frontiers is at or below the second.
    fn frontier_below(&self, mut arguments: Arguments) -> Option<String> {
        let (first, second) = (arguments.number()?, arguments.number()?);
        let first = arguments.numbers(first as usize)?;
        let second = arguments.numbers(second as usize)?;
        arguments.end()?;
        let result = self.on_graph(|graph| frontiers::below(graph, &first, &second));
        Some(choice_line("fbelow", result))
    }

    /// Operation 11: a packing list.
    fn pack(&self, mut arguments: Arguments) -> Option<String> {
        let mut room = arguments.room()?;
        let count = arguments.number()? as usize;
        let frontier = arguments.numbers(count)?;
        arguments.end()?;
        let result = self.on_graph(|graph| frontiers::pack(graph, &frontier, &mut room));
        Some(room_line("pack", result, &room))
    }

    /// Operation 24: every branch of a state.
    fn branches(&self, mut arguments: Arguments) -> Option<String> {
        let mut room = arguments.room()?;
        let state = arguments.state()?;
        arguments.end()?;
        let result = self.on_graph(|graph| reviews::list(graph, &state_of(&state)?, &mut room));
        Some(room_line("branches", result, &room))
    }

    /// The line of one call, or nothing where its own layout is wrong.
    fn line(&mut self, call: &[u8]) -> Option<String> {
        let (&operation, rest) = call.split_first()?;
        let arguments = Arguments(rest);
        match operation {
            1 => self.admit(arguments, 0),
            2 => self.load(arguments),
            3 => self.dump(arguments),
            4 => self.check(arguments),
            5 => self.prefix(arguments),
            6 => self.append(arguments),
            7 => self.merge(arguments),
            8 => self.below(arguments),
            9 => self.merge_frontiers(arguments),
            10 => self.frontier_below(arguments),
            11 => self.pack(arguments),
            12 => Some(payload_line(rest)),
            13 => Some(id_line(rest)),
            14 => {
                let (&origin, item) = rest.split_first()?;
                self.admit(Arguments(item), origin)
            }
            15 => self.origin(arguments),
            16 => write_line(arguments),
            17 => self.standing(arguments),
            18 => self.read_standing(arguments),
            19 => self.batch(arguments),
            20 => self.steady(arguments),
            21 => self.backstep(arguments),
            22 => self.catalogue(arguments),
            23 => self.salvage(arguments),
            24 => self.branches(arguments),
            25 => self.load_desk(arguments),
            26 => self.release_in(arguments),
            27 => self.release(arguments),
            28 => self.columns(arguments),
            40 => Some(layout_line(rest)),
            41 => self.find_id(arguments),
            42 => self.find_key(arguments),
            43 => self.admit_at(arguments),
            44 => self.valid_frontier(arguments),
            45 => self.append_entry(arguments),
            46 => self.set_counts(arguments),
            _ => None,
        }
    }

    /// The line of one call.
    pub fn call(&mut self, call: &[u8]) -> String {
        let line = (call.len() <= CALL_LIMIT).then(|| self.line(call));
        line.flatten().unwrap_or_else(|| BAD.into())
    }
}

/// The state of five numbers, or STATE where they are none.
fn state_of(numbers: &[u16; 5]) -> Result<LogState, Answer> {
    LogState::of_numbers(numbers).ok_or(STATE)
}

/// The whole output of a script.
pub fn run(input: &[u8]) -> String {
    let mut replay = Replay::new();
    let mut lines = String::new();
    let mut rest = Arguments(input);
    while !rest.0.is_empty() {
        let call = rest.number4().and_then(|length| rest.bytes(length));
        let Some(call) = call else {
            return lines + BAD + "\n";
        };
        lines += &replay.call(call);
        lines.push('\n');
    }
    lines
}
