//! Standings, items of kind 3: document 02, "Sending only our standing", from its words.

use crate::answers::*;
use crate::arguments::Arguments;
use crate::frontiers::{read_frontier, written};
use crate::item::{number2, number4, BODY_AT};
use crate::lines::{apart, room_line};
use crate::replay::Replay;
use crate::sha256::{hex, sha256, DIGEST};
use crate::states::LogState;
use crate::store::{Graph, Name};

/// The kind of a standing.
const STANDING: u16 = 3;
/// The most entries of a standing, and the bytes of one.
const ENTRIES_LIMIT: usize = 64;
const ENTRY_BYTES: usize = 130;
/// The longest length field of a standing.
pub const STANDING_LIMIT: usize = 8324;
/// An id that does not apply.
const ZEROS: Name = [0; DIGEST];

/// One entry as it is sent, taken apart with no judgement of what it says.
#[derive(Clone)]
pub struct Sent {
    pub key: Name,
    pub phase: u8,
    pub presence: u8,
    pub last: Name,
    pub low: Name,
    pub high: Name,
}

impl Sent {
    /// What a state says, by key and ids.
    fn of_state(graph: &Graph, state: &LogState) -> Sent {
        let id = |row: u16| {
            if row == 0 {
                ZEROS
            } else {
                graph.message(row).id
            }
        };
        let [author, phase, last, low, high] = state.numbers();
        Sent {
            key: graph.keys[author as usize - 1],
            phase: phase as u8,
            presence: (last != 0) as u8,
            last: id(last),
            low: id(low),
            high: id(high),
        }
    }

    /// The entry that stands in these bytes.
    fn of_bytes(bytes: &[u8]) -> Sent {
        let name = |at: usize| crate::store::name(&bytes[at..at + DIGEST]);
        Sent {
            key: name(0),
            phase: bytes[32],
            presence: bytes[33],
            last: name(34),
            low: name(66),
            high: name(98),
        }
    }

    /// Its bytes.
    fn bytes(&self) -> Vec<u8> {
        let marks = [self.phase, self.presence];
        [&self.key[..], &marks, &self.last, &self.low, &self.high].concat()
    }

    /// The ids that apply.
    fn applying(&self) -> Vec<&Name> {
        let mut ids = Vec::new();
        if self.presence == 1 {
            ids.push(&self.last);
        }
        if self.phase == 1 {
            ids.extend([&self.low, &self.high]);
        }
        ids
    }

    /// Whether every id that does not apply is zero bytes.
    fn is_blank_elsewhere(&self) -> bool {
        (self.presence == 1 || self.last == ZEROS)
            && (self.phase == 1 || (self.low == ZEROS && self.high == ZEROS))
    }

    /// The five numbers of the entry in a graph that knows all that it names.
    fn numbers(&self, graph: &Graph) -> [u16; 5] {
        let row = |applies: bool, id: &Name| {
            let found = graph.row_of_id(id).filter(|_| applies);
            found.unwrap_or(0)
        };
        let forked = self.phase == 1;
        [
            graph.author_of_key(&self.key).unwrap_or(0),
            self.phase as u16,
            row(self.presence == 1, &self.last),
            row(forked, &self.low),
            row(forked, &self.high),
        ]
    }
}

/// The whole item of these entries.
pub fn item_of(entries: &[Sent]) -> Vec<u8> {
    let length = 4 + ENTRY_BYTES * entries.len();
    let mut item = (length as u32).to_le_bytes().to_vec();
    item.extend(STANDING.to_le_bytes());
    item.extend((entries.len() as u16).to_le_bytes());
    item.extend(entries.iter().flat_map(Sent::bytes));
    item
}

/// The entries that stand for a frontier, by rising key.
pub fn sent(graph: &Graph, frontier: &[u16]) -> Result<Vec<Sent>, Answer> {
    let frontier = read_frontier(graph, frontier)?;
    let states = frontier.values();
    let mut entries: Vec<Sent> = states.map(|state| Sent::of_state(graph, state)).collect();
    entries.sort_by_key(|entry| entry.key);
    Ok(entries)
}

/// The call that writes a frontier's standing into a room of bytes: how many it wrote.
pub fn write(graph: &Graph, frontier: &[u16], room: &mut [u8]) -> Result<usize, Answer> {
    let item = item_of(&sent(graph, frontier)?);
    let place = room.get_mut(..item.len()).ok_or(ROOM)?;
    place.copy_from_slice(&item);
    Ok(item.len())
}

/// The entries of a record, or the layout's answer: 2 to 5.
fn entries_of(record: &[u8]) -> Result<Vec<Sent>, Answer> {
    if record.len() < 4 {
        return Err(SHORT);
    }
    let length = number4(record) as usize;
    if length > STANDING_LIMIT {
        return Err(SIZE);
    }
    if length < 2 || record.len() < 4 + length {
        return Err(SHORT);
    }
    if record.len() > 4 + length {
        return Err(LONG);
    }
    if number2(&record[4..]) != STANDING {
        return Err(KIND);
    }
    let body = &record[BODY_AT..];
    if body.len() < 2 {
        return Err(SHORT);
    }
    let count = number2(body) as usize;
    if count > ENTRIES_LIMIT {
        return Err(SIZE);
    }
    let whole = 2 + ENTRY_BYTES * count;
    if body.len() < whole {
        return Err(SHORT);
    }
    if body.len() > whole {
        return Err(LONG);
    }
    Ok(body[2..].chunks(ENTRY_BYTES).map(Sent::of_bytes).collect())
}

/// The call that reads a standing into a room of numbers: how many it wrote.
pub fn read(graph: &Graph, record: &[u8], room: &mut [u16]) -> Result<usize, Answer> {
    let entries = entries_of(record)?;
    if entries.iter().any(|one| one.phase > 1 || one.presence > 1) {
        return Err(FLAG);
    }
    let is_known = |entry: &Sent| {
        let mut ids = entry.applying().into_iter();
        graph.author_of_key(&entry.key).is_some() && ids.all(|id| graph.row_of_id(id).is_some())
    };
    if !entries.iter().all(is_known) {
        return Err(UNKNOWN);
    }
    let rising = entries.windows(2).all(|pair| pair[0].key < pair[1].key);
    if !rising || !entries.iter().all(Sent::is_blank_elsewhere) {
        return Err(FRONTIER);
    }
    let mut numbers: Vec<[u16; 5]> = entries.iter().map(|one| one.numbers(graph)).collect();
    numbers.sort();
    let numbers = numbers.concat();
    read_frontier(graph, &numbers)?;
    written(&numbers, room)
}

impl Replay {
    /// Operation 17: the standing of a frontier.
    pub fn standing(&self, mut arguments: Arguments) -> Option<String> {
        let mut room = arguments.room_of_bytes()?;
        let count = arguments.number()? as usize;
        let frontier = arguments.numbers(count)?;
        arguments.end()?;
        let result = self.on_graph(|graph| write(graph, &frontier, &mut room));
        let (answer, written) = apart(result, 0);
        Some(format!(
            "standing {answer} {written} {}",
            hex(&sha256(&room))
        ))
    }

    /// Operation 18: a standing read.
    pub fn read_standing(&self, mut arguments: Arguments) -> Option<String> {
        let mut room = arguments.room()?;
        let item = arguments.rest();
        let result = self.on_graph(|graph| read(graph, item, &mut room));
        Some(room_line("read", result, &room))
    }
}
