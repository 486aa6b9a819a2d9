//! Writing one item from its fields: document 02, request 1, and the layout of document 01, "The item".

use crate::answers::{Answer, FLAG, ROOM, SHORT, SIZE};
use crate::arguments::Arguments;
use crate::item::{DEPENDENCIES_LIMIT, PAYLOAD_LIMIT};
use crate::lines::apart;
use crate::sha256::{hex, sha256, DIGEST};

/// The bytes of a signature.
pub const SIGNATURE: usize = 64;

/// The fields of an item as they are handed in, each of any length; the dependency ids one after the
/// other.
#[derive(Clone, Default)]
pub struct Fields {
    pub mark: u8,
    pub index: u32,
    pub key: Vec<u8>,
    pub previous: Vec<u8>,
    pub payload: Vec<u8>,
    pub dependencies: Vec<u8>,
    pub signature: Vec<u8>,
}

impl Fields {
    /// A field or dependency id that is not of its full length; payload or dependencies above limit;
    /// the mark: the first that is wrong.
    fn fault(&self) -> Option<Answer> {
        let full = [
            (self.key.len(), DIGEST),
            (self.previous.len(), DIGEST),
            (self.signature.len(), SIGNATURE),
        ];
        let whole_ids = self
            .dependencies
            .chunks(DIGEST)
            .all(|id| id.len() == DIGEST);
        if full.iter().any(|(length, wanted)| length != wanted) || !whole_ids {
            return Some(SHORT);
        }
        if self.payload.len() > PAYLOAD_LIMIT || self.count() > DEPENDENCIES_LIMIT {
            return Some(SIZE);
        }
        (self.mark > 1).then_some(FLAG)
    }

    /// How many dependency ids there are.
    fn count(&self) -> usize {
        self.dependencies.chunks(DIGEST).count()
    }

    /// The bytes of the item.
    pub fn item(&self) -> Vec<u8> {
        let mut after_length = vec![1, 0, self.mark];
        after_length.extend(&self.key);
        after_length.extend(&self.previous);
        after_length.extend(self.index.to_le_bytes());
        after_length.extend((self.payload.len() as u32).to_le_bytes());
        after_length.extend(&self.payload);
        after_length.extend((self.count() as u16).to_le_bytes());
        after_length.extend(&self.dependencies);
        after_length.extend(&self.signature);
        let mut item = (after_length.len() as u32).to_le_bytes().to_vec();
        item.append(&mut after_length);
        item
    }

    /// Writes the item to the start of a room, and gives how many bytes it has; a refusal writes nothing.
    pub fn write(&self, room: &mut [u8]) -> Result<usize, Answer> {
        if let Some(answer) = self.fault() {
            return Err(answer);
        }
        let item = self.item();
        let front = room.get_mut(..item.len()).ok_or(ROOM)?;
        front.copy_from_slice(&item);
        Ok(item.len())
    }
}

/// Operation 16: an item written into a room.
pub fn write_line(mut arguments: Arguments) -> Option<String> {
    let mut room = arguments.room_of_bytes()?;
    let mark = arguments.bytes(1)?[0];
    let index = arguments.number4()? as u32;
    let mut lengths = [0; 5];
    for length in &mut lengths {
        *length = arguments.number4()?;
    }
    let mut field = |place: usize| Some(arguments.bytes(lengths[place])?.to_vec());
    let fields = Fields {
        mark,
        index,
        key: field(0)?,
        previous: field(1)?,
        payload: field(2)?,
        dependencies: field(3)?,
        signature: field(4)?,
    };
    arguments.end()?;
    let (answer, count) = apart(fields.write(&mut room), 0);
    Some(format!("write {answer} {count} {}", hex(&sha256(&room))))
}
