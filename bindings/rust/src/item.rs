//! Reading one item, and writing one.

use std::ops::Range;

use crate::calls;
use crate::Answer;

/// What an item says, and where its parts lie in it.
#[derive(Clone, Debug, PartialEq, Eq)]
pub struct Layout {
    /// The mark, as the byte that it is: it is judged at admission.
    pub mark: u8,
    /// The index.
    pub index: usize,
    /// Where the payload lies.
    pub payload: Range<usize>,
    /// Where the dependency ids lie, 32 bytes each.
    pub dependencies: Range<usize>,
}

/// The layout of an item, or [`Answer::Short`], [`Answer::Size`], [`Answer::Long`] or [`Answer::Kind`].
pub fn layout(item: &[u8]) -> Result<Layout, Answer> {
    let given = calls::layout(item);
    Answer::checked(given.number)?;
    Ok(Layout {
        mark: given.mark,
        index: given.index,
        payload: stretch(given.payload, given.size),
        dependencies: stretch(given.dependencies, given.count.saturating_mul(32)),
    })
}

/// The payload, as a part of the item; refused as [`layout`] is.
pub fn payload(item: &[u8]) -> Result<&[u8], Answer> {
    let given = calls::payload(item);
    Answer::checked(given.number)?;
    item.get(stretch(given.start, given.length))
        .ok_or(Answer::Short)
}

/// The id, whatever the mark is; refused as [`layout`] is.
pub fn id(item: &[u8]) -> Result<[u8; 32], Answer> {
    let mut id = [0; 32];
    Answer::checked(calls::id(item, &mut id))?;
    Ok(id)
}

/// The smallest item has this many bytes.
pub const SMALLEST: usize = 145;

/// The largest item has this many bytes.
pub const LARGEST: usize = 6257;

/// Where the mark stands in an item.
pub const MARK_AT: usize = 6;

/// The fields of an item, by name, to write it from:
///
/// ```
/// use snowknoll::item::{self, Message};
///
/// let author = [7; 32];
/// let first = Message { payload: b"gear", ..Message::first(author) }.to_vec()?;
/// let id = item::id(&first)?;
/// let second = Message { payload: b"cogs", mark: 1, ..Message::after(author, id, 2) }.to_vec()?;
/// assert_eq!(item::payload(&second)?, b"cogs");
/// # Ok::<(), snowknoll::Answer>(())
/// ```
///
/// Only the layout is judged, not whether a store would admit the item.
#[derive(Clone, Copy, Debug, PartialEq, Eq)]
pub struct Message<'a> {
    /// The mark, the host's own word on the signature: 1 found good, 0 not.
    pub mark: u8,
    /// The author's key.
    pub key: [u8; 32],
    /// The id of the author's message before this one; 32 zero bytes for a first message.
    pub previous: [u8; 32],
    /// The index: 1 for a first message, one more than the message before has for any other.
    pub index: u32,
    /// The payload, at most 4,096 bytes.
    pub payload: &'a [u8],
    /// The ids of the messages that this one depends on, at most 63.
    pub dependencies: &'a [[u8; 32]],
    /// The author's signature.
    pub signature: [u8; 64],
}

impl<'a> Message<'a> {
    /// An author's first message. The rest is empty: mark 0, no payload, no dependencies, and a
    /// signature of zero bytes.
    pub fn first(key: [u8; 32]) -> Message<'a> {
        Message::after(key, [0; 32], 1)
    }

    /// An author's message after the one with an id, with its own index; the rest as for a first one.
    pub fn after(key: [u8; 32], previous: [u8; 32], index: u32) -> Message<'a> {
        Message {
            mark: 0,
            key,
            previous,
            index,
            payload: &[],
            dependencies: &[],
            signature: [0; 64],
        }
    }

    /// The item of these fields. [`Answer::Size`] where the payload or the dependencies are above their
    /// limit, [`Answer::Flag`] where the mark is neither 0 nor 1.
    pub fn to_vec(&self) -> Result<Vec<u8>, Answer> {
        let fields = self.payload.len() + self.dependencies.as_flattened().len();
        let mut out = vec![0; LARGEST.min(SMALLEST + fields)];
        let count = self.write_to(&mut out)?;
        out.truncate(count);
        Ok(out)
    }

    /// Writes the item to the start of out, and gives how many bytes it has; the bytes after it stay.
    /// Refused as [`Message::to_vec`] is, and by [`Answer::Room`] where out is shorter; out then stays
    /// as it was.
    pub fn write_to(&self, out: &mut [u8]) -> Result<usize, Answer> {
        let given = calls::write_item(self, out);
        Answer::checked(given.number)?;
        Ok(given.count)
    }
}

/// The places from a start on.
fn stretch(start: usize, length: usize) -> Range<usize> {
    start..start.saturating_add(length)
}
