//! Reading one item: the layout of document 01, "The item", and answers 2 to 5.

use crate::answers::{Answer, KIND, LONG, SHORT, SIZE};
use crate::sha256::{sha256, DIGEST};

/// The longest length field of an item.
pub const LENGTH_LIMIT: usize = 6253;
/// The longest payload.
pub const PAYLOAD_LIMIT: usize = 4096;
/// The most dependencies of one message.
pub const DEPENDENCIES_LIMIT: usize = 63;
/// The bytes of the smallest body.
pub const SMALLEST_BODY: usize = 139;
/// Where the body begins in the item.
pub const BODY_AT: usize = 6;
/// Where the payload begins in the body.
pub const PAYLOAD_AT: usize = 73;

/// The fields of one item whose layout is right.
pub struct Item<'a> {
    pub mark: u8,
    pub key: &'a [u8],
    pub previous: &'a [u8],
    pub index: u32,
    pub payload: &'a [u8],
    pub dependencies: Vec<&'a [u8]>,
    pub id: [u8; DIGEST],
}

/// The 4-byte number at the start of some bytes.
pub fn number4(bytes: &[u8]) -> u32 {
    u32::from_le_bytes([bytes[0], bytes[1], bytes[2], bytes[3]])
}

/// The 2-byte number at the start of some bytes.
pub fn number2(bytes: &[u8]) -> u16 {
    u16::from_le_bytes([bytes[0], bytes[1]])
}

/// The body of a record whose length and kind are right: answers 2 to 5 up to the kind.
fn body_of(record: &[u8]) -> Result<&[u8], Answer> {
    if record.len() < 4 {
        return Err(SHORT);
    }
    let length = number4(record) as usize;
    if length > LENGTH_LIMIT {
        return Err(SIZE);
    }
    if length < 2 || record.len() < 4 + length {
        return Err(SHORT);
    }
    if record.len() > 4 + length {
        return Err(LONG);
    }
    if number2(&record[4..]) != 1 {
        return Err(KIND);
    }
    Ok(&record[BODY_AT..])
}

/// The lengths of payload and dependency list, where the body is exactly as long as they say.
fn stretches(body: &[u8]) -> Result<(usize, usize), Answer> {
    if body.len() < SMALLEST_BODY {
        return Err(SHORT);
    }
    let payload = number4(&body[PAYLOAD_AT - 4..]) as usize;
    if payload > PAYLOAD_LIMIT {
        return Err(SIZE);
    }
    if body.len() < SMALLEST_BODY + payload {
        return Err(SHORT);
    }
    let dependencies = number2(&body[PAYLOAD_AT + payload..]) as usize;
    if dependencies > DEPENDENCIES_LIMIT {
        return Err(SIZE);
    }
    let whole = SMALLEST_BODY + payload + DIGEST * dependencies;
    if body.len() < whole {
        return Err(SHORT);
    }
    if body.len() > whole {
        return Err(LONG);
    }
    Ok((payload, dependencies))
}

/// The fields of a record, or the layout's answer.
pub fn read(record: &[u8]) -> Result<Item<'_>, Answer> {
    let body = body_of(record)?;
    let (payload, dependencies) = stretches(body)?;
    let list_at = PAYLOAD_AT + payload + 2;
    Ok(Item {
        mark: body[0],
        key: &body[1..33],
        previous: &body[33..65],
        index: number4(&body[65..]),
        payload: &body[PAYLOAD_AT..PAYLOAD_AT + payload],
        dependencies: body[list_at..list_at + DIGEST * dependencies]
            .chunks(DIGEST)
            .collect(),
        id: sha256(&body[1..]),
    })
}
