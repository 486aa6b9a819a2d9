//! The arguments of a call of replay.

use crate::item::{number2, number4};

/// What every number of an output is before the call.
pub const UNTOUCHED: u16 = 61166;
/// What every byte of an output is before the call.
const UNTOUCHED_BYTE: u8 = 238;
/// The largest output of bytes.
const BYTES_LIMIT: usize = 1 << 24;
/// The largest output of numbers.
pub const NUMBERS_LIMIT: usize = 1 << 16;
/// The longest call, its length not counted.
pub const CALL_LIMIT: usize = 1 << 24;

/// The arguments of a call, read from the front; each reader gives nothing when they run out.
pub struct Arguments<'a>(pub &'a [u8]);

impl<'a> Arguments<'a> {
    /// The next bytes.
    pub fn bytes(&mut self, count: usize) -> Option<&'a [u8]> {
        let (front, rest) = self.0.split_at_checked(count)?;
        self.0 = rest;
        Some(front)
    }

    /// All bytes that are left.
    pub fn rest(&mut self) -> &'a [u8] {
        std::mem::take(&mut self.0)
    }

    /// The next 2-byte number.
    pub fn number(&mut self) -> Option<u16> {
        self.bytes(2).map(number2)
    }

    /// The next 4-byte number.
    pub fn number4(&mut self) -> Option<usize> {
        self.bytes(4).map(|bytes| number4(bytes) as usize)
    }

    /// The next 8-byte number.
    pub fn number8(&mut self) -> Option<usize> {
        Some(self.number4()? | self.number4()? << 32)
    }

    /// The next list of so many 2-byte numbers.
    pub fn numbers(&mut self, count: usize) -> Option<Vec<u16>> {
        Some(self.bytes(2 * count)?.chunks(2).map(number2).collect())
    }

    /// The next log state's five numbers, whether they are one or not.
    pub fn state(&mut self) -> Option<[u16; 5]> {
        self.numbers(5)?.try_into().ok()
    }

    /// The next output of numbers, untouched.
    pub fn room(&mut self) -> Option<Vec<u16>> {
        Some(vec![UNTOUCHED; self.number()? as usize])
    }

    /// The next output of numbers whose count has 4 bytes, untouched, where it is not above its limit.
    pub fn wide_room(&mut self) -> Option<Vec<u16>> {
        let count = self.number4().filter(|&count| count <= NUMBERS_LIMIT)?;
        Some(vec![UNTOUCHED; count])
    }

    /// The next output of bytes, untouched, where it is not above its limit.
    pub fn room_of_bytes(&mut self) -> Option<Vec<u8>> {
        let count = self.number4().filter(|&count| count <= BYTES_LIMIT)?;
        Some(vec![UNTOUCHED_BYTE; count])
    }

    /// Nothing is left over.
    pub fn end(&self) -> Option<()> {
        self.0.is_empty().then_some(())
    }
}
