//! The answer numbers of document 01. 13 is unused: a previous row is always a row that the store
//! already holds, so document 01's CYCLE can't be given.

/// An answer number: 0 when the call was done, else the refusal.
pub type Answer = u16;

/// Admitted, or the call was done.
pub const DONE: Answer = 0;
/// The store is not well formed.
pub const STORE: Answer = 1;
/// Bytes are missing, or the length is under 2.
pub const SHORT: Answer = 2;
/// Length, payload or dependencies are above their limit.
pub const SIZE: Answer = 3;
/// Bytes are left over.
pub const LONG: Answer = 4;
/// The kind is not 1.
pub const KIND: Answer = 5;
/// The mark is neither 0 nor 1.
pub const FLAG: Answer = 6;
/// The mark is 0.
pub const SIGN: Answer = 7;
/// The id is already in the store.
pub const HELD: Answer = 8;
/// Index 0, or index 1 with a previous field that is not zero.
pub const INDEX: Answer = 9;
/// Index above 1 and the previous id is not in the store.
pub const PREV: Answer = 10;
/// The previous row has another author.
pub const OWNER: Answer = 11;
/// The index is not the previous one plus 1.
pub const STEP: Answer = 12;
/// A dependency id is not in the store.
pub const DEP: Answer = 14;
/// A dependency of the message's own author, or two of one author.
pub const DEPOWNER: Answer = 15;
/// No free row, no place for a new author, or too few dependency places.
pub const FULL: Answer = 16;
/// A log state is not valid.
pub const STATE: Answer = 17;
/// Two states of different authors.
pub const PAIR: Answer = 18;
/// A message row is 0, above the row count, or another author's.
pub const ROW: Answer = 19;
/// A frontier is not valid.
pub const FRONTIER: Answer = 20;
/// The output is shorter than the result.
pub const ROOM: Answer = 21;
/// A key or an id that applies is not in the store (document 02).
pub const UNKNOWN: Answer = 22;
/// The store, or the message, breaks the rule of steady authors (document 02).
pub const BACKSTEP: Answer = 23;
/// A log state is growing, so it has no branches to list (document 02).
pub const WHOLE: Answer = 24;
/// A payload that is no release, or the desk's parts are damaged (document 02).
pub const PAYLOAD: Answer = 25;
/// An owner above the author count (document 02).
pub const OWNERLESS: Answer = 26;
/// A component number outside 1 to 512 (document 02).
pub const COMPONENT: Answer = 27;
