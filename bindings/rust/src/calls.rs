//! The C functions called over slices: each thin call, and nothing else that is unsafe.
//!
//! What makes each of them safe: a slice is as long as its length says, and a written one is borrowed
//! by itself, so it overlaps nothing and nobody else changes it; the proved functions take any
//! contents, stay inside what they are lent, and keep no pointer.

use std::ops::Range;

use crate::item::Message;
use crate::raw::{self, AdmitAnswer, CountAnswer, Counts, IntakeAnswer, ItemAnswer, OriginAnswer};
use crate::raw::{PrefixAnswer, State, StateAnswer, StretchAnswer, YesAnswer};

/// The five parts of a store and its counts, lent for reading.
pub struct Tables<'a> {
    pub keys: &'a [u8],
    pub ids: &'a [u8],
    pub rows: &'a [u16],
    pub deps: &'a [u16],
    pub branches: &'a [u16],
    pub counts: Counts,
}

/// The five parts of a store, its origins and its counts, lent for writing.
pub struct TablesMut<'a> {
    pub keys: &'a mut [u8],
    pub ids: &'a mut [u8],
    pub rows: &'a mut [u16],
    pub deps: &'a mut [u16],
    pub branches: &'a mut [u16],
    pub origins: &'a mut [u8],
    pub counts: Counts,
}

/// A C function over a store that it reads: the store's parts and counts, then what follows.
macro_rules! over {
    ($function:ident, $store:expr $(, $more:expr)*) => {
        raw::$function(
            $store.keys.as_ptr(),
            $store.keys.len(),
            $store.ids.as_ptr(),
            $store.ids.len(),
            $store.rows.as_ptr(),
            $store.rows.len(),
            $store.deps.as_ptr(),
            $store.deps.len(),
            $store.branches.as_ptr(),
            $store.branches.len(),
            $store.counts
            $(, $more)*
        )
    };
}

/// A C function that writes a store: what comes before the store's parts and its origins, and what follows
/// them.
macro_rules! into {
    ($function:ident, $store:expr, $($first:expr),*; $($more:expr),*) => {
        raw::$function(
            $($first,)*
            $store.keys.as_mut_ptr(),
            $store.keys.len(),
            $store.ids.as_mut_ptr(),
            $store.ids.len(),
            $store.rows.as_mut_ptr(),
            $store.rows.len(),
            $store.deps.as_mut_ptr(),
            $store.deps.len(),
            $store.branches.as_mut_ptr(),
            $store.branches.len(),
            $store.origins.as_mut_ptr(),
            $store.origins.len()
            $(, $more)*
        )
    };
}

mod catalogue;
mod desk;
mod salvage;
mod standing;

pub use catalogue::{admit_catalogue, backstep, steady};
pub use desk::{current_release, desk_admit, Columns};
pub use salvage::salvage;
pub use standing::{read_standing, write_standing};

pub fn layout(item: &[u8]) -> ItemAnswer {
    // SAFETY: the item is a slice lent for reading.
    unsafe { raw::snowknoll_layout(item.as_ptr(), item.len()) }
}

pub fn payload(item: &[u8]) -> StretchAnswer {
    // SAFETY: the item is a slice lent for reading.
    unsafe { raw::snowknoll_payload(item.as_ptr(), item.len()) }
}

pub fn id(item: &[u8], id: &mut [u8; 32]) -> u16 {
    // SAFETY: the item is a slice lent for reading; the id is 32 bytes borrowed for writing.
    unsafe { raw::snowknoll_id(item.as_ptr(), item.len(), id) }
}

pub fn find_id(ids: &[u8], count: usize, id: &[u8; 32]) -> usize {
    // SAFETY: the ids are a slice and the id 32 bytes, lent for reading; any count is allowed.
    unsafe { raw::snowknoll_find_id(ids.as_ptr(), ids.len(), count, id) }
}

pub fn find_key(keys: &[u8], count: usize, key: &[u8; 32]) -> usize {
    // SAFETY: the keys are a slice and the key 32 bytes, lent for reading; any count is allowed.
    unsafe { raw::snowknoll_find_key(keys.as_ptr(), keys.len(), count, key) }
}

pub fn well_formed(store: &Tables) -> u16 {
    // SAFETY: the store's parts are slices lent for reading; any contents and counts are allowed.
    unsafe { over!(snowknoll_well_formed, store) }
}

pub fn admit(item: &[u8], origin: u8, store: TablesMut) -> AdmitAnswer {
    let (at, len) = (item.as_ptr(), item.len());
    // SAFETY: the item is a slice lent for reading; the store's parts and origins are slices, each
    // borrowed by itself for writing; any contents and counts are allowed.
    unsafe { into!(snowknoll_admit, store, at, len, origin; store.counts) }
}

pub fn admit_at(intake: &[u8], place: Range<usize>, origin: u8, store: TablesMut) -> AdmitAnswer {
    let (at, len, start, end) = (intake.as_ptr(), intake.len(), place.start, place.end);
    // SAFETY: as for admit, the intake in place of the item; any places are allowed.
    unsafe { into!(snowknoll_admit_at, store, at, len, start, end, origin; store.counts) }
}

pub fn take_in(stretch: &[u8], origin: u8, store: TablesMut, list: &mut [u16]) -> IntakeAnswer {
    let (at, len) = (stretch.as_ptr(), stretch.len());
    let (to, to_len) = (list.as_mut_ptr(), list.len());
    // SAFETY: as for admit, the stretch in place of the item; the list is a slice borrowed for writing.
    unsafe { into!(snowknoll_take_in, store, at, len, origin; store.counts, to, to_len) }
}

pub fn origin(store: &Tables, origins: &[u8], row: u16) -> OriginAnswer {
    // SAFETY: the store's parts and the origins are slices lent for reading; any numbers are allowed.
    unsafe {
        raw::snowknoll_origin(
            store.keys.as_ptr(),
            store.keys.len(),
            store.ids.as_ptr(),
            store.ids.len(),
            store.rows.as_ptr(),
            store.rows.len(),
            store.deps.as_ptr(),
            store.deps.len(),
            store.branches.as_ptr(),
            store.branches.len(),
            origins.as_ptr(),
            origins.len(),
            store.counts,
            row,
        )
    }
}

pub fn prefix(store: &Tables, a: u16, b: u16) -> PrefixAnswer {
    // SAFETY: the store's parts are slices lent for reading; any numbers are allowed.
    unsafe { over!(snowknoll_prefix, store, a, b) }
}

pub fn append(store: &Tables, state: State, row: u16) -> StateAnswer {
    // SAFETY: the store's parts are slices lent for reading; any numbers are allowed.
    unsafe { over!(snowknoll_append, store, state, row) }
}

pub fn merge(store: &Tables, first: State, second: State) -> StateAnswer {
    // SAFETY: the store's parts are slices lent for reading; any numbers are allowed.
    unsafe { over!(snowknoll_merge, store, first, second) }
}

pub fn at_or_below(store: &Tables, first: State, second: State) -> YesAnswer {
    // SAFETY: the store's parts are slices lent for reading; any numbers are allowed.
    unsafe { over!(snowknoll_at_or_below, store, first, second) }
}

pub fn valid_frontier(store: &Tables, f: &[u16]) -> YesAnswer {
    // SAFETY: the store's parts and the frontier are slices lent for reading.
    unsafe { over!(snowknoll_valid_frontier, store, f.as_ptr(), f.len()) }
}

pub fn frontier_at_or_below(store: &Tables, f: &[u16], g: &[u16]) -> YesAnswer {
    let (at, len) = (g.as_ptr(), g.len());
    // SAFETY: the store's parts and both frontiers are slices lent for reading.
    unsafe {
        over!(
            snowknoll_frontier_at_or_below,
            store,
            f.as_ptr(),
            f.len(),
            at,
            len
        )
    }
}

pub fn merge_frontiers(store: &Tables, f: &[u16], g: &[u16], out: &mut [u16]) -> CountAnswer {
    let (from, from_len) = (g.as_ptr(), g.len());
    let (to, to_len) = (out.as_mut_ptr(), out.len());
    // SAFETY: the store's parts and both frontiers are slices lent for reading; out is a slice
    // borrowed for writing.
    unsafe {
        over!(
            snowknoll_merge_frontiers,
            store,
            f.as_ptr(),
            f.len(),
            from,
            from_len,
            to,
            to_len
        )
    }
}

pub fn append_entry(store: &Tables, frontier: &mut [u16], used: usize, row: u16) -> CountAnswer {
    let (at, len) = (frontier.as_mut_ptr(), frontier.len());
    // SAFETY: the store's parts are slices lent for reading; the frontier is a slice borrowed for
    // writing; any numbers are allowed.
    unsafe { over!(snowknoll_append_entry, store, at, len, used, row) }
}

pub fn packing_list(store: &Tables, frontier: &[u16], out: &mut [u16]) -> CountAnswer {
    let (from, from_len) = (frontier.as_ptr(), frontier.len());
    let (to, to_len) = (out.as_mut_ptr(), out.len());
    // SAFETY: the store's parts and the frontier are slices lent for reading; out is a slice
    // borrowed for writing.
    unsafe { over!(snowknoll_packing_list, store, from, from_len, to, to_len) }
}

pub fn write_item(message: &Message, out: &mut [u8]) -> CountAnswer {
    let dependencies = message.dependencies.as_flattened();
    // SAFETY: the fields are slices lent for reading; out is a slice borrowed for writing; any numbers
    // are allowed.
    unsafe {
        raw::snowknoll_write_item(
            message.mark,
            message.key.as_ptr(),
            message.key.len(),
            message.previous.as_ptr(),
            message.previous.len(),
            message.index,
            message.payload.as_ptr(),
            message.payload.len(),
            dependencies.as_ptr(),
            dependencies.len(),
            message.signature.as_ptr(),
            message.signature.len(),
            out.as_mut_ptr(),
            out.len(),
        )
    }
}

pub fn branches(store: &Tables, state: State, out: &mut [u16]) -> CountAnswer {
    let (to, to_len) = (out.as_mut_ptr(), out.len());
    // SAFETY: the store's parts are slices lent for reading; out is a slice borrowed for writing; any
    // numbers are allowed.
    unsafe { over!(snowknoll_branches, store, state, to, to_len) }
}
