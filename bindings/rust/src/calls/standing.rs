//! Standings.

use super::Tables;
use crate::raw::{self, CountAnswer};

pub fn write_standing(store: &Tables, f: &[u16], out: &mut [u8]) -> CountAnswer {
    let (from, from_len) = (f.as_ptr(), f.len());
    let (to, to_len) = (out.as_mut_ptr(), out.len());
    // SAFETY: the store's parts and the frontier are slices lent for reading; out is a slice borrowed
    // for writing.
    unsafe { over!(snowknoll_write_standing, store, from, from_len, to, to_len) }
}

pub fn read_standing(store: &Tables, item: &[u8], out: &mut [u16]) -> CountAnswer {
    let (from, from_len) = (item.as_ptr(), item.len());
    let (to, to_len) = (out.as_mut_ptr(), out.len());
    // SAFETY: the store's parts and the item are slices lent for reading; out is a slice borrowed for
    // writing.
    unsafe { over!(snowknoll_read_standing, store, from, from_len, to, to_len) }
}
