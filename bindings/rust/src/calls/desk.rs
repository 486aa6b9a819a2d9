//! The release desk.

use super::{Tables, TablesMut};
use crate::raw::{self, AdmitAnswer, ReleaseAnswer};

pub fn desk_admit(
    item: &[u8],
    origin: u8,
    store: TablesMut,
    components: &mut [u16],
    expanded: &mut [u8],
) -> AdmitAnswer {
    let (at, len) = (item.as_ptr(), item.len());
    let (of, of_len) = (components.as_mut_ptr(), components.len());
    let (bytes, bytes_len) = (expanded.as_mut_ptr(), expanded.len());
    // SAFETY: the item is a slice lent for reading; the store's parts, its origins and both columns are
    // slices, each borrowed by itself for writing; any contents and counts are allowed.
    unsafe {
        into!(snowknoll_desk_admit, store, at, len, origin; of, of_len, bytes, bytes_len, store.counts)
    }
}

/// What the desk lends for reading: both columns, and the owners.
pub struct Columns<'a> {
    pub components: &'a [u16],
    pub expanded: &'a [u8],
    pub owners: &'a [u16],
}

pub fn current_release(store: &Tables, f: &[u16], desk: &Columns, component: u16) -> ReleaseAnswer {
    // SAFETY: the store's parts, the frontier and the desk's parts are slices lent for reading; any
    // numbers are allowed.
    unsafe {
        over!(
            snowknoll_current_release,
            store,
            f.as_ptr(),
            f.len(),
            desk.components.as_ptr(),
            desk.components.len(),
            desk.expanded.as_ptr(),
            desk.expanded.len(),
            desk.owners.as_ptr(),
            desk.owners.len(),
            component
        )
    }
}
