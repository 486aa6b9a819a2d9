//! Sticks with holes.

use super::TablesMut;
use crate::raw::{self, SalvageAnswer};

pub fn salvage(
    stick: &[u8],
    store: TablesMut,
    clean: &mut [u8],
    list: &mut [u16],
) -> SalvageAnswer {
    let (at, len) = (stick.as_ptr(), stick.len());
    let (clean_at, clean_len) = (clean.as_mut_ptr(), clean.len());
    let (list_at, list_len) = (list.as_mut_ptr(), list.len());
    // SAFETY: the stick is a slice lent for reading; the store's parts and origins, the clean intake and
    // the list are slices, each borrowed by itself for writing; any contents are allowed.
    unsafe { into!(snowknoll_salvage, store, at, len; clean_at, clean_len, list_at, list_len) }
}
