//! The catalogue.

use super::{Tables, TablesMut};
use crate::raw::{self, AdmitAnswer, BackstepAnswer, YesAnswer};

pub fn steady(store: &Tables) -> YesAnswer {
    // SAFETY: the store's parts are slices lent for reading; any contents and counts are allowed.
    unsafe { over!(snowknoll_steady, store) }
}

pub fn backstep(store: &Tables) -> BackstepAnswer {
    // SAFETY: the store's parts are slices lent for reading; any contents and counts are allowed.
    unsafe { over!(snowknoll_backstep, store) }
}

pub fn admit_catalogue(item: &[u8], origin: u8, store: TablesMut) -> AdmitAnswer {
    let (at, len) = (item.as_ptr(), item.len());
    // SAFETY: the item is a slice lent for reading; the store's parts and origins are slices, each
    // borrowed by itself for writing; any contents and counts are allowed.
    unsafe { into!(snowknoll_admit_catalogue, store, at, len, origin; store.counts) }
}
