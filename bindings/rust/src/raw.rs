//! The C functions of the proved library, and the structs that they take and give.
//!
//! A slice is a pointer, then how many elements it has. A store is its five slices (keys, ids, rows,
//! deps, branches), then its counts. The origins stand between, in the calls that take them; an admission
//! takes what it admits first.

/// How many rows, authors and dependencies a store has.
#[repr(C)]
#[derive(Clone, Copy, Default)]
pub struct Counts {
    pub rows: usize,
    pub authors: usize,
    pub deps: usize,
}

/// A log state: phase 0 growing, 1 forked; low and high 0 when growing.
#[repr(C)]
#[derive(Clone, Copy)]
pub struct State {
    pub author: u16,
    pub phase: u16,
    pub last: u16,
    pub low: u16,
    pub high: u16,
}

/// The fields of an item, as numbers and places in it.
#[repr(C)]
pub struct ItemAnswer {
    pub number: u16,
    pub mark: u8,
    pub index: usize,
    pub payload: usize,
    pub size: usize,
    pub dependencies: usize,
    pub count: usize,
}

/// A stretch of the caller's own record.
#[repr(C)]
pub struct StretchAnswer {
    pub number: u16,
    pub start: usize,
    pub length: usize,
}

/// A row, and the counts of the store afterwards.
#[repr(C)]
pub struct AdmitAnswer {
    pub number: u16,
    pub row: u16,
    pub counts: Counts,
}

/// How many items there are, and the counts of the store afterwards.
#[repr(C)]
pub struct IntakeAnswer {
    pub number: u16,
    pub items: usize,
    pub counts: Counts,
}

/// How many items a stick has, how many bytes the clean intake, and the counts of the store afterwards.
#[repr(C)]
pub struct SalvageAnswer {
    pub number: u16,
    pub items: usize,
    pub bytes: usize,
    pub counts: Counts,
}

/// The origin of a row.
#[repr(C)]
pub struct OriginAnswer {
    pub number: u16,
    pub origin: u8,
}

/// A row or none, and its child toward each of two sides.
#[repr(C)]
pub struct PrefixAnswer {
    pub number: u16,
    pub row: u16,
    pub first: u16,
    pub second: u16,
}

/// A row that breaks the rule of steady authors, and the earlier row that it breaks it against; 0 for none.
#[repr(C)]
pub struct BackstepAnswer {
    pub number: u16,
    pub row: u16,
    pub earlier: u16,
}

/// A log state.
#[repr(C)]
pub struct StateAnswer {
    pub number: u16,
    pub state: State,
}

/// The current release of a component; row 0 where there is none. Expanded and frozen are 1 or 0.
#[repr(C)]
pub struct ReleaseAnswer {
    pub number: u16,
    pub row: u16,
    pub index: u16,
    pub expanded: u8,
    pub frozen: u8,
}

/// Yes, 1, or no, 0.
#[repr(C)]
pub struct YesAnswer {
    pub number: u16,
    pub yes: u16,
}

/// How many numbers, or bytes of an item, were written.
#[repr(C)]
pub struct CountAnswer {
    pub number: u16,
    pub count: usize,
}

/// Declares functions over a store that they read: the store's five slices and its counts come first.
macro_rules! over_a_store {
    ($(fn $function:ident($($more:ident: $kind:ty),*) -> $answer:ty;)*) => {
        extern "C" {
            $(pub fn $function(
                keys: *const u8,
                keys_len: usize,
                ids: *const u8,
                ids_len: usize,
                rows: *const u16,
                rows_len: usize,
                deps: *const u16,
                deps_len: usize,
                branches: *const u16,
                branches_len: usize,
                counts: Counts
                $(, $more: $kind)*
            ) -> $answer;)*
        }
    };
}

over_a_store! {
    fn snowknoll_well_formed() -> u16;
    fn snowknoll_prefix(a: u16, b: u16) -> PrefixAnswer;
    fn snowknoll_append(state: State, row: u16) -> StateAnswer;
    fn snowknoll_merge(first: State, second: State) -> StateAnswer;
    fn snowknoll_at_or_below(first: State, second: State) -> YesAnswer;
    fn snowknoll_valid_frontier(f: *const u16, f_len: usize) -> YesAnswer;
    fn snowknoll_frontier_at_or_below(f: *const u16, f_len: usize, g: *const u16, g_len: usize) -> YesAnswer;
    fn snowknoll_merge_frontiers(f: *const u16, f_len: usize, g: *const u16, g_len: usize, out: *mut u16, out_len: usize) -> CountAnswer;
    fn snowknoll_append_entry(frontier: *mut u16, frontier_len: usize, used: usize, row: u16) -> CountAnswer;
    fn snowknoll_packing_list(frontier: *const u16, frontier_len: usize, out: *mut u16, out_len: usize) -> CountAnswer;
    fn snowknoll_write_standing(f: *const u16, f_len: usize, out: *mut u8, out_len: usize) -> CountAnswer;
    fn snowknoll_read_standing(item: *const u8, item_len: usize, out: *mut u16, out_len: usize) -> CountAnswer;
    fn snowknoll_steady() -> YesAnswer;
    fn snowknoll_backstep() -> BackstepAnswer;
    fn snowknoll_current_release(f: *const u16, f_len: usize, components: *const u16, components_len: usize, expanded: *const u8, expanded_len: usize, owners: *const u16, owners_len: usize, component: u16) -> ReleaseAnswer;
    fn snowknoll_branches(state: State, out: *mut u16, out_len: usize) -> CountAnswer;
}

/// Declares functions over a store that they write: its five slices and its origins stand where the semicolon is.
macro_rules! into_a_store {
    ($(fn $function:ident($($first:ident: $sort:ty),*; $($more:ident: $kind:ty),*) -> $answer:ty;)*) => {
        extern "C" {
            $(pub fn $function(
                $($first: $sort,)*
                keys: *mut u8,
                keys_len: usize,
                ids: *mut u8,
                ids_len: usize,
                rows: *mut u16,
                rows_len: usize,
                deps: *mut u16,
                deps_len: usize,
                branches: *mut u16,
                branches_len: usize,
                origins: *mut u8,
                origins_len: usize
                $(, $more: $kind)*
            ) -> $answer;)*
        }
    };
}

into_a_store! {
    fn snowknoll_admit(item: *const u8, item_len: usize, origin: u8; counts: Counts) -> AdmitAnswer;
    fn snowknoll_admit_catalogue(item: *const u8, item_len: usize, origin: u8; counts: Counts) -> AdmitAnswer;
    fn snowknoll_admit_at(intake: *const u8, intake_len: usize, start: usize, end: usize, origin: u8; counts: Counts) -> AdmitAnswer;
    fn snowknoll_take_in(stretch: *const u8, stretch_len: usize, origin: u8; counts: Counts, list: *mut u16, list_len: usize) -> IntakeAnswer;
    fn snowknoll_desk_admit(item: *const u8, item_len: usize, origin: u8; components: *mut u16, components_len: usize, expanded: *mut u8, expanded_len: usize, counts: Counts) -> AdmitAnswer;
    fn snowknoll_salvage(stick: *const u8, stick_len: usize; clean: *mut u8, clean_len: usize, list: *mut u16, list_len: usize) -> SalvageAnswer;
}

extern "C" {
    pub fn snowknoll_layout(item: *const u8, item_len: usize) -> ItemAnswer;
    pub fn snowknoll_payload(item: *const u8, item_len: usize) -> StretchAnswer;
    pub fn snowknoll_id(item: *const u8, item_len: usize, id: *mut [u8; 32]) -> u16;
    pub fn snowknoll_find_id(
        ids: *const u8,
        ids_len: usize,
        count: usize,
        id: *const [u8; 32],
    ) -> usize;
    pub fn snowknoll_find_key(
        keys: *const u8,
        keys_len: usize,
        count: usize,
        key: *const [u8; 32],
    ) -> usize;
    pub fn snowknoll_origin(
        keys: *const u8,
        keys_len: usize,
        ids: *const u8,
        ids_len: usize,
        rows: *const u16,
        rows_len: usize,
        deps: *const u16,
        deps_len: usize,
        branches: *const u16,
        branches_len: usize,
        origins: *const u8,
        origins_len: usize,
        counts: Counts,
        row: u16,
    ) -> OriginAnswer;
    pub fn snowknoll_write_item(
        mark: u8,
        key: *const u8,
        key_len: usize,
        previous: *const u8,
        previous_len: usize,
        index: u32,
        payload: *const u8,
        payload_len: usize,
        dependencies: *const u8,
        dependencies_len: usize,
        signature: *const u8,
        signature_len: usize,
        out: *mut u8,
        out_len: usize,
    ) -> CountAnswer;
}
