//! The second program's own way with an intake, called from C: its sources as `tests/second` has them.
#![allow(dead_code)]

#[path = "../../tests/second/admission.rs"]
mod admission;
#[path = "../../tests/second/answers.rs"]
mod answers;
#[path = "../../tests/second/intake.rs"]
mod intake;
#[path = "../../tests/second/item.rs"]
mod item;
#[path = "../../tests/second/sha256.rs"]
mod sha256;
#[path = "../../tests/second/states.rs"]
mod states;
#[path = "../../tests/second/store.rs"]
mod store;

/// Admits items one by one to an empty store: how many were admitted. Each begins so many bytes after the one before it.
///
/// # Safety
/// `count` items of `stride` bytes stand at `items`.
#[no_mangle]
pub unsafe extern "C" fn second_admits(items: *const u8, stride: usize, count: usize) -> usize {
    let mut held = store::Store::empty();
    let mut admitted = 0;
    for place in std::slice::from_raw_parts(items, stride * count).chunks(stride) {
        let record = &place[..item::number4(place) as usize + 4];
        if admission::admit(&mut held, record, 0).0 == answers::DONE {
            admitted += 1;
        }
    }
    admitted
}

/// What the second program prints for an intake: how many bytes, put to the start of `out` as far as they fit.
///
/// # Safety
/// `length` bytes stand at `bytes`, and `room` bytes at `out` may be written.
#[no_mangle]
pub unsafe extern "C" fn second_intake(bytes: *const u8, length: usize, out: *mut u8, room: usize) -> usize {
    let lines = intake::run(std::slice::from_raw_parts(bytes, length));
    let fitting = lines.len().min(room);
    std::slice::from_raw_parts_mut(out, room)[..fitting].copy_from_slice(&lines.as_bytes()[..fitting]);
    lines.len()
}
