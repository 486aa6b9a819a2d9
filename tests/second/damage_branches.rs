//! Damage to the numbers of branches; and the numbers counted anew after other damage, so that no
//! other clause of the well-formed rule is broken only together with theirs.

use crate::random::Random;
use crate::store::{Store, AUTHORS_LIMIT, BRANCHES_LIMIT, ROW_NUMBERS};

/// How many ways there are to damage the numbers of branches.
pub const BRANCH_WAYS: usize = 9;

/// Changes a number of some author or row, or cuts the part short.
pub fn damage_branches(random: &mut Random, store: &mut Store, way: usize) {
    let of_author = random.below(store.author_count);
    let of_row = AUTHORS_LIMIT + random.below(store.row_count);
    let other_row = AUTHORS_LIMIT + random.below(store.row_count);
    let branches = &mut store.branches;
    match way {
        0 => branches[of_author] += 1,
        1 => branches[of_row] += 1,
        2 => branches[of_author] = branches[of_author].wrapping_sub(1),
        3 => branches[of_row] = branches[of_row].wrapping_sub(1),
        4 => branches[of_author] = random.pick(&[0, 1, 256, 1024, 65535]),
        5 => branches[of_row] = random.pick(&[0, 1, 256, 1024, 65535]),
        6 => branches.swap(of_row, other_row),
        7 => branches.truncate(of_row),
        _ => branches.truncate(random.pick(&[of_author, store.author_count, AUTHORS_LIMIT])),
    }
}

/// The place of the number that a row of this author and previous row adds to, where there is one.
fn place_of(author: u16, previous: u16) -> Option<usize> {
    match (author as usize, previous as usize) {
        (author, 0) => (1..=AUTHORS_LIMIT).contains(&author).then(|| author - 1),
        (_, previous) => Some(AUTHORS_LIMIT + previous - 1),
    }
}

/// Sets every number that the counts reach to what the rows lead to, sound or not.
pub fn count_anew(store: &mut Store) {
    let mut right = [0; BRANCHES_LIMIT];
    for row in store.rows.chunks_exact(ROW_NUMBERS).take(store.row_count) {
        let place = place_of(row[0], row[1]);
        if let Some(number) = place.and_then(|place| right.get_mut(place)) {
            *number += 1;
        }
    }
    let of_authors = right[..AUTHORS_LIMIT].iter().take(store.author_count);
    let of_rows = right[AUTHORS_LIMIT..].iter().take(store.row_count);
    let numbers = (0..).zip(of_authors).chain((AUTHORS_LIMIT..).zip(of_rows));
    for (place, number) in numbers {
        if let Some(kept) = store.branches.get_mut(place) {
            *kept = *number;
        }
    }
}
