//! The leaf of a list in which a code lies: a search that gallops from a hint, then halves.

use crate::leaf::code_of;

/// The place of the leaf in which a code lies, at or after one place and before another.
fn between(list: &[u64], code: u64, from: usize, to: usize) -> usize {
    let (mut low, mut high) = (from, to);
    while low + 1 < high {
        let middle = low + (high - low) / 2;
        if code_of(list[middle]) <= code {
            low = middle;
        } else {
            high = middle;
        }
    }
    low
}

/// The place of the leaf in which a code lies, at or after a place.
fn after(list: &[u64], code: u64, from: usize) -> usize {
    let (mut low, mut step) = (from, 1);
    while step < list.len() - low {
        let next = low + step;
        if code < code_of(list[next]) {
            return between(list, code, low, next);
        }
        low = next;
        step *= 2;
    }
    between(list, code, low, list.len())
}

/// The place of the leaf in which a code lies, before a place.
fn before(list: &[u64], code: u64, to: usize) -> usize {
    let (mut high, mut step) = (to, 1);
    while step < high {
        let next = high - step;
        if code_of(list[next]) <= code {
            return between(list, code, next, high);
        }
        high = next;
        step *= 2;
    }
    between(list, code, 0, high)
}

/// The place of the leaf in which a code lies, sought from a hint.
pub fn find(list: &[u64], code: u64, hint: usize) -> usize {
    match list.get(hint) {
        None => between(list, code, 0, list.len()),
        Some(&word) if code_of(word) <= code => after(list, code, hint),
        Some(_) => before(list, code, hint),
    }
}
