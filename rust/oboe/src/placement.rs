//! Where the second map lies, in words.

use crate::words::{counted, number};
use oboeridge::Shift;

/// How many places two runs share: one of so many from 0 on, the other of so many from some place on.
fn shared(first: i64, from: i64, second: i64) -> i64 {
    (first.min(from + second) - from.max(0)).max(0)
}

/// How many cells of a map of so many cells a side a square shares that lies at a row and a column of it.
pub fn shared_cells(first: i64, row: i64, column: i64, side: i64) -> u64 {
    (shared(first, row, side) * shared(first, column, side)) as u64
}

/// The sentence that says where the second map lies and how much of the first map it meets.
pub fn sentence(first: i64, shift: Shift, shared: u64) -> String {
    let of = counted((first * first) as u64, "cell", "cells");
    let place = match (shift.dy, shift.dx) {
        (0, 0) => "at the first map's corner".to_string(),
        (dy, 0) => format!("{}, in the same columns", away(dy, ["row", "rows"], ["north", "south"])),
        (0, dx) => format!("in the same rows, {}", away(dx, ["column", "columns"], ["west", "east"])),
        (dy, dx) => {
            format!("{}, {}", away(dy, ["row", "rows"], ["north", "south"]), away(dx, ["column", "columns"], ["west", "east"]))
        }
    };
    format!("second map: {place}; the squares share {} of the first map's {of}", number(shared))
}

/// So many rows or columns away, and to which side.
fn away(steps: i64, names: [&str; 2], sides: [&str; 2]) -> String {
    let steps_away = counted(steps.unsigned_abs(), names[0], names[1]);
    format!("{steps_away} {}", sides[usize::from(steps > 0)])
}

#[cfg(test)]
mod tests {
    use super::*;

    #[test]
    fn squares_share_what_lies_in_both() {
        let shares = [(3, 2), (-3, 2), (0, 0), (4, 0), (-4, 0), (1, -1)].map(|(row, column)| shared_cells(4, row, column, 4));
        assert_eq!(shares, [2, 2, 16, 0, 0, 9]);
        assert_eq!(shared_cells(4, 1, 1, 2), 4);
        assert_eq!(shared_cells(2, -1, -1, 4), 4);
    }

    #[test]
    fn rows_grow_southward_and_columns_eastward() {
        let said = |dy, dx| sentence(4, Shift { dy, dx }, 2);
        assert_eq!(said(3, 2), "second map: 3 rows south, 2 columns east; the squares share 2 of the first map's 16 cells");
        assert_eq!(said(-1, -1), "second map: 1 row north, 1 column west; the squares share 2 of the first map's 16 cells");
        assert!(said(0, 0).contains("at the first map's corner"));
        assert!(said(0, 5).contains("in the same rows, 5 columns east"));
        assert!(said(-5, 0).contains("5 rows north, in the same columns"));
    }
}
