//! A list judged entry by entry, and painted.

use super::word::{self, Leaf};
use crate::picture::Picture;

/// Nothing if a list is well formed for this size, else the position of its first wrong entry, or its length if it stops short.
pub fn first_wrong(size: u32, list: &[u64]) -> Option<u64> {
    let mut end = 0;
    for (position, word) in (0..).zip(list) {
        let leaf = Leaf::of(*word);
        if !is_right(size, leaf, end) {
            return Some(position);
        }
        end += cells(leaf.level);
    }
    (end != cells(size)).then_some(list.len() as u64)
}

/// Whether an entry is right where the entries before it end.
fn is_right(size: u32, leaf: Leaf, end: u128) -> bool {
    let code = u128::from(leaf.code);
    leaf.level <= size && code == end && code < cells(size) && code.is_multiple_of(cells(leaf.level))
}

/// The number of cells of a block. No code can bring a sum of these to its limit.
fn cells(level: u32) -> u128 {
    4_u128.pow(level)
}

/// The picture that a well-formed list shows.
pub fn painted(size: u32, list: &[u64]) -> Picture {
    let mut picture = Picture { size, cells: vec![0; word::cells(size) as usize] };
    let side = picture.side();
    for leaf in list.iter().map(|word| Leaf::of(*word)) {
        let columns = leaf.columns().start as usize..leaf.columns().end as usize;
        for row in leaf.rows() {
            picture.cells[row as usize * side..][columns.clone()].fill(leaf.colour);
        }
    }
    picture
}

#[cfg(test)]
mod tests {
    use super::*;
    use crate::list;
    use crate::patterns;

    #[test]
    fn an_entry_behind_the_end_is_wrong() {
        assert_eq!(first_wrong(0, &[1, 65_537]), Some(1));
        assert_eq!(first_wrong(1, &[257]), None);
        assert_eq!(first_wrong(1, &[257, 262_144]), Some(1));
    }

    #[test]
    fn no_bit_of_the_code_or_the_level_is_passed_over() {
        for bit in 8..64 {
            assert_eq!(first_wrong(0, &[1 << bit]), Some(0), "bit {bit}");
            assert_eq!(first_wrong(1, &[0, 65_536, 131_072 ^ 1 << bit, 196_608]), Some(2), "bit {bit}");
        }
        for bit in 0..8 {
            assert_eq!(first_wrong(0, &[1 << bit]), None, "bit {bit}");
        }
    }

    #[test]
    fn a_block_is_aligned() {
        assert_eq!(first_wrong(2, &[0, 65_536 + 256]), Some(1));
        assert_eq!(first_wrong(2, &[256, 4 * 65_536, 5 * 65_536 + 256]), Some(2));
    }

    #[test]
    fn a_picture_is_painted_from_its_list() {
        for (name, picture) in (0..=5).flat_map(patterns::of_size) {
            let leaves = list::shortest(&picture);
            let words = leaves.iter().map(|leaf| Leaf { code: leaf.code(), level: leaf.level, colour: leaf.colour }.word());
            assert_eq!(painted(picture.size, &words.collect::<Vec<_>>()), picture, "{name}");
        }
    }
}
