//! Tiles: the colours of a block of 256 cells in the order of their codes, decoded from a list leaf by leaf, and listed with no search.

use crate::leaf::{area, cell_of, code_at, colour_of, end_of};
use crate::listing::{finish, Part};
use crate::search::find;

/// The level of a tile, its side, and the number of its cells.
pub const LEVEL: u64 = 4;
pub const SIDE: usize = 16;
pub const CELLS: usize = 256;

/// Where each cell of a tile stands among those of four aligned blocks.
pub type Steps = [u16; CELLS];

/// The steps of a tile that lies so many rows and columns within four aligned blocks.
pub fn steps(down: usize, right: usize) -> Steps {
    std::array::from_fn(|code| {
        let (row, column) = cell_of(code as u64);
        code_at(down + row, right + column) as u16
    })
}

/// Stores the colours of the codes from one on, leaf by leaf, until the cells are full.
pub fn decode(list: &[u64], code: u64, hint: usize, cells: &mut [u8]) {
    let mut place = 0;
    for &word in &list[find(list, code, hint)..] {
        let next = cells.len().min((end_of(word) - code) as usize);
        match &mut cells[place..next] {
            [cell] => *cell = colour_of(word),
            run => run.fill(colour_of(word)),
        }
        place = next;
        if place == cells.len() {
            return;
        }
    }
}

/// Takes the cells of a tile from those of four blocks, by their steps.
pub fn gather(steps: &Steps, four: &[u8; 4 * CELLS], cells: &mut [u8; CELLS]) {
    for (cell, &step) in cells.iter_mut().zip(steps) {
        *cell = four[usize::from(step)];
    }
}

/// Writes the list of a block's cells from `at` on, or nothing if they are of one colour; what the block comes to.
pub fn put(cells: &[u8], out: &mut [u64], at: usize, code: u64, level: u64) -> Part {
    if level == 1 {
        return finish(out, at, [cells[0], cells[1], cells[2], cells[3]].map(Part::one), code, 0);
    }
    if cells.iter().all(|&cell| cell == cells[0]) {
        return Part::one(cells[0]);
    }
    let (level, quarter) = (level - 1, area(level - 1));
    let (north, south) = cells.split_at(cells.len() / 2);
    let (nw, ne) = north.split_at(north.len() / 2);
    let (sw, se) = south.split_at(south.len() / 2);
    let nw = put(nw, out, at, code, level);
    let second = at + nw.leaves();
    let ne = put(ne, out, second, code + quarter, level);
    let third = second + ne.leaves();
    let sw = put(sw, out, third, code + 2 * quarter, level);
    let fourth = third + sw.leaves();
    let se = put(se, out, fourth, code + 3 * quarter, level);
    finish(out, at, [nw, ne, sw, se], code, level)
}

#[cfg(test)]
mod tests {
    use super::*;
    use crate::leaf::leaf;

    #[test]
    fn a_step_is_the_code_within_four_blocks() {
        assert_eq!((steps(0, 0)[255], steps(1, 0)[0], steps(15, 15)[255]), (255, 2, 1020));
        assert_eq!(steps(0, 1)[..4], [1, 4, 3, 6]);
    }

    #[test]
    fn a_tile_of_a_larger_leaf_is_one_colour() {
        let list = [leaf(0, 5, 7), leaf(1024, 5, 8), leaf(2048, 5, 7), leaf(3072, 5, 8)];
        let mut cells = [9; CELLS];
        decode(&list, 512, 3, &mut cells);
        assert_eq!(cells, [7; CELLS]);
    }

    #[test]
    fn the_list_of_a_tile_is_the_shortest() {
        let mut cells = [5; CELLS];
        assert!(put(&cells, &mut [], 0, 0, LEVEL) == Part::one(5));
        cells[64] = 6;
        let mut out = [0; 16];
        assert_eq!(put(&cells, &mut out, 0, 0, LEVEL).leaves(), 13);
        assert_eq!(out[..3], [leaf(0, 3, 5), leaf(64, 0, 6), leaf(65, 0, 5)]);
    }
}
