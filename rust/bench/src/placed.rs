//! A map under a window: what it shows over a square, wherever that lies, and the tile of it there.

use crate::leaf::{code_at, colour_of, level_of, side};
use crate::listing::COLOURS;
use crate::search::find;
use crate::tiles::{decode, gather, steps, Steps, CELLS, SIDE};
use oboeridge::Map;

/// What is known of a map over a block: below `COLOURS` its one colour, else that much more than a place near it in the list.
#[derive(Clone, Copy)]
pub struct Known(usize);

impl Known {
    pub fn colour(self) -> Option<u8> {
        (self.0 < COLOURS).then_some(self.0 as u8)
    }

    pub fn one(colour: u8) -> Known {
        Known(usize::from(colour))
    }

    pub fn near(place: usize) -> Known {
        Known(COLOURS + place)
    }
}

/// A map, where the window's first cell lies in it, and the steps of its tiles.
pub struct Placed<'a> {
    pub map: Map<'a>,
    row: i64,
    column: i64,
    steps: Steps,
}

/// How far a row or a column lies within an aligned block of a tile's side.
fn within_tile(value: i64) -> usize {
    value.rem_euclid(SIDE as i64) as usize
}

impl<'a> Placed<'a> {
    pub fn new(map: Map<'a>, row: i64, column: i64) -> Placed<'a> {
        Placed { map, row, column, steps: steps(within_tile(row), within_tile(column)) }
    }

    /// Whether the aligned square of the level that holds a cell lies in one leaf of the colour.
    fn corner(&self, hint: usize, row: usize, column: usize, level: u64, colour: u8) -> bool {
        let word = self.map.list[find(self.map.list, code_at(row, column), hint)];
        colour_of(word) == colour && level <= level_of(word)
    }

    /// Whether a square has the colour of the aligned square at its upper left corner: the other three corners tell.
    fn across(&self, hint: usize, row: usize, column: usize, level: u64, colour: u8) -> bool {
        let mask = side(level) - 1;
        let (bottom, right) = (row + mask, column + mask);
        let corner = |row, column| self.corner(hint, row, column, level, colour);
        if column & mask == 0 {
            return corner(bottom, column);
        }
        corner(row, right) && (row & mask == 0 || corner(bottom, column) && corner(bottom, right))
    }

    /// What a square within the map shows.
    fn look(&self, hint: usize, row: usize, column: usize, level: u64) -> Known {
        let place = find(self.map.list, code_at(row, column), hint);
        let word = self.map.list[place];
        let (colour, leaf_level) = (colour_of(word), level_of(word));
        let (leaf_side, side) = (side(leaf_level), side(level));
        let mask = leaf_side - 1;
        if (row & mask) + side <= leaf_side && (column & mask) + side <= leaf_side {
            return Known::one(colour);
        }
        if level <= leaf_level && self.across(place, row, column, level, colour) {
            return Known::one(colour);
        }
        Known::near(place)
    }

    /// What a square at a row and a column of the window shows.
    pub fn ask(&self, known: Known, y: usize, x: usize, level: u64) -> Known {
        if known.0 < COLOURS {
            return known;
        }
        let (row, column) = (self.row + y as i64, self.column + x as i64);
        let (side, end) = (side(level) as i64, side(self.map.size) as i64);
        if row + side <= 0 || column + side <= 0 || end <= row || end <= column {
            return Known::one(0);
        }
        if row < 0 || column < 0 || end < row + side || end < column + side {
            return known;
        }
        self.look(known.0 - COLOURS, row as usize, column as usize, level)
    }

    /// Decodes the aligned block at a row and a column; one beyond the map is WHITE.
    fn block(&self, hint: usize, row: i64, column: i64, cells: &mut [u8]) {
        let inside = 0..side(self.map.size) as i64;
        if inside.contains(&row) && inside.contains(&column) {
            decode(self.map.list, code_at(row as usize, column as usize), hint, cells);
        } else {
            cells.fill(0);
        }
    }

    /// Decodes the tile at a row and a column of the window, which lie on multiples of a tile's side.
    pub fn tile(&self, known: Known, y: usize, x: usize, cells: &mut [u8; CELLS]) {
        if let Some(colour) = known.colour() {
            return cells.fill(colour);
        }
        let hint = known.0 - COLOURS;
        let (row, column) = (self.row + y as i64, self.column + x as i64);
        let (down, right) = (within_tile(row), within_tile(column));
        if down == 0 && right == 0 {
            return self.block(hint, row, column, cells);
        }
        let (top, left) = (row - down as i64, column - right as i64);
        let mut four = [0; 4 * CELLS];
        for (quarter, cells) in four.chunks_exact_mut(CELLS).enumerate() {
            let (below, beside) = (quarter / 2 * SIDE, quarter % 2 * SIDE);
            self.block(hint, top + below as i64, left + beside as i64, cells);
        }
        gather(&self.steps, &four, cells);
    }
}
