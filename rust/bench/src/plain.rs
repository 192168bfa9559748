//! The raster route: both lists decoded to rasters, the rasters combined cell by cell, the shortest list of the result encoded.

use crate::leaf::{area, cell_of, code_of, colour_of, leaf, level_of, right_end, side};
use oboeridge::{Map, Operation, Shift, Window};
use std::ops::Range;

/// Fills the raster of a map, row by row of each leaf's block; else the position of the first wrong entry.
pub fn decode(map: Map, cells: &mut [u8]) -> Result<(), usize> {
    let mut end = 0;
    for (position, &word) in map.list.iter().enumerate() {
        end = right_end(map.size, end, word).ok_or(position)?;
        fill(map.size, word, cells);
    }
    if end == area(map.size) {
        Ok(())
    } else {
        Err(map.list.len())
    }
}

/// Fills the block of a leaf.
fn fill(size: u64, word: u64, cells: &mut [u8]) {
    let (row, column) = cell_of(code_of(word));
    let first = (row << size) + column;
    if level_of(word) == 0 {
        cells[first] = colour_of(word);
        return;
    }
    let width = side(level_of(word));
    for row in 0..width {
        let start = first + (row << size);
        cells[start..start + width].fill(colour_of(word));
    }
}

/// The rows or columns of a window that fall in a map, and those of the map. The window begins at `origin` of the map.
fn overlap(origin: i64, window: usize, map: usize) -> (Range<usize>, Range<usize>) {
    let first = (-origin).clamp(0, window as i64);
    let last = (map as i64 - origin).clamp(first, window as i64);
    let moved = if first < last { first + origin } else { 0 };
    (first as usize..last as usize, moved as usize..(moved + last - first) as usize)
}

/// The raster of a window of one map's raster; a cell beyond the map is WHITE.
fn crop(size: u64, cells: &[u8], window: Window, out: &mut [u8]) {
    let width = side(window.size);
    let (rows, from) = overlap(window.wy, width, side(size));
    let (columns, part) = overlap(window.wx, width, side(size));
    for (row, line) in out.chunks_exact_mut(width).enumerate() {
        line.fill(0);
        if rows.contains(&row) {
            let start = (row - rows.start + from.start) << size;
            line[columns.clone()].copy_from_slice(&cells[start + part.start..start + part.end]);
        }
    }
}

/// Cells of the first map under an operation with as many of the second.
pub fn combine(operation: Operation, first: &mut [u8], second: &[u8]) {
    let cells = first.iter_mut().zip(second);
    match operation {
        Operation::Intersection => cells.for_each(|(a, &b)| *a = if *a == 0 { 0 } else { b }),
        Operation::Union => cells.for_each(|(a, &b)| *a = if *a == 0 { b } else { *a }),
        Operation::Difference => cells.for_each(|(a, &b)| *a = if b == 0 { *a } else { 0 }),
    }
}

/// The raster of a window of the first map, under an operation with the second map's raster, which the window meets at `at`.
fn combine_all(operation: Operation, size: u64, second: &[u8], at: Window, out: &mut [u8]) {
    let width = side(at.size);
    let (rows, from) = overlap(at.wy, width, side(size));
    let (columns, part) = overlap(at.wx, width, side(size));
    for (row, line) in out.chunks_exact_mut(width).enumerate() {
        if rows.contains(&row) {
            let start = (row - rows.start + from.start) << size;
            combine(operation, &mut line[columns.clone()], &second[start + part.start..start + part.end]);
        }
        if operation == Operation::Intersection {
            let met = if rows.contains(&row) { columns.clone() } else { 0..0 };
            line[..met.start].fill(0);
            line[met.end..].fill(0);
        }
    }
}

/// How the shortest list of a raster is made: by quarters alone, or with a look, by words, whether 64 cells are of one colour.
#[derive(Clone, Copy, PartialEq, Eq)]
pub enum Encoder {
    Quarters,
    Words,
}

/// A raster that is being encoded, and the leaves of it so far.
struct Encoding<'a> {
    size: u64,
    cells: &'a [u8],
    encoder: Encoder,
    out: &'a mut Vec<u64>,
}

/// Makes the shortest list of a raster.
pub fn encode(encoder: Encoder, size: u64, cells: &[u8], out: &mut Vec<u64>) {
    out.clear();
    let mut encoding = Encoding { size, cells, encoder, out };
    if let Some(colour) = encoding.block(0, 0, size) {
        out.push(leaf(0, size, colour));
    }
}

impl Encoding<'_> {
    /// The block's colour if it has one; else its leaves are pushed.
    fn block(&mut self, code: u64, first: usize, level: u64) -> Option<u8> {
        match level {
            0 => Some(self.cells[first]),
            1 => self.four_cells(code, first),
            3 if self.encoder == Encoder::Words => self.one_colour(first).or_else(|| self.quarters(code, first, level - 1)),
            _ => self.quarters(code, first, level - 1),
        }
    }

    /// The colour of four cells if they have one; else they are pushed.
    fn four_cells(&mut self, code: u64, first: usize) -> Option<u8> {
        let below = first + side(self.size);
        let (nw, ne) = (self.cells[first], self.cells[first + 1]);
        let (sw, se) = (self.cells[below], self.cells[below + 1]);
        if nw == ne && nw == sw && nw == se {
            return Some(nw);
        }
        self.out.extend([leaf(code, 0, nw), leaf(code + 1, 0, ne), leaf(code + 2, 0, sw), leaf(code + 3, 0, se)]);
        None
    }

    /// The colour of a block if it has one; else the leaves of its quarters, which are of the level, are pushed.
    fn quarters(&mut self, code: u64, first: usize, level: u64) -> Option<u8> {
        let start = self.out.len();
        let mut alike = [None; 4];
        for (quarter, colour) in alike.iter_mut().enumerate() {
            let begin = first + ((quarter >> 1) << (level + self.size)) + ((quarter & 1) << level);
            let code = code + quarter as u64 * area(level);
            *colour = self.block(code, begin, level);
            if let Some(colour) = *colour {
                self.out.push(leaf(code, level, colour));
            }
        }
        if alike[0].is_none() || alike.iter().any(|&colour| colour != alike[0]) {
            return None;
        }
        self.out.truncate(start);
        alike[0]
    }

    /// The colour of eight rows of eight cells, if they have one.
    fn one_colour(&self, first: usize) -> Option<u8> {
        let row = |row: usize| {
            let start = first + (row << self.size);
            u64::from_ne_bytes(self.cells[start..start + 8].try_into().expect("eight cells"))
        };
        let top = row(0);
        let one = top == top.rotate_left(8) && (1..8).all(|below| row(below) == top);
        one.then_some(top as u8)
    }
}

/// The rasters that the route works with, kept from one run to the next.
pub struct Rasters {
    first: Vec<u8>,
    second: Vec<u8>,
    result: Vec<u8>,
    pub list: Vec<u64>,
}

impl Rasters {
    /// Rasters that have room for maps and windows up to a size.
    pub fn new(size: u64) -> Rasters {
        let cells = area(size) as usize;
        Rasters { first: vec![0; cells], second: vec![0; cells], result: vec![0; cells], list: Vec::new() }
    }

    /// Makes the list of a window of one map.
    pub fn window(&mut self, encoder: Encoder, map: Map, window: Window) -> Result<(), usize> {
        let first = &mut self.first[..area(map.size) as usize];
        let result = &mut self.result[..area(window.size) as usize];
        decode(map, first)?;
        crop(map.size, first, window, result);
        encode(encoder, window.size, result, &mut self.list);
        Ok(())
    }

    /// Makes the list of two maps under an operation, the second shifted over the first, through a window.
    pub fn overlay(
        &mut self,
        encoder: Encoder,
        operation: Operation,
        maps: [Map; 2],
        shift: Shift,
        window: Window,
    ) -> Result<(), usize> {
        let [first, second] = maps;
        let a = &mut self.first[..area(first.size) as usize];
        let b = &mut self.second[..area(second.size) as usize];
        let result = &mut self.result[..area(window.size) as usize];
        decode(first, a)?;
        decode(second, b)?;
        crop(first.size, a, window, result);
        let met = Window { wy: window.wy - shift.dy, wx: window.wx - shift.dx, size: window.size };
        combine_all(operation, second.size, b, met, result);
        encode(encoder, window.size, result, &mut self.list);
        Ok(())
    }
}
