//! The model: every call of the paper, answered by dense rasters.
//!
//! In each call the checks stand one below the other in the paper's order. What comes after them goes by rows and columns only:
//! the lists are painted, the result is made cell by cell, and its shortest list is found by looking at squares.

pub mod checks;
pub mod ground;
pub mod shortest;
pub mod tiling;
pub mod word;

use crate::answer::{rule, Answer};
use crate::picture::Picture;
use crate::product::{Cell, Direction, Ground, Operation, Product, Shift, Window};
use checks::{require, Checked, Refusal, COLUMNS, DX, DY, FIRST, FIRST_NORTH, ONLY, ROWS, SECOND, SECOND_NORTH, WINDOW, WX, WY};
use shortest::shortest;
use word::Leaf;

/// The colour of a cell beyond a map's square.
const WHITE: u8 = 0;

/// The product that this package makes from the rules alone.
#[derive(Clone, Copy, Debug)]
pub struct Model;

impl Product for Model {
    fn check(&self, n: u64, list: &[u64]) -> Answer<u64> {
        answer(|| {
            let n = checks::size(n, FIRST)?;
            checks::list(n, list, rule::FIRST_LIST)?;
            Ok(list.len() as u64)
        })
    }

    fn lookup(&self, n: u64, list: &[u64], cell: Cell) -> Answer<u64> {
        answer(|| {
            let n = checks::size(n, FIRST)?;
            checks::list(n, list, rule::FIRST_LIST)?;
            // The leaves tile the square, so only a cell beyond it lies in none of them.
            let holds = |leaf: &Leaf| leaf.rows().contains(&cell.row) && leaf.columns().contains(&cell.column);
            let leaf = list.iter().map(|word| Leaf::of(*word)).find(holds);
            leaf.map(|leaf| u64::from(leaf.colour)).ok_or(Refusal { rule: rule::BEYOND, number: ONLY })
        })
    }

    fn neighbour(&self, n: u64, code: u64, level: u64, direction: Direction) -> Answer<u64> {
        answer(|| {
            let n = checks::size(n, FIRST)?;
            let level = block_level(n, code, level).ok_or(Refusal { rule: rule::BLOCK, number: ONLY })?;
            let (row, column) = word::row_and_column(code);
            let (south, east) = steps(direction);
            let (row, column) = (row + south * word::side(level), column + east * word::side(level));
            let square = 0..word::side(n);
            require(square.contains(&row) && square.contains(&column), rule::BEYOND, ONLY)?;
            Ok(word::code_of(row, column))
        })
    }

    fn place_cells(&self, dy: i64, dx: i64) -> Answer<Shift> {
        answer(|| {
            checks::offset(dy, DY)?;
            checks::offset(dx, DX)?;
            Ok(Shift { dy, dx })
        })
    }

    fn place_ground(&self, first: Ground, second: Ground) -> Answer<Shift> {
        answer(|| {
            let [first_north, first_east, first_cell] = usable(first, FIRST_NORTH)?;
            let [second_north, second_east, second_cell] = usable(second, SECOND_NORTH)?;
            require(first_cell == second_cell, rule::CELL_SIDES, ONLY)?;
            // Rows grow southward, so the norths change places.
            let dy = whole_cells(first_north - second_north, first_cell, ROWS)?;
            let dx = whole_cells(second_east - first_east, first_cell, COLUMNS)?;
            checks::offset(dy, DY)?;
            checks::offset(dx, DX)?;
            Ok(Shift { dy, dx })
        })
    }

    fn window(&self, n: u64, list: &[u64], window: Window, out: &mut [u64]) -> Answer<u64> {
        answer(|| {
            let n = checks::size(n, FIRST)?;
            let size = checks::size(window.size, WINDOW)?;
            checks::offset(window.wy, WY)?;
            checks::offset(window.wx, WX)?;
            checks::list(n, list, rule::FIRST_LIST)?;
            let map = tiling::painted(n, list);
            let result = made(size, |y, x| colour_or_white(&map, window.wy + y, window.wx + x));
            write(&shortest(&result), out)
        })
    }

    fn overlay(
        &self,
        operation: Operation,
        n: u64,
        first: &[u64],
        m: u64,
        second: &[u64],
        shift: Shift,
        window: Option<Window>,
        out: &mut [u64],
    ) -> Answer<u64> {
        answer(|| {
            let Window { wy, wx, size } = window.unwrap_or(Window { wy: 0, wx: 0, size: n });
            let n = checks::size(n, FIRST)?;
            let m = checks::size(m, SECOND)?;
            let size = checks::size(size, WINDOW)?;
            checks::offset(shift.dy, DY)?;
            checks::offset(shift.dx, DX)?;
            checks::offset(wy, WY)?;
            checks::offset(wx, WX)?;
            checks::list(n, first, rule::FIRST_LIST)?;
            checks::list(m, second, rule::SECOND_LIST)?;
            let (first, second) = (tiling::painted(n, first), tiling::painted(m, second));
            let result = made(size, |y, x| {
                let a = colour_or_white(&first, wy + y, wx + x);
                let b = colour_or_white(&second, wy + y - shift.dy, wx + x - shift.dx);
                combined(operation, a, b)
            });
            write(&shortest(&result), out)
        })
    }

    fn to_list(&self, n: u64, cells: &[u8], out: &mut [u64]) -> Answer<u64> {
        answer(|| {
            let n = checks::size(n, FIRST)?;
            checks::raster(n, cells)?;
            write(&shortest(&Picture { size: n, cells: cells.to_vec() }), out)
        })
    }

    fn to_raster(&self, n: u64, list: &[u64], cells: &mut [u8]) -> Answer<u64> {
        answer(|| {
            let n = checks::size(n, FIRST)?;
            checks::raster(n, cells)?;
            checks::list(n, list, rule::FIRST_LIST)?;
            cells.copy_from_slice(&tiling::painted(n, list).cells);
            Ok(cells.len() as u64)
        })
    }
}

/// The answer of a call, from its checks and what comes after them.
fn answer<T>(call: impl FnOnce() -> Checked<T>) -> Answer<T> {
    call().into()
}

/// The level of a block address, or nothing if it is no block of the square.
fn block_level(n: u32, code: u64, level: u64) -> Option<u32> {
    let level = (0..=n).find(|known| u64::from(*known) == level)?;
    (code < word::cells(n) && code.is_multiple_of(word::cells(level))).then_some(level)
}

/// How far a direction goes south and east, in sides of the block.
fn steps(direction: Direction) -> (i64, i64) {
    match direction {
        Direction::North => (-1, 0),
        Direction::NorthEast => (-1, 1),
        Direction::East => (0, 1),
        Direction::SouthEast => (1, 1),
        Direction::South => (1, 0),
        Direction::SouthWest => (1, -1),
        Direction::West => (0, -1),
        Direction::NorthWest => (-1, -1),
    }
}

/// The north, the east and the cell side of a reference in 1024ths. The number of its north in rule 6 is given.
fn usable(ground: Ground, north: u64) -> Checked<[i128; 3]> {
    let refusal = |place| Refusal { rule: rule::GROUND, number: north + place };
    Ok([
        ground::in_1024ths(ground.north).ok_or(refusal(0))?,
        ground::in_1024ths(ground.east).ok_or(refusal(1))?,
        ground::in_1024ths(ground.cell).filter(|cell| *cell > 0).ok_or(refusal(2))?,
    ])
}

/// A distance in cells, all in 1024ths.
fn whole_cells(distance: i128, cell: i128, number: u64) -> Checked<i64> {
    ground::whole_cells(distance, cell).ok_or(Refusal { rule: rule::WHOLE_CELLS, number })
}

/// The picture of this size whose cells are given by row and column.
fn made(size: u32, colour: impl Fn(i64, i64) -> u8) -> Picture {
    let mut cells = Vec::with_capacity(word::cells(size) as usize);
    for y in 0..word::side(size) {
        cells.extend((0..word::side(size)).map(|x| colour(y, x)));
    }
    Picture { size, cells }
}

/// The colour of a cell that may be beyond the map's square.
fn colour_or_white(map: &Picture, row: i64, column: i64) -> u8 {
    let square = 0..word::side(map.size);
    if square.contains(&row) && square.contains(&column) {
        map.colour_at(row as usize, column as usize)
    } else {
        WHITE
    }
}

/// The colour of a result cell.
fn combined(operation: Operation, a: u8, b: u8) -> u8 {
    match operation {
        Operation::Intersection if a == WHITE => WHITE,
        Operation::Intersection => b,
        Operation::Union if a != WHITE => a,
        Operation::Union => b,
        Operation::Difference if b == WHITE => a,
        Operation::Difference => WHITE,
    }
}

/// Writes a list to the front of the space lent, if it has room, and gives its length.
fn write(list: &[u64], out: &mut [u64]) -> Checked<u64> {
    let length = list.len() as u64;
    require(list.len() <= out.len(), rule::SPACE, length)?;
    out[..list.len()].copy_from_slice(list);
    Ok(length)
}
