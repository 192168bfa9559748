//! The calls, over the functions of the archive. `include/oboeridge.h` says what each of those answers.

use crate::{Block, Cell, Direction, Map, Operation, Place, Refusal, Shift, Window};

mod archive {
    extern "C" {
        pub fn oboe_check(n: u64, list: *const u64, len: usize) -> u64;
        pub fn oboe_lookup(n: u64, list: *const u64, len: usize, row: i64, column: i64) -> u64;
        pub fn oboe_neighbour(n: u64, code: u64, level: u64, direction: u64) -> u64;
        pub fn oboe_place_cells(dy: i64, dx: i64, shift: *mut i64, shift_len: usize) -> u64;
        pub fn oboe_place_ground(
            north1: f64,
            east1: f64,
            cell1: f64,
            north2: f64,
            east2: f64,
            cell2: f64,
            shift: *mut i64,
            shift_len: usize,
        ) -> u64;
        pub fn oboe_window(n: u64, list: *const u64, len: usize, wy: i64, wx: i64, w: u64, out: *mut u64, out_len: usize) -> u64;
        pub fn oboe_overlay(
            operation: u64,
            n: u64,
            first: *const u64,
            first_len: usize,
            m: u64,
            second: *const u64,
            second_len: usize,
            dy: i64,
            dx: i64,
            wy: i64,
            wx: i64,
            w: u64,
            out: *mut u64,
            out_len: usize,
        ) -> u64;
        pub fn oboe_overlay_own(
            operation: u64,
            n: u64,
            first: *const u64,
            first_len: usize,
            m: u64,
            second: *const u64,
            second_len: usize,
            dy: i64,
            dx: i64,
            out: *mut u64,
            out_len: usize,
        ) -> u64;
        pub fn oboe_to_list(n: u64, cells: *const u8, cells_len: usize, out: *mut u64, out_len: usize) -> u64;
        pub fn oboe_to_raster(n: u64, list: *const u64, len: usize, cells: *mut u8, cells_len: usize) -> u64;
    }
}

/// The answer that a number stands for: below 2^32 the value, else the rule above and the number below.
fn decoded(answer: u64) -> Result<u64, Refusal> {
    if answer >> 32 == 0 {
        Ok(answer)
    } else {
        Err(Refusal { rule: answer >> 32, number: answer & u64::from(u32::MAX) })
    }
}

// SAFETY, here and below: each pointer comes from a slice and goes with that slice's length, and a slice that is lent to be written is
// borrowed alone, so it overlaps no other. The proved functions touch no other memory.

/// The number of leaves of a list that is well formed.
pub fn check(map: Map) -> Result<u64, Refusal> {
    decoded(unsafe { archive::oboe_check(map.size, map.list.as_ptr(), map.list.len()) })
}

/// The colour of a cell.
pub fn lookup(map: Map, cell: Cell) -> Result<u8, Refusal> {
    let colour = unsafe { archive::oboe_lookup(map.size, map.list.as_ptr(), map.list.len(), cell.row, cell.column) };
    decoded(colour).map(|colour| colour as u8)
}

/// The code of the block of the same level one side away, in a map of size n.
pub fn neighbour(n: u64, block: Block, direction: Direction) -> Result<u64, Refusal> {
    decoded(unsafe { archive::oboe_neighbour(n, block.code, block.level, direction as u64) })
}

/// The shift that a place gives, exact in whole cells.
pub fn place(place: Place) -> Result<Shift, Refusal> {
    let mut pair = [0; 2];
    let (shift, len) = (pair.as_mut_ptr(), pair.len());
    let answer = match place {
        Place::Cells { dy, dx } => unsafe { archive::oboe_place_cells(dy, dx, shift, len) },
        Place::OnGround { first: a, second: b } => unsafe {
            archive::oboe_place_ground(a.north, a.east, a.cell, b.north, b.east, b.cell, shift, len)
        },
    };
    decoded(answer).map(|_| Shift { dy: pair[0], dx: pair[1] })
}

/// Writes the shortest list of a window of one map, and counts its leaves. The words past them are kept.
pub fn window(map: Map, window: Window, out: &mut [u64]) -> Result<u64, Refusal> {
    let (list, len) = (map.list.as_ptr(), map.list.len());
    decoded(unsafe { archive::oboe_window(map.size, list, len, window.wy, window.wx, window.size, out.as_mut_ptr(), out.len()) })
}

/// Writes the shortest list of two maps under an operation, the second shifted over the first, and counts its leaves. Where no window is
/// named it is the first map's own square. Lent 4^w words or more, w being the window's size, it does not count before it writes.
pub fn overlay(
    operation: Operation,
    first: Map,
    second: Map,
    shift: Shift,
    window: Option<Window>,
    out: &mut [u64],
) -> Result<u64, Refusal> {
    let (n, a, a_len) = (first.size, first.list.as_ptr(), first.list.len());
    let (m, b, b_len) = (second.size, second.list.as_ptr(), second.list.len());
    let (operation, Shift { dy, dx }) = (operation as u64, shift);
    let (out, out_len) = (out.as_mut_ptr(), out.len());
    decoded(match window {
        None => unsafe { archive::oboe_overlay_own(operation, n, a, a_len, m, b, b_len, dy, dx, out, out_len) },
        Some(Window { wy, wx, size }) => unsafe {
            archive::oboe_overlay(operation, n, a, a_len, m, b, b_len, dy, dx, wy, wx, size, out, out_len)
        },
    })
}

/// Writes the shortest list of a raster of a map of size n, and counts its leaves.
pub fn to_list(n: u64, cells: &[u8], out: &mut [u64]) -> Result<u64, Refusal> {
    decoded(unsafe { archive::oboe_to_list(n, cells.as_ptr(), cells.len(), out.as_mut_ptr(), out.len()) })
}

/// Fills the raster of a map, and counts its cells.
pub fn to_raster(map: Map, cells: &mut [u8]) -> Result<u64, Refusal> {
    decoded(unsafe { archive::oboe_to_raster(map.size, map.list.as_ptr(), map.list.len(), cells.as_mut_ptr(), cells.len()) })
}
