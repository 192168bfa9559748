//! Windows and overlays made cell by cell, with a mistake in what a cell is.

use raster::answer::{rule, Answer};
use raster::model::Model;
use raster::product::{Operation, Product, Shift, Window};

use crate::wrong::Mistake;

/// A map's size and its list.
pub type Map<'a> = (u64, &'a [u64]);

/// A map without a cell that could be seen.
const NO_MAP: Map = (0, &[0]);

/// The window that is a map's own square.
pub fn own_square(n: u64) -> Window {
    Window { wy: 0, wx: 0, size: n }
}

/// A window of a map.
pub fn window(mistake: Mistake, map: Map, window: Window, out: &mut [u64]) -> Answer<u64> {
    let (n, list) = map;
    if !is_in_cells(mistake) || !lacks_only_space(Model.window(n, list, window, &mut [])) {
        return Model.window(n, list, window, out);
    }
    let cells = result(mistake, Operation::Union, [map, NO_MAP], Shift { dy: 0, dx: 0 }, window);
    Model.to_list(window.size, &cells, out)
}

/// Two maps combined.
pub fn overlay(
    mistake: Mistake,
    operation: Operation,
    maps: [Map; 2],
    shift: Shift,
    window: Option<Window>,
    out: &mut [u64],
) -> Answer<u64> {
    let [(n, first), (m, second)] = maps;
    let right = |out: &mut [u64]| Model.overlay(operation, n, first, m, second, shift, window, out);
    if !is_in_cells(mistake) || !lacks_only_space(right(&mut [])) {
        return right(out);
    }
    let window = window.unwrap_or(own_square(n));
    Model.to_list(window.size, &result(mistake, operation, maps, shift, window), out)
}

/// Turns a raster about its diagonal.
pub fn transpose(cells: &mut [u8]) {
    let side = cells.len().isqrt();
    for row in 0..side {
        for column in 0..row {
            cells.swap(row * side + column, column * side + row);
        }
    }
}

/// Whether a mistake is in what a cell of the result is.
fn is_in_cells(mistake: Mistake) -> bool {
    matches!(
        mistake,
        Mistake::RowMinusOneReadsRowZero
            | Mistake::BeyondIsNotWhite
            | Mistake::IntersectionKeepsFirstColour
            | Mistake::UnionPrefersSecondColour
            | Mistake::DifferenceKeepsSecondColour
            | Mistake::ColoursAreBits
            | Mistake::OnlyNorthWestQuarter
    )
}

/// Whether a call that was lent no space would have been accepted with more.
pub fn lacks_only_space(answer: Answer<u64>) -> bool {
    matches!(answer, Answer::Refuses { rule: rule::SPACE, .. })
}

/// The cells of the result.
fn result(mistake: Mistake, operation: Operation, maps: [Map; 2], shift: Shift, window: Window) -> Vec<u8> {
    let side = 1 << window.size;
    let [first, second] = maps.map(raster);
    let mut cells = Vec::new();
    for (y, x) in (0..side).flat_map(|y| (0..side).map(move |x| (y, x))) {
        let a = colour(mistake, &first, window.wy + y, window.wx + x);
        let b = colour(mistake, &second, window.wy + y - shift.dy, window.wx + x - shift.dx);
        let is_filled = mistake == Mistake::OnlyNorthWestQuarter && (y > side / 2 || x > side / 2);
        cells.push(if is_filled { 0 } else { combined(mistake, operation, a, b) });
    }
    cells
}

/// The cells of a map.
fn raster((size, list): Map) -> Vec<u8> {
    let mut cells = vec![0; 4_usize.pow(size as u32)];
    Model.to_raster(size, list, &mut cells);
    cells
}

/// The colour of a cell that may be beyond the square.
fn colour(mistake: Mistake, cells: &[u8], row: i64, column: i64) -> u8 {
    let side = cells.len().isqrt() as i64;
    let row = if row == -1 && mistake == Mistake::RowMinusOneReadsRowZero { 0 } else { row };
    if (0..side).contains(&row) && (0..side).contains(&column) {
        cells[(row * side + column) as usize]
    } else {
        u8::from(mistake == Mistake::BeyondIsNotWhite)
    }
}

/// The colour of a result cell.
fn combined(mistake: Mistake, operation: Operation, a: u8, b: u8) -> u8 {
    let right = match operation {
        Operation::Intersection if a != 0 && b != 0 && mistake == Mistake::IntersectionKeepsFirstColour => a,
        Operation::Intersection if a != 0 => b,
        Operation::Union if b != 0 && mistake == Mistake::UnionPrefersSecondColour => b,
        Operation::Union if a != 0 => a,
        Operation::Union => b,
        Operation::Difference if b == 0 => a,
        Operation::Difference if mistake == Mistake::DifferenceKeepsSecondColour => b,
        _ => 0,
    };
    if mistake == Mistake::ColoursAreBits {
        right.min(1)
    } else {
        right
    }
}
