//! Drawn offsets, windows, cells and blocks.

use crate::generator::Generator;
use crate::model::word::{code_of, side};
use crate::product::{Cell, Shift, Window, FARTHEST};

/// Offsets and origins that are refused, though some of them would not be if they were cut to a narrower integer.
const TOO_FAR: [i64; 14] = [
    FARTHEST + 1,
    -FARTHEST - 1,
    2 * FARTHEST,
    -2 * FARTHEST,
    1 << 31,
    -(1 << 31),
    1 << 32,
    -(1 << 32),
    (1 << 32) + 1,
    1 << 48,
    i64::MAX,
    i64::MIN,
    i64::MIN + 1,
    i64::MAX - 1,
];

/// An offset or origin that is refused.
pub fn too_far(generator: &mut Generator) -> i64 {
    generator.pick(&TOO_FAR)
}

/// Draws where a square of the second size begins along one axis, if one of the first size begins at 0.
type Offset = fn(u64, u64, &mut Generator) -> i64;

/// An offset with which the squares overlap. Many are multiples of a large power of two.
fn near(first: u64, second: u64, generator: &mut Generator) -> i64 {
    let (first_side, second_side) = (side(first as u32), side(second as u32));
    let step = if generator.one_in(2) { 1 } else { 1 << generator.below(first.max(second) as usize + 1) };
    generator.between(1 - second_side, first_side - 1) / step * step
}

/// An offset of any kind: near, with touching edges, apart, or as far apart as may be.
fn any(first: u64, second: u64, generator: &mut Generator) -> i64 {
    let (first_side, second_side) = (side(first as u32), side(second as u32));
    let step = 1 << generator.below(first.max(second) as usize + 1);
    match generator.below(10) {
        0 => 0,
        1 | 2 => near(first, second, generator),
        3 => generator.between(-3, 3) * step,
        4 => first_side,
        5 => -second_side,
        6 => generator.pick(&[first_side + 1, -second_side - 1, first_side + step, -second_side - step]),
        7 => generator.between(-FARTHEST, FARTHEST),
        _ => generator.pick(&[FARTHEST, -FARTHEST, FARTHEST - 1, 1 - FARTHEST]),
    }
}

/// The offset of a map of size m in one of size n. Most are near in both axes, so that there is something to see.
pub fn shift(n: u64, m: u64, generator: &mut Generator) -> Shift {
    let offset: Offset = generator.pick(&[near, near, any]);
    Shift { dy: offset(n, m, generator), dx: offset(n, m, generator) }
}

/// An offset with which the maps overlap.
pub fn near_shift(n: u64, m: u64, generator: &mut Generator) -> Shift {
    Shift { dy: near(n, m, generator), dx: near(n, m, generator) }
}

/// A window of this size that overlaps a map of size n.
pub fn near_window(size: u64, n: u64, generator: &mut Generator) -> Window {
    Window { wy: near(n, size, generator), wx: near(n, size, generator), size }
}

/// A window of this size that is placed by the first map, or by the second, which lies at the shift.
pub fn window(size: u64, n: u64, m: u64, shift: Shift, generator: &mut Generator) -> Window {
    let (map, row, column) = if generator.one_in(3) { (m, shift.dy, shift.dx) } else { (n, 0, 0) };
    let offset: Offset = generator.pick(&[|_, _, _| 0, near, near, any]);
    let mut origin = |map_origin: i64| (map_origin + offset(map, size, generator)).clamp(-FARTHEST, FARTHEST);
    Window { wy: origin(row), wx: origin(column), size }
}

/// A cell of a map of size n.
pub fn cell(n: u64, generator: &mut Generator) -> Cell {
    let last = side(n as u32) - 1;
    let mut coordinate = || {
        let drawn = generator.between(0, last);
        generator.pick(&[0, last, drawn, drawn])
    };
    Cell { row: coordinate(), column: coordinate() }
}

/// A row or column beyond a map whose size is at most 12, though it might not be if it were cut to a narrower integer.
pub fn beyond(n: u64, generator: &mut Generator) -> i64 {
    let side = side(n as u32);
    generator.pick(&[-1, -1, -1, -1, side, side, side, -side, 2 * side, 1 << 16, 1 << 32, -(1 << 32), i64::MIN, i64::MAX])
}

/// The level and the code of a block of a map of size n. Many lie at an edge of the square.
pub fn block(n: u64, generator: &mut Generator) -> (u64, u64) {
    let level = generator.below(n as usize + 1) as u64;
    let cell = cell(n - level, generator);
    (level, code_of(cell.row, cell.column) << (2 * level))
}
