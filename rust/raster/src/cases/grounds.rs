//! Drawn ground references: whole shifts, and numbers that make placing refuse.

use crate::generator::Generator;
use crate::product::{Ground, FARTHEST};

/// The largest ground number.
const LIMIT: f64 = 16_777_216.0;

/// The largest ground number, in 1024ths.
const LIMIT_IN_1024THS: i64 = 16_777_216 * 1024;

/// Cell sides in 1024ths.
const CELLS: [i64; 11] = [1, 2, 3, 5, 256, 512, 1000, 1024, 10 * 1024, 25 * 1024 + 1, LIMIT_IN_1024THS];

/// Numbers to stand for a north, an east or a cell side. Most are not usable.
const ODD_NUMBERS: [f64; 27] = [
    0.0,
    -0.0,
    0.1,
    -0.1,
    0.001,
    0.5,
    -0.5,
    -10.0,
    1.0 / 1024.0,
    -1.0 / 1024.0,
    1.0 / 2048.0,
    1.5 / 1024.0,
    5e-324,
    -5e-324,
    f64::MIN_POSITIVE,
    LIMIT,
    -LIMIT,
    LIMIT - 1.0 / 1024.0,
    LIMIT + 1.0 / 1024.0,
    LIMIT + 1.0,
    9_007_199_254_740_992.0,
    1e300,
    f64::MAX,
    f64::INFINITY,
    f64::NEG_INFINITY,
    f64::NAN,
    -f64::NAN,
];

/// A number of 1024ths as a ground number. The division is exact.
fn ground_number(number: i64) -> f64 {
    number as f64 / 1024.0
}

/// The same number, but zero with either sign.
fn signed(number: f64, generator: &mut Generator) -> f64 {
    if number == 0.0 && generator.one_in(2) {
        -0.0
    } else {
        number
    }
}

/// Two references that lie whole cells apart. Some are farther apart than an offset may be.
pub fn references(generator: &mut Generator) -> [Ground; 2] {
    let cell = if generator.one_in(3) { generator.between(1, 1 << 20) } else { generator.pick(&CELLS) };
    let (first_north, second_north) = apart(-cells_apart(generator), cell, generator);
    let (first_east, second_east) = apart(cells_apart(generator), cell, generator);
    let cell = ground_number(cell);
    [Ground { north: first_north, east: first_east, cell }, Ground { north: second_north, east: second_east, cell }]
}

/// An offset, at times just beyond its limit or far beyond.
fn cells_apart(generator: &mut Generator) -> i64 {
    match generator.below(8) {
        0 => generator.pick(&[FARTHEST, -FARTHEST, FARTHEST - 1, 1 - FARTHEST]),
        1 => generator.pick(&[FARTHEST + 1, -FARTHEST - 1, 1 << 32, -(1 << 32), (1 << 32) + 1]),
        2 | 3 => generator.between(-FARTHEST, FARTHEST),
        _ => generator.between(-40, 40),
    }
}

/// Two usable numbers of which the second is so many cells, or as many as may be, above the first.
fn apart(cells: i64, cell: i64, generator: &mut Generator) -> (f64, f64) {
    let most = 2 * LIMIT_IN_1024THS / cell;
    let distance = cells.clamp(-most, most) * cell;
    let (lowest, highest) = (-LIMIT_IN_1024THS + 0.max(-distance), LIMIT_IN_1024THS + 0.min(-distance));
    let drawn = generator.between(lowest, highest);
    let first = generator.pick(&[lowest, highest, 0.clamp(lowest, highest), drawn]);
    (signed(ground_number(first), generator), signed(ground_number(first + distance), generator))
}

/// Spoils one number of two references.
pub fn spoil(first: &mut Ground, second: &mut Ground, generator: &mut Generator) {
    match generator.below(12) {
        // A part of a cell, unless the cell is smaller.
        0..=2 => second.north = first.north + ground_number(generator.between(-2000, 2000)),
        3 | 4 => second.east = first.east + ground_number(generator.between(-2000, 2000)),
        5 | 6 => second.cell = generator.pick(&[2.0 * first.cell, first.cell / 2.0, first.cell + 1.0, -first.cell]),
        7 => second.north = next_above(second.north, generator),
        8 => *any_number(first, second, generator) = next_above(LIMIT, generator),
        _ => *any_number(first, second, generator) = generator.pick(&ODD_NUMBERS),
    }
}

/// One of the six numbers of two references.
fn any_number<'a>(first: &'a mut Ground, second: &'a mut Ground, generator: &mut Generator) -> &'a mut f64 {
    let ground = if generator.one_in(2) { first } else { second };
    match generator.below(3) {
        0 => &mut ground.north,
        1 => &mut ground.east,
        _ => &mut ground.cell,
    }
}

/// The f64 that is next to a number and farther from zero, or once in a while any f64.
fn next_above(number: f64, generator: &mut Generator) -> f64 {
    f64::from_bits(if generator.one_in(8) { generator.word() } else { number.to_bits().wrapping_add(1) })
}
