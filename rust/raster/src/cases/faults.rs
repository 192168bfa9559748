//! Faults: arguments of a case that are changed so that most are refused. Several in one case test the order of the checks.

use super::case::Case;
use super::{grounds, lists, places};
use crate::generator::Generator;
use crate::model::tiling;
use crate::model::word::cells;
use crate::product::{Window, LARGEST_MAP_SIZE};

/// Brings one fault into a case.
pub fn spoil(case: &mut Case, generator: &mut Generator) {
    match case {
        Case::Check { n, list } => spoil_map(n, &mut list.0, generator),
        Case::Lookup { n, list, cell } => match generator.below(4) {
            0 => cell.row = places::beyond(usable(*n), generator),
            1 => cell.column = places::beyond(usable(*n), generator),
            _ => spoil_map(n, &mut list.0, generator),
        },
        Case::Neighbour { n, code, level, .. } => spoil_block(n, code, level, generator),
        Case::PlaceCells { dy, dx } => spoil_offset(dy, dx, generator),
        Case::PlaceGround { first, second } => grounds::spoil(first, second, generator),
        Case::Window { n, list, window, .. } => match generator.below(2) {
            0 => spoil_map(n, &mut list.0, generator),
            _ => spoil_window(window, generator),
        },
        Case::Overlay { n, first, m, second, shift, window, .. } => match (generator.below(4), window) {
            (0, _) => spoil_map(n, &mut first.0, generator),
            (1, _) => spoil_map(m, &mut second.0, generator),
            (2, Some(window)) => spoil_window(window, generator),
            _ => spoil_offset(&mut shift.dy, &mut shift.dx, generator),
        },
        Case::ToList { n, cells, .. } => match generator.below(2) {
            0 => *n = another_size(*n, generator),
            _ => cells.0.resize(another_length(cells.len(), generator), 0),
        },
        Case::ToRaster { n, list, length } => match generator.below(2) {
            0 => spoil_map(n, &mut list.0, generator),
            _ => *length = another_length(*length, generator),
        },
    }
}

/// Asks for the largest size where the model refuses before it paints, because a list or a raster is not of that size.
pub fn ask_for_largest(case: &mut Case, generator: &mut Generator) {
    let is_wrong = |list: &[u64]| tiling::first_wrong(LARGEST_MAP_SIZE as u32, list).is_some();
    let is_short = |length: usize| length as u64 != cells(LARGEST_MAP_SIZE as u32);
    let enlarge = |size: &mut u64, window: Option<&mut Window>| {
        *size = LARGEST_MAP_SIZE;
        window.into_iter().for_each(|window| window.size = LARGEST_MAP_SIZE);
    };
    match case {
        Case::Window { n, list, window, .. } if is_wrong(list) => enlarge(n, Some(window)),
        Case::Overlay { n, first, window, .. } if is_wrong(first) && generator.one_in(2) => enlarge(n, window.as_mut()),
        Case::Overlay { m, second, window, .. } if is_wrong(second) => enlarge(m, window.as_mut()),
        Case::ToList { n, cells, .. } if is_short(cells.len()) => *n = LARGEST_MAP_SIZE,
        Case::ToRaster { n, length, .. } if is_short(*length) => *n = LARGEST_MAP_SIZE,
        _ => (),
    }
}

/// The size itself if it is one, else the largest.
fn usable(size: u64) -> u64 {
    size.min(LARGEST_MAP_SIZE)
}

/// A size that is too large, though some would not be if they were cut to fewer bits.
fn too_large(size: u64, generator: &mut Generator) -> u64 {
    generator.pick(&[13, 13, 14, 64, 256 + usable(size), (1 << 32) + usable(size), u64::MAX])
}

/// A size that is too large, or not that of the list or raster.
fn another_size(size: u64, generator: &mut Generator) -> u64 {
    if generator.one_in(3) {
        size ^ 1
    } else {
        too_large(size, generator)
    }
}

/// A length that is off by one or by a factor.
fn another_length(length: usize, generator: &mut Generator) -> usize {
    generator.pick(&[length + 1, length + 1, length.saturating_sub(1), length.saturating_sub(1), length / 4, length * 4, 0, 1])
}

/// Spoils the size or, more often, the list of a map.
fn spoil_map(size: &mut u64, list: &mut Vec<u64>, generator: &mut Generator) {
    if generator.one_in(4) {
        *size = another_size(*size, generator);
    } else {
        lists::damage(*size, list, generator);
    }
}

/// Puts a row or a column too far away.
fn spoil_offset(rows: &mut i64, columns: &mut i64, generator: &mut Generator) {
    let offset = if generator.one_in(2) { rows } else { columns };
    *offset = places::too_far(generator);
}

/// Spoils the size or the origin of a window.
fn spoil_window(window: &mut Window, generator: &mut Generator) {
    if generator.one_in(3) {
        window.size = too_large(window.size, generator);
    } else {
        spoil_offset(&mut window.wy, &mut window.wx, generator);
    }
}

/// Spoils the square or the address of a block.
fn spoil_block(n: &mut u64, code: &mut u64, level: &mut u64, generator: &mut Generator) {
    let drawn = generator.word();
    let end = cells(usable(*n) as u32);
    match generator.below(8) {
        0 => *n = too_large(*n, generator),
        1 => *n = generator.below(usable(*n) as usize + 1) as u64,
        2 => *code = code.wrapping_add(1),
        3 => *code ^= 1 << generator.below(64),
        4 => *code = generator.pick(&[end, end - 1, end + code.wrapping_mul(4) % end, 1 << 48, u64::MAX, drawn]),
        5 => *level = level.wrapping_add(1),
        6 => *level = usable(*n) + 1,
        _ => *level = generator.pick(&[13, 16, 31, 32, 63, 64, 128, 256, (1 << 32) + usable(*level), u64::MAX]),
    }
}
