//! All small cases, one after the other.

use std::io::{self, Write};
use std::ops::RangeInclusive;

use super::case::{Case, Given};
use super::comparison::Comparison;
use super::memory::Memory;
use crate::compare::Tally;
use crate::model::shortest::shortest;
use crate::model::word::{cells, Leaf};
use crate::picture::Picture;
use crate::product::{Cell, Direction, Operation, Product, Shift, Window};

/// The colours of the first map and of the second: they differ, so that a result tells whose colour it kept.
const FIRST_COLOURS: [u8; 2] = [0, 1];
const SECOND_COLOURS: [u8; 2] = [0, 2];

/// The colours of the rasters.
const RASTER_COLOURS: [u8; 3] = [0, 1, 255];

/// The rows and columns at which windows and second maps are placed.
const PLACES: RangeInclusive<i64> = -3..=4;

/// Structures of at most so many leaves get every colouring, the others a few. There are 104,978 tilings with every colouring:
/// all of them are checked, fewer are cut by windows, and fewer still are laid under second maps.
const COLOURED_FOR_CHECK: usize = 16;
const COLOURED_FOR_WINDOW: usize = 10;
const COLOURED_FOR_OVERLAY: usize = 7;

/// The few colourings, one bit a leaf.
const COLOURINGS: [u32; 8] = [0x0000, 0xffff, 0x5555, 0xaaaa, 0x3333, 0x0ff0, 0x6996, 0x8001];

/// The most leaves that a result has. So much space is lent where space is not what a case is about.
const ROOM: usize = 16;

/// Compares a product with the model on all small cases.
pub fn compare_small(product: &impl Product, report: &mut impl Write) -> io::Result<Tally> {
    let ask = |case: &Case, memory: &mut Memory| case.ask(product, memory);
    let mut comparison = Comparison { title: "small case".to_string(), ask: &ask, report, tally: Tally::default() };
    compare_rasters(&mut comparison)?;
    compare_blocks(&mut comparison)?;
    for list in tilings(2, FIRST_COLOURS, COLOURED_FOR_CHECK) {
        comparison.compare(&Case::Check { n: 2, list })?;
    }
    for list in tilings(2, FIRST_COLOURS, COLOURED_FOR_WINDOW) {
        compare_cells(&list, &mut comparison)?;
        compare_windows(&list, &mut comparison)?;
    }
    let seconds = tilings(1, SECOND_COLOURS, COLOURED_FOR_OVERLAY);
    for first in tilings(2, FIRST_COLOURS, COLOURED_FOR_OVERLAY) {
        for second in &seconds {
            compare_overlays(&first, second, &mut comparison)?;
        }
    }
    comparison.sum()
}

/// Compares all pictures of size 1 with every space, and their lists on the way back.
fn compare_rasters(comparison: &mut Comparison) -> io::Result<()> {
    for number in 0..RASTER_COLOURS.len().pow(4) {
        let cells: Vec<u8> = [1, 3, 9, 27].map(|place| RASTER_COLOURS[number / place % 3]).to_vec();
        for space in 0..=5 {
            comparison.compare(&Case::ToList { n: 1, cells: Given(cells.clone()), space })?;
        }
        let list = Given(shortest(&Picture { size: 1, cells }));
        comparison.compare(&Case::ToRaster { n: 1, list, length: 4 })?;
    }
    Ok(())
}

/// Compares the neighbours of all blocks to size 3, and of a few that are none.
fn compare_blocks(comparison: &mut Comparison) -> io::Result<()> {
    for n in 0..=3 {
        for (code, level) in pairs(0..=4_i64.pow(n), 0..=i64::from(n) + 1) {
            for direction in Direction::ALL {
                comparison.compare(&Case::Neighbour { n: u64::from(n), code: code as u64, level: level as u64, direction })?;
            }
        }
    }
    Ok(())
}

/// Compares the cells of a map of size 2, and those around it.
fn compare_cells(list: &Given<u64>, comparison: &mut Comparison) -> io::Result<()> {
    for (row, column) in pairs(-1..=4, -1..=4) {
        comparison.compare(&Case::Lookup { n: 2, list: list.clone(), cell: Cell { row, column } })?;
    }
    Ok(())
}

/// Compares the windows of a map of size 2.
fn compare_windows(list: &Given<u64>, comparison: &mut Comparison) -> io::Result<()> {
    for (wy, wx) in pairs(PLACES, PLACES) {
        for size in 0..=2 {
            let window = Window { wy, wx, size };
            comparison.compare(&Case::Window { n: 2, list: list.clone(), window, space: ROOM })?;
        }
    }
    Ok(())
}

/// Compares the operations on a map of size 2 and one of size 1 in its square.
fn compare_overlays(first: &Given<u64>, second: &Given<u64>, comparison: &mut Comparison) -> io::Result<()> {
    for (dy, dx) in pairs(PLACES, PLACES) {
        for operation in Operation::ALL {
            let (first, second, shift) = (first.clone(), second.clone(), Shift { dy, dx });
            comparison.compare(&Case::Overlay { operation, n: 2, first, m: 1, second, shift, window: None, space: ROOM })?;
        }
    }
    Ok(())
}

/// Every number of one range with every number of another.
fn pairs(rows: RangeInclusive<i64>, columns: RangeInclusive<i64>) -> impl Iterator<Item = (i64, i64)> {
    rows.flat_map(move |row| columns.clone().map(move |column| (row, column)))
}

/// All structures of this size, those of at most so many leaves in every colouring.
fn tilings(size: u32, colours: [u8; 2], coloured: usize) -> Vec<Given<u64>> {
    let mut tilings = Vec::new();
    for structure in structures(0, size) {
        let all = 0..1 << structure.len();
        let colourings: Vec<u32> = if structure.len() <= coloured { all.collect() } else { COLOURINGS.to_vec() };
        for colouring in colourings {
            let colour = |place: usize| colours[(colouring >> place & 1) as usize];
            let words = structure.iter().enumerate().map(|(place, leaf)| Leaf { colour: colour(place), ..*leaf }.word());
            tilings.push(Given(words.collect()));
        }
    }
    tilings
}

/// Every way to tile a block: as one leaf, or as its four quarters, each tiled in every way.
fn structures(code: u64, level: u32) -> Vec<Vec<Leaf>> {
    let mut ways = vec![vec![Leaf { code, level, colour: 0 }]];
    if level > 0 {
        let mut split = vec![Vec::new()];
        for quarter in 0..4 {
            let quarters = structures(code + quarter * cells(level - 1), level - 1);
            split = split.iter().flat_map(|before| quarters.iter().map(move |way| [&before[..], way].concat())).collect();
        }
        ways.extend(split);
    }
    ways
}

#[cfg(test)]
mod tests {
    use super::*;
    use crate::model::{tiling, Model};
    use std::collections::{HashMap, HashSet};

    #[test]
    fn there_are_17_structures_of_size_2_and_all_are_well_formed() {
        assert_eq!(structures(0, 2).len(), 17);
        let all = tilings(2, FIRST_COLOURS, COLOURED_FOR_CHECK);
        assert_eq!(all.len(), 18_usize.pow(4) + 2);
        assert!(all.iter().all(|list| tiling::first_wrong(2, list).is_none()));
        assert_eq!(all.iter().map(|list| list.0.clone()).collect::<HashSet<_>>().len(), all.len());
    }

    #[test]
    fn no_list_that_shows_a_picture_is_shorter_than_the_shortest() {
        let mut fewest: HashMap<Vec<u8>, usize> = HashMap::new();
        for list in tilings(2, FIRST_COLOURS, COLOURED_FOR_CHECK) {
            let leaves = fewest.entry(tiling::painted(2, &list).cells).or_insert(list.len());
            *leaves = list.len().min(*leaves);
        }
        assert_eq!(fewest.len(), 65_536);
        for (cells, leaves) in fewest {
            let list = shortest(&Picture { size: 2, cells });
            assert_eq!(list.len(), leaves);
        }
    }

    #[test]
    #[cfg_attr(debug_assertions, ignore = "takes minutes without optimisation")]
    fn the_model_agrees_with_itself() {
        let mut report = Vec::new();
        let tally = compare_small(&Model, &mut report).expect("nothing to go wrong");
        assert!(tally.is_good());
        assert_eq!(String::from_utf8_lossy(&report), format!("{} passed, 0 failed\n", tally.passed));
    }
}
