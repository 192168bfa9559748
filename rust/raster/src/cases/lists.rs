//! Drawn lists and rasters: tilings of every grain and colouring, whole and damaged.

use crate::generator::Generator;
use crate::model::tiling;
use crate::model::word::{cells, Leaf};
use crate::product::LARGEST_MAP_SIZE;

/// The size to which a list may have a leaf for each cell.
const DENSE_SIZE: u64 = 6;

/// The colours that a map is painted with. An empty palette stands for all of them.
const PALETTES: [&[u8]; 13] = [
    &[0],
    &[255],
    &[0, 1],
    &[0, 1],
    &[0, 255],
    &[1, 2],
    &[0, 1, 2],
    &[0, 0, 0, 7],
    &[9, 9, 9, 0],
    &[1, 1, 1, 255],
    &[0, 1, 2, 3, 127, 128, 254, 255],
    &[],
    &[],
];

/// How a tiling is drawn.
struct Manner {
    /// In how many of four draws a block is split.
    splits: usize,
    palette: &'static [u8],
    /// Whether four alike brothers become one leaf.
    is_merged: bool,
}

/// A well-formed list for this size, which is at most 12.
pub fn tiling(size: u64, generator: &mut Generator) -> Vec<u64> {
    let splits = if size <= DENSE_SIZE { generator.pick(&[1, 2, 3, 3, 4]) } else { generator.pick(&[1, 2, 2, 3]) };
    grained(size, splits, generator)
}

/// A well-formed list for any size up to 12 that is never very long.
pub fn coarse_tiling(size: u64, generator: &mut Generator) -> Vec<u64> {
    let splits = generator.pick(&[1, 2]);
    grained(size, splits, generator)
}

/// A well-formed list for a large size that has leaves of many levels and more than one colour.
pub fn fine_tiling(size: u64, generator: &mut Generator) -> Vec<u64> {
    let manner = Manner { splits: 3, palette: generator.pick(&[&[0, 1], &[0, 1, 2], &[]]), is_merged: true };
    let mut list = Vec::new();
    split(0, size as u32, &manner, &mut list, generator);
    list
}

/// A well-formed list in which a block is split in so many of four draws.
fn grained(size: u64, splits: usize, generator: &mut Generator) -> Vec<u64> {
    let manner = Manner { splits, palette: generator.pick(&PALETTES), is_merged: generator.one_in(2) };
    let mut list = Vec::new();
    let is_one_leaf = size == 0 || generator.one_in(10);
    if is_one_leaf {
        list.push(leaf(0, size as u32, &manner, generator));
    } else {
        split(0, size as u32, &manner, &mut list, generator);
    }
    list
}

/// Adds the quarters of a block, which has more than one cell, each as a leaf or split further.
fn split(code: u64, level: u32, manner: &Manner, list: &mut Vec<u64>, generator: &mut Generator) {
    let first = list.len();
    for quarter in 0..4 {
        let code = code + quarter * cells(level - 1);
        if level > 1 && generator.below(4) < manner.splits {
            split(code, level - 1, manner, list, generator);
        } else {
            list.push(leaf(code, level - 1, manner, generator));
        }
    }
    let brothers: Vec<Leaf> = list[first..].iter().take(5).map(|word| Leaf::of(*word)).collect();
    if manner.is_merged && brothers.len() == 4 && brothers.iter().all(|leaf| leaf.colour == brothers[0].colour) {
        list.truncate(first);
        list.push(Leaf { code, level, colour: brothers[0].colour }.word());
    }
}

/// The word of a leaf of a drawn colour.
fn leaf(code: u64, level: u32, manner: &Manner, generator: &mut Generator) -> u64 {
    Leaf { code, level, colour: colour(manner.palette, generator) }.word()
}

/// A colour of a palette.
fn colour(palette: &[u8], generator: &mut Generator) -> u8 {
    match palette {
        [] => generator.below(256) as u8,
        colours => generator.pick(colours),
    }
}

/// The cells of a picture of this size, drawn by blocks or one by one.
pub fn raster(size: u64, generator: &mut Generator) -> Vec<u8> {
    if generator.one_in(3) {
        let palette = generator.pick(&PALETTES);
        (0..cells(size as u32)).map(|_| colour(palette, generator)).collect()
    } else {
        tiling::painted(size as u32, &tiling(size, generator)).cells
    }
}

/// Does one damage to a list that was drawn for this size. A few damages leave it well formed.
pub fn damage(size: u64, list: &mut Vec<u64>, generator: &mut Generator) {
    let places = list.len();
    if places == 0 {
        return list.push(generator.pick(&[0, 256, u64::MAX]));
    }
    let drawn = generator.below(places);
    let place = generator.pick(&[0, drawn, drawn, places - 1]);
    match generator.below(12) {
        0..=4 => list[place] = damaged(size, list[place], generator),
        5 => drop(list.remove(place)),
        6 => list.insert(place, list[place]),
        7 => list.swap(place, (place + 1) % places),
        8 => list.swap(place, drawn),
        // What is cut off stays in memory behind the list, where a product that reads on would find it.
        9 => list.truncate(place),
        10 => list.push(one_too_many(size, list[places - 1], generator)),
        _ => list.clear(),
    }
}

/// A word with one of its fields changed.
fn damaged(size: u64, word: u64, generator: &mut Generator) -> u64 {
    let leaf = Leaf::of(word);
    let drawn = generator.word();
    let levels = [size.min(LARGEST_MAP_SIZE) as u32 + 1, 13, 15, 16, 17, 31, 32, 64, 128, 255];
    match generator.below(9) {
        0 => word.wrapping_add(65_536),
        1 => word.wrapping_sub(65_536),
        2 => word ^ 1 << generator.below(64),
        // The spare bits, above any code.
        3 => word | 1 << (40 + generator.below(24)),
        4 => word | 0xffff_ffff_ffff_0000,
        5 => Leaf { level: (leaf.level + 1) % 256, ..leaf }.word(),
        6 => Leaf { level: (leaf.level + 255) % 256, ..leaf }.word(),
        7 => Leaf { level: generator.pick(&levels), ..leaf }.word(),
        _ => generator.pick(&[0, u64::MAX, word ^ 255, drawn]),
    }
}

/// A word to stand behind a whole list.
fn one_too_many(size: u64, last: u64, generator: &mut Generator) -> u64 {
    let end = cells(size.min(LARGEST_MAP_SIZE) as u32);
    let next = Leaf { code: end, level: 0, colour: 1 }.word();
    generator.pick(&[next, next + size % 13 * 256, last, 0, u64::MAX])
}

#[cfg(test)]
mod tests {
    use super::*;
    use crate::model::shortest::shortest;

    #[test]
    fn drawn_lists_are_well_formed_and_many_are_not_the_shortest() {
        let mut generator = Generator::new(4);
        let mut longer = 0;
        for size in [0, 1, 2, 3, 4, 5, 6].repeat(40) {
            let list = tiling(size, &mut generator);
            assert_eq!(tiling::first_wrong(size as u32, &list), None);
            longer += usize::from(shortest(&tiling::painted(size as u32, &list)) != list);
        }
        assert!((60..200).contains(&longer), "{longer} of 280");
    }

    #[test]
    fn damaged_lists_are_mostly_wrong() {
        let mut generator = Generator::new(5);
        let mut wrong = 0;
        for size in [0, 1, 2, 3, 4].repeat(40) {
            let mut list = tiling(size, &mut generator);
            damage(size, &mut list, &mut generator);
            wrong += usize::from(tiling::first_wrong(size as u32, &list).is_some());
        }
        assert!((140..200).contains(&wrong), "{wrong} of 200");
    }
}
