//! The shortest list of a picture, as words.

use super::word::{self, Leaf};
use crate::picture::Picture;

/// Every square of one level that begins at a multiple of its side, row by row: its colour, or nothing if two cells differ.
type Squares = Vec<Option<u8>>;

/// The shortest list of a picture: at each code where a leaf begins, it is the largest block of one colour that begins there.
pub fn shortest(picture: &Picture) -> Vec<u64> {
    let squares = squares_by_level(picture);
    let (mut list, mut code) = (Vec::new(), 0);
    while code < word::cells(picture.size) {
        let (row, column) = word::row_and_column(code);
        let colour = |level: u32| squares[level as usize][place(picture.size - level, row >> level, column >> level)];
        let begins = |level: &u32| code.is_multiple_of(word::cells(*level)) && colour(*level).is_some();
        // A single cell has one colour, so level 0 is there when no other is.
        let level = (1..=picture.size).filter(begins).max().unwrap_or(0);
        list.push(Leaf { code, level, colour: picture.colour_at(row as usize, column as usize) }.word());
        code += word::cells(level);
    }
    list
}

/// The squares of each level, from the cells up.
fn squares_by_level(picture: &Picture) -> Vec<Squares> {
    let mut levels: Vec<Squares> = vec![picture.cells.iter().copied().map(Some).collect()];
    for size in (0..picture.size).rev() {
        let quarters = &levels[levels.len() - 1];
        levels.push(joined(size, quarters));
    }
    levels
}

/// The squares of which each has four of the next lower level as its quarters. There are 2^size of them in a row.
fn joined(size: u32, quarters: &Squares) -> Squares {
    let mut squares = Vec::with_capacity(word::cells(size) as usize);
    for row in 0..word::side(size) {
        for column in 0..word::side(size) {
            let north_west = quarters[place(size + 1, 2 * row, 2 * column)];
            let alike = [(0, 1), (1, 0), (1, 1)]
                .iter()
                .all(|(south, east)| quarters[place(size + 1, 2 * row + south, 2 * column + east)] == north_west);
            squares.push(north_west.filter(|_| alike));
        }
    }
    squares
}

/// Where a square stands among those of its level, of which there are 2^size in a row.
fn place(size: u32, row: i64, column: i64) -> usize {
    (row * word::side(size) + column) as usize
}

#[cfg(test)]
mod tests {
    use super::*;
    use crate::generator::Generator;
    use crate::{list, patterns};

    #[test]
    fn it_is_the_list_that_leaves_prints() {
        let mut generator = Generator::new(3);
        let drawn =
            (0..7).flat_map(|size| [patterns::drawn_cells(size, &mut generator), patterns::drawn_blocks(size, &mut generator)]);
        let fixed = (0..=5).flat_map(patterns::of_size).map(|(_, picture)| picture);
        for picture in drawn.collect::<Vec<_>>().into_iter().chain(fixed) {
            let leaves: Vec<(u64, u32, u8)> =
                list::shortest(&picture).iter().map(|leaf| (leaf.code(), leaf.level, leaf.colour)).collect();
            let words = shortest(&picture);
            let came: Vec<(u64, u32, u8)> =
                words.iter().map(|word| Leaf::of(*word)).map(|leaf| (leaf.code, leaf.level, leaf.colour)).collect();
            assert_eq!(came, leaves);
        }
    }
}
