//! The shortest list of a picture, by its definition, and the lines that `leaves` prints of it.

use crate::picture::{self, Picture};

/// What `leaves` prints for a text that is not read.
pub const REFUSED: &str = "refused 11\n";

/// A block of one colour. Its row and column are those of its upper left cell. Its code is written in base 4 with as many digits
/// as the picture's size, so the only leaf of a picture of size 0 has none.
#[derive(Clone, Debug, PartialEq, Eq)]
pub struct Leaf {
    pub row: usize,
    pub column: usize,
    pub level: u32,
    pub colour: u8,
    pub digits: String,
}

impl Leaf {
    /// The code as a number.
    pub fn code(&self) -> u64 {
        self.digits.bytes().fold(0, |code, digit| 4 * code + u64::from(digit - b'0'))
    }

    /// The line that `leaves` prints of this leaf.
    fn line(&self) -> String {
        let digits = if self.digits.is_empty() { "0" } else { &self.digits };
        format!("{digits} {} {}\n", self.level, self.colour)
    }
}

/// A square of side 2^level and the path to it: the digit of each quarter taken on the way down, 0 to 3 for NW, NE, SW, SE.
struct Block {
    row: usize,
    column: usize,
    level: u32,
    path: String,
}

impl Block {
    /// The four quarters in order. The block has more than one cell.
    fn quarters(&self) -> [Block; 4] {
        let level = self.level - 1;
        let half = 1 << level;
        let quarter = |row, column, digit| Block { row, column, level, path: format!("{}{digit}", self.path) };
        [
            quarter(self.row, self.column, 0),
            quarter(self.row, self.column + half, 1),
            quarter(self.row + half, self.column, 2),
            quarter(self.row + half, self.column + half, 3),
        ]
    }

    /// The colour that all cells of the block have, or nothing if two of them differ.
    fn colour(&self, picture: &Picture) -> Option<u8> {
        let side = 1 << self.level;
        let colour = picture.colour_at(self.row, self.column);
        let mut cells = (0..side).flat_map(|row| (0..side).map(move |column| (self.row + row, self.column + column)));
        cells.all(|(row, column)| picture.colour_at(row, column) == colour).then_some(colour)
    }

    /// The block as a leaf. Below the path, every digit of the upper left cell's code is 0.
    fn leaf(self, colour: u8) -> Leaf {
        let digits = self.path + &"0".repeat(self.level as usize);
        Leaf { row: self.row, column: self.column, level: self.level, colour, digits }
    }
}

/// The shortest list of a picture: a block of one colour is one leaf, any other block is its four quarters in order.
pub fn shortest(picture: &Picture) -> Vec<Leaf> {
    shortest_of(Block { row: 0, column: 0, level: picture.size, path: String::new() }, picture)
}

/// The shortest list of one block of a picture.
fn shortest_of(block: Block, picture: &Picture) -> Vec<Leaf> {
    match block.colour(picture) {
        Some(colour) => vec![block.leaf(colour)],
        None => block.quarters().into_iter().flat_map(|quarter| shortest_of(quarter, picture)).collect(),
    }
}

/// What `leaves` prints for a text: one line per leaf of its picture's shortest list, or the refusal.
pub fn printed(text: &[u8]) -> String {
    match picture::read(text) {
        Some(picture) => shortest(&picture).iter().map(Leaf::line).collect(),
        None => REFUSED.to_string(),
    }
}

#[cfg(test)]
mod tests {
    use super::*;
    use crate::generator::Generator;
    use crate::patterns;

    #[test]
    fn the_sample_of_the_paper() {
        let text = b"P1\n4 4\n1100\n1101\n0011\n0011\n";
        assert_eq!(printed(text), "00 1 1\n10 0 0\n11 0 0\n12 0 0\n13 0 1\n20 1 0\n30 1 1\n");
    }

    #[test]
    fn a_text_that_is_not_read() {
        assert_eq!(printed(b"P1\n4 4\n1100\n1101\n0011\n001\n"), "refused 11\n");
    }

    #[test]
    fn a_single_cell_has_the_code_0() {
        assert_eq!(printed(b"P1 1 1 1"), "0 0 1\n");
    }

    #[test]
    fn a_picture_of_one_colour_is_one_leaf() {
        assert_eq!(printed(&[&b"P1 32 32 "[..], &[b'1'; 1024]].concat()), "00000 5 1\n");
    }

    #[test]
    fn row_3_column_5_of_8_by_8_is_123_in_base_4() {
        let mut picture = Picture { size: 3, cells: vec![0; 64] };
        picture.cells[3 * 8 + 5] = 1;
        let black: Vec<Leaf> = shortest(&picture).into_iter().filter(|leaf| leaf.colour == 1).collect();
        assert_eq!(black, [Leaf { row: 3, column: 5, level: 0, colour: 1, digits: "123".to_string() }]);
        assert_eq!(black[0].code(), 27);
    }

    #[test]
    fn a_code_interleaves_the_bits_of_row_and_column_and_leaves_tile_in_code_order() {
        let picture = patterns::drawn_blocks(5, &mut Generator::new(5));
        let mut end = 0;
        for leaf in shortest(&picture) {
            let bits = format!("{:05b}", leaf.row).into_bytes().into_iter().zip(format!("{:05b}", leaf.column).into_bytes());
            let digits: String = bits.map(|(row, column)| (2 * (row - b'0') + (column - b'0')).to_string()).collect();
            assert_eq!((&leaf.digits, leaf.code()), (&digits, end));
            end += 4_u64.pow(leaf.level);
        }
        assert_eq!(end, 1024);
    }
}
