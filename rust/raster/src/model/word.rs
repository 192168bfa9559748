//! A leaf as one word of a list, and the rows and columns of its block.

use std::ops::Range;

use crate::product::LARGEST_MAP_SIZE;

/// A leaf of a list, taken from its word, which is code × 65,536 + level × 256 + colour. The bits above the level are all the
/// code's and the eight above the colour are all the level's, so either may be too large.
#[derive(Clone, Copy, Debug, PartialEq, Eq)]
pub struct Leaf {
    pub code: u64,
    pub level: u32,
    pub colour: u8,
}

impl Leaf {
    /// The leaf of a word, right or wrong.
    pub fn of(word: u64) -> Leaf {
        let [colour, level, ..] = word.to_le_bytes();
        Leaf { code: word / 65_536, level: u32::from(level), colour }
    }

    /// The word of the leaf.
    pub fn word(self) -> u64 {
        self.code * 65_536 + u64::from(self.level) * 256 + u64::from(self.colour)
    }

    /// The rows of the leaf's block. The leaf is right in its list.
    pub fn rows(self) -> Range<i64> {
        let (row, _) = row_and_column(self.code);
        row..row + side(self.level)
    }

    /// The columns of the leaf's block. The leaf is right in its list.
    pub fn columns(self) -> Range<i64> {
        let (_, column) = row_and_column(self.code);
        column..column + side(self.level)
    }
}

/// The side of a block of this level, or of a square of this size.
pub fn side(level: u32) -> i64 {
    2_i64.pow(level)
}

/// The number of cells of a block of this level, or of a square of this size. It is at most the largest size.
pub fn cells(level: u32) -> u64 {
    4_u64.pow(level)
}

/// The row and the column of a cell of the largest square: at each place of the code, the row bit stands before the column bit.
pub fn row_and_column(code: u64) -> (i64, i64) {
    let (mut row, mut column) = (0, 0);
    for place in 0..LARGEST_MAP_SIZE {
        row += (code >> (2 * place + 1) & 1) << place;
        column += (code >> (2 * place) & 1) << place;
    }
    (row as i64, column as i64)
}

/// The code of a cell of the largest square.
pub fn code_of(row: i64, column: i64) -> u64 {
    let mut code = 0;
    for place in 0..LARGEST_MAP_SIZE {
        code += ((row >> place & 1) as u64) << (2 * place + 1);
        code += ((column >> place & 1) as u64) << (2 * place);
    }
    code
}

#[cfg(test)]
mod tests {
    use super::*;

    #[test]
    fn row_3_column_5_is_27() {
        assert_eq!(code_of(3, 5), 27);
        assert_eq!(row_and_column(27), (3, 5));
    }

    #[test]
    fn a_code_of_the_largest_square_comes_back() {
        for code in (0..cells(LARGEST_MAP_SIZE as u32)).step_by(7) {
            let (row, column) = row_and_column(code);
            assert!((0..4096).contains(&row) && (0..4096).contains(&column));
            assert_eq!(code_of(row, column), code);
        }
    }

    #[test]
    fn a_word_is_taken_apart_and_put_together() {
        let word = 458_753;
        assert_eq!(Leaf::of(word), Leaf { code: 7, level: 0, colour: 1 });
        for word in [0, 257, 786_689, u64::MAX] {
            assert_eq!(Leaf::of(word).word(), word);
        }
    }

    #[test]
    fn a_block_has_the_rows_and_columns_of_its_cells() {
        let leaf = Leaf { code: 12, level: 1, colour: 1 };
        assert_eq!((leaf.rows(), leaf.columns()), (2..4, 2..4));
        for code in leaf.code..leaf.code + cells(leaf.level) {
            let (row, column) = row_and_column(code);
            assert!(leaf.rows().contains(&row) && leaf.columns().contains(&column));
        }
    }
}
