//! A picture as a dense square of cells, and the reader of plain PBM texts.

use std::iter::{Copied, Peekable};
use std::slice::Iter;

/// The length in bytes of the longest text that is read.
pub const LONGEST_TEXT: usize = 65_536;

/// The sides that a text may name, in digits without leading zeros. The size n of a side is its place in this table.
const SIDES: [&str; 6] = ["1", "2", "4", "8", "16", "32"];

/// The size of the largest picture that is read.
pub const LARGEST_SIZE: u32 = SIDES.len() as u32 - 1;

/// A square of 2^size by 2^size cells, one colour a cell, row by row. Row 0 is north, column 0 is west.
#[derive(Clone, Debug, PartialEq, Eq)]
pub struct Picture {
    pub size: u32,
    pub cells: Vec<u8>,
}

impl Picture {
    /// The number of rows, which is also the number of columns.
    pub fn side(&self) -> usize {
        1 << self.size
    }

    /// The colour of a cell of the square.
    pub fn colour_at(&self, row: usize, column: usize) -> u8 {
        self.cells[row * self.side() + column]
    }
}

/// The bytes of a text that are still to be read.
type Rest<'a> = Peekable<Copied<Iter<'a, u8>>>;

/// The picture that a text shows, or nothing if the text is not read.
pub fn read(text: &[u8]) -> Option<Picture> {
    if text.len() > LONGEST_TEXT {
        return None;
    }
    let mut rest = text.strip_prefix(b"P1")?.iter().copied().peekable();
    skip_gaps(&mut rest)?;
    let width = number(&mut rest);
    skip_gaps(&mut rest)?;
    let height = number(&mut rest);
    // One gap ends the header. What follows is the raster, in which a comment is no white space.
    skip_gap(&mut rest)?;
    let size = SIDES.iter().position(|side| *side == width && *side == height)?;
    let cells: Vec<u8> = rest.filter(|byte| !is_white_space(*byte)).map(colour_of).collect::<Option<_>>()?;
    (cells.len() == 1 << (2 * size)).then_some(Picture { size: size as u32, cells })
}

/// Skips one gap of a header, which is a white space byte or a comment. Answers nothing if there is none.
fn skip_gap(rest: &mut Rest) -> Option<()> {
    let first = rest.next_if(|byte| *byte == b'#' || is_white_space(*byte))?;
    if first == b'#' {
        // The end of the line may stay, since it is white space in a header and in a raster alike.
        while rest.next_if(|byte| !matches!(byte, b'\n' | b'\r')).is_some() {}
    }
    Some(())
}

/// Skips all gaps up to the next word of a header. Answers nothing if there is none.
fn skip_gaps(rest: &mut Rest) -> Option<()> {
    skip_gap(rest)?;
    while skip_gap(rest).is_some() {}
    Some(())
}

/// The number that comes next, in digits without leading zeros: a text, so that no number is too large for it. It is empty for
/// zero and where no digit stands, neither of which is a side.
fn number(rest: &mut Rest) -> String {
    while rest.next_if_eq(&b'0').is_some() {}
    let mut digits = String::new();
    while let Some(digit) = rest.next_if(u8::is_ascii_digit) {
        digits.push(char::from(digit));
    }
    digits
}

/// The colour that a byte of the raster gives to its cell, or nothing if the byte is no cell.
fn colour_of(byte: u8) -> Option<u8> {
    match byte {
        b'0' => Some(0),
        b'1' => Some(1),
        _ => None,
    }
}

/// Whether a byte is white space: space, TAB, LF, VT, FF or CR.
fn is_white_space(byte: u8) -> bool {
    matches!(byte, b' ' | b'\t' | b'\n' | b'\x0b' | b'\x0c' | b'\r')
}

#[cfg(test)]
mod tests {
    use super::*;

    fn two_by_two(text: &str) -> bool {
        read(text.as_bytes()) == Some(Picture { size: 1, cells: vec![0, 1, 1, 1] })
    }

    #[test]
    fn cells_go_row_by_row() {
        let picture = read(b"P1 2 2 0100").expect("a good text");
        assert_eq!((picture.colour_at(0, 1), picture.colour_at(1, 0)), (1, 0));
    }

    #[test]
    fn a_comment_is_white_space_in_the_header_only() {
        assert!(two_by_two("P1#a\n2#b\r2#c\n0111"));
        assert!(two_by_two("P1 # a\n# b\n2\n2 0111"));
        assert!(!two_by_two("P1 2 2 # c\n0111"));
        assert!(!two_by_two("P1 2 2 01# c\n11"));
        assert!(!two_by_two("P1 2 2 0111# c\n"));
    }

    #[test]
    fn a_comment_that_never_ends_leaves_no_cells() {
        assert!(!two_by_two("P1 # 2 2 0111"));
        assert!(!two_by_two("P1 2 2# 0111"));
    }

    #[test]
    fn each_word_of_the_header_is_followed_by_white_space() {
        assert!(two_by_two("P1\x0b2\x0c2\r0111"));
        assert!(!two_by_two("P12 2 0111"));
        assert!(!two_by_two("P1 2 20111"));
        assert!(!two_by_two(" P1 2 2 0111"));
    }

    #[test]
    fn no_side_wraps_around() {
        assert!(two_by_two("P1 002 2 0111"));
        assert!(!two_by_two("P1 18446744073709551618 18446744073709551618 0111"));
        assert!(!two_by_two("P1 0 0 "));
    }

    #[test]
    fn the_cells_are_all_there_and_nothing_else() {
        assert!(two_by_two("P1 2 2 0 1\n\x0b\x0c1\t1 \r\n"));
        assert!(!two_by_two("P1 2 2 011"));
        assert!(!two_by_two("P1 2 2 01110"));
        assert!(!two_by_two("P1 2 2 0111\0"));
    }
}
