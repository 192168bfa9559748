//! The named texts, good and bad, with the verdict that the rules give on each.
//!
//! The verdicts are set by hand, so they check this package's own reader too. Each table below varies one part of a text and
//! keeps the rest as in the sample of the paper.

use crate::patterns;
use crate::picture::{LARGEST_SIZE, LONGEST_TEXT};
use Verdict::{Read, Refused};

/// What the rules say of a text.
#[derive(Clone, Copy, Debug, PartialEq, Eq)]
pub enum Verdict {
    Read,
    Refused,
}

/// A text for the standard input of `leaves`. The name says what it is about.
pub struct Text {
    pub name: String,
    pub verdict: Verdict,
    pub bytes: Vec<u8>,
}

/// A name, the verdict, and the bytes that make the text what it is.
type Row = (&'static str, Verdict, &'static [u8]);

const SAMPLE_HEADER: &[u8] = b"P1\n4 4\n";
const SAMPLE_CELLS: &[u8] = b"1100\n1101\n0011\n0011\n";

/// Headers. The sample's cells follow.
const HEADERS: &[Row] = &[
    ("the sample of the paper", Read, SAMPLE_HEADER),
    ("header on three lines", Read, b"P1\n4\n4\n"),
    ("header on one line", Read, b"P1 4 4 "),
    ("header with empty lines", Read, b"P1\n\n\n4\n\n4\n\n\n"),
    ("header with TAB", Read, b"P1\t4\t4\t"),
    ("header with VT", Read, b"P1\x0b4\x0b4\x0b"),
    ("header with FF", Read, b"P1\x0c4\x0c4\x0c"),
    ("header with CR alone", Read, b"P1\r4\r4\r"),
    ("header with CR LF", Read, b"P1\r\n4 4\r\n"),
    ("header with all white space bytes", Read, b"P1 \t\n\x0b\x0c\r4\r\x0c\x0b\n\t 4 \t\n\x0b\x0c\r"),
    ("comment after P1 and a space", Read, b"P1 # by hand\n4 4\n"),
    ("comment on a line before the width", Read, b"P1\n# by hand\n4 4\n"),
    ("comment between width and height", Read, b"P1\n4 # width\n4\n"),
    ("comment against P1", Read, b"P1# by hand\n4 4\n"),
    ("comment against the width", Read, b"P1\n4# width\n4\n"),
    ("comment against the height ends the header", Read, b"P1\n4 4# height\n"),
    ("comments at every place of the header", Read, b"P1# a\n# b\n4# c\n# d\n4# e\n"),
    ("two comments in a row", Read, b"P1\n# one\n# two\n4 4\n"),
    ("comment ended by CR", Read, b"P1\n# by hand\r4 4\n"),
    ("comment ended by CR LF", Read, b"P1\r\n# by hand\r\n4 4\r\n"),
    ("comment against the height, ended by CR", Read, b"P1\n4 4# height\r"),
    ("comment goes on after VT and FF", Read, b"P1\n# by\x0bhand\x0c8 8\n4 4\n"),
    ("empty comment", Read, b"P1\n#\n4 4\n"),
    ("empty comments against P1 and both numbers", Read, b"P1#\n4#\n4#\n"),
    ("comment with a hash in it", Read, b"P1\n## by # hand #\n4 4\n"),
    ("comment with a picture in it", Read, b"P1\n# P1 2 2 1010\n4 4\n"),
    ("comment with NUL and bytes above 127 in it", Read, b"P1\n# \x00\xff\xc3\xa9\n4 4\n"),
    ("comment after the space that ends the header", Refused, b"P1\n4 4 # height\n"),
    ("comment on a line after the header", Refused, b"P1\n4 4\n# cells\n"),
    ("second comment after the height", Refused, b"P1\n4 4# one\n# two\n"),
    ("comment over the height", Refused, b"P1\n4 # 4\n"),
    ("comment within P1", Refused, b"P#\n1\n4 4\n"),
    ("comment within the width", Refused, b"P1\n0#\n4 4\n"),
    ("comment before P1", Refused, b"# by hand\nP1\n4 4\n"),
    ("comment that CR ends too soon", Refused, b"P1\n# by\rhand\n4 4\n"),
    ("P4", Refused, b"P4\n4 4\n"),
    ("P2", Refused, b"P2\n4 4\n"),
    ("P1 in lower case", Refused, b"p1\n4 4\n"),
    ("P01", Refused, b"P01\n4 4\n"),
    ("P and 1 apart", Refused, b"P 1\n4 4\n"),
    ("no P1", Refused, b"4 4\n"),
    ("no white space after P1", Refused, b"P14 4\n"),
    ("space before P1", Refused, b" P1\n4 4\n"),
    ("LF before P1", Refused, b"\nP1\n4 4\n"),
    ("NUL before P1", Refused, b"\x00P1\n4 4\n"),
    ("byte order mark before P1", Refused, b"\xef\xbb\xbfP1\n4 4\n"),
    ("NUL for white space in the header", Refused, b"P1\x004 4\n"),
    ("byte 8, before TAB, in the header", Refused, b"P1\x084 4\n"),
    ("byte 14, after CR, in the header", Refused, b"P1\x0e4 4\n"),
    ("byte 31, before the space, in the header", Refused, b"P1\x1f4 4\n"),
    ("byte 33, after the space, in the header", Refused, b"P1\x214 4\n"),
    ("byte 133, a line end elsewhere, in the header", Refused, b"P1\x854 4\n"),
    ("byte 160, a space elsewhere, in the header", Refused, b"P1\n4\xa04\n"),
    ("NUL for the white space after the height", Refused, b"P1\n4 4\x00"),
    ("x between the numbers", Refused, b"P1\n4x4\n"),
    ("third number in the header", Refused, b"P1\n4 4 1\n"),
    ("number missing from the header", Refused, b"P1\n4\n"),
    ("no white space after the height", Refused, b"P1\n4 4"),
];

/// Rasters. The sample's header stands before them.
const RASTERS: &[Row] = &[
    ("cells together on one line", Read, b"1100110100110011\n"),
    ("cells apart on one line", Read, b"1 1 0 0 1 1 0 1 0 0 1 1 0 0 1 1\n"),
    ("cells in pairs", Read, b"11 00 11 01\n00 11 00 11\n"),
    ("cells in uneven lines", Read, b"1\n10011\n\n0100110 01\t1\n"),
    ("cells with all white space bytes between", Read, b"1 1\t0\n0\x0b1\x0c1\r0\r\n1 \t0\n\x0b0\x0c\r11 \t\n\x0b\x0c\r0011"),
    ("cells with CR LF", Read, b"1100\r\n1101\r\n0011\r\n0011\r\n"),
    ("cells with CR alone", Read, b"1100\r1101\r0011\r0011\r"),
    ("white space before the first cell", Read, b" \t\n\x0b\x0c\r1100110100110011"),
    ("white space after the last cell", Read, b"1100110100110011 \t\n\x0b\x0c\r"),
    ("no LF after the last cell", Read, b"1100\n1101\n0011\n0011"),
    ("no cells", Refused, b""),
    ("white space for cells", Refused, b" \t\n\x0b\x0c\r"),
    ("a cell missing", Refused, b"1100\n1101\n0011\n001\n"),
    ("a cell too many", Refused, b"1100\n1101\n0011\n00110\n"),
    ("a cell too many on a line of its own", Refused, b"1100\n1101\n0011\n0011\n0\n"),
    ("all cells twice", Refused, b"1100110100110011\n1100110100110011\n"),
    ("a cell 2", Refused, b"1100\n1101\n0021\n0011\n"),
    ("a cell 9", Refused, b"1100\n1101\n0091\n0011\n"),
    ("byte 47, before 0, among the cells", Refused, b"1100\n1101\n00/1\n0011\n"),
    ("letter among the cells", Refused, b"1100\n1101\n0011\n0x11\n"),
    ("letter O for a cell", Refused, b"1100\n1101\nOO11\n0011\n"),
    ("commas between the cells", Refused, b"1,1,0,0,1,1,0,1,0,0,1,1,0,0,1,1\n"),
    ("sign before a cell", Refused, b"1100\n1101\n-0011\n0011\n"),
    ("cells as bytes 0 and 1", Refused, b"\x01\x01\x00\x00\x01\x01\x00\x01\x00\x00\x01\x01\x00\x00\x01\x01"),
    ("cells as bits", Refused, b"\xc0\xd0\x30\x30"),
    ("comment among the cells", Refused, b"1100\n1101\n# south\n0011\n0011\n"),
    ("empty comment among the cells", Refused, b"1100\n1101#\n0011\n0011\n"),
    ("comment after the last cell", Refused, b"1100\n1101\n0011\n0011\n# end\n"),
    ("comment against the last cell", Refused, b"1100\n1101\n0011\n0011# end"),
    ("text after the last cell", Refused, b"1100\n1101\n0011\n0011\nend\n"),
    ("second picture behind the first", Refused, b"1100\n1101\n0011\n0011\nP1\n1 1\n0\n"),
    ("NUL among the cells", Refused, b"1100\n1101\x000011\n0011\n"),
    ("NUL after the last cell", Refused, b"1100\n1101\n0011\n0011\n\x00"),
    ("NUL for the last cell", Refused, b"1100\n1101\n0011\n001\x00"),
    ("byte 26, an end of file elsewhere, after the last cell", Refused, b"1100\n1101\n0011\n0011\n\x1a"),
    ("byte 8, before TAB, after the last cell", Refused, b"1100\n1101\n0011\n0011\x08"),
    ("byte 14, after CR, after the last cell", Refused, b"1100\n1101\n0011\n0011\x0e"),
    ("byte 160, a space elsewhere, among the cells", Refused, b"1100\xa01101\xa00011\xa00011"),
    ("byte 255 after the last cell", Refused, b"1100\n1101\n0011\n0011\n\xff"),
];

/// Whole texts.
const WHOLES: &[Row] = &[
    ("the shortest text", Read, b"P1 1 1 0"),
    ("the shortest text, black", Read, b"P1 1 1 1"),
    ("the shortest text with a final LF", Read, b"P1 1 1 0\n"),
    ("the shortest text with comments", Read, b"P1#\n1#\r1#\n1"),
    ("2 by 2, black in the north-west", Read, b"P1 2 2 1000"),
    ("2 by 2, black in the north-east", Read, b"P1 2 2 0100"),
    ("2 by 2, black in the south-west", Read, b"P1 2 2 0010"),
    ("2 by 2, black in the south-east", Read, b"P1 2 2 0001"),
    ("whole file with CR LF", Read, b"P1\r\n# by hand\r\n2 2\r\n10\r\n01\r\n"),
    ("whole file with CR alone", Read, b"P1\r# by hand\r2 2\r10\r01\r"),
    ("empty file", Refused, b""),
    ("only white space", Refused, b" \t\n\x0b\x0c\r"),
    ("only a comment", Refused, b"# by hand\n"),
    ("P alone", Refused, b"P"),
    ("P1 alone", Refused, b"P1"),
    ("P1 and a line end", Refused, b"P1\n"),
    ("file that ends in the width", Refused, b"P1\n4"),
    ("file that ends after the width", Refused, b"P1\n4 "),
    ("file that ends in the height", Refused, b"P1\n4 4"),
    ("1 by 1 that ends in the height", Refused, b"P1 1 1"),
    ("1 by 1 without its cell", Refused, b"P1 1 1 "),
    ("1 by 1 with two cells", Refused, b"P1 1 1 0 0"),
    ("1 by 1 with no white space after the height", Refused, b"P1 1 10"),
    ("1 by 1 with no white space between the numbers", Refused, b"P1 11 0"),
    ("comment against P1 that never ends", Refused, b"P1# 1 1 0"),
    ("comment before the width that never ends", Refused, b"P1 # 1 1 0"),
    ("comment after the width that never ends", Refused, b"P1 1 # 1 0"),
    ("comment against the height that never ends", Refused, b"P1 1 1# 0"),
    ("hash against the height at the end of the file", Refused, b"P1 1 1#"),
    ("comment and no cells", Refused, b"P1 1 1# height\n"),
];

/// Widths and heights as they stand in the header, with the number of cells in the raster. Many of the bad ones would be a good
/// side to a careless reader, by a word too narrow for the number or a byte taken for a digit; the cells are those of that side.
const SIDES: &[(&str, &str, usize, Verdict)] = &[
    ("4", "04", 16, Read),
    ("01", "1", 1, Read),
    ("08", "8", 64, Read),
    ("0032", "032", 1024, Read),
    ("00000000000000000000000000000008", "8", 64, Read),
    ("8", "00000000000000000000000000000008", 64, Read),
    ("00000000000000000000000000000008", "00000000000000000000000000000008", 64, Read),
    ("0", "0", 0, Refused),
    ("0", "0", 1, Refused),
    ("00", "00", 1, Refused),
    ("3", "3", 9, Refused),
    ("5", "5", 25, Refused),
    ("6", "6", 36, Refused),
    ("9", "9", 81, Refused),
    ("31", "31", 961, Refused),
    ("33", "33", 1089, Refused),
    ("64", "64", 4096, Refused),
    ("128", "128", 16_384, Refused),
    ("1024", "1024", 1024, Refused),
    ("010", "010", 64, Refused),
    ("020", "020", 256, Refused),
    ("40", "40", 16, Refused),
    ("256", "256", 0, Refused),
    ("257", "257", 1, Refused),
    ("260", "260", 16, Refused),
    ("65540", "65540", 16, Refused),
    ("4294967296", "4294967296", 0, Refused),
    ("4294967297", "4294967297", 1, Refused),
    ("4294967300", "4294967300", 16, Refused),
    ("18446744073709551616", "18446744073709551616", 0, Refused),
    ("18446744073709551616", "18446744073709551616", 1, Refused),
    ("18446744073709551617", "18446744073709551617", 1, Refused),
    ("18446744073709551620", "18446744073709551620", 16, Refused),
    ("18446744073709551620", "4", 16, Refused),
    ("4", "18446744073709551620", 16, Refused),
    ("0018446744073709551620", "4", 16, Refused),
    ("340282366920938463463374607431768211460", "340282366920938463463374607431768211460", 16, Refused),
    ("4", "2", 8, Refused),
    ("2", "4", 8, Refused),
    ("4", "8", 32, Refused),
    ("8", "4", 32, Refused),
    ("2", "8", 16, Refused),
    ("8", "2", 16, Refused),
    ("1", "16", 16, Refused),
    ("16", "1", 16, Refused),
    ("4", "5", 16, Refused),
    ("4", "0", 16, Refused),
    ("-4", "4", 16, Refused),
    ("4", "-4", 16, Refused),
    ("-4", "-4", 16, Refused),
    ("+4", "4", 16, Refused),
    ("4", "+4", 16, Refused),
    ("4.0", "4", 16, Refused),
    ("4", "4.0", 16, Refused),
    ("0x4", "4", 16, Refused),
    ("4", "0x4", 16, Refused),
    ("4e0", "4", 16, Refused),
    ("4,", "4", 16, Refused),
    ("/4", "4", 16, Refused),
    ("@", "@", 256, Refused),
    ("P", "P", 1024, Refused),
    ("four", "four", 16, Refused),
    ("\u{ff14}", "\u{ff14}", 16, Refused),
];

/// A text that is padded to a length: a name, the verdict if it is not too long, what stands before the padding, the byte that is
/// repeated, and what stands behind it.
type Padding = (&'static str, Verdict, &'static [u8], u8, &'static [u8]);

const PADDINGS: &[Padding] = &[
    ("white space at the end", Read, b"P1\n2 2\n1011", b' ', b""),
    ("white space before the last cell", Read, b"P1\n2 2\n101", b'\n', b"1"),
    ("white space in the header", Read, b"P1", b'\r', b"2 2\n1011\n"),
    ("a comment in the header", Read, b"P1\n#", b'c', b"\n2 2\n1011\n"),
    ("a comment that ends the header", Read, b"P1\n2 2#", b'#', b"\n1011\n"),
    ("leading zeros of the width", Read, b"P1\n", b'0', b"2 2\n1011\n"),
    ("leading zeros of the height", Read, b"P1\n2 ", b'0', b"2\n1011\n"),
    ("white space before a NUL at the end", Refused, b"P1\n2 2\n1011", b' ', b"\x00"),
    ("a comment that never ends", Refused, b"P1\n2 2#", b'c', b""),
    ("digits of the width", Refused, b"P1\n", b'4', b" 2\n1011\n"),
    ("cells", Refused, b"P1\n32 32\n", b'1', b"\n"),
    ("white space and nothing else", Refused, b"", b'\n', b""),
];

/// The lengths of the padded texts.
const LENGTHS: [usize; 5] = [LONGEST_TEXT - 1, LONGEST_TEXT, LONGEST_TEXT + 1, 70_000, 200_000];

/// Every named text.
pub fn named() -> Vec<Text> {
    let mut texts = Vec::new();
    texts.extend(HEADERS.iter().map(|row| from_row(row, b"", SAMPLE_CELLS)));
    texts.extend(RASTERS.iter().map(|row| from_row(row, SAMPLE_HEADER, b"")));
    texts.extend(WHOLES.iter().map(|row| from_row(row, b"", b"")));
    texts.extend(SIDES.iter().map(|(width, height, cells, verdict)| with_sides(width, height, *cells, *verdict)));
    texts.extend(PADDINGS.iter().flat_map(|padding| LENGTHS.map(|length| padded(padding, length))));
    texts.extend((0..=LARGEST_SIZE).flat_map(pictures));
    texts
}

/// The text of a table's row, between what the table keeps as it is.
fn from_row((name, verdict, bytes): &Row, before: &[u8], behind: &[u8]) -> Text {
    Text { name: name.to_string(), verdict: *verdict, bytes: [before, bytes, behind].concat() }
}

/// The text with this width, this height and this number of cells.
fn with_sides(width: &str, height: &str, cells: usize, verdict: Verdict) -> Text {
    let name = format!("width {width}, height {height}, {cells} cells");
    let raster: String = "110".chars().cycle().take(cells).collect();
    Text { name, verdict, bytes: format!("P1\n{width} {height}\n{raster}\n").into_bytes() }
}

/// The text that is padded to this length.
fn padded((name, verdict, before, byte, behind): &Padding, length: usize) -> Text {
    let filler = vec![*byte; length - before.len() - behind.len()];
    let verdict = if length > LONGEST_TEXT { Refused } else { *verdict };
    Text { name: format!("{length} bytes, padded by {name}"), verdict, bytes: [before, &filler[..], behind].concat() }
}

/// The texts of all pictures of one size, with the cells together and apart.
fn pictures(size: u32) -> Vec<Text> {
    let side = 1 << size;
    let mut texts = Vec::new();
    for (pattern, picture) in patterns::of_size(size) {
        for (manner, between) in [("together", ""), ("apart", " ")] {
            let name = format!("{side} by {side}, {pattern}, cells {manner}");
            let bytes = format!("P1\n{side} {side}\n{}", patterns::written(&picture, between)).into_bytes();
            texts.push(Text { name, verdict: Read, bytes });
        }
    }
    texts
}

#[cfg(test)]
mod tests {
    use super::*;
    use crate::picture;
    use std::collections::HashSet;

    #[test]
    fn the_reader_agrees_with_every_verdict() {
        for text in named() {
            assert_eq!(picture::read(&text.bytes).is_some(), text.verdict == Read, "{}", text.name);
        }
    }

    #[test]
    fn every_name_and_every_text_stands_once() {
        let (mut names, mut bytes) = (HashSet::new(), HashSet::new());
        for text in named() {
            assert!(names.insert(text.name.clone()), "the name {} stands twice", text.name);
            // Small pictures of different patterns may be the same.
            if !text.name.contains(", cells ") {
                assert!(bytes.insert(text.bytes), "{} is there under another name", text.name);
            }
        }
    }

    #[test]
    fn the_pictures_are_read_as_they_were_made() {
        for size in 0..=LARGEST_SIZE {
            let made = patterns::of_size(size).into_iter().flat_map(|(_, picture)| [picture.clone(), picture]);
            for (text, picture) in pictures(size).iter().zip(made) {
                assert_eq!(picture::read(&text.bytes), Some(picture), "{}", text.name);
            }
        }
    }
}
