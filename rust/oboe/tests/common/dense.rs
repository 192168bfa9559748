//! The operations on dense pictures, cell by cell, from the table of the rules.

use std::collections::BTreeMap;
use std::ops::Range;

use raster::generator::Generator;
use raster::picture::Picture;

/// The three operations, by the words that the command takes.
pub const OPERATIONS: [&str; 3] = ["intersection", "union", "difference"];

/// A picture whose cells are given by row and column.
pub fn made(size: u32, colour: impl Fn(usize, usize) -> u8) -> Picture {
    let side = 1 << size;
    let cells = (0..side * side).map(|cell| colour(cell / side, cell % side)).collect();
    Picture { size, cells }
}

/// A picture of one colour.
pub fn plain(size: u32, colour: u8) -> Picture {
    Picture { size, cells: vec![colour; 1 << (2 * size)] }
}

/// A picture all of whose cells are WHITE but one.
pub fn one_cell(size: u32, row: usize, column: usize, colour: u8) -> Picture {
    let mut picture = plain(size, 0);
    picture.cells[row << size | column] = colour;
    picture
}

/// A picture in which no two brothers are alike, so that its shortest list has one leaf for each cell.
pub fn checkerboard(size: u32) -> Picture {
    made(size, |row, column| ((row + column) % 2) as u8)
}

/// A picture drawn with few colours, so that some blocks are of one colour.
pub fn drawn(size: u32, colours: &[u8], generator: &mut Generator) -> Picture {
    let mut picture = plain(size, 0);
    let side = picture.side();
    for _ in 0..3 * size + 2 {
        let level = generator.below(size as usize + 1);
        let (top, left) = (generator.below(side >> level) << level, generator.below(side >> level) << level);
        let colour = generator.pick(colours);
        for row in top..top + (1 << level) {
            picture.cells[row * side + left..][..1 << level].fill(colour);
        }
    }
    picture
}

/// The colour of a place that may be beyond the picture.
fn colour_or_white(picture: &Picture, row: i64, column: i64) -> u8 {
    let square = 0..picture.side() as i64;
    if square.contains(&row) && square.contains(&column) {
        picture.colour_at(row as usize, column as usize)
    } else {
        0
    }
}

/// The colour that an operation gives to a cell, from the first map's colour and the second's.
fn table(operation: &str, a: u8, b: u8) -> u8 {
    match operation {
        "intersection" => [b, 0][usize::from(a == 0)],
        "union" => [a, b][usize::from(a == 0)],
        "difference" => [0, a][usize::from(b == 0)],
        _ => panic!("no operation: {operation}"),
    }
}

/// A window: its row, its column and its size.
pub type Window = (i64, i64, u32);

/// A window of a picture.
pub fn window(picture: &Picture, (wy, wx, size): Window) -> Picture {
    made(size, |y, x| colour_or_white(picture, wy + y as i64, wx + x as i64))
}

/// Two pictures laid together, in a window or in the first one's square.
pub fn overlay(operation: &str, first: &Picture, second: &Picture, shift: (i64, i64), frame: Option<Window>) -> Picture {
    let (wy, wx, size) = frame.unwrap_or((0, 0, first.size));
    let a = window(first, (wy, wx, size));
    let b = window(second, (wy - shift.0, wx - shift.1, size));
    made(size, |y, x| table(operation, a.colour_at(y, x), b.colour_at(y, x)))
}

/// How many cells the squares of two pictures share.
pub fn shared(first: &Picture, second: &Picture, (dy, dx): (i64, i64)) -> u64 {
    let both = |shift: i64| -> u64 {
        let (ours, theirs): (Range<i64>, Range<i64>) = (0..first.side() as i64, shift..shift + second.side() as i64);
        ours.filter(|place| theirs.contains(place)).count() as u64
    };
    both(dy) * both(dx)
}

/// How many cells a picture has of each of its colours.
pub fn counts(picture: &Picture) -> BTreeMap<u8, u64> {
    let mut counts = [0; 256];
    picture.cells.iter().for_each(|colour| counts[usize::from(*colour)] += 1);
    (0..=255).zip(counts).filter(|(_, count)| *count > 0).collect()
}
