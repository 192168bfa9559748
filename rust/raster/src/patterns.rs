//! Fixed and drawn pictures, and how their cells are written.

use crate::generator::Generator;
use crate::picture::Picture;

/// Whether the cell of a picture of that side, at that row and column, is black.
type Pattern = fn(usize, usize, usize) -> bool;

/// The fixed pictures. Most are not the same when rows and columns change places.
const PATTERNS: [(&str, Pattern); 6] = [
    ("all white", |_, _, _| false),
    ("all black", |_, _, _| true),
    ("checkerboard", |_, row, column| (row + column) % 2 == 1),
    ("one black cell", |side, row, column| row == 3 * side / 8 && column == 5 * side / 8),
    ("one black quarter", |side, row, column| row >= side / 2 && column < side / 2),
    ("black square off the grid", |side, row, column| (1..=side / 2).contains(&row) && (1..=side / 2).contains(&column)),
];

/// Every pattern and two drawn pictures, all of one size, by name.
pub fn of_size(size: u32) -> Vec<(&'static str, Picture)> {
    let side = 1 << size;
    let mut generator = Generator::new(u64::from(size));
    let mut pictures = Vec::new();
    for (name, is_black) in PATTERNS {
        let cells = (0..side).flat_map(|row| (0..side).map(move |column| u8::from(is_black(side, row, column))));
        pictures.push((name, Picture { size, cells: cells.collect() }));
    }
    pictures.push(("drawn by cells", drawn_cells(size, &mut generator)));
    pictures.push(("drawn by blocks", drawn_blocks(size, &mut generator)));
    pictures
}

/// A picture each of whose cells is drawn. It has few large leaves.
pub fn drawn_cells(size: u32, generator: &mut Generator) -> Picture {
    Picture { size, cells: (0..1 << (2 * size)).map(|_| generator.pick(&[0, 1])).collect() }
}

/// A picture of blocks of any level, painted one over the other. It has leaves of many levels.
pub fn drawn_blocks(size: u32, generator: &mut Generator) -> Picture {
    let mut picture = Picture { size, cells: vec![0; 1 << (2 * size)] };
    for _ in 0..4 * size + 1 {
        let level = generator.below(size as usize + 1);
        let (side, block_side, blocks) = (picture.side(), 1 << level, picture.side() >> level);
        let (top, left) = (generator.below(blocks) * block_side, generator.below(blocks) * block_side);
        let colour = generator.pick(&[0, 1]);
        for row in top..top + block_side {
            picture.cells[row * side + left..][..block_side].fill(colour);
        }
    }
    picture
}

/// The cells of a picture as digits, one row a line, with the same text between every two cells of a row.
pub fn written(picture: &Picture, between: &str) -> String {
    let line = |row: &[u8]| row.iter().map(u8::to_string).collect::<Vec<_>>().join(between) + "\n";
    picture.cells.chunks(picture.side()).map(line).collect()
}
