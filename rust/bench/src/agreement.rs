//! The rivals on maps smaller than a tile, as large and larger, at shifts and windows near and far, held to the definition of a cell.

use crate::leaf::{area, check, code_at, leaf, side};
use crate::maps::{raster, Kind};
use crate::painter;
use crate::plain::{decode, encode, Encoder, Rasters};
use oboeridge::{Map, Operation, Shift, Window};

const OPERATIONS: [Operation; 3] = [Operation::Intersection, Operation::Union, Operation::Difference];

/// A map with its raster; its list is the shortest, or every cell is a leaf.
struct Small {
    size: u64,
    cells: Vec<u8>,
    list: Vec<u64>,
}

impl Small {
    fn drawn(seed: u64, size: u64, colours: u64) -> Small {
        let cells = raster(Kind { seed, blobs: 12, radius: 900, wobble: 300, colours }, size);
        let mut list = Vec::new();
        encode(Encoder::Quarters, size, &cells, &mut list);
        Small { size, cells, list }
    }

    /// The same map with a leaf for every cell.
    fn unmerged(self) -> Small {
        let (size, cells) = (self.size, self.cells);
        let places = 0..cells.len();
        let mut list: Vec<u64> =
            places.map(|place| leaf(code_at(place >> size, place & (side(size) - 1)), 0, cells[place])).collect();
        list.sort();
        Small { size, cells, list }
    }

    fn map(&self) -> Map<'_> {
        Map { size: self.size, list: &self.list }
    }

    /// The colour of a cell, WHITE beyond the map.
    fn colour(&self, row: i64, column: i64) -> u8 {
        let inside = 0..side(self.size) as i64;
        if inside.contains(&row) && inside.contains(&column) {
            self.cells[((row << self.size) + column) as usize]
        } else {
            0
        }
    }
}

/// The shortest list of the cells that a definition gives over a window.
fn defined(size: u64, cell: impl Fn(i64, i64) -> u8) -> Vec<u64> {
    let wide = side(size) as i64;
    let cells: Vec<u8> = (0..wide).flat_map(|y| (0..wide).map(move |x| (y, x))).map(|(y, x)| cell(y, x)).collect();
    let mut list = Vec::new();
    encode(Encoder::Quarters, size, &cells, &mut list);
    list
}

/// The colour that an operation gives.
fn combined(operation: Operation, a: u8, b: u8) -> u8 {
    match operation {
        Operation::Intersection => [b, 0][usize::from(a == 0)],
        Operation::Union => [a, b][usize::from(a == 0)],
        Operation::Difference => [0, a][usize::from(b == 0)],
    }
}

/// Holds all rivals of an overlay to the definition.
fn overlays_agree(operation: Operation, first: &Small, second: &Small, shift: Shift, window: Window) {
    let Window { wy, wx, size } = window;
    let right = defined(size, |y, x| {
        combined(operation, first.colour(wy + y, wx + x), second.colour(wy + y - shift.dy, wx + x - shift.dx))
    });
    let maps = [first.map(), second.map()];
    let mut out = vec![0; area(size) as usize];
    assert_eq!(painter::overlay(operation, maps, shift, window, &mut out), Ok(right.len()));
    assert_eq!(out[..right.len()], right);
    let product = oboeridge::overlay(operation, maps[0], maps[1], shift, Some(window), &mut out);
    assert_eq!((product, &out[..right.len()]), (Ok(right.len() as u64), &right[..]));
    let mut rasters = Rasters::new(first.size.max(second.size).max(size));
    for encoder in [Encoder::Quarters, Encoder::Words] {
        rasters.overlay(encoder, operation, maps, shift, window).expect("both lists are well formed");
        assert_eq!(rasters.list, right);
    }
}

/// Holds all rivals of a window to the definition.
fn windows_agree(map: &Small, window: Window) {
    let Window { wy, wx, size } = window;
    let right = defined(size, |y, x| map.colour(wy + y, wx + x));
    let mut out = vec![0; area(size) as usize];
    assert_eq!(painter::window(map.map(), window, &mut out), Ok(right.len()));
    assert_eq!(out[..right.len()], right);
    let mut rasters = Rasters::new(map.size.max(size));
    rasters.window(Encoder::Words, map.map(), window).expect("the list is well formed");
    assert_eq!(rasters.list, right);
}

#[test]
fn at_every_shift_near() {
    let (first, second) = (Small::drawn(1, 3, 4), Small::drawn(2, 3, 4).unmerged());
    for place in 0..19 * 19 {
        let shift = Shift { dy: place / 19 - 9, dx: place % 19 - 9 };
        for operation in OPERATIONS {
            overlays_agree(operation, &first, &second, shift, Window { wy: 0, wx: 0, size: 3 });
        }
    }
}

/// Shifts and windows' origins: none, multiples of a tile's side, others, negative, past every map, and as far as they go.
const PLACES: [(i64, i64); 12] =
    [(0, 0), (16, 32), (-16, 16), (1, 1), (-1, -1), (15, -17), (0, 8), (7, 0), (-33, 4), (31, 64), (-64, -100), (65536, -65536)];

/// Maps of sizes 0 to 6, one as its shortest list and one with a leaf for every cell in turn.
fn maps_up_to_six(seed: u64) -> Vec<Small> {
    let short = |size| Small::drawn(seed + size, size, 2 + size % 4);
    (0..=6).map(|size| if (seed + size) & 1 == 0 { short(size) } else { short(size).unmerged() }).collect()
}

#[test]
fn with_maps_of_all_sizes_about_a_tile() {
    let (firsts, seconds) = (maps_up_to_six(10), maps_up_to_six(21));
    let mut case = 0;
    for (first, second) in firsts.iter().flat_map(|first| seconds.iter().map(move |second| (first, second))) {
        for ((dy, dx), (wy, wx)) in PLACES.into_iter().flat_map(|shift| PLACES.map(|origin| (shift, origin))) {
            case += 1;
            let window = Window { wy, wx, size: case % 7 };
            overlays_agree(OPERATIONS[case as usize % 3], first, second, Shift { dy, dx }, window);
        }
    }
}

#[test]
fn through_windows_of_all_sizes() {
    for map in maps_up_to_six(32) {
        for ((wy, wx), size) in PLACES.into_iter().flat_map(|origin| (0..=7).map(move |size| (origin, size))) {
            windows_agree(&map, Window { wy, wx, size });
        }
    }
}

#[test]
fn on_maps_much_larger_than_a_tile() {
    let (first, second) = (Small::drawn(3, 9, 8), Small::drawn(4, 8, 3));
    for (case, (dy, dx)) in [(0, 0), (48, -32), (5, 200), (-300, 77)].into_iter().enumerate() {
        let (shift, operation) = (Shift { dy, dx }, OPERATIONS[case % 3]);
        overlays_agree(operation, &first, &second, shift, Window { wy: 0, wx: 0, size: 9 });
        overlays_agree(operation, &second, &first, shift, Window { wy: dx, wx: dy, size: 10 });
        windows_agree(&first, Window { wy: dy, wx: dx, size: [8, 10, 11, 12][case] });
    }
}

#[test]
fn rasters_come_back_and_wrong_lists_are_told() {
    let map = Small::drawn(5, 6, 3);
    let mut cells = vec![9; map.cells.len()];
    assert_eq!((decode(map.map(), &mut cells), cells), (Ok(()), map.cells));
    let mut list = map.list.clone();
    list[3] += 1 << 16;
    let mut cells = vec![0; area(map.size) as usize];
    assert_eq!((check(map.size, &list), decode(Map { size: map.size, list: &list }, &mut cells)), (Err(3), Err(3)));
}
