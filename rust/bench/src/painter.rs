//! The proved painter's algorithm once more, by hand and without a proof: four corners, what is known goes down with the block,
//! operations that one map settles, a search that gallops from a hint, and tiles where the recursion ends.

use crate::leaf::{area, check, side};
use crate::listing::{fill, finish, Part};
use crate::placed::{Known, Placed};
use crate::plain::combine;
use crate::tiles::{self, CELLS};
use oboeridge::{Map, Operation, Shift, Window};

/// The colour of the result, if what is known of the two maps settles it.
fn joint(operation: Operation, first: Known, second: Known) -> Option<u8> {
    match (operation, first.colour(), second.colour()) {
        (Operation::Intersection, Some(0), _) | (Operation::Intersection, _, Some(0)) => Some(0),
        (Operation::Intersection, first, second) => first.and(second),
        (Operation::Union, Some(0), second) => second,
        (Operation::Union, first, _) => first,
        (Operation::Difference, Some(0), _) => Some(0),
        (Operation::Difference, first, Some(0)) => first,
        (Operation::Difference, _, second) => second.and(Some(0)),
    }
}

/// Two maps under an operation, seen through a window.
struct Scene<'a> {
    operation: Operation,
    first: Placed<'a>,
    second: Placed<'a>,
}

impl Scene<'_> {
    /// The colour that a square shows if one is seen, and what is known of each map. The second map is asked only if it matters.
    fn shown(&self, known: [Known; 2], y: usize, x: usize, level: u64) -> (Option<u8>, [Known; 2]) {
        let first = self.first.ask(known[0], y, x, level);
        let early = joint(self.operation, first, known[1]);
        if early.is_some() {
            return (early, [first, known[1]]);
        }
        let second = self.second.ask(known[1], y, x, level);
        (joint(self.operation, first, second), [first, second])
    }

    /// Whether a block is painted by a tile: it is one, and each map is known over it or at least as large.
    fn is_tiled(&self, known: [Known; 2], level: u64) -> bool {
        let ready = |known: Known, placed: &Placed| known.colour().is_some() || tiles::LEVEL <= placed.map.size;
        level == tiles::LEVEL && ready(known[0], &self.first) && ready(known[1], &self.second)
    }

    /// The scene's tile at a row and a column of the window.
    fn tile(&self, known: [Known; 2], y: usize, x: usize) -> [u8; CELLS] {
        let (mut cells, mut other) = ([0; CELLS], [0; CELLS]);
        self.first.tile(known[0], y, x, &mut cells);
        self.second.tile(known[1], y, x, &mut other);
        combine(self.operation, &mut cells, &other);
        cells
    }
}

/// A scene, and the memory that its list is written to.
struct Painting<'a> {
    scene: Scene<'a>,
    out: &'a mut [u64],
}

impl Painting<'_> {
    /// Writes the list of a block from `at` on, or nothing if it is of one colour; what the block comes to.
    fn put(&mut self, at: usize, known: [Known; 2], code: u64, y: usize, x: usize, level: u64) -> Part {
        let (all, known) = self.scene.shown(known, y, x, level);
        if let Some(colour) = all {
            return Part::one(colour);
        }
        if self.scene.is_tiled(known, level) {
            return tiles::put(&self.scene.tile(known, y, x), self.out, at, code, level);
        }
        let (level, half, quarter) = (level - 1, side(level - 1), area(level - 1));
        let nw = self.put(at, known, code, y, x, level);
        let second = at + nw.leaves();
        let ne = self.put(second, known, code + quarter, y, x + half, level);
        let third = second + ne.leaves();
        let sw = self.put(third, known, code + 2 * quarter, y + half, x, level);
        let fourth = third + sw.leaves();
        let se = self.put(fourth, known, code + 3 * quarter, y + half, x + half, level);
        finish(self.out, at, [nw, ne, sw, se], code, level)
    }
}

/// Writes the list of two maps under an operation, the second shifted over the first, through a window, and counts its leaves; else
/// the position of the first wrong entry. The memory lent must have room for it.
pub fn overlay(operation: Operation, maps: [Map; 2], shift: Shift, window: Window, out: &mut [u64]) -> Result<usize, usize> {
    let [first, second] = maps;
    check(first.size, first.list)?;
    check(second.size, second.list)?;
    let first = Placed::new(first, window.wy, window.wx);
    let second = Placed::new(second, window.wy - shift.dy, window.wx - shift.dx);
    let mut painting = Painting { scene: Scene { operation, first, second }, out };
    let part = painting.put(0, [Known::near(0); 2], 0, 0, 0, window.size);
    fill(painting.out, 0, part, 0, window.size);
    Ok(part.leaves())
}

/// Writes the list of a window of one map: the union with a map of one WHITE cell.
pub fn window(map: Map, window: Window, out: &mut [u64]) -> Result<usize, usize> {
    overlay(Operation::Union, [map, Map { size: 0, list: &[0] }], Shift { dy: 0, dx: 0 }, window, out)
}
