//! The interface that a product is compared through: the paper's calls and what they are given.

use crate::answer::Answer;

/// The largest size that a map or a window may have.
pub const LARGEST_MAP_SIZE: u64 = 12;

/// How far an offset or an origin may lie from 0, either way.
pub const FARTHEST: i64 = 65_536;

/// An operation on two maps.
#[derive(Clone, Copy, Debug, PartialEq, Eq)]
pub enum Operation {
    Intersection,
    Union,
    Difference,
}

impl Operation {
    /// All three, in the paper's order.
    pub const ALL: [Operation; 3] = [Operation::Intersection, Operation::Union, Operation::Difference];
}

/// A ground reference: the north and the east of a map's north-west corner, and its cell side.
#[derive(Clone, Copy, Debug, PartialEq)]
pub struct Ground {
    pub north: f64,
    pub east: f64,
    pub cell: f64,
}

/// A window: its origin in the first map's rows and columns, and its size.
#[derive(Clone, Copy, Debug, PartialEq, Eq)]
pub struct Window {
    pub wy: i64,
    pub wx: i64,
    pub size: u64,
}

/// An offset: where the second map's upper left cell lies in the first map's rows and columns.
#[derive(Clone, Copy, Debug, PartialEq, Eq)]
pub struct Shift {
    pub dy: i64,
    pub dx: i64,
}

/// The position of a cell. It need not be in the square.
#[derive(Clone, Copy, Debug, PartialEq, Eq)]
pub struct Cell {
    pub row: i64,
    pub column: i64,
}

/// Where a neighbour lies, clockwise from north.
#[derive(Clone, Copy, Debug, PartialEq, Eq)]
pub enum Direction {
    North,
    NorthEast,
    East,
    SouthEast,
    South,
    SouthWest,
    West,
    NorthWest,
}

impl Direction {
    /// All eight, clockwise from north.
    pub const ALL: [Direction; 8] = [
        Direction::North,
        Direction::NorthEast,
        Direction::East,
        Direction::SouthEast,
        Direction::South,
        Direction::SouthWest,
        Direction::West,
        Direction::NorthWest,
    ];
}

/// The paper's calls. A refusal changes no lent memory.
pub trait Product {
    /// The number of leaves of a well-formed list.
    fn check(&self, n: u64, list: &[u64]) -> Answer<u64>;

    /// The colour of a cell.
    fn lookup(&self, n: u64, list: &[u64], cell: Cell) -> Answer<u64>;

    /// The code of the block of the same level that is one side away.
    fn neighbour(&self, n: u64, code: u64, level: u64, direction: Direction) -> Answer<u64>;

    /// The offset that is given in cells.
    fn place_cells(&self, dy: i64, dx: i64) -> Answer<Shift>;

    /// The offset between two maps that are placed on the ground.
    fn place_ground(&self, first: Ground, second: Ground) -> Answer<Shift>;

    /// Writes the shortest list of a window of one map and gives its length. The words behind it are kept.
    fn window(&self, n: u64, list: &[u64], window: Window, out: &mut [u64]) -> Answer<u64>;

    /// Writes the shortest list of two maps combined and gives its length. The words behind it are kept. Where no window is
    /// named, it is the first map's own square.
    #[expect(clippy::too_many_arguments, reason = "the paper's call has as many")]
    fn overlay(
        &self,
        operation: Operation,
        n: u64,
        first: &[u64],
        m: u64,
        second: &[u64],
        shift: Shift,
        window: Option<Window>,
        out: &mut [u64],
    ) -> Answer<u64>;

    /// Writes the shortest list of the cells, which go row by row, and gives its length. The words behind it are kept.
    fn to_list(&self, n: u64, cells: &[u8], out: &mut [u64]) -> Answer<u64>;

    /// Fills all the cells, row by row, and gives their number.
    fn to_raster(&self, n: u64, list: &[u64], cells: &mut [u8]) -> Answer<u64>;
}
