//! Calls on maps that are linear quadtrees, each proved for every input.
//!
//! A map of size n has 2^n rows and columns, n from 0 to 12; row 0 is north, column 0 is west. Its list is sorted leaves, one word
//! each: code × 65,536 + level × 256 + colour, 0 being WHITE. Every value is taken, and a call judges its own input: it answers what the
//! paper says, or a [`Refusal`], after which the memory lent is as it was.
//!
//! The calls themselves are proved Rattle, linked in; this crate gives their arguments names.

mod calls;
mod refusal;

pub use calls::{check, lookup, neighbour, overlay, place, to_list, to_raster, window};
pub use refusal::Refusal;

/// A map: its size, and its list.
#[derive(Clone, Copy, Debug, PartialEq, Eq)]
pub struct Map<'a> {
    pub size: u64,
    pub list: &'a [u64],
}

/// A cell, by its row from the north and its column from the west, which may be negative.
#[derive(Clone, Copy, Debug, PartialEq, Eq)]
pub struct Cell {
    pub row: i64,
    pub column: i64,
}

/// A block, by the code of its upper left cell and its level: the log of its side.
#[derive(Clone, Copy, Debug, PartialEq, Eq)]
pub struct Block {
    pub code: u64,
    pub level: u64,
}

/// The eight directions, clockwise from north.
#[derive(Clone, Copy, Debug, PartialEq, Eq)]
pub enum Direction {
    North,
    NorthEast,
    East,
    SouthEast,
    South,
    SouthWest,
    West,
    NorthWest,
}

/// Where the second map's upper left cell lies in the first map's rows and columns: so many rows south, so many columns east.
#[derive(Clone, Copy, Debug, PartialEq, Eq)]
pub struct Shift {
    pub dy: i64,
    pub dx: i64,
}

/// A ground reference: the north and the east of a map's north-west corner, and the side of its cells.
#[derive(Clone, Copy, Debug, PartialEq)]
pub struct Ground {
    pub north: f64,
    pub east: f64,
    pub cell: f64,
}

/// Where the second map lies: in cells, or by the ground references of both maps.
#[derive(Clone, Copy, Debug, PartialEq)]
pub enum Place {
    Cells { dy: i64, dx: i64 },
    OnGround { first: Ground, second: Ground },
}

/// A window: its origin in the first map's rows and columns, and its size.
#[derive(Clone, Copy, Debug, PartialEq, Eq)]
pub struct Window {
    pub wy: i64,
    pub wx: i64,
    pub size: u64,
}

/// What two maps are laid together by.
#[derive(Clone, Copy, Debug, PartialEq, Eq)]
pub enum Operation {
    Intersection,
    Union,
    Difference,
}
