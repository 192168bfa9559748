//! The refusals: what is checked and the number that is returned.

use super::tiling;
use super::word;
use crate::answer::{rule, Answer};
use crate::product::{FARTHEST, LARGEST_MAP_SIZE};

/// The numbers that name a size, in rule 1.
pub const FIRST: u64 = 0;
pub const SECOND: u64 = 1;
pub const WINDOW: u64 = 2;

/// The numbers that name an offset or an origin, in rule 2.
pub const DY: u64 = 0;
pub const DX: u64 = 1;
pub const WY: u64 = 2;
pub const WX: u64 = 3;

/// The numbers that name the north of a ground reference, in rule 6. Its east and its cell side come after it.
pub const FIRST_NORTH: u64 = 0;
pub const SECOND_NORTH: u64 = 3;

/// The numbers that name the rows or the columns of a shift, in rule 8.
pub const ROWS: u64 = 0;
pub const COLUMNS: u64 = 1;

/// The number of a rule that has only one.
pub const ONLY: u64 = 0;

/// A refusal: the paper's No. and the number returned.
pub struct Refusal {
    pub rule: u64,
    pub number: u64,
}

/// What stands when no check refused.
pub type Checked<T> = Result<T, Refusal>;

impl<T> From<Checked<T>> for Answer<T> {
    fn from(checked: Checked<T>) -> Answer<T> {
        match checked {
            Ok(value) => Answer::Gives(value),
            Err(Refusal { rule, number }) => Answer::Refuses { rule, number },
        }
    }
}

/// Refuses unless the condition holds.
pub fn require(holds: bool, rule: u64, number: u64) -> Checked<()> {
    holds.then_some(()).ok_or(Refusal { rule, number })
}

/// A size that is at most 12.
pub fn size(size: u64, number: u64) -> Checked<u32> {
    require(size <= LARGEST_MAP_SIZE, rule::SIZE, number)?;
    Ok(size as u32)
}

/// Refuses an offset or an origin that is too far away.
pub fn offset(offset: i64, number: u64) -> Checked<()> {
    require((-FARTHEST..=FARTHEST).contains(&offset), rule::OFFSET, number)
}

/// Refuses a list that is not well formed, by the rule for the first or the second.
pub fn list(size: u32, list: &[u64], rule: u64) -> Checked<()> {
    tiling::first_wrong(size, list).map_or(Ok(()), |number| Err(Refusal { rule, number }))
}

/// Refuses a raster that has another number of cells than its square.
pub fn raster(size: u32, cells: &[u8]) -> Checked<()> {
    require(cells.len() as u64 == word::cells(size), rule::RASTER, ONLY)
}
