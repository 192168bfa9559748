//! One call with all that it is given. Its debug form is what a report prints, so that a person can replay it.

use std::fmt::{self, Debug, Formatter};
use std::ops::Deref;

use super::memory::Memory;
use crate::answer::Answer;
use crate::product::{Cell, Direction, Ground, Operation, Product, Shift, Window};

/// How much of a list or a raster a report shows.
const SHOWN: usize = 40;

/// A list or a raster that is given to a call.
#[derive(Clone)]
pub struct Given<T>(pub Vec<T>);

impl<T> Deref for Given<T> {
    type Target = [T];

    fn deref(&self) -> &[T] {
        &self.0
    }
}

impl<T: Debug> Debug for Given<T> {
    fn fmt(&self, formatter: &mut Formatter) -> fmt::Result {
        let shown = self.len().min(SHOWN);
        write!(formatter, "{:?}", &self[..shown])?;
        match self.len() - shown {
            0 => Ok(()),
            more => write!(formatter, " and {more} more"),
        }
    }
}

/// A call and its arguments. The space is the number of words lent, the length the number of cells lent.
#[derive(Clone, Debug)]
pub enum Case {
    Check {
        n: u64,
        list: Given<u64>,
    },
    Lookup {
        n: u64,
        list: Given<u64>,
        cell: Cell,
    },
    Neighbour {
        n: u64,
        code: u64,
        level: u64,
        direction: Direction,
    },
    PlaceCells {
        dy: i64,
        dx: i64,
    },
    PlaceGround {
        first: Ground,
        second: Ground,
    },
    Window {
        n: u64,
        list: Given<u64>,
        window: Window,
        space: usize,
    },
    Overlay {
        operation: Operation,
        n: u64,
        first: Given<u64>,
        m: u64,
        second: Given<u64>,
        shift: Shift,
        window: Option<Window>,
        space: usize,
    },
    ToList {
        n: u64,
        cells: Given<u8>,
        space: usize,
    },
    ToRaster {
        n: u64,
        list: Given<u64>,
        length: usize,
    },
}

/// What any call gives.
#[derive(Clone, Copy, Debug, PartialEq, Eq)]
pub enum Value {
    Number(u64),
    Offset(Shift),
}

impl Case {
    /// The space that is lent to the call, if it asks for any.
    pub fn space(&mut self) -> Option<&mut usize> {
        match self {
            Case::Window { space, .. } | Case::Overlay { space, .. } | Case::ToList { space, .. } => Some(space),
            _ => None,
        }
    }

    /// Fresh memory to lend to the call.
    pub fn memory(&self) -> Memory {
        match self {
            Case::Window { space, .. } | Case::Overlay { space, .. } | Case::ToList { space, .. } => Memory::new(*space, 0),
            Case::ToRaster { length, .. } => Memory::new(0, *length),
            _ => Memory::new(0, 0),
        }
    }

    /// What a product answers.
    pub fn ask(&self, product: &impl Product, memory: &mut Memory) -> Answer<Value> {
        let words = memory.words.lent();
        match self {
            Case::Check { n, list } => product.check(*n, list).map(Value::Number),
            Case::Lookup { n, list, cell } => product.lookup(*n, list, *cell).map(Value::Number),
            Case::Neighbour { n, code, level, direction } => product.neighbour(*n, *code, *level, *direction).map(Value::Number),
            Case::PlaceCells { dy, dx } => product.place_cells(*dy, *dx).map(Value::Offset),
            Case::PlaceGround { first, second } => product.place_ground(*first, *second).map(Value::Offset),
            Case::Window { n, list, window, .. } => product.window(*n, list, *window, words).map(Value::Number),
            Case::Overlay { operation, n, first, m, second, shift, window, .. } => {
                product.overlay(*operation, *n, first, *m, second, *shift, *window, words).map(Value::Number)
            }
            Case::ToList { n, cells, .. } => product.to_list(*n, cells, words).map(Value::Number),
            Case::ToRaster { n, list, .. } => product.to_raster(*n, list, memory.cells.lent()).map(Value::Number),
        }
    }
}

#[cfg(test)]
mod tests {
    use super::*;

    #[test]
    fn a_case_is_written_with_all_its_arguments() {
        let window = Window { wy: -1, wx: 2, size: 1 };
        let case = Case::Window { n: 1, list: Given(vec![257]), window, space: 4 };
        let written = "Window { n: 1, list: [257], window: Window { wy: -1, wx: 2, size: 1 }, space: 4 }";
        assert_eq!(format!("{case:?}"), written);
    }

    #[test]
    fn a_long_list_is_shortened() {
        assert!(format!("{:?}", Given((0..40).collect::<Vec<u64>>())).ends_with(", 39]"));
        assert!(format!("{:?}", Given((0..65).collect::<Vec<u64>>())).ends_with(", 39] and 25 more"));
    }
}
