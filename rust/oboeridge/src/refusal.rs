//! A refusal, with the paper's No. and number, and the sentence that says it.

use std::error::Error;
use std::fmt;

/// Why a call was refused: the No. of the paper's table, and the number that goes with it.
#[derive(Clone, Copy, Debug, PartialEq, Eq)]
pub struct Refusal {
    pub rule: u64,
    pub number: u64,
}

impl Refusal {
    /// One of a few names, by the refusal's number.
    fn named(&self, names: &[&'static str]) -> &'static str {
        names.get(self.number as usize).copied().unwrap_or("something")
    }
}

const SIZED: [&str; 3] = ["the first map", "the second map", "the window"];
const FAR: [&str; 4] = [
    "the second map lies too many rows",
    "the second map lies too many columns",
    "the window begins too many rows",
    "the window begins too many columns",
];
const GROUND: [&str; 6] = [
    "the first map's north",
    "the first map's east",
    "the first map's cell side",
    "the second map's north",
    "the second map's east",
    "the second map's cell side",
];

impl fmt::Display for Refusal {
    fn fmt(&self, f: &mut fmt::Formatter) -> fmt::Result {
        let Refusal { rule, number } = *self;
        match rule {
            1 => write!(f, "{} is of a size above 12", self.named(&SIZED)),
            2 => write!(f, "{} away: more than 65,536", self.named(&FAR)),
            3 => write!(f, "the first map's list is wrong at entry {number}, or stops short there"),
            4 => write!(f, "the second map's list is wrong at entry {number}, or stops short there"),
            5 => write!(f, "the result has {number} leaves, more than there is room for"),
            6 => write!(
                f,
                "{} is no whole number of 1024ths from -16,777,216 to 16,777,216, or no side above zero",
                self.named(&GROUND)
            ),
            7 => write!(f, "the cells of the two maps are of different sizes"),
            8 => write!(f, "the maps are no whole number of cells apart in {}", self.named(&["rows", "columns"])),
            9 => write!(f, "that lies beyond the map"),
            10 => write!(f, "a raster of that size has another number of cells"),
            12 => write!(f, "the map has no block of that code and level"),
            _ => write!(f, "the call was refused"),
        }?;
        write!(f, " (refusal {rule}, number {number})")
    }
}

impl Error for Refusal {}
