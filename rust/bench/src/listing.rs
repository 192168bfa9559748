//! From the parts of a block's quarters to the block's shortest list, in memory that was lent.

use crate::leaf::{area, leaf};

/// Colours are below this.
pub const COLOURS: usize = 256;

/// What a block comes to: below `COLOURS` its one colour, else that much more than its leaves.
#[derive(Clone, Copy, PartialEq, Eq)]
pub struct Part(usize);

impl Part {
    pub fn one(colour: u8) -> Part {
        Part(usize::from(colour))
    }

    pub fn leaves(self) -> usize {
        if self.0 < COLOURS {
            1
        } else {
            self.0 - COLOURS
        }
    }
}

/// Stores a part that is one colour as the leaf of its block.
pub fn fill(out: &mut [u64], at: usize, part: Part, code: u64, level: u64) {
    if part.0 < COLOURS {
        out[at] = leaf(code, level, part.0 as u8);
    }
}

/// The part of a block, from its quarters', which are of the level. Unless the four merge, those of one colour are stored.
pub fn finish(out: &mut [u64], at: usize, [nw, ne, sw, se]: [Part; 4], code: u64, level: u64) -> Part {
    if nw.0 < COLOURS && ne == nw && sw == nw && se == nw {
        return nw;
    }
    let quarter = area(level);
    let second = at + nw.leaves();
    let third = second + ne.leaves();
    let fourth = third + sw.leaves();
    fill(out, at, nw, code, level);
    fill(out, second, ne, code + quarter, level);
    fill(out, third, sw, code + 2 * quarter, level);
    fill(out, fourth, se, code + 3 * quarter, level);
    Part(COLOURS + fourth + se.leaves() - at)
}
