//! Memory that is lent to a call, between guards that the call must not touch.

use std::fmt::Debug;

/// How many guards stand on each side of the memory lent.
pub const GUARDS: usize = 32;

/// What lent memory is made of: words or bytes.
pub trait Unit: Copy + Debug + PartialEq {
    /// What stands at a position before the call. It is easily recognised and differs from what stands beside it.
    fn pattern(position: usize) -> Self;
}

impl Unit for u64 {
    fn pattern(position: usize) -> u64 {
        // No code of a leaf is that large.
        0xfeed_0000_0000_0000 + position as u64
    }
}

impl Unit for u8 {
    fn pattern(position: usize) -> u8 {
        // These 64 colours are seldom drawn.
        0x60 + (position % 64) as u8
    }
}

/// Memory with guards on both sides.
#[derive(Debug, PartialEq)]
pub struct Lent<T> {
    units: Vec<T>,
}

impl<T: Unit> Lent<T> {
    /// Fresh memory of so much space.
    pub fn new(space: usize) -> Lent<T> {
        Lent { units: (0..space + 2 * GUARDS).map(T::pattern).collect() }
    }

    /// The memory that a call may write to.
    pub fn lent(&mut self) -> &mut [T] {
        let end = self.units.len() - GUARDS;
        &mut self.units[GUARDS..end]
    }

    /// The first place at which this memory differs from what it should be, or nothing if there is none.
    fn difference(&self, expected: &Lent<T>) -> Option<String> {
        let position = (0..self.units.len()).find(|position| self.units[*position] != expected.units[*position])?;
        let (expected, came) = (expected.units[position], self.units[position]);
        Some(format!("{}: expected {expected:?}, came {came:?}", self.place(position)))
    }

    /// A position in words, counted from the memory lent.
    fn place(&self, position: usize) -> String {
        let end = self.units.len() - GUARDS;
        if position < GUARDS {
            format!("guard {} before the memory lent", GUARDS - position)
        } else if position < end {
            format!("memory lent, at {}", position - GUARDS)
        } else {
            format!("guard {} behind the memory lent", position - end + 1)
        }
    }
}

/// All that is lent to one call. A call that asks for no words or no cells is lent none.
#[derive(Debug, PartialEq)]
pub struct Memory {
    pub words: Lent<u64>,
    pub cells: Lent<u8>,
}

impl Memory {
    /// Fresh memory of so many words and cells.
    pub fn new(words: usize, cells: usize) -> Memory {
        Memory { words: Lent::new(words), cells: Lent::new(cells) }
    }

    /// The first place at which this memory differs from what it should be, or nothing if there is none.
    pub fn difference(&self, expected: &Memory) -> Option<String> {
        self.words.difference(&expected.words).or_else(|| self.cells.difference(&expected.cells))
    }
}

#[cfg(test)]
impl<T: Unit> Lent<T> {
    /// Writes to any position, the guards included, as only a product in another language could.
    pub fn damage(&mut self, position: usize, unit: T) {
        self.units[position] = unit;
    }
}

#[cfg(test)]
mod tests {
    use super::*;

    #[test]
    fn every_position_tells_where_it_is() {
        for (position, place) in [
            (0, "guard 32 before the memory lent"),
            (31, "guard 1 before the memory lent"),
            (32, "memory lent, at 0"),
            (34, "memory lent, at 2"),
            (35, "guard 1 behind the memory lent"),
            (66, "guard 32 behind the memory lent"),
        ] {
            let mut memory = Memory::new(3, 0);
            assert_eq!(memory.words.lent().len(), 3);
            memory.words.damage(position, 7);
            let expected = format!("{place}: expected {}, came 7", u64::pattern(position));
            assert_eq!(memory.difference(&Memory::new(3, 0)), Some(expected));
        }
    }

    #[test]
    fn bytes_are_guarded_like_words() {
        let (mut memory, fresh) = (Memory::new(0, 4), Memory::new(0, 4));
        assert_eq!(memory.difference(&fresh), None);
        memory.cells.damage(GUARDS + 4, 0);
        assert_eq!(memory.difference(&fresh), Some("guard 1 behind the memory lent: expected 132, came 0".to_string()));
    }
}
