//! Leaves as words, codes from rows and columns and back, and the check of a list, all without a proof.

/// The word of a leaf.
pub fn leaf(code: u64, level: u64, colour: u8) -> u64 {
    code << 16 | level << 8 | u64::from(colour)
}

/// The code of a leaf's block.
pub fn code_of(word: u64) -> u64 {
    word >> 16
}

/// The level of a leaf's block.
pub fn level_of(word: u64) -> u64 {
    word >> 8 & 0xff
}

/// The colour of a leaf.
pub fn colour_of(word: u64) -> u8 {
    word as u8
}

/// The side of a block of the level.
pub fn side(level: u64) -> usize {
    1 << level
}

/// The number of cells of a block of the level.
pub fn area(level: u64) -> u64 {
    1 << (2 * level)
}

/// Entry v has bit k of v at bit 2k.
static SPREAD: [u16; 256] = spreads();

const fn spreads() -> [u16; 256] {
    let mut table = [0; 256];
    let mut place = 0;
    while place < 2048 {
        let (value, bit) = (place / 8, place % 8);
        table[value] |= ((value >> bit & 1) << (2 * bit)) as u16;
        place += 1;
    }
    table
}

/// The bits of a row or a column of a map, which has at most sixteen, at the even places of a number.
fn spread(value: usize) -> u64 {
    u64::from(SPREAD[value >> 8 & 0xff]) << 16 | u64::from(SPREAD[value & 0xff])
}

/// The bits at the even places of a code, brought together.
fn gather(code: u64) -> usize {
    let mut bits = code & 0x5555_5555;
    bits = (bits | bits >> 1) & 0x3333_3333;
    bits = (bits | bits >> 2) & 0x0f0f_0f0f;
    bits = (bits | bits >> 4) & 0x00ff_00ff;
    bits = (bits | bits >> 8) & 0x0000_ffff;
    bits as usize
}

/// The code of the cell at a row and a column.
pub fn code_at(row: usize, column: usize) -> u64 {
    spread(row) << 1 | spread(column)
}

/// The row and the column of the cell of a code.
pub fn cell_of(code: u64) -> (usize, usize) {
    (gather(code >> 1), gather(code))
}

/// The end of an entry: the first code past its block.
pub fn end_of(word: u64) -> u64 {
    code_of(word) + area(level_of(word))
}

/// Where an entry ends, if it is right in a map of the size after entries that end at `end`.
pub fn right_end(size: u64, end: u64, word: u64) -> Option<u64> {
    let level = level_of(word);
    let right = level <= size && code_of(word) == end && end < area(size) && end & (area(level) - 1) == 0;
    right.then(|| end + area(level))
}

/// The number of leaves of a list that is well formed; else the position of the first wrong entry, or the length if it stops short.
pub fn check(size: u64, list: &[u64]) -> Result<usize, usize> {
    let mut end = 0;
    for (position, &word) in list.iter().enumerate() {
        end = right_end(size, end, word).ok_or(position)?;
    }
    if end == area(size) {
        Ok(list.len())
    } else {
        Err(list.len())
    }
}

#[cfg(test)]
mod tests {
    use super::*;

    #[test]
    fn codes_go_there_and_back() {
        for (row, column) in [(0, 0), (3, 5), (255, 256), (4095, 0), (0, 4095), (1234, 3210)] {
            assert_eq!(cell_of(code_at(row, column)), (row, column));
        }
        assert_eq!(code_at(3, 5), 27);
    }

    #[test]
    fn the_first_wrong_entry_is_told() {
        assert_eq!(check(1, &[1, 65537, 131073, 196609]), Ok(4));
        assert_eq!(check(1, &[0, 65536, 131072]), Err(3));
        assert_eq!(check(1, &[512]), Err(0));
        assert_eq!(check(2, &[0, 65792]), Err(1));
        assert_eq!(check(0, &[]), Err(0));
    }
}
