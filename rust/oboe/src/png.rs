//! PNG pictures of up to 256 paints, compressed where a row goes on as it was or repeats the row above.

use crate::checksum::{adler32, crc32};
use crate::palette::Paint;

const SIGNATURE: &[u8; 8] = b"\x89PNG\r\n\x1a\n";

/// The bytes of a picture: its width and height, its paints, and the number of each pixel's paint, row by row.
pub fn bytes(width: usize, height: usize, paints: &[Paint], pixels: &[u8]) -> Vec<u8> {
    let mut head = Vec::new();
    head.extend_from_slice(&(width as u32).to_be_bytes());
    head.extend_from_slice(&(height as u32).to_be_bytes());
    // eight bits a pixel, by number of paint; the one compression, the one way of filtering, no interlacing
    head.extend_from_slice(&[8, 3, 0, 0, 0]);
    let mut picture = SIGNATURE.to_vec();
    chunk(&mut picture, b"IHDR", &head);
    chunk(&mut picture, b"PLTE", &paints.concat());
    chunk(&mut picture, b"IDAT", &zlib(&rows(width, pixels), width + 1));
    chunk(&mut picture, b"IEND", &[]);
    picture
}

/// Adds a chunk: its length, kind, bytes and checksum.
fn chunk(picture: &mut Vec<u8>, kind: &[u8; 4], bytes: &[u8]) {
    picture.extend_from_slice(&(bytes.len() as u32).to_be_bytes());
    picture.extend_from_slice(kind);
    picture.extend_from_slice(bytes);
    picture.extend_from_slice(&crc32(&[kind, bytes]).to_be_bytes());
}

/// The rows, each after the byte that says that it is not filtered.
fn rows(width: usize, pixels: &[u8]) -> Vec<u8> {
    let mut rows = Vec::with_capacity(pixels.len() + pixels.len() / width);
    for row in pixels.chunks_exact(width) {
        rows.push(0);
        rows.extend_from_slice(row);
    }
    rows
}

/// A zlib stream of some bytes, in which what stood one byte or one row before may come again.
fn zlib(bytes: &[u8], row: usize) -> Vec<u8> {
    let mut bits = Bits { bytes: vec![0x78, 0x01], held: 0, count: 0 };
    bits.put(0b011, 3); // the last block, in the fixed codes
    let mut place = 0;
    while place < bytes.len() {
        let (length, distance) = best_repeat(bytes, place, row);
        if length >= SHORTEST {
            bits.repeat(length, distance);
            place += length;
        } else {
            bits.literal(u16::from(bytes[place]));
            place += 1;
        }
    }
    bits.literal(END_OF_BLOCK);
    let mut stream = bits.ended();
    stream.extend_from_slice(&adler32(bytes).to_be_bytes());
    stream
}

const END_OF_BLOCK: u16 = 256;
/// The shortest and the longest repeat that deflate has codes for, and how far back one may reach.
const SHORTEST: usize = 3;
const LONGEST: usize = 258;
const FARTHEST: usize = 32_768;

/// The longer of the repeats of the byte before and of the row before: its length and distance.
fn best_repeat(bytes: &[u8], place: usize, row: usize) -> (usize, usize) {
    let length = |distance: usize| {
        if distance > place || distance > FARTHEST {
            return 0;
        }
        let most = LONGEST.min(bytes.len() - place);
        (0..most).take_while(|step| bytes[place + step] == bytes[place + step - distance]).count()
    };
    let (along, above) = (length(1), length(row));
    if along >= above {
        (along, 1)
    } else {
        (above, row)
    }
}

/// Bits that are put together to bytes, the lowest first.
struct Bits {
    bytes: Vec<u8>,
    held: u64,
    count: u32,
}

impl Bits {
    fn put(&mut self, value: u32, count: u32) {
        self.held |= u64::from(value) << self.count;
        self.count += count;
        while self.count >= 8 {
            self.bytes.push(self.held as u8);
            self.held >>= 8;
            self.count -= 8;
        }
    }

    /// A Huffman code goes with its highest bit first.
    fn code(&mut self, code: u32, count: u32) {
        self.put(code.reverse_bits() >> (32 - count), count);
    }

    /// A byte, the end of the block, or a length, in the fixed code.
    fn literal(&mut self, symbol: u16) {
        let symbol = u32::from(symbol);
        match symbol {
            0..=143 => self.code(0b0011_0000 + symbol, 8),
            144..=255 => self.code(0b1_1001_0000 + symbol - 144, 9),
            256..=279 => self.code(symbol - 256, 7),
            _ => self.code(0b1100_0000 + symbol - 280, 8),
        }
    }

    /// So many bytes again, from so far back.
    fn repeat(&mut self, length: usize, distance: usize) {
        let (symbol, more, count) = length_code(length);
        self.literal(symbol);
        self.put(more, count);
        let (symbol, more, count) = stepped(distance as u32 - 1, 2);
        self.code(symbol, 5);
        self.put(more, count);
    }

    fn ended(mut self) -> Vec<u8> {
        self.put(0, 7);
        self.bytes
    }
}

/// The symbol of a length, and the further bits that tell it from its neighbours. The longest has a symbol of its own.
fn length_code(length: usize) -> (u16, u32, u32) {
    if length == LONGEST {
        return (285, 0, 0);
    }
    let (symbol, more, count) = stepped((length - SHORTEST) as u32, 4);
    (257 + symbol as u16, more, count)
}

/// A number in deflate's steps: the first symbols stand for one number each, twice as many as `fine` says; the next `fine` symbols for two each,
/// then four, and so on. Answers the symbol, the number's place among those of its symbol, and the bits of that place.
fn stepped(number: u32, fine: u32) -> (u32, u32, u32) {
    let steps = (number / fine).checked_ilog2().unwrap_or(0);
    (fine * steps + (number >> steps), number & ((1 << steps) - 1), steps)
}

#[cfg(test)]
mod tests {
    use super::*;

    /// Lines of the tables in RFC 1951: the symbol of a length or a distance, and its further bits.
    #[test]
    fn lengths_and_distances_as_the_tables_have_them() {
        let lengths = [(3, 257, 0), (10, 264, 0), (11, 265, 1), (12, 265, 1), (18, 268, 1), (19, 269, 2), (114, 279, 4)];
        let longer = [(115, 280, 4), (130, 280, 4), (131, 281, 5), (227, 284, 5), (257, 284, 5), (258, 285, 0)];
        for (length, symbol, count) in lengths.into_iter().chain(longer) {
            let (found, _, bits) = length_code(length);
            assert_eq!((found, bits), (symbol, count), "length {length}");
        }
        let distances = [(1, 0, 0), (4, 3, 0), (5, 4, 1), (6, 4, 1), (7, 5, 1), (9, 6, 2), (24577, 29, 13), (32768, 29, 13)];
        for (distance, symbol, count) in distances {
            let (found, _, bits) = stepped(distance - 1, 2);
            assert_eq!((found, bits), (symbol, count), "distance {distance}");
        }
    }
}
