//! The list file, written and read from its table in the document.

use raster::model::shortest::shortest;
use raster::picture::Picture;

/// The size and the words of a list file.
#[derive(Clone, Debug, PartialEq, Eq)]
pub struct List {
    pub size: u64,
    pub words: Vec<u64>,
}

/// P of the worked cases.
pub const P: [u64; 7] = [257, 262_144, 327_680, 393_216, 458_753, 524_544, 786_689];

/// The CRC-32 of PNG and zlib, bit by bit.
pub fn crc32(bytes: &[u8]) -> u32 {
    let mut rest = u32::MAX;
    for byte in bytes {
        rest ^= u32::from(*byte);
        for _ in 0..8 {
            rest = if rest & 1 == 1 { rest >> 1 ^ 0xEDB8_8320 } else { rest >> 1 };
        }
    }
    !rest
}

/// Some bytes with their checksum behind them.
pub fn sealed(mut bytes: Vec<u8>) -> Vec<u8> {
    let sum = crc32(&bytes);
    bytes.extend(sum.to_le_bytes());
    bytes
}

/// A list file without its checksum, which may claim another number of leaves than it has.
pub fn unsealed(size: u64, claimed: u64, words: &[u64]) -> Vec<u8> {
    let mut bytes = b"OBOELIST".to_vec();
    for number in [size, claimed].iter().chain(words) {
        bytes.extend(number.to_le_bytes());
    }
    bytes
}

/// A list file, right or wrong as its list may be.
pub fn written(size: u64, words: &[u64]) -> Vec<u8> {
    sealed(unsealed(size, words.len() as u64, words))
}

/// The list file that the command makes of a picture.
pub fn of(picture: &Picture) -> Vec<u8> {
    written(u64::from(picture.size), &shortest(picture))
}

/// What a list file holds.
#[track_caller]
pub fn read(bytes: &[u8]) -> List {
    assert!(bytes.len() >= 28 && bytes.len() % 8 == 4, "a list file of {} bytes", bytes.len());
    let (body, sum) = bytes.split_at(bytes.len() - 4);
    assert_eq!(u32::from_le_bytes(sum.try_into().expect("four bytes")), crc32(body), "the checksum");
    assert_eq!(&body[..8], b"OBOELIST");
    let numbers: Vec<u64> = body[8..].chunks(8).map(|bytes| u64::from_le_bytes(bytes.try_into().expect("eight bytes"))).collect();
    assert_eq!(numbers[1], numbers.len() as u64 - 2, "the number of leaves");
    List { size: numbers[0], words: numbers[2..].to_vec() }
}
