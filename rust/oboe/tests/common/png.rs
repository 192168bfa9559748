//! A small reader of PNG pictures, from the PNG specification and RFC 1950 and 1951. It judges everything that it reads.

use super::lists::crc32;

/// The pixels of a picture, row by row, each as red, green and blue.
#[derive(Clone, Debug, PartialEq, Eq)]
pub struct Png {
    pub width: usize,
    pub height: usize,
    pub pixels: Vec<[u8; 3]>,
}

/// The kinds of pixel that are read.
#[derive(Clone, Copy, PartialEq, Eq)]
enum Kind {
    Grey,
    True,
    Palette,
}

/// What the first chunk says.
struct Header {
    width: usize,
    height: usize,
    depth: usize,
    kind: Kind,
}

/// The picture of a PNG file.
#[track_caller]
pub fn read(bytes: &[u8]) -> Png {
    let rest = bytes.strip_prefix(b"\x89PNG\r\n\x1a\n").expect("the signature of PNG");
    let chunks = chunks(rest);
    let names: Vec<&[u8]> = chunks.iter().map(|(name, _)| *name).collect();
    let known: [&[u8]; 4] = [b"IHDR", b"PLTE", b"IDAT", b"IEND"];
    assert!(names.iter().all(|name| name[0].is_ascii_lowercase() || known.contains(name)), "a chunk that is not known");
    assert_eq!((names.first(), names.last()), (Some(&known[0]), Some(&known[3])), "the first and the last chunk");
    let header = header_of(chunks[0].1);
    let palette = chunks.iter().find(|(name, _)| name == b"PLTE").map(|(_, colours)| palette_of(colours));
    let data: Vec<&[u8]> = chunks.iter().filter(|(name, _)| name == b"IDAT").map(|(_, data)| *data).collect();
    let places: Vec<usize> = (0..names.len()).filter(|place| names[*place] == b"IDAT").collect();
    assert!(places.windows(2).all(|pair| pair[1] == pair[0] + 1), "the IDAT chunks follow each other");
    let rows = unfiltered(&header, inflated(&data.concat()));
    let pixels = rows.iter().flat_map(|row| pixels_of(&header, row, palette.as_deref())).collect();
    Png { width: header.width, height: header.height, pixels }
}

/// The number of four bytes, the highest first.
fn number(bytes: &[u8]) -> usize {
    u32::from_be_bytes(bytes[..4].try_into().expect("four bytes")) as usize
}

/// The chunks of a file, each with its name and what it holds. Their checksums are right and nothing stands behind them.
fn chunks(mut rest: &[u8]) -> Vec<(&[u8], &[u8])> {
    let mut chunks = Vec::new();
    while !rest.is_empty() {
        let length = number(rest);
        assert_eq!(number(&rest[8 + length..]), crc32(&rest[4..8 + length]) as usize, "the checksum of a chunk");
        chunks.push((&rest[4..8], &rest[8..8 + length]));
        rest = &rest[12 + length..];
    }
    chunks
}

fn header_of(bytes: &[u8]) -> Header {
    assert_eq!(bytes.len(), 13, "the length of IHDR");
    let (depth, kind) = match (bytes[8], bytes[9]) {
        (1 | 2 | 4 | 8, 0) => (bytes[8], Kind::Grey),
        (8, 2) => (24, Kind::True),
        (1 | 2 | 4 | 8, 3) => (bytes[8], Kind::Palette),
        other => panic!("a kind of picture that is not read: {other:?}"),
    };
    assert_eq!(&bytes[10..], [0, 0, 0], "compression, filters and interlacing");
    let header = Header { width: number(bytes), height: number(&bytes[4..]), depth: usize::from(depth), kind };
    assert!(header.width > 0 && header.height > 0, "no pixels");
    header
}

fn palette_of(colours: &[u8]) -> Vec<[u8; 3]> {
    assert!(colours.len().is_multiple_of(3) && (3..=768).contains(&colours.len()), "the length of PLTE");
    colours.chunks(3).map(|colour| [colour[0], colour[1], colour[2]]).collect()
}

/// The rows of a picture without their filters.
fn unfiltered(header: &Header, data: Vec<u8>) -> Vec<Vec<u8>> {
    let length = (header.width * header.depth).div_ceil(8);
    assert_eq!(data.len(), header.height * (length + 1), "the length of the data");
    let step = header.depth.div_ceil(8);
    let mut rows: Vec<Vec<u8>> = Vec::new();
    for filtered in data.chunks(length + 1) {
        let above = rows.last().cloned().unwrap_or(vec![0; length]);
        rows.push(unfiltered_row(filtered[0], &filtered[1..], &above, step));
    }
    rows
}

fn unfiltered_row(filter: u8, filtered: &[u8], above: &[u8], step: usize) -> Vec<u8> {
    let mut row: Vec<u8> = Vec::with_capacity(filtered.len());
    for (place, byte) in filtered.iter().enumerate() {
        let before = |row: &[u8]| place.checked_sub(step).map_or(0, |place| row[place]);
        let (left, up, corner) = (before(&row), above[place], before(above));
        let guess = match filter {
            0 => 0,
            1 => left,
            2 => up,
            3 => ((u16::from(left) + u16::from(up)) / 2) as u8,
            4 => nearest(left, up, corner),
            _ => panic!("filter {filter}"),
        };
        row.push(byte.wrapping_add(guess));
    }
    row
}

/// Paeth's guess.
fn nearest(left: u8, up: u8, corner: u8) -> u8 {
    let sum = i32::from(left) + i32::from(up) - i32::from(corner);
    let off = |value: u8| (sum - i32::from(value)).abs();
    if off(left) <= off(up) && off(left) <= off(corner) {
        left
    } else if off(up) <= off(corner) {
        up
    } else {
        corner
    }
}

/// The pixels of a row.
fn pixels_of(header: &Header, row: &[u8], palette: Option<&[[u8; 3]]>) -> Vec<[u8; 3]> {
    if header.kind == Kind::True {
        return row.chunks(3).map(|pixel| [pixel[0], pixel[1], pixel[2]]).collect();
    }
    let most = (1 << header.depth) - 1;
    let pixel = |column: usize| {
        let bit = column * header.depth;
        let value = usize::from(row[bit / 8]) >> (8 - header.depth - bit % 8) & most;
        match header.kind {
            Kind::Palette => palette.expect("a palette")[value],
            _ => [(value * 255 / most) as u8; 3],
        }
    };
    (0..header.width).map(pixel).collect()
}

/// The data of a zlib stream, which ends where the bytes do.
fn inflated(bytes: &[u8]) -> Vec<u8> {
    assert!(bytes[0] & 15 == 8 && bytes[0] >> 4 <= 7 && bytes[1] & 32 == 0, "the header of zlib");
    assert_eq!((usize::from(bytes[0]) * 256 + usize::from(bytes[1])) % 31, 0, "the check of the header of zlib");
    let mut bits = Bits { bytes: &bytes[2..], place: 0 };
    let mut out = Vec::new();
    while block(&mut bits, &mut out) {}
    let rest = &bits.bytes[bits.place.div_ceil(8)..];
    assert_eq!((rest.len(), number(rest)), (4, adler32(&out)), "the checksum of zlib, and then the end");
    out
}

fn adler32(bytes: &[u8]) -> usize {
    let step = |(low, high): (usize, usize), byte: &u8| {
        let low = (low + usize::from(*byte)) % 65_521;
        (low, (high + low) % 65_521)
    };
    let (low, high) = bytes.iter().fold((1, 0), step);
    high * 65_536 + low
}

/// Bits, the lowest of each byte first.
struct Bits<'a> {
    bytes: &'a [u8],
    place: usize,
}

impl Bits<'_> {
    /// The next bit.
    fn bit(&mut self) -> usize {
        let bit = self.bytes[self.place / 8] >> (self.place % 8) & 1;
        self.place += 1;
        usize::from(bit)
    }

    /// A number of so many bits, the lowest first.
    fn bits(&mut self, count: usize) -> usize {
        (0..count).map(|place| self.bit() << place).sum()
    }

    /// The next symbol of a code.
    fn symbol(&mut self, code: &Code) -> usize {
        let (mut word, mut first, mut before) = (0, 0, 0);
        for count in &code.counts {
            word = 2 * word + self.bit();
            if word < first + count {
                return code.symbols[before + word - first];
            }
            (first, before) = (2 * (first + count), before + count);
        }
        panic!("no symbol of the code")
    }
}

/// A code: how many symbols there are of each length from 1 to 15, and the symbols in order of their words.
struct Code {
    counts: [usize; 15],
    symbols: Vec<usize>,
}

impl Code {
    /// The code whose symbols have words of these lengths; 0 is no word.
    fn of(lengths: &[usize]) -> Code {
        let mut counts = [0; 15];
        for length in lengths.iter().filter(|length| **length > 0) {
            counts[length - 1] += 1;
        }
        let room = counts.iter().fold(1_i64, |room, count| 2 * room - *count as i64);
        assert!(room >= 0, "a code with too many words");
        let mut symbols: Vec<usize> = (0..lengths.len()).filter(|symbol| lengths[*symbol] > 0).collect();
        symbols.sort_by_key(|symbol| lengths[*symbol]);
        Code { counts, symbols }
    }
}

/// Reads one block. Answers whether another follows.
fn block(bits: &mut Bits, out: &mut Vec<u8>) -> bool {
    let last = bits.bit();
    match bits.bits(2) {
        0 => stored(bits, out),
        1 => {
            let lengths = [[8; 144].as_slice(), &[9; 112], &[7; 24], &[8; 8]].concat();
            coded(bits, &Code::of(&lengths), &Code::of(&[5; 30]), out);
        }
        2 => {
            let (literals, distances) = codes(bits);
            coded(bits, &literals, &distances, out);
        }
        _ => panic!("a kind of block that there is not"),
    }
    last == 0
}

fn stored(bits: &mut Bits, out: &mut Vec<u8>) {
    bits.place = bits.place.next_multiple_of(8);
    let (length, complement) = (bits.bits(16), bits.bits(16));
    assert_eq!(length ^ complement, 65_535, "the length of a stored block");
    let start = bits.place / 8;
    out.extend(&bits.bytes[start..start + length]);
    bits.place += 8 * length;
}

/// The codes that a block brings with it.
fn codes(bits: &mut Bits) -> (Code, Code) {
    const ORDER: [usize; 19] = [16, 17, 18, 0, 8, 7, 9, 6, 10, 5, 11, 4, 12, 3, 13, 2, 14, 1, 15];
    let (literals, distances, count) = (bits.bits(5) + 257, bits.bits(5) + 1, bits.bits(4) + 4);
    let mut lengths = [0; 19];
    for place in &ORDER[..count] {
        lengths[*place] = bits.bits(3);
    }
    let (code, mut lengths) = (Code::of(&lengths), Vec::new());
    while lengths.len() < literals + distances {
        let (length, times) = match bits.symbol(&code) {
            16 => (*lengths.last().expect("a length to repeat"), 3 + bits.bits(2)),
            17 => (0, 3 + bits.bits(3)),
            18 => (0, 11 + bits.bits(7)),
            length => (length, 1),
        };
        lengths.extend(vec![length; times]);
    }
    assert!(lengths.len() == literals + distances && lengths[256] > 0, "the lengths of the codes");
    (Code::of(&lengths[..literals]), Code::of(&lengths[literals..]))
}

/// Reads literals and repeats until the block ends.
fn coded(bits: &mut Bits, literals: &Code, distances: &Code, out: &mut Vec<u8>) {
    loop {
        match bits.symbol(literals) {
            literal @ 0..256 => out.push(literal as u8),
            256 => return,
            symbol => {
                let length = length_of(symbol, bits);
                let symbol = bits.symbol(distances);
                let distance = distance_of(symbol, bits);
                assert!(distance <= out.len(), "a repeat of what was never there");
                for _ in 0..length {
                    out.push(out[out.len() - distance]);
                }
            }
        }
    }
}

/// The length of a repeat. From symbol 265 on, four in a row have one more bit than the four before.
fn length_of(symbol: usize, bits: &mut Bits) -> usize {
    match symbol {
        257..265 => symbol - 254,
        265..285 => {
            let extra = (symbol - 261) / 4;
            3 + ((4 + (symbol - 261) % 4) << extra) + bits.bits(extra)
        }
        285 => 258,
        _ => panic!("length symbol {symbol}"),
    }
}

/// The distance of a repeat. From symbol 4 on, two in a row have one more bit than the two before.
fn distance_of(symbol: usize, bits: &mut Bits) -> usize {
    match symbol {
        0..4 => symbol + 1,
        4..30 => {
            let extra = (symbol - 2) / 2;
            1 + ((2 + symbol % 2) << extra) + bits.bits(extra)
        }
        _ => panic!("distance symbol {symbol}"),
    }
}
