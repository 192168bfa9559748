//! Netpbm pictures of one byte a cell or less: PBM and PGM, plain and raw.

/// The sides of maps of size 0 to 12.
const LARGEST_SIZE: u32 = 12;

/// A square of cells, one byte each, row by row.
pub struct Raster {
    pub size: u64,
    pub cells: Vec<u8>,
}

/// Whether a file begins as a picture that is read here.
pub fn begins(bytes: &[u8]) -> bool {
    matches!(bytes, [b'P', b'1' | b'2' | b'4' | b'5', ..])
}

fn is_white_space(byte: u8) -> bool {
    matches!(byte, b' ' | b'\t' | b'\n' | b'\x0b' | b'\x0c' | b'\r')
}

/// What is left after one white space byte, or after a comment and the end of its line; nothing if neither stands here.
fn after_gap(bytes: &[u8]) -> Option<&[u8]> {
    match bytes {
        [b'#', comment @ ..] => {
            let end = comment.iter().position(|byte| matches!(byte, b'\n' | b'\r'))?;
            Some(&comment[end + 1..])
        }
        [byte, rest @ ..] if is_white_space(*byte) => Some(rest),
        _ => None,
    }
}

/// A number of the header and what follows it, after the white space or comments that must stand before it.
fn header_number(bytes: &[u8]) -> Option<(u64, &[u8])> {
    let mut rest = after_gap(bytes)?;
    while let Some(after) = after_gap(rest) {
        rest = after;
    }
    number(rest)
}

/// The number that stands here in decimal digits, and what follows it. One too large for a `u64` counts as the largest.
fn number(bytes: &[u8]) -> Option<(u64, &[u8])> {
    let digits = bytes.iter().take_while(|byte| byte.is_ascii_digit()).count();
    let (digits, rest) = bytes.split_at(digits);
    let add = |sum: u64, digit: &u8| sum.saturating_mul(10).saturating_add(u64::from(digit - b'0'));
    (!digits.is_empty()).then(|| (digits.iter().fold(0, add), rest))
}

/// The picture that a file is, or why it is none. The file begins as one.
pub fn read(bytes: &[u8]) -> Result<Raster, String> {
    let kind = bytes[1];
    let broken = || format!("a P{} picture whose header is broken", kind as char);
    let (width, rest) = header_number(&bytes[2..]).ok_or_else(broken)?;
    let (height, rest) = header_number(rest).ok_or_else(broken)?;
    let (most, rest) = if matches!(kind, b'2' | b'5') { header_number(rest).ok_or_else(broken)? } else { (1, rest) };
    let rest = after_gap(rest).ok_or_else(broken)?;
    let size = size_of(width, height)?;
    let most = u8::try_from(most).ok().filter(|most| *most > 0).ok_or("its largest value is not from 1 to 255")?;
    let cells = match kind {
        b'1' => plain_bits(rest)?,
        b'2' => plain_values(rest)?,
        b'4' => raw_bits(rest, width as usize, height as usize)?,
        _ => rest.to_vec(),
    };
    let area = 1 << (2 * size);
    if cells.len() != area {
        return Err(format!("it has {} cells and should have {area}", cells.len()));
    }
    match cells.iter().position(|cell| *cell > most) {
        Some(place) => Err(format!("cell {place} has the value {}, and the largest is to be {most}", cells[place])),
        None => Ok(Raster { size: u64::from(size), cells }),
    }
}

/// The size of a map of so many columns and rows, or why there is none.
fn size_of(width: u64, height: u64) -> Result<u32, String> {
    let size = (0..=LARGEST_SIZE).find(|size| width == 1 << size && height == width);
    size.ok_or_else(|| {
        format!("it is {width} cells wide and {height} high; a map is square, of 1, 2, 4, .. or 4096 cells a side")
    })
}

/// The cells of a plain PBM raster: a digit each, together or apart.
fn plain_bits(bytes: &[u8]) -> Result<Vec<u8>, String> {
    let cells = bytes.iter().filter(|byte| !is_white_space(**byte));
    let colour = |byte: &u8| match byte {
        b'0' | b'1' => Ok(byte - b'0'),
        _ => Err(format!("the byte {byte} among its cells is neither 0 nor 1")),
    };
    cells.map(colour).collect()
}

/// The cells of a plain PGM raster: a number each, apart.
fn plain_values(bytes: &[u8]) -> Result<Vec<u8>, String> {
    let values = bytes.split(|byte| is_white_space(*byte)).filter(|value| !value.is_empty());
    let colour = |value: &[u8]| match number(value) {
        Some((colour, [])) if colour <= 255 => Ok(colour as u8),
        Some((_, [])) => Err("a value among its cells is above 255".to_string()),
        _ => Err("something among its cells is no number".to_string()),
    };
    values.map(colour).collect()
}

/// The cells of a raw PBM raster: eight to a byte, the first in the highest bit, each row in bytes of its own.
fn raw_bits(bytes: &[u8], width: usize, height: usize) -> Result<Vec<u8>, String> {
    let row_bytes = width.div_ceil(8);
    if bytes.len() != row_bytes * height {
        return Err(format!("it has {} bytes of cells and should have {}", bytes.len(), row_bytes * height));
    }
    let row = |row: &[u8]| (0..width).map(|column| row[column / 8] >> (7 - column % 8) & 1).collect::<Vec<u8>>();
    Ok(bytes.chunks_exact(row_bytes).flat_map(row).collect())
}

/// The bytes of a raw PGM picture.
pub fn pgm(raster: &Raster) -> Vec<u8> {
    let side = 1u64 << raster.size;
    let mut bytes = format!("P5\n{side} {side}\n255\n").into_bytes();
    bytes.extend_from_slice(&raster.cells);
    bytes
}

/// The bytes of a raw PBM picture, or the first colour that has no place in one.
pub fn pbm(raster: &Raster) -> Result<Vec<u8>, u8> {
    if let Some(colour) = raster.cells.iter().find(|colour| **colour > 1) {
        return Err(*colour);
    }
    let side = 1usize << raster.size;
    let mut bytes = format!("P4\n{side} {side}\n").into_bytes();
    let packed = |cells: &[u8]| cells.iter().enumerate().fold(0, |byte, (place, cell)| byte | cell << (7 - place));
    for row in raster.cells.chunks_exact(side) {
        bytes.extend(row.chunks(8).map(packed));
    }
    Ok(bytes)
}
