//! Netpbm pictures: writers of all four kinds, and a reader of the raw ones that the command writes.

use raster::picture::Picture;

/// P of the worked cases.
pub const P: &str = "P1\n4 4\n1100\n1101\n0011\n0011\n";

/// S of the worked cases: four black cells.
pub const S: &str = "P1\n2 2\n11\n11\n";

/// The cells as numbers, one row a line, with this text behind each cell.
fn lines(picture: &Picture, behind: &str) -> String {
    let names: Vec<String> = (0..=255).map(|colour: u8| format!("{colour}{behind}")).collect();
    let mut text = String::new();
    for row in picture.cells.chunks(picture.side()) {
        row.iter().for_each(|colour| text.push_str(&names[usize::from(*colour)]));
        text.push('\n');
    }
    text
}

/// A plain PBM picture. Its colours are 0 and 1.
pub fn p1(picture: &Picture) -> Vec<u8> {
    format!("P1\n{0} {0}\n{1}", picture.side(), lines(picture, "")).into_bytes()
}

/// A plain PGM picture.
pub fn p2(picture: &Picture) -> Vec<u8> {
    format!("P2\n{0} {0}\n255\n{1}", picture.side(), lines(picture, " ")).into_bytes()
}

/// A raw PBM picture. Its colours are 0 and 1.
pub fn p4(picture: &Picture) -> Vec<u8> {
    p4_with_padding(picture, 0)
}

/// A raw PBM picture whose rows end in a byte's unused bits of this value.
pub fn p4_with_padding(picture: &Picture, padding: u8) -> Vec<u8> {
    let mut bytes = format!("P4\n{0} {0}\n", picture.side()).into_bytes();
    for row in picture.cells.chunks(picture.side()) {
        for eight in row.chunks(8) {
            let bit = |place: usize| eight.get(place).copied().unwrap_or(padding) << (7 - place);
            bytes.push((0..8).map(bit).sum());
        }
    }
    bytes
}

/// A raw PGM picture.
pub fn p5(picture: &Picture) -> Vec<u8> {
    [format!("P5\n{0} {0}\n255\n", picture.side()).as_bytes(), &picture.cells].concat()
}

/// The words of a header, and what comes after the one white space byte that ends it.
fn header(bytes: &[u8], words: usize) -> (Vec<usize>, &[u8]) {
    let (mut numbers, mut rest) = (Vec::new(), &bytes[2..]);
    while numbers.len() < words {
        assert!(rest[0].is_ascii_whitespace(), "white space before each number");
        rest = rest.trim_ascii_start();
        let digits = rest.iter().take_while(|byte| byte.is_ascii_digit()).count();
        numbers.push(std::str::from_utf8(&rest[..digits]).expect("digits").parse().expect("a number"));
        rest = &rest[digits..];
    }
    assert!(rest[0].is_ascii_whitespace(), "white space after the header");
    (numbers, &rest[1..])
}

/// The picture that a raw PBM or PGM file shows. It has no comments.
#[track_caller]
pub fn read_raw(bytes: &[u8]) -> Picture {
    match &bytes[..2] {
        b"P4" => read_bits(header(bytes, 2)),
        b"P5" => read_values(header(bytes, 3)),
        other => panic!("no raw picture: {other:?}"),
    }
}

/// The size of a square picture.
#[track_caller]
fn size_of(numbers: &[usize]) -> u32 {
    assert!(numbers[0] == numbers[1] && numbers[0].is_power_of_two(), "{numbers:?}");
    numbers[0].trailing_zeros()
}

#[track_caller]
fn read_values((numbers, values): (Vec<usize>, &[u8])) -> Picture {
    let size = size_of(&numbers);
    assert!((1..=255).contains(&numbers[2]) && values.iter().all(|value| usize::from(*value) <= numbers[2]), "the maximum");
    assert_eq!(values.len(), 1 << (2 * size), "the number of cells");
    Picture { size, cells: values.to_vec() }
}

#[track_caller]
fn read_bits((numbers, bytes): (Vec<usize>, &[u8])) -> Picture {
    let (size, side) = (size_of(&numbers), numbers[0]);
    assert_eq!(bytes.len(), side * side.div_ceil(8), "the number of bytes");
    let bit = |row: &[u8], column: usize| row[column / 8] >> (7 - column % 8) & 1;
    let row_of = |row| (0..side).map(move |column| bit(row, column));
    Picture { size, cells: bytes.chunks(side.div_ceil(8)).flat_map(row_of).collect() }
}
