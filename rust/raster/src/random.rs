//! The random texts: good pictures in every style of header, most of them damaged by a byte or two.

use crate::generator::Generator;
use crate::patterns;
use crate::picture::{Picture, LARGEST_SIZE};

/// How many random texts there are.
pub const COUNT: usize = 300;

/// The bytes that an edit may bring into a text.
const EDIT_BYTES: &[u8] = b" \t\n\r\x0b\x0c#01234P28x\0\xff";

/// What white space in a header is made of.
const GAPS: [&str; 11] = [" ", "\t", "\n", "\r", "\x0b", "\x0c", "\r\n", "#\n", "# note\n", "# 1 2 # 4\r", "#P1\r\n"];

/// What may stand between two cells.
const SPACES: [&str; 7] = ["", " ", "\t", "\n", "\r\n", "\x0b \x0c", "\n\n"];

/// About as long as a header: half of the edits fall before it, since a header is short beside its raster.
const EARLY: usize = 24;

/// The random texts, the same in every run. The first of every three is whole, the other two are damaged.
pub fn texts() -> Vec<Vec<u8>> {
    let mut generator = Generator::new(1);
    let mut texts = Vec::new();
    for number in 0..COUNT {
        let picture = drawn(&mut generator);
        let mut text = whole(&picture, &mut generator).into_bytes();
        if number % 3 != 0 {
            for _ in 0..generator.pick(&[1, 2]) {
                damage(&mut text, &mut generator);
            }
        }
        texts.push(text);
    }
    texts
}

/// A picture of any size that a text may have.
fn drawn(generator: &mut Generator) -> Picture {
    let size = generator.below(LARGEST_SIZE as usize + 1) as u32;
    let draw = generator.pick(&[patterns::drawn_cells, patterns::drawn_blocks]);
    draw(size, generator)
}

/// A good text of the picture in a style that is drawn.
fn whole(picture: &Picture, generator: &mut Generator) -> String {
    let (width, height) = (side(picture, generator), side(picture, generator));
    let (first, second) = (gaps(generator), gaps(generator));
    let last = generator.pick(&GAPS);
    format!("P1{first}{width}{second}{height}{last}{}", raster(picture, generator))
}

/// The picture's side with up to three leading zeros.
fn side(picture: &Picture, generator: &mut Generator) -> String {
    "0".repeat(generator.pick(&[0, 0, 0, 1, 3])) + &picture.side().to_string()
}

/// White space of a header, in one to three pieces.
fn gaps(generator: &mut Generator) -> String {
    (0..generator.pick(&[1, 1, 2, 3])).map(|_| generator.pick(&GAPS)).collect()
}

/// The cells, in rows or with any white space between.
fn raster(picture: &Picture, generator: &mut Generator) -> String {
    match generator.below(3) {
        0 => patterns::written(picture, ""),
        1 => patterns::written(picture, " "),
        _ => picture.cells.iter().map(|cell| format!("{}{cell}", generator.pick(&SPACES))).collect(),
    }
}

/// Replaces, inserts or deletes one byte.
fn damage(text: &mut Vec<u8>, generator: &mut Generator) {
    let reach = generator.pick(&[text.len(), text.len().min(EARLY)]);
    let place = generator.below(reach);
    let byte = generator.pick(EDIT_BYTES);
    match generator.below(3) {
        0 => text[place] = byte,
        // Before the byte at that place or behind it, so that the text may also grow at its end.
        1 => text.insert(place + generator.below(2), byte),
        _ => drop(text.remove(place)),
    }
}

#[cfg(test)]
mod tests {
    use super::*;
    use crate::picture;

    #[test]
    fn a_whole_text_shows_its_picture() {
        let mut generator = Generator::new(2);
        for _ in 0..COUNT {
            let picture = drawn(&mut generator);
            let text = whole(&picture, &mut generator);
            assert_eq!(picture::read(text.as_bytes()), Some(picture), "{text:?}");
        }
    }

    #[test]
    fn many_damaged_texts_are_read_and_many_are_refused() {
        let damaged: Vec<Vec<u8>> = texts().into_iter().enumerate().filter(|(n, _)| n % 3 != 0).map(|(_, text)| text).collect();
        let read = damaged.iter().filter(|text| picture::read(text).is_some()).count();
        assert!(read >= 30 && damaged.len() - read >= 60, "{read} of {} are read", damaged.len());
    }
}
