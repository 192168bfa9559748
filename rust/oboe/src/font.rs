//! Letters for pictures, drawn in `font.txt`: bands of a line of characters and then the nine rows of their pixels.

/// Columns and rows of a letter, and the columns from one letter to the next.
const WIDTH: usize = 5;
pub const HEIGHT: usize = 9;
pub const PITCH: usize = WIDTH + 1;

const DRAWN: &str = include_str!("font.txt");

/// The pixels of a character's ink, by row and column. A character that is not drawn looks like a question mark, a space like nothing.
pub fn ink(character: char) -> Vec<(usize, usize)> {
    if character == ' ' {
        return Vec::new();
    }
    drawn(character).or_else(|| drawn('?')).unwrap_or_default()
}

/// The pixels of a character that is drawn.
fn drawn(character: char) -> Option<Vec<(usize, usize)>> {
    let lines: Vec<&str> = DRAWN.lines().collect();
    let bands = lines.chunks_exact(1 + HEIGHT);
    let found = bands.map(|band| (band[0].chars().step_by(PITCH).position(|named| named == character), &band[1..]));
    let (place, rows) = found.filter_map(|(place, rows)| Some((place?, rows))).next()?;
    let pixels = rows.iter().enumerate().flat_map(|(row, line)| (0..WIDTH).map(move |column| (row, column, line.as_bytes())));
    Some(pixels.filter(|(_, column, line)| line[place * PITCH + column] == b'#').map(|(row, column, _)| (row, column)).collect())
}

#[cfg(test)]
mod tests {
    use super::*;

    #[test]
    fn every_letter_and_digit_is_drawn_and_no_two_alike() {
        let characters: Vec<char> = ('0'..='9').chain('A'..='Z').chain('a'..='z').chain(".,:;-_+()/'?".chars()).collect();
        let drawings: Vec<_> = characters.iter().map(|character| drawn(*character).expect("it is drawn")).collect();
        for (place, drawing) in drawings.iter().enumerate() {
            assert!(!drawing.is_empty() && !drawings[..place].contains(drawing), "{}", characters[place]);
        }
    }

    #[test]
    fn a_t_is_a_bar_and_a_stem() {
        let stem = (1..7).map(|row| (row, 2));
        assert_eq!(ink('T'), (0..5).map(|column| (0, column)).chain(stem).collect::<Vec<_>>());
        assert_eq!(ink('\u{e9}'), ink('?'));
    }
}
