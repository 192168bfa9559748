//! Drawings in characters: painted in a terminal, plain elsewhere.

use crate::drawing::{Panel, Spots};
use crate::map::colour_line;
use crate::palette::{paint, Paint};
use std::env;
use std::io::{self, IsTerminal};

/// Columns between two panels.
const GAP: usize = 3;
/// The columns that are used where nobody says how many there are: of a terminal, and of a file or a pipe.
const TERMINAL: usize = 80;
const ELSEWHERE: usize = 120;

/// A line of a drawing and the columns that it takes.
struct Line {
    text: String,
    columns: usize,
}

impl Line {
    fn plain(text: String) -> Line {
        Line { columns: text.chars().count(), text }
    }
}

/// The panels side by side, each with its title above and its colours below.
pub fn drawn(panels: &[Panel]) -> String {
    let terminal = io::stdout().is_terminal();
    let painted = terminal && env::var_os("NO_COLOR").is_none();
    let columns = env::var("COLUMNS").ok().and_then(|columns| columns.parse().ok());
    let columns = columns.unwrap_or(if terminal { TERMINAL } else { ELSEWHERE });
    let room = (columns + GAP) / panels.len() - GAP.min(columns / panels.len());
    let blocks: Vec<(usize, Vec<Line>)> = panels.iter().map(|panel| block(panel, room, painted)).collect();
    let mut text = beside(blocks.iter().map(|(_, lines)| lines.as_slice()).collect());
    if let Some((cells, _)) = blocks.iter().find(|(cells, _)| *cells > 1) {
        text.push_str(&format!("each spot is {cells} by {cells} cells, and shows the commonest colour among them but WHITE\n"));
    }
    text
}

/// The lines of a panel that has so many columns to fit, after the number of cells along a spot's side.
fn block(panel: &Panel, room: usize, painted: bool) -> (usize, Vec<Line>) {
    let spots = panel.spots(room);
    let mut lines = vec![Line::plain(panel.title.clone())];
    if painted {
        lines.extend((0..spots.side).step_by(2).map(|row| painted_row(&spots, row)));
    } else {
        lines.extend((0..spots.side).map(|row| plain_row(&spots, row, 2 * spots.side <= room)));
    }
    let key = |colour| if painted { format!("{}  {PLAIN}", behind(paint(colour))) } else { glyph(colour).to_string() };
    let width = if painted { 2 } else { 1 };
    lines.extend(panel.colours.iter().map(|(colour, cells)| {
        let said = colour_line(*colour, *cells);
        Line { columns: width + 1 + said.len(), text: format!("{} {said}", key(*colour)) }
    }));
    (spots.cells, lines)
}

/// Blocks of lines, one beside the other.
fn beside(blocks: Vec<&[Line]>) -> String {
    let lines = blocks.iter().map(|block| block.len()).max().unwrap_or(0);
    let widths: Vec<usize> = blocks.iter().map(|block| block.iter().map(|line| line.columns).max().unwrap_or(0) + GAP).collect();
    let mut text = String::new();
    for line in 0..lines {
        for (block, width) in blocks.iter().zip(&widths) {
            let (drawn, columns) = block.get(line).map_or(("", 0), |line| (line.text.as_str(), line.columns));
            text.push_str(drawn);
            text.push_str(&" ".repeat(width - columns));
        }
        text.truncate(text.trim_end_matches(' ').len());
        text.push('\n');
    }
    text
}

/// A row of spots in characters, with a space after each if there is room.
fn plain_row(spots: &Spots, row: usize, apart: bool) -> Line {
    let colours = &spots.colours[row * spots.side..(row + 1) * spots.side];
    let text: String = colours.iter().flat_map(|colour| [glyph(*colour), ' '].into_iter().take(1 + usize::from(apart))).collect();
    Line::plain(text.trim_end().to_string())
}

/// The character of a colour: a point for WHITE, then digits and letters while they last.
fn glyph(colour: u8) -> char {
    match colour {
        0 => '.',
        1..=9 => (b'0' + colour) as char,
        10..=35 => (b'a' + colour - 10) as char,
        36..=61 => (b'A' + colour - 36) as char,
        _ => '*',
    }
}

const PLAIN: &str = "\x1b[0m";

/// What paints the ground behind a character, and the character.
fn behind([red, green, blue]: Paint) -> String {
    format!("\x1b[48;2;{red};{green};{blue}m")
}

fn before([red, green, blue]: Paint) -> String {
    format!("\x1b[38;2;{red};{green};{blue}m")
}

/// Two rows of spots in one line: the upper half of each character is one spot, what is behind it the spot below.
fn painted_row(spots: &Spots, row: usize) -> Line {
    let colour = |row: usize, column: usize| spots.colours[row * spots.side + column];
    let mut text = String::new();
    for column in 0..spots.side {
        text.push_str(&before(paint(colour(row, column))));
        if row + 1 < spots.side {
            text.push_str(&behind(paint(colour(row + 1, column))));
        }
        text.push('\u{2580}');
    }
    text.push_str(PLAIN);
    Line { text, columns: spots.side }
}
