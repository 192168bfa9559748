//! Drawings as pictures: panels side by side, each with its title above and a legend with its colours' cells below.

use crate::drawing::{Panel, Spots};
use crate::map::colour_line;
use crate::{font, palette, png};

/// At most so many spots a side of a panel are drawn; fewer are magnified to about so many pixels.
const MOST: usize = 1024;
const PANEL: usize = 512;
/// Pixels around everything, of a letter's dot, of a line of text, and of a colour's square in the legend.
const MARGIN: usize = 20;
const DOT: usize = 2;
const LINE: usize = (font::HEIGHT + 3) * DOT;
const SWATCH: usize = 7 * DOT;
/// The colours of the sheet itself: white and black.
const PAPER: u8 = 0;
const INK: u8 = 1;

/// A picture that is being drawn.
struct Sheet {
    width: usize,
    height: usize,
    pixels: Vec<u8>,
}

impl Sheet {
    fn rectangle(&mut self, left: usize, top: usize, width: usize, height: usize, colour: u8) {
        for row in top..top + height {
            self.pixels[row * self.width + left..][..width].fill(colour);
        }
    }

    /// A rectangle in a thin frame, which stands around it.
    fn framed(&mut self, left: usize, top: usize, side: usize, colour: u8) {
        self.rectangle(left - 1, top - 1, side + 2, side + 2, INK);
        self.rectangle(left, top, side, side, colour);
    }

    fn text(&mut self, left: usize, top: usize, text: &str) {
        for (place, character) in text.chars().enumerate() {
            for (row, column) in font::ink(character) {
                self.rectangle(left + (place * font::PITCH + column) * DOT, top + row * DOT, DOT, DOT, INK);
            }
        }
    }

    fn spots(&mut self, left: usize, top: usize, spots: &Spots, zoom: usize) {
        self.framed(left, top, spots.side * zoom, PAPER);
        for (place, colour) in spots.colours.iter().enumerate() {
            self.rectangle(left + place % spots.side * zoom, top + place / spots.side * zoom, zoom, zoom, *colour);
        }
    }

    /// A panel with its title and legend.
    fn panel(&mut self, left: usize, panel: &Panel, spots: &Spots) {
        let zoom = zoom(spots);
        self.text(left, MARGIN, &panel.title);
        self.spots(left, MARGIN + LINE, spots, zoom);
        let legend = MARGIN + LINE + spots.side * zoom + MARGIN / 2;
        for (line, (colour, cells)) in panel.colours.iter().enumerate() {
            self.framed(left + 1, legend + line * LINE, SWATCH, *colour);
            self.text(left + 2 * SWATCH, legend + line * LINE, &colour_line(*colour, *cells));
        }
    }
}

/// How many pixels a side a spot is drawn with.
fn zoom(spots: &Spots) -> usize {
    (PANEL / spots.side).max(1)
}

/// The pixels that a text is wide.
fn text_width(text: &str) -> usize {
    text.chars().count() * font::PITCH * DOT
}

/// The pixels that a panel is wide, by its spots and its texts.
fn width(panel: &Panel, spots: &Spots) -> usize {
    let legend = panel.colours.iter().map(|(colour, cells)| 2 * SWATCH + text_width(&colour_line(*colour, *cells)));
    legend.chain([spots.side * zoom(spots), text_width(&panel.title)]).max().unwrap_or(0)
}

/// The drawing of some panels as a PNG picture.
pub fn png(panels: &[Panel]) -> Vec<u8> {
    let spots: Vec<Spots> = panels.iter().map(|panel| panel.spots(MOST)).collect();
    let widths: Vec<usize> = panels.iter().zip(&spots).map(|(panel, spots)| width(panel, spots)).collect();
    let heights = panels.iter().zip(&spots).map(|(panel, spots)| spots.side * zoom(spots) + panel.colours.len() * LINE);
    let height = heights.max().unwrap_or(0) + LINE + 3 * MARGIN;
    let width = widths.iter().map(|width| width + MARGIN).sum::<usize>() + MARGIN;
    let mut sheet = Sheet { width, height, pixels: vec![PAPER; width * height] };
    let mut left = MARGIN;
    for ((panel, spots), width) in panels.iter().zip(&spots).zip(&widths) {
        sheet.panel(left, panel, spots);
        left += width + MARGIN;
    }
    png::bytes(sheet.width, sheet.height, &palette::all(), &sheet.pixels)
}
