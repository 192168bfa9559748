//! What is drawn of a map: a title, spots in its colours, and how many cells each colour has.

use crate::map::Owned;
use crate::netpbm::Raster;
use oboeridge::Refusal;

/// A map to be drawn.
pub struct Panel {
    pub title: String,
    pub colours: Vec<(u8, u64)>,
    raster: Raster,
}

/// A map's spots, row by row: each stands for a square of so many cells a side.
pub struct Spots {
    pub side: usize,
    pub cells: usize,
    pub colours: Vec<u8>,
}

impl Panel {
    pub fn new(title: String, map: &Owned) -> Result<Panel, Refusal> {
        Ok(Panel { title, raster: map.raster()?, colours: map.cells_by_colour() })
    }

    /// The map's spots, at most so many a side.
    pub fn spots(&self, most: usize) -> Spots {
        let rows = 1usize << self.raster.size;
        let cells = rows.div_ceil(most.max(1)).next_power_of_two();
        let side = rows / cells;
        let colours = if cells == 1 {
            self.raster.cells.clone()
        } else {
            (0..side * side).map(|spot| self.commonest(spot / side * cells, spot % side * cells, cells)).collect()
        };
        Spots { side, cells, colours }
    }

    /// The commonest colour but WHITE in a square of cells, or WHITE if there is no other.
    fn commonest(&self, row: usize, column: usize, side: usize) -> u8 {
        let mut counts = [0u32; 256];
        for line in self.raster.cells.chunks_exact(1 << self.raster.size).skip(row).take(side) {
            line[column..column + side].iter().for_each(|colour| counts[usize::from(*colour)] += 1);
        }
        let (colour, count) = counts.iter().enumerate().skip(1).max_by_key(|(_, count)| **count).expect("there are 255 colours");
        if *count == 0 {
            0
        } else {
            colour as u8
        }
    }
}

#[cfg(test)]
mod tests {
    use super::*;

    fn panel(cells: Vec<u8>) -> Panel {
        Panel { title: String::new(), colours: Vec::new(), raster: Raster { size: 2, cells } }
    }

    #[test]
    fn a_lone_cell_does_not_vanish() {
        let mut cells = vec![0; 16];
        cells[6] = 7;
        let spots = panel(cells).spots(2);
        assert_eq!((spots.side, spots.cells, spots.colours), (2, 2, vec![0, 7, 0, 0]));
    }

    #[test]
    fn spots_fit_where_they_are_to_fit() {
        let sides = [1, 2, 3, 4, 5, 100].map(|most| panel(vec![0; 16]).spots(most).side);
        assert_eq!(sides, [1, 2, 2, 4, 4, 4]);
    }
}
