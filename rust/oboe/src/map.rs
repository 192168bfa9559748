//! A map in memory, read from a file of any kind, and what the library makes of it.

use crate::netpbm::{self, Raster};
use crate::trouble::Trouble;
use crate::words::{counted, number};
use crate::{list_file, progress};
use oboeridge::{Map, Refusal, Window};
use std::fs::File;
use std::io::{self, Read};
use std::path::Path;

/// The largest file that is read, in bytes. Every map has a file that is smaller than that.
const LARGEST: u64 = 1 << 30;

/// The largest size that the library takes.
const LIMIT: u64 = 12;

/// A map that holds its list.
pub struct Owned {
    pub size: u64,
    pub list: Vec<u64>,
}

/// The number of cells of a map of some size, or none if no map is of that size.
fn area(size: u64) -> usize {
    if size <= LIMIT {
        1 << (2 * size)
    } else {
        0
    }
}

/// A map of some size whose list a call writes. It is lent room for every cell, so that it need not count first; the rest is given back.
pub fn listed(size: u64, call: impl FnOnce(&mut [u64]) -> Result<u64, Refusal>) -> Result<Owned, Refusal> {
    let mut list = vec![0; area(size)];
    let leaves = call(&mut list)?;
    list.truncate(leaves as usize);
    list.shrink_to_fit();
    Ok(Owned { size, list })
}

/// The bytes of a file; one more than are read at most if it has more, so that a file without end is no trouble.
fn bytes_of(path: &Path) -> io::Result<Vec<u8>> {
    let mut bytes = Vec::new();
    File::open(path)?.take(LARGEST + 1).read_to_end(&mut bytes)?;
    Ok(bytes)
}

/// The map that a file holds.
pub fn read(path: &Path) -> Result<Owned, Trouble> {
    progress::during(&format!("reading {}", path.display()), || {
        let bytes = bytes_of(path).map_err(|error| Trouble::with_file(path, error))?;
        let bad = |why: String| Trouble::with_file(path, why);
        if bytes.len() as u64 > LARGEST {
            return Err(bad("larger than any file that is read, which has at most a gigabyte".into()));
        }
        if bytes.starts_with(list_file::MAGIC) {
            return list_file::read(&bytes).map_err(bad);
        }
        if !netpbm::begins(&bytes) {
            return Err(bad("no map: neither a list file nor a Netpbm picture (P1, P2, P4 or P5)".into()));
        }
        let raster = netpbm::read(&bytes).map_err(bad)?;
        Ok(listed(raster.size, |out| oboeridge::to_list(raster.size, &raster.cells, out))?)
    })
}

impl Owned {
    /// The map as the library takes it.
    pub fn lent(&self) -> Map<'_> {
        Map { size: self.size, list: &self.list }
    }

    /// The number of cells along a side, if the size is one that the library takes.
    pub fn side(&self) -> Option<i64> {
        (self.size <= LIMIT).then(|| 1 << self.size)
    }

    /// A window of the map, as its shortest list.
    pub fn window(&self, window: Window) -> Result<Owned, Refusal> {
        listed(window.size, |out| oboeridge::window(self.lent(), window, out))
    }

    /// The same picture, as its shortest list.
    pub fn shortest(&self) -> Result<Owned, Refusal> {
        self.window(Window { wy: 0, wx: 0, size: self.size })
    }

    /// The cells of the map.
    pub fn raster(&self) -> Result<Raster, Refusal> {
        let mut cells = vec![0; area(self.size)];
        oboeridge::to_raster(self.lent(), &mut cells)?;
        Ok(Raster { size: self.size, cells })
    }

    /// The colours that the map has, and the number of cells of each. The list is well formed.
    pub fn cells_by_colour(&self) -> Vec<(u8, u64)> {
        let mut cells = [0; 256];
        for leaf in &self.list {
            cells[(leaf & 255) as usize] += 1 << (2 * (leaf >> 8 & 255));
        }
        let named = (0..=255).zip(cells);
        named.filter(|(_, cells)| *cells > 0).collect()
    }

    /// The number of leaves of the map, in words.
    pub fn leaves(&self) -> String {
        counted(self.list.len() as u64, "leaf", "leaves")
    }
}

/// How a colour's number of cells is said.
pub fn colour_line(colour: u8, cells: u64) -> String {
    let cells = format!("{} {}", number(cells), if cells == 1 { "cell" } else { "cells" });
    if colour == 0 {
        format!("WHITE: {cells}")
    } else {
        format!("colour {colour}: {cells}")
    }
}
