//! Output files, by the ending of their names, whole or not at all.

use crate::map::Owned;
use crate::trouble::Trouble;
use crate::{list_file, netpbm, palette, png, progress};
use std::fs::{self, OpenOptions};
use std::io::{self, Write};
use std::path::{Path, PathBuf};
use std::process;

/// What a file holds by the ending of its name.
#[derive(Clone, Copy, PartialEq, Eq)]
pub enum Kind {
    List,
    Pbm,
    Pgm,
    Png,
}

/// A file to be written.
pub struct Output {
    pub path: PathBuf,
    pub kind: Kind,
}

impl Output {
    /// The output of some name, if its ending says what it is to hold.
    pub fn named(path: PathBuf) -> Result<Output, Trouble> {
        let ending = path.extension().and_then(|ending| ending.to_str()).unwrap_or("").to_ascii_lowercase();
        let kind = match ending.as_str() {
            "oboe" => Kind::List,
            "pbm" => Kind::Pbm,
            "pgm" => Kind::Pgm,
            "png" => Kind::Png,
            _ => return Err(Trouble::with_file(&path, "an output's name ends in .oboe, .pbm, .pgm or .png")),
        };
        Ok(Output { path, kind })
    }

    /// Writes a map, in the way that the ending says.
    pub fn write(&self, map: &Owned) -> Result<(), Trouble> {
        progress::during(&format!("writing {}", self.path.display()), || {
            let bytes = match self.kind {
                Kind::List => list_file::bytes(map),
                Kind::Pgm => netpbm::pgm(&map.raster()?),
                Kind::Pbm => netpbm::pbm(&map.raster()?).map_err(|colour| {
                    Trouble::with_file(&self.path, format!("a PBM picture has no colour {colour}; a .pgm or a .png has"))
                })?,
                Kind::Png => {
                    let side = 1 << map.size;
                    png::bytes(side, side, &palette::all(), &map.raster()?.cells)
                }
            };
            self.write_bytes(&bytes)
        })
    }

    /// Writes the file beside its place and moves it there, so that it is whole or not there. What is no plain file, such as a
    /// device, is written to as it is.
    pub fn write_bytes(&self, bytes: &[u8]) -> Result<(), Trouble> {
        let failed = |error: io::Error| Trouble::with_file(&self.path, error);
        let place = fs::canonicalize(&self.path).unwrap_or_else(|_| self.path.clone());
        if fs::metadata(&place).is_ok_and(|there| !there.is_file()) {
            return fs::write(&place, bytes).map_err(failed);
        }
        let beside = place.with_file_name(format!(".oboe-{}.partial", process::id()));
        let written = write_new(&beside, bytes).and_then(|()| fs::rename(&beside, &place));
        if written.is_err() {
            // The file beside may not be there at all; what is reported is why writing failed.
            fs::remove_file(&beside).ok();
        }
        written.map_err(failed)
    }
}

/// Writes a file that was not there, down to the disk.
fn write_new(path: &Path, bytes: &[u8]) -> io::Result<()> {
    let mut file = OpenOptions::new().write(true).create_new(true).open(path)?;
    file.write_all(bytes)?;
    file.sync_all()
}
