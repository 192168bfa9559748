//! Programs that others wrote to overlay rasters, beside the product at the shift (0, 0), where they are installed.

use crate::measure::{Drawn, Outcome};
use crate::report::heading;
use crate::timing::{milliseconds, Times};
use oboeridge::{Operation, Shift};
use std::fs;
use std::path::{Path, PathBuf};
use std::process::Command;

pub const OPERATIONS: [(&str, Operation); 3] =
    [("intersection", Operation::Intersection), ("union", Operation::Union), ("difference", Operation::Difference)];

/// A folder for the files that the peers read and write, gone when this is.
pub struct Folder(pub PathBuf);

impl Folder {
    pub fn new() -> Outcome<Folder> {
        let path = std::env::temp_dir().join(format!("oboeridge-bench-{}", std::process::id()));
        fs::create_dir_all(&path).map_err(|error| format!("no folder for the peers' files: {error}"))?;
        Ok(Folder(path))
    }

    pub fn write(&self, name: &str, bytes: &[u8]) -> Outcome<()> {
        fs::write(self.0.join(name), bytes).map_err(|error| format!("{name} cannot be written: {error}"))
    }
}

impl Drop for Folder {
    fn drop(&mut self) {
        // A folder that cannot be removed is left to the system.
        let _ = fs::remove_dir_all(&self.0);
    }
}

/// Why a peer has no time.
pub enum Missing {
    NotInstalled,
    Failed,
}

/// What a command prints.
fn said(command: &mut Command) -> Result<String, Missing> {
    let output = command.output().map_err(|_| Missing::NotInstalled)?;
    if output.status.success() {
        Ok(String::from_utf8_lossy(&output.stdout).into_owned())
    } else {
        Err(Missing::Failed)
    }
}

/// The first number that a command prints.
fn number_said(command: &mut Command) -> Result<f64, Missing> {
    said(command)?.split_whitespace().next().and_then(|word| word.parse().ok()).ok_or(Missing::Failed)
}

/// numpy's milliseconds for an operation, of the arrays alone.
fn numpy(folder: &Path, operation: Operation) -> Result<f64, Missing> {
    let has_numpy = |python: &&str| said(Command::new(python).args(["-c", "import numpy"])).is_ok();
    let python = ["/usr/bin/python3", "python3"].into_iter().find(has_numpy).ok_or(Missing::NotInstalled)?;
    number_said(Command::new(python).args(["-c", include_str!("../peers/overlay.py")]).arg(folder).arg(name(operation)))
}

/// The milliseconds of GDAL's whole command, which reads two files and writes one.
fn gdal(folder: &Path, operation: Operation) -> Result<f64, Missing> {
    let expression = match operation {
        Operation::Intersection => "numpy.where(A == 0, 0, B)",
        Operation::Union => "numpy.where(A == 0, B, A)",
        Operation::Difference => "numpy.where(B == 0, A, 0)",
    };
    let mut command = Command::new("gdal_calc.py");
    command.current_dir(folder).args(["-A", "first.raw", "-B", "second.raw", "--outfile=result.raw", "--format=ENVI"]);
    command.args(["--type=Byte", "--overwrite", "--quiet", "--calc", expression]);
    let mut ended = Ok(String::new());
    let taken = milliseconds(&mut || ended = said(&mut command));
    ended.map(|_| taken)
}

/// The milliseconds of GRASS's r.mapcalc, which reads two of its own maps and writes one.
fn grass(folder: &Path, operation: Operation) -> Result<f64, Missing> {
    let expression = match operation {
        Operation::Intersection => "if(first == 0, 0, second)",
        Operation::Union => "if(first == 0, second, first)",
        Operation::Difference => "if(second == 0, first, 0)",
    };
    let mut command = Command::new("grass");
    command.args(["--tmp-location", "XY", "--exec", "sh", "-c", include_str!("../peers/overlay.sh"), "overlay"]);
    number_said(command.arg(folder).arg(expression))
}

/// A peer that overlays rasters: its name, and its milliseconds for an operation, after which its raster stands in `result.raw`.
type Peer = (&'static str, fn(&Path, Operation) -> Result<f64, Missing>);

const PEERS: [Peer; 3] = [("numpy", numpy), ("GDAL", gdal), ("GRASS", grass)];

/// The name of an operation.
fn name(operation: Operation) -> &'static str {
    OPERATIONS.iter().find(|(_, other)| *other == operation).map_or("", |(name, _)| name)
}

/// The product's list of an operation at (0, 0), and its milliseconds.
pub fn product<'a>(maps: [&Drawn; 2], operation: Operation, lent: &'a mut [u64]) -> Outcome<(f64, &'a [u64])> {
    let mut leaves = Ok(0);
    let shift = Shift { dy: 0, dx: 0 };
    let taken = milliseconds(&mut || leaves = oboeridge::overlay(operation, maps[0].map(), maps[1].map(), shift, None, lent));
    let leaves = leaves.map_err(|refusal| refusal.to_string())? as usize;
    Ok((taken, &lent[..leaves]))
}

/// The times of the product and of a peer for an operation, in turn; or why there are none.
fn beside(
    rounds: usize,
    peer: Peer,
    maps: [&Drawn; 2],
    operation: Operation,
    folder: &Folder,
    lent: &mut [u64],
) -> Outcome<String> {
    let mut times = vec![Vec::new(); 2];
    let mut cells = vec![0; maps[0].cells.len()];
    for _ in 0..rounds {
        let (taken, list) = product(maps, operation, lent)?;
        times[0].push(taken);
        match peer.1(&folder.0, operation) {
            Ok(taken) => times[1].push(taken),
            Err(Missing::NotInstalled) => return Ok("| not installed |".into()),
            Err(Missing::Failed) => return Ok("| failed |".into()),
        }
        oboeridge::to_raster(oboeridge::Map { size: maps[0].size, list }, &mut cells).map_err(|refusal| refusal.to_string())?;
    }
    if fs::read(folder.0.join("result.raw")).ok().as_ref() != Some(&cells) {
        return Err(format!("the product and {} differ", peer.0));
    }
    let times = Times::told(times);
    Ok(format!("{:.1} | {:.1} | {:.1}", times.best(0), times.best(1), times.ratio(1, 0)))
}

/// Prints the table of the peers that overlay rasters.
pub fn rasters(rounds: usize, pairs: &[(&str, [Drawn; 2])], lent: &mut [u64]) -> Outcome<()> {
    let columns = ["pair", "operation", "peer", "product, 4^w lent", "the peer", "peer ÷ product"];
    heading("Peers: overlays of rasters at (0, 0)", &columns);
    let header = "ENVI\nsamples = 4096\nlines = 4096\nbands = 1\ndata type = 1\ninterleave = bsq\nbyte order = 0\n";
    for (pair, [first, second]) in pairs {
        let folder = Folder::new()?;
        for (file, map) in [("first", first), ("second", second)] {
            folder.write(&format!("{file}.raw"), &map.cells)?;
            folder.write(&format!("{file}.hdr"), header.as_bytes())?;
        }
        for (peer, (operation, which)) in PEERS.iter().flat_map(|peer| OPERATIONS.map(|operation| (peer, operation))) {
            eprintln!("bench: {pair}, {operation}, beside {}", peer.0);
            println!("| {pair} | {operation} | {} | {} |", peer.0, beside(rounds, *peer, [first, second], which, &folder, lent)?);
        }
    }
    Ok(())
}
