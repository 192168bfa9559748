//! Proves the calls and links them: the repository's `tools/archive` writes the archive.

use std::path::{Path, PathBuf};
use std::process::Command;
use std::{env, fs};

/// Has cargo run this again where a file changed that a proof reads. What a proof writes stands beside them, in a crate's `out/`.
fn watch(root: &Path) {
    let crates = fs::read_dir(root.join("crates")).expect("the folder crates is there");
    let folders = crates.map(|found| found.expect("its entries can be read").path());
    let sources = folders.flat_map(|folder| ["src", "specs", "proofs"].map(|part| folder.join(part)));
    for path in sources.chain([root.join("crates.txt"), root.join("tools/archive")]).filter(|path| path.exists()) {
        println!("cargo:rerun-if-changed={}", path.display());
    }
}

fn main() {
    let root = PathBuf::from(env::var_os("CARGO_MANIFEST_DIR").expect("cargo names the package's folder")).join("../..");
    let out = PathBuf::from(env::var_os("OUT_DIR").expect("cargo names a folder for the archive"));
    watch(&root);
    let proved = Command::new(root.join("tools/archive")).arg(out.join("liboboeridge.a")).output();
    match proved {
        Ok(proved) if proved.status.success() => {}
        Ok(proved) => {
            let said = [proved.stdout, proved.stderr].concat();
            panic!("the calls were not proved:\n{}", String::from_utf8_lossy(&said))
        }
        Err(error) => panic!("tools/archive cannot be started: {error}"),
    }
    println!("cargo:rustc-link-search=native={}", out.display());
    println!("cargo:rustc-link-lib=static=oboeridge");
}
