//! The picture in the README is what the command draws today.

use std::path::Path;
use std::process::Command;
use std::{env, fs, process};

#[test]
fn the_picture_of_the_readme_is_drawn_by_the_command() {
    let root = Path::new(env!("CARGO_MANIFEST_DIR")).join("../..");
    let drawn = env::temp_dir().join(format!("oboe-picture-{}.png", process::id()));
    let ground = ["1000", "500", "10", "970", "520", "10"];
    let shown = Command::new(env!("CARGO_BIN_EXE_oboe"))
        .args(["show", "intersection", "examples/plan.pgm", "examples/peat.pgm", "--ground"])
        .args(ground)
        .arg("-o")
        .arg(&drawn)
        .current_dir(&root)
        .output()
        .expect("the command starts");
    assert!(shown.status.success());
    let same = fs::read(&drawn).expect("a picture is written") == fs::read(root.join("docs/overlay.png")).expect("it is kept");
    fs::remove_file(&drawn).expect("it can be removed");
    assert!(same, "docs/overlay.png is another picture");
}
