//! What the tests of the command share: folders that go away, runs of the command, maps written and read as the document says,
//! and the operations on dense pictures.
#![allow(dead_code, reason = "each test file uses its own part of this")]

pub mod dense;
pub mod lists;
pub mod pictures;
pub mod png;
pub mod ran;

use std::fs;
use std::path::{Path, PathBuf};
use std::process::{Command, Stdio};
use std::sync::atomic::{AtomicUsize, Ordering};

use ran::Ran;
use raster::picture::Picture;

/// The command under test.
pub const OBOE: &str = env!("CARGO_BIN_EXE_oboe");

/// How many folders this process has made.
static FOLDERS: AtomicUsize = AtomicUsize::new(0);

/// A folder of its own for one test, removed at the end.
pub struct Folder(PathBuf);

impl Folder {
    /// A new and empty folder.
    pub fn fresh() -> Folder {
        let number = FOLDERS.fetch_add(1, Ordering::Relaxed);
        let path = std::env::temp_dir().join(format!("oboe-tests-{}-{number}", std::process::id()));
        let _ = fs::remove_dir_all(&path);
        fs::create_dir(&path).expect("a folder for the test");
        Folder(path)
    }

    /// A folder that holds P and S of the worked cases, as plain pictures.
    pub fn with_worked_maps() -> Folder {
        let folder = Folder::fresh();
        folder.write("p.pbm", pictures::P);
        folder.write("s.pbm", pictures::S);
        folder
    }

    /// Where the folder is.
    pub fn path(&self) -> &Path {
        &self.0
    }

    /// Writes a file of the folder.
    pub fn write(&self, name: &str, bytes: impl AsRef<[u8]>) {
        fs::write(self.0.join(name), bytes).expect("a file is written");
    }

    /// Writes a picture as a raw PGM file.
    pub fn write_map(&self, name: &str, picture: &Picture) {
        self.write(name, pictures::p5(picture));
    }

    /// The bytes of a file of the folder.
    #[track_caller]
    pub fn read(&self, name: &str) -> Vec<u8> {
        fs::read(self.0.join(name)).unwrap_or_else(|error| panic!("{name}: {error}"))
    }

    /// The picture that a raw PBM or PGM file of the folder shows.
    #[track_caller]
    pub fn read_map(&self, name: &str) -> Picture {
        pictures::read_raw(&self.read(name))
    }

    /// The list that a list file of the folder holds.
    #[track_caller]
    pub fn read_list(&self, name: &str) -> lists::List {
        lists::read(&self.read(name))
    }

    /// The names in the folder, in order.
    pub fn names(&self) -> Vec<String> {
        let entries = fs::read_dir(&self.0).expect("the folder is there");
        let mut names: Vec<String> =
            entries.map(|entry| entry.expect("an entry").file_name().to_string_lossy().into_owned()).collect();
        names.sort();
        names
    }

    /// The names in the folder and what the files hold; a folder holds nothing.
    pub fn contents(&self) -> Vec<(String, Vec<u8>)> {
        self.names().into_iter().map(|name| (name.clone(), fs::read(self.0.join(name)).unwrap_or_default())).collect()
    }

    /// The command, to be run in the folder.
    pub fn command(&self) -> Command {
        self.program(OBOE)
    }

    /// Another program, to be run in the folder.
    pub fn program(&self, program: &str) -> Command {
        let mut command = Command::new(program);
        command.current_dir(&self.0).env_remove("COLUMNS").stdin(Stdio::null());
        command
    }

    /// Runs the command in the folder. Its arguments are the words of the line.
    pub fn run(&self, line: &str) -> Ran {
        self.run_words(&line.split_whitespace().collect::<Vec<_>>())
    }

    /// Runs the command in the folder with these arguments.
    pub fn run_words(&self, words: &[&str]) -> Ran {
        Ran::of(&words.join(" "), self.command().args(words))
    }

    /// The command still does its work here, so that it is not one that refuses all. P is in the folder.
    #[track_caller]
    pub fn works(&self) {
        self.run("check p.pbm").done().says_leaves(7);
    }

    /// Runs a line of the shell in the folder. In it `"$OBOE"` is the command.
    pub fn run_shell(&self, line: &str) -> Ran {
        Ran::of(line, self.program("sh").env("OBOE", OBOE).args(["-c", line]))
    }
}

impl Drop for Folder {
    fn drop(&mut self) {
        let _ = fs::remove_dir_all(&self.0);
    }
}
