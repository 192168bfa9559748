//! The program `raster`: the paper's `leaves`, and the comparison of another `leaves` with it.

use std::env;
use std::ffi::{OsStr, OsString};
use std::io::{self, Read, Write};
use std::process::ExitCode;

use raster::picture::LONGEST_TEXT;
use raster::{compare, list};

const USAGE: &str = "\
usage: raster leaves                     read a picture, print its shortest list
       raster texts COMMAND [ARG..]      give the texts to COMMAND and compare what it prints
";

fn main() -> ExitCode {
    let arguments: Vec<OsString> = env::args_os().skip(1).collect();
    let result = match arguments.as_slice() {
        [word] if word == "leaves" => leaves(),
        [word, command, rest @ ..] if word == "texts" => texts(command, rest),
        _ => {
            eprint!("{USAGE}");
            return ExitCode::from(2);
        }
    };
    result.unwrap_or_else(|error| {
        eprintln!("raster: {error}");
        ExitCode::FAILURE
    })
}

/// Reads a text from the standard input and prints what the paper's `leaves` does.
fn leaves() -> io::Result<ExitCode> {
    let mut text = Vec::new();
    // One byte past the limit is enough to see that a text is too long.
    let input = io::stdin().lock().take(LONGEST_TEXT as u64 + 1).read_to_end(&mut text);
    // An input that breaks off is no picture, so it is refused like any other.
    let printed = if input.is_ok() { list::printed(&text) } else { list::REFUSED.to_string() };
    io::stdout().lock().write_all(printed.as_bytes())?;
    Ok(ExitCode::SUCCESS)
}

/// Compares a command with this package on all texts.
fn texts(command: &OsStr, arguments: &[OsString]) -> io::Result<ExitCode> {
    let tally = compare::compare(|text| compare::run(command, arguments, text), &mut io::stdout().lock())?;
    Ok(if tally.is_good() { ExitCode::SUCCESS } else { ExitCode::FAILURE })
}
