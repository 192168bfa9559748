//! The command `oboe`: docs/COMMAND.md says what it does and what its files hold.

mod arguments;
mod checksum;
mod commands;
mod decimal;
mod drawing;
mod fault;
mod files;
mod font;
mod list_file;
mod map;
mod netpbm;
mod palette;
mod placement;
mod png;
mod progress;
mod sheet;
mod terminal;
mod trouble;
mod words;

use std::env;
use std::process::ExitCode;

fn main() -> ExitCode {
    match arguments::read(env::args_os().skip(1)).and_then(commands::run) {
        Ok(()) => ExitCode::SUCCESS,
        Err(trouble) => {
            eprintln!("oboe: {trouble}");
            ExitCode::from(trouble.status())
        }
    }
}
