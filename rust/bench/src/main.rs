//! Oboeridge's speed, in one run: the proved calls beside the raster route, a painter without proofs, and peers.

#[cfg(test)]
mod agreement;
mod aims;
mod cell_unions;
mod leaf;
mod listing;
mod maps;
mod measure;
mod painter;
mod peers;
mod placed;
mod plain;
mod report;
mod search;
mod tiles;
mod timing;

use std::process::ExitCode;

/// How many rounds are timed, and how many with `--quick`.
const ROUNDS: usize = 9;
const QUICK_ROUNDS: usize = 3;

fn main() -> ExitCode {
    let options: Vec<String> = std::env::args().skip(1).collect();
    if let Some(unknown) = options.iter().find(|option| !["--quick", "--peers"].contains(&option.as_str())) {
        eprintln!("bench: {unknown} is no option; there are --quick and --peers");
        return ExitCode::from(2);
    }
    let given = |name: &str| options.iter().any(|option| option == name);
    let rounds = if given("--quick") { QUICK_ROUNDS } else { ROUNDS };
    match report::all(rounds, given("--peers")) {
        Ok(()) => ExitCode::SUCCESS,
        Err(difference) => {
            eprintln!("bench: {difference}");
            ExitCode::FAILURE
        }
    }
}
