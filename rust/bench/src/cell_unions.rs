//! S2's cell unions beside the product, on black and white maps at the shift (0, 0).

use crate::aims::{Record, Rival};
use crate::leaf::{code_of, colour_of, level_of};
use crate::measure::{Drawn, Outcome};
use crate::peers::{product, Folder, Missing, OPERATIONS};
use crate::report::heading;
use crate::timing::Times;
use std::io::{BufRead, BufReader, Write};
use std::process::{Child, ChildStdout, Command, Stdio};

/// The leaves of a list that are not WHITE.
fn black(list: &[u64]) -> Vec<u64> {
    list.iter().copied().filter(|&word| colour_of(word) != 0).collect()
}

/// The number of a list's black cells, and the sum of their ids in S2.
fn as_told(list: &[u64]) -> (usize, u64) {
    let id = |word: &u64| code_of(*word) << 37 | 1 << (36 + 2 * level_of(*word));
    let black = black(list);
    (black.len(), black.iter().map(id).fold(0, u64::wrapping_add))
}

/// S2's program with two maps, which runs an operation whenever it is told to.
struct Program {
    child: Child,
    output: BufReader<ChildStdout>,
}

impl Program {
    /// Starts the program on the files `first` and `second` of a folder.
    fn start(folder: &Folder) -> Result<Program, Missing> {
        let program = std::env::current_exe().map_err(|_| Missing::Failed)?.with_file_name("s2");
        let mut command = Command::new(program);
        command.current_dir(&folder.0).args(["first", "second"]).stdin(Stdio::piped()).stdout(Stdio::piped());
        let mut child = command.spawn().map_err(|_| Missing::NotInstalled)?;
        let output = BufReader::new(child.stdout.take().ok_or(Missing::Failed)?);
        Ok(Program { child, output })
    }

    /// The next line that the program prints.
    fn line(&mut self) -> Option<String> {
        let mut line = String::new();
        self.output.read_line(&mut line).ok()?;
        Some(line)
    }

    /// The numbers of black cells of the two maps, which the program prints first.
    fn sizes(&mut self) -> Option<(usize, usize)> {
        let line = self.line()?;
        let (first, second) = line.trim().split_once(' ')?;
        Some((first.parse().ok()?, second.parse().ok()?))
    }

    /// The milliseconds of one run of an operation, and what is told of its result: the number of cells, and the sum of their ids.
    fn run(&mut self, operation: &str) -> Option<(f64, (usize, u64))> {
        writeln!(self.child.stdin.as_mut()?, "{operation}").ok()?;
        let line = self.line()?;
        let mut words = line.split_whitespace();
        let mut next = || words.next();
        Some((next()?.parse().ok()?, (next()?.parse().ok()?, next()?.parse().ok()?)))
    }
}

impl Drop for Program {
    fn drop(&mut self) {
        // Waiting closes the program's input, at which it ends; how it ends does not matter.
        let _ = self.child.wait();
    }
}

/// The times of the product and of S2 for each operation, in turn, after one round that does not count.
fn race(rounds: usize, maps: [&Drawn; 2], program: &mut Program, lent: &mut [u64]) -> Outcome<Vec<Times>> {
    let mut times = vec![vec![Vec::new(); 2]; OPERATIONS.len()];
    for round in 0..=rounds {
        for ((name, operation), times) in OPERATIONS.into_iter().zip(&mut times) {
            let (taken, told) = program.run(name).ok_or("S2's program failed")?;
            let (own, list) = product(maps, operation, lent)?;
            if as_told(list) != told {
                return Err(format!("the product and S2 differ in {name}"));
            }
            if round > 0 {
                times[0].push(own);
                times[1].push(taken);
            }
        }
    }
    Ok(times.into_iter().map(Times::told).collect())
}

/// Prints the table of S2's cell unions.
pub fn print(rounds: usize, maps: [&Drawn; 2], lent: &mut [u64], records: &mut Vec<Record>) -> Outcome<()> {
    eprintln!("bench: black and white, beside S2");
    let folder = Folder::new()?;
    for (file, map) in ["first", "second"].iter().zip(maps) {
        folder.write(file, &black(&map.list).iter().flat_map(|word| word.to_le_bytes()).collect::<Vec<u8>>())?;
    }
    let mut program = match Program::start(&folder) {
        Ok(program) => program,
        Err(Missing::NotInstalled) => {
            println!("\n### Peers: S2's cell unions\n\nS2: not installed");
            return Ok(());
        }
        Err(Missing::Failed) => return Err("S2's program failed".into()),
    };
    let (first, second) = program.sizes().ok_or("S2's program failed")?;
    let title = format!("Peers: S2's cell unions, {first} and {second} black cells, at (0, 0)");
    heading(&title, &["operation", "product, 4^w lent", "S2", "product ÷ S2", "by best times"]);
    for ((task, _), times) in OPERATIONS.into_iter().zip(race(rounds, maps, &mut program, lent)?) {
        let (ratio, best) = (times.ratio(0, 1), times.best_ratio(0, 1));
        records.push(Record { rival: Rival::CellUnions, pair: "black and white", shift: "(0, 0)".into(), task, ratio, best });
        println!("| {task} | {:.1} | {:.1} | {ratio:.2} | {best:.2} |", times.best(0), times.best(1));
    }
    Ok(())
}
