//! The tables that are printed, and beside them on standard error what is being measured.

use crate::aims::{self, Record, Rival};
use crate::cell_unions;
use crate::maps::{BLACK_AND_WHITE, PAIRS};
use crate::measure::{self, drawn, Drawn, Memory, Outcome, BY_HAND, BY_RASTER, BY_WORDS, EXACT, LENT, TASKS};
use crate::peers;
use crate::timing::Times;
use oboeridge::Shift;

/// The size of the maps that are measured.
const SIZE: u64 = 12;

/// How often a peer that overlays rasters is started for one operation.
const PEER_ROUNDS: usize = 3;

/// The shifts at which the pairs are laid together.
const SHIFTS: [Shift; 5] = [
    Shift { dy: 0, dx: 0 },
    Shift { dy: 64, dx: 128 },
    Shift { dy: 100, dx: 100 },
    Shift { dy: 1, dx: 1 },
    Shift { dy: 37, dx: -219 },
];

/// A run: how many rounds are timed, the memory that the rivals work in, and the ratios that the aims are about.
struct Run {
    rounds: usize,
    memory: Memory,
    records: Vec<Record>,
}

/// Measures everything and prints it.
pub fn all(rounds: usize, with_peers: bool) -> Outcome<()> {
    let mut run = Run { rounds, memory: Memory::new(SIZE), records: Vec::new() };
    println!("Milliseconds, best of {rounds} rounds; ratios are medians over the rounds. Maps of {0} by {0} cells.", 1 << SIZE);
    let pairs: Vec<(&'static str, [Drawn; 2])> =
        PAIRS.iter().chain([&BLACK_AND_WHITE]).map(|pair| (pair.name, drawn(pair, SIZE))).collect();
    run.overlays(&pairs)?;
    run.conversions(&pairs)?;
    run.growth()?;
    if with_peers {
        let (coloured, black_and_white) = pairs.split_at(PAIRS.len());
        let [first, second] = &black_and_white[0].1;
        cell_unions::print(rounds, [first, second], &mut run.memory.lent, &mut run.records)?;
        peers::rasters(PEER_ROUNDS, coloured, &mut run.memory.lent)?;
    }
    aims::print(&run.records);
    Ok(())
}

/// Prints the beginning of a table: its title, and the names of its columns.
pub fn heading(title: &str, columns: &[&str]) {
    println!("\n### {title}\n\n| {} |\n|{}", columns.join(" | "), "---|".repeat(columns.len()));
}

/// Times as cells of a table.
fn cells(rivals: &[usize], times: &Times) -> String {
    rivals.iter().map(|&rival| format!("{:.1}", times.best(rival))).collect::<Vec<String>>().join(" | ")
}

/// Ratios as cells of a table.
fn ratios(rivals: &[(usize, usize)], times: &Times) -> String {
    rivals.iter().map(|&(rival, other)| format!("{:.2}", times.ratio(rival, other))).collect::<Vec<String>>().join(" | ")
}

impl Run {
    /// The table of the overlays and windows: every pair at every shift, black and white at the first.
    fn overlays(&mut self, pairs: &[(&'static str, [Drawn; 2])]) -> Outcome<()> {
        let measured = ["product, 4^w lent", "exact room", "by hand", "raster route", "by words"];
        let ratios = ["lent ÷ by hand", "lent ÷ raster", "lent ÷ by words"];
        heading("Overlays and windows", &[&["pair", "shift", "task", "leaves"][..], &measured, &ratios].concat());
        for (pair, [first, second]) in pairs {
            let shifts = if *pair == BLACK_AND_WHITE.name { &SHIFTS[..1] } else { &SHIFTS[..] };
            for &shift in shifts {
                self.at_shift(pair, [first, second], shift)?;
            }
        }
        Ok(())
    }

    /// The rows of one pair at one shift.
    fn at_shift(&mut self, pair: &'static str, maps: [&Drawn; 2], at: Shift) -> Outcome<()> {
        let shift = format!("({}, {})", at.dy, at.dx);
        for (name, task) in TASKS {
            eprintln!("bench: {pair} at {shift}, {name}");
            let (leaves, times) = measure::overlay(self.rounds, maps, task, at, &mut self.memory)?;
            for (rival, number) in [(Rival::RasterRoute, BY_RASTER), (Rival::ByHand, BY_HAND)] {
                let (ratio, best) = (times.ratio(LENT, number), times.best_ratio(LENT, number));
                self.records.push(Record { rival, pair, shift: shift.clone(), task: name, ratio, best });
            }
            let best = cells(&[LENT, EXACT, BY_HAND, BY_RASTER, BY_WORDS], &times);
            let ratios = ratios(&[(LENT, BY_HAND), (LENT, BY_RASTER), (LENT, BY_WORDS)], &times);
            println!("| {pair} | {shift} | {name} | {leaves} | {best} | {ratios} |");
        }
        Ok(())
    }

    /// The table of the list check, raster to list and list to raster.
    fn conversions(&mut self, pairs: &[(&'static str, [Drawn; 2])]) -> Outcome<()> {
        let measured = ["product, 4^n lent", "exact room", "plain", "by words"];
        let ratios = ["lent ÷ plain", "exact ÷ plain", "lent ÷ by words"];
        let title = "List check, raster to list, list to raster";
        heading(title, &[&["pair", "map", "leaves", "call"][..], &measured, &ratios].concat());
        for (pair, maps) in pairs {
            for (which, map) in ["first", "second"].into_iter().zip(maps) {
                eprintln!("bench: {pair}, {which}: check and conversions");
                self.conversion(pair, which, map)?;
            }
        }
        Ok(())
    }

    /// The rows of one map.
    fn conversion(&mut self, pair: &'static str, which: &str, map: &Drawn) -> Outcome<()> {
        let row = format!("| {pair} | {which} | {}", map.list.len());
        let times = measure::check(self.rounds, map)?;
        println!("{row} | check | {:.2} | | {:.2} | | {:.2} | | |", times.best(0), times.best(1), times.ratio(0, 1));
        let times = measure::to_list(self.rounds, map, &mut self.memory)?;
        let (task, ratio, best) = ("raster to list", times.ratio(0, 2), times.best_ratio(0, 2));
        self.records.push(Record { rival: Rival::Encoder, pair, shift: which.into(), task, ratio, best });
        println!("{row} | {task} | {} | {} |", cells(&[0, 1, 2, 3], &times), ratios(&[(0, 2), (1, 2), (0, 3)], &times));
        let times = measure::to_raster(self.rounds, map, &mut self.memory)?;
        println!("{row} | list to raster | {:.1} | | {:.1} | | {:.2} | | |", times.best(0), times.best(1), times.ratio(0, 1));
        Ok(())
    }

    /// The table of how times grow with the size, for the middling pair at (1, 1).
    fn growth(&mut self) -> Outcome<()> {
        let overlay = ["product, 4^w lent", "by hand", "raster route"];
        let calls = ["check", "raster to list", "list to raster"];
        let title = "Growth: the middling pair from size 8 to size 12, union at (1, 1)";
        heading(title, &[&["size", "cells", "leaves of both"][..], &overlay, &calls].concat());
        for size in 8..=SIZE {
            eprintln!("bench: growth, size {size}");
            let [first, second] = drawn(&PAIRS[1], size);
            let (_, times) = measure::overlay(self.rounds, [&first, &second], TASKS[1].1, SHIFTS[3], &mut self.memory)?;
            let best = [LENT, BY_HAND, BY_RASTER].map(|rival| format!("{:.2}", times.best(rival))).join(" | ");
            let check = measure::check(self.rounds, &first)?.best(0);
            let to_list = measure::to_list(self.rounds, &first, &mut self.memory)?.best(0);
            let to_raster = measure::to_raster(self.rounds, &first, &mut self.memory)?.best(0);
            let leaves = first.list.len() + second.list.len();
            println!("| {size} | {} | {leaves} | {best} | {check:.3} | {to_list:.2} | {to_raster:.2} |", 1 << (2 * size));
        }
        Ok(())
    }
}
