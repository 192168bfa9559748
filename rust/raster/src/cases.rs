//! The comparison of a product with the model: random cases of all calls, and all small cases.
//!
//! In each case the answer must be the model's, and so must all the memory lent and the guards around it.

mod case;
mod comparison;
mod draw;
mod faults;
mod grounds;
mod lists;
mod memory;
mod places;
mod small;

use std::io::{self, Write};

use crate::compare::Tally;
use crate::generator::Generator;
use crate::product::Product;
use case::Case;
use comparison::{Ask, Comparison};
use memory::Memory;

pub use small::compare_small;

/// How many times a run reports its progress.
const PROGRESS_REPORTS: usize = 10;

/// Compares a product with the model on random cases, the same for the same seed. The report has the first differences and the
/// sum. A case is drawn again by a run with its seed that reaches its number.
pub fn compare_cases(
    product: &impl Product,
    seed: u64,
    count: usize,
    report: &mut impl Write,
    progress: bool,
) -> io::Result<Tally> {
    compare_drawn(&|case: &Case, memory: &mut Memory| case.ask(product, memory), seed, count, report, progress)
}

/// Compares whatever is asked with the model.
fn compare_drawn(ask: Ask, seed: u64, count: usize, report: &mut dyn Write, progress: bool) -> io::Result<Tally> {
    let mut generator = Generator::new(seed);
    let mut comparison = Comparison { title: format!("seed {seed}, case"), ask, report, tally: Tally::default() };
    for number in 0..count {
        comparison.compare(&draw::case(number, &mut generator))?;
        if progress && (number + 1).is_multiple_of(count.div_ceil(PROGRESS_REPORTS)) {
            comparison.progress(count)?;
        }
    }
    comparison.sum()
}

#[cfg(test)]
mod tests {
    use super::*;
    use crate::answer::Answer;
    use crate::model::Model;
    use case::Value;
    use memory::GUARDS;

    fn report_of(ask: Ask, count: usize) -> (Tally, String) {
        let mut report = Vec::new();
        let tally = compare_drawn(ask, 7, count, &mut report, false).expect("nothing to go wrong");
        (tally, String::from_utf8(report).expect("plain text"))
    }

    fn model(case: &Case, memory: &mut Memory) -> Answer<Value> {
        case.ask(&Model, memory)
    }

    #[test]
    fn the_model_agrees_with_itself() {
        for seed in 0..4 {
            let mut report = Vec::new();
            let tally = compare_cases(&Model, seed, 5_000, &mut report, false).expect("nothing to go wrong");
            assert_eq!((tally.passed, tally.failed), (5_000, 0));
            assert_eq!(report, b"5000 passed, 0 failed\n");
        }
    }

    #[test]
    fn progress_is_reported_ten_times() {
        let mut report = Vec::new();
        compare_cases(&Model, 1, 100, &mut report, true).expect("nothing to go wrong");
        let report = String::from_utf8(report).expect("plain text");
        assert!(report.starts_with("10 of 100 compared, 0 failed\n20 of 100 compared, 0 failed\n"));
        assert_eq!(report.lines().count(), 11);
    }

    #[test]
    fn a_guard_that_is_written_is_found() {
        // Only a product in another language can do this, so it is done behind the model's back.
        let (tally, report) = report_of(
            &|case, memory| {
                memory.words.damage(GUARDS - 1, 0);
                model(case, memory)
            },
            100,
        );
        assert_eq!((tally.passed, tally.failed), (0, 100));
        assert!(report.contains("    guard 1 before the memory lent: expected "));
        let (tally, report) = report_of(
            &|case, memory| {
                let end = memory.cells.lent().len() + GUARDS;
                memory.cells.damage(end, 0);
                model(case, memory)
            },
            100,
        );
        assert_eq!((tally.passed, tally.failed), (0, 100));
        assert!(report.contains("    guard 1 behind the memory lent: expected "));
    }

    #[test]
    fn ten_differences_are_printed_and_all_are_counted() {
        let (tally, report) = report_of(&|_, _| Answer::Gives(Value::Number(u64::MAX)), 50);
        assert_eq!((tally.passed, tally.failed), (0, 50));
        assert_eq!(report.matches(": FAILED\n").count(), 10);
        assert!(report.starts_with("seed 7, case 0: FAILED\n"));
        assert!(report.contains("    came Gives(Number(18446744073709551615))\n"));
        assert!(report.ends_with("\n0 passed, 50 failed\n"));
    }
}
