//! The comparison of a product with the model, case by case.

use std::io::{self, Write};

use super::case::{Case, Value};
use super::memory::Memory;
use crate::answer::Answer;
use crate::compare::Tally;
use crate::model::Model;

/// How many differences a report prints.
const REPORTED: usize = 10;

/// How an answer is asked for. The memory is the case's own, of which the product is lent the part between the guards.
pub type Ask<'a> = &'a dyn Fn(&Case, &mut Memory) -> Answer<Value>;

/// A comparison that is under way. The title is what its report calls a case, whose number follows.
pub struct Comparison<'a> {
    pub title: String,
    pub ask: Ask<'a>,
    pub report: &'a mut dyn Write,
    pub tally: Tally,
}

impl Comparison<'_> {
    /// Compares the answer to one case, and all the memory that is lent for it with its guards.
    pub fn compare(&mut self, case: &Case) -> io::Result<()> {
        let (mut expected_memory, mut memory) = (case.memory(), case.memory());
        let expected = case.ask(&Model, &mut expected_memory);
        let came = (self.ask)(case, &mut memory);
        let ok = came == expected && memory == expected_memory;
        if !ok && self.tally.failed < REPORTED {
            writeln!(self.report, "{} {}: FAILED", self.title, self.tally.passed + self.tally.failed)?;
            writeln!(self.report, "    {case:?}")?;
            writeln!(self.report, "    expected {expected:?}")?;
            writeln!(self.report, "    came {came:?}")?;
            if let Some(difference) = memory.difference(&expected_memory) {
                writeln!(self.report, "    {difference}")?;
            }
        }
        self.tally.count(ok);
        Ok(())
    }

    /// Reports how far the comparison is.
    pub fn progress(&mut self, count: usize) -> io::Result<()> {
        let Tally { passed, failed } = self.tally;
        writeln!(self.report, "{} of {count} compared, {failed} failed", passed + failed)
    }

    /// Reports the sum.
    pub fn sum(self) -> io::Result<Tally> {
        writeln!(self.report, "{} passed, {} failed", self.tally.passed, self.tally.failed)?;
        Ok(self.tally)
    }
}
