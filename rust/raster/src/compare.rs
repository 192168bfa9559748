//! The comparison: a command is given each text, and what it prints is held against what this package expects.

use std::ffi::{OsStr, OsString};
use std::io::{self, Write};
use std::process::{Command, Stdio};
use std::thread;

use crate::{list, random, texts};

/// How much of a line a report shows, in bytes.
const SHOWN: usize = 80;

/// How many comparisons passed and failed.
#[derive(Default)]
pub struct Tally {
    pub passed: usize,
    pub failed: usize,
}

impl Tally {
    /// Whether something ran and nothing failed.
    pub fn is_good(&self) -> bool {
        self.passed > 0 && self.failed == 0
    }

    /// Counts one comparison.
    pub fn count(&mut self, ok: bool) {
        if ok {
            self.passed += 1;
        } else {
            self.failed += 1;
        }
    }
}

/// Gives all texts to a runner, which answers what was printed for a text, and reports on each. The last line is the sum.
pub fn compare(runner: impl Fn(&[u8]) -> io::Result<Vec<u8>>, report: &mut impl Write) -> io::Result<Tally> {
    let mut tally = Tally::default();
    for text in texts::named() {
        let name = &text.name;
        let ok = check(name, &text.bytes, &runner(&text.bytes)?, report)?;
        tally.count(ok);
        if ok {
            writeln!(report, "text {name}: ok")?;
        }
    }
    let failed_before = tally.failed;
    for (number, text) in random::texts().iter().enumerate() {
        let name = format!("random {number:03}");
        tally.count(check(&name, text, &runner(text)?, report)?);
    }
    let verdict = match tally.failed - failed_before {
        0 => "ok".to_string(),
        failed => format!("{failed} FAILED"),
    };
    writeln!(report, "text random, {} of them: {verdict}", random::COUNT)?;
    writeln!(report, "{} passed, {} failed", tally.passed, tally.failed)?;
    Ok(tally)
}

/// Whether the right lines came for a text. If not, the report tells the first line that differs.
fn check(name: &str, text: &[u8], came: &[u8], report: &mut impl Write) -> io::Result<bool> {
    let expected = list::printed(text);
    if expected.as_bytes() == came {
        return Ok(true);
    }
    let [mut expected, mut came] = [expected.as_bytes(), came].map(|lines| lines.split_inclusive(|byte| *byte == b'\n'));
    let differing = (1..).map(|line| (line, expected.next(), came.next())).find(|(_, expected, came)| expected != came);
    writeln!(report, "text {name}: FAILED")?;
    writeln!(report, "    given {}, {} bytes in all", shown(Some(text)), text.len())?;
    if let Some((line, expected, came)) = differing {
        writeln!(report, "    line {line} expected {}", shown(expected))?;
        writeln!(report, "    line {line} came {}", shown(came))?;
    }
    Ok(false)
}

/// Bytes as a report shows them: on one line and shortened.
fn shown(bytes: Option<&[u8]>) -> String {
    match bytes {
        None => "nothing".to_string(),
        Some(bytes) if bytes.len() <= SHOWN => format!("\"{}\"", bytes.escape_ascii()),
        Some(bytes) => format!("\"{}\" and more", bytes[..SHOWN].escape_ascii()),
    }
}

/// What a command prints on its standard output when it is given a text on its standard input. If it ends badly that is added, so
/// that a command which prints the right lines and then breaks is not taken for a good one.
pub fn run(command: &OsStr, arguments: &[OsString], text: &[u8]) -> io::Result<Vec<u8>> {
    let name = command.to_string_lossy();
    let cannot_start = |error: io::Error| io::Error::new(error.kind(), format!("cannot start {name}: {error}"));
    let mut to_start = Command::new(command);
    to_start.args(arguments).stdin(Stdio::piped()).stdout(Stdio::piped());
    let mut child = to_start.spawn().map_err(cannot_start)?;
    let input = child.stdin.take();
    // The text is written from a thread of its own, so that a child that prints before it has read all cannot block both sides.
    thread::scope(|scope| {
        scope.spawn(move || {
            // A child may stop reading once it sees that the text is too long, so a broken pipe is no fault.
            if let Some(mut input) = input {
                let _ = input.write_all(text);
            }
        });
        let mut output = child.wait_with_output()?;
        if !output.status.success() {
            write!(output.stdout, "({})", output.status)?;
        }
        Ok(output.stdout)
    })
}

#[cfg(test)]
mod tests {
    use super::*;

    fn report_of(runner: impl Fn(&[u8]) -> io::Result<Vec<u8>>) -> (Tally, String) {
        let mut report = Vec::new();
        let tally = compare(runner, &mut report).expect("nothing to go wrong");
        (tally, String::from_utf8(report).expect("plain text"))
    }

    #[test]
    fn the_right_answers_pass() {
        let (tally, report) = report_of(|text| Ok(list::printed(text).into_bytes()));
        assert!(tally.is_good() && !report.contains("FAILED"));
        assert!(report.ends_with(&format!("text random, 300 of them: ok\n{} passed, 0 failed\n", tally.passed)));
    }

    #[test]
    fn a_program_that_refuses_all_fails() {
        let (tally, report) = report_of(|_| Ok(b"refused 11\n".to_vec()));
        assert!(!tally.is_good() && tally.passed > 0);
        assert!(report.contains("text the sample of the paper: FAILED\n"));
        assert!(report.contains("    line 1 expected \"00 1 1\\n\"\n    line 1 came \"refused 11\\n\"\n"));
    }

    #[test]
    fn a_missing_line_end_fails() {
        let (tally, report) = report_of(|text| Ok(list::printed(text).trim_end().into()));
        assert_eq!(tally.passed, 0);
        assert!(report.contains("    line 7 expected \"30 1 1\\n\"\n    line 7 came \"30 1 1\"\n"));
    }
}
