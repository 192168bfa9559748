//! What a run of the command left: its exit status, what it printed, and what the document says of both.

use std::collections::BTreeMap;
use std::process::Command;

use oboeridge::Refusal;

/// A run that has ended.
#[derive(Debug)]
pub struct Ran {
    /// How it was called.
    pub call: String,
    /// The exit status, or nothing if a signal ended it.
    pub status: Option<i32>,
    /// Standard output.
    pub out: String,
    /// Standard error.
    pub err: String,
}

impl Ran {
    /// Runs a program to its end.
    pub fn of(call: &str, command: &mut Command) -> Ran {
        let output = command.output().expect("the command starts");
        let text = |bytes: Vec<u8>| String::from_utf8(bytes).expect("what is printed is UTF-8");
        Ran { call: call.to_string(), status: output.status.code(), out: text(output.stdout), err: text(output.stderr) }
    }

    /// It was done, and had nothing to say on standard error.
    #[track_caller]
    pub fn done(self) -> Ran {
        assert_eq!((self.status, self.err.as_str()), (Some(0), ""), "{self:#?}");
        self
    }

    /// It was done. It was given so much that it may have said on standard error what it was doing.
    #[track_caller]
    pub fn done_in_its_time(self) -> Ran {
        assert_eq!(self.status, Some(0), "{self:#?}");
        assert!(!self.err.contains("warning"), "{self:#?}");
        self
    }

    /// It was done, and warned in one line.
    #[track_caller]
    pub fn warned(self) -> Ran {
        assert_eq!(self.status, Some(0), "{self:#?}");
        assert!(self.error_line().contains("warning"), "{self:#?}");
        self
    }

    /// The one line of standard error.
    #[track_caller]
    pub fn error_line(&self) -> &str {
        let line = self.err.strip_suffix('\n').unwrap_or_else(|| panic!("no whole line: {self:#?}"));
        assert!(!line.contains(['\n', '\r']), "more than one line: {self:#?}");
        line
    }

    /// The library refused: status 1 and one line with the sentence. At most the placement line came before.
    #[track_caller]
    pub fn refused(&self, rule: u64, number: u64) {
        assert_eq!(self.status, Some(1), "{self:#?}");
        let (line, sentence) = (self.error_line(), Refusal { rule, number }.to_string());
        assert!(sentence.ends_with(&format!("(refusal {rule}, number {number})")));
        assert!(line.starts_with("oboe: ") && line.contains(&sentence), "{sentence} is not said: {self:#?}");
        let placement = self.out.is_empty() || self.out.starts_with("second map: ") && self.out.lines().count() == 1;
        assert!(placement, "something was printed: {self:#?}");
    }

    /// The library refused, and nothing was printed on standard output at all.
    #[track_caller]
    pub fn refused_at_once(&self, rule: u64, number: u64) {
        self.refused(rule, number);
        assert_eq!(self.out, "", "{self:#?}");
    }

    /// A file or an argument was wrong: status 2, one line, and nothing else was printed.
    #[track_caller]
    pub fn wrong(&self) {
        assert_eq!((self.status, self.out.as_str()), (Some(2), ""), "{self:#?}");
        assert!(self.error_line().starts_with("oboe: "), "{self:#?}");
        assert!(self.error_line().len() > "oboe: ".len() + 3, "it says nothing: {self:#?}");
    }

    /// The same, and the line names what was wrong.
    #[track_caller]
    pub fn wrong_naming(&self, name: &str) {
        self.wrong();
        assert!(self.error_line().contains(name), "{name} is not named: {self:#?}");
    }

    /// Something was wrong once work had begun: status 2 and one line, but some lines may have been printed before.
    #[track_caller]
    pub fn wrong_in_the_end(&self) {
        assert_eq!(self.status, Some(2), "{self:#?}");
        assert!(self.error_line().starts_with("oboe: "), "{self:#?}");
    }

    /// Whether standard output says a phrase, between words and numbers that are not part of it.
    pub fn says(&self, phrase: &str) -> bool {
        says(&self.out, phrase)
    }

    /// Standard output says so many leaves.
    #[track_caller]
    pub fn says_leaves(&self, count: usize) {
        let phrase = if count == 1 { "1 leaf".to_string() } else { format!("{} leaves", with_commas(count as u64)) };
        assert!(self.says(&phrase), "{phrase} is not said: {self:#?}");
    }

    /// Standard output counts the cells of exactly these colours, once each; of WHITE it may say that there are none.
    #[track_caller]
    pub fn says_counts(&self, expected: &BTreeMap<u8, u64>) {
        let mut said = counted(&self.out);
        said.retain(|count| *count != (0, 0));
        said.sort_unstable();
        let expected: Vec<(u8, u64)> = expected.iter().map(|(colour, count)| (*colour, *count)).collect();
        assert_eq!(said, expected, "{self:#?}");
    }
}

/// Whether a text says a phrase that is not the end or the beginning of a longer word or number.
pub fn says(text: &str, phrase: &str) -> bool {
    let joins = |other: Option<char>| other.is_some_and(|other| other.is_alphanumeric() || other == ',' || other == '-');
    text.match_indices(phrase).any(|(at, _)| {
        let after = text[at + phrase.len()..].chars().next();
        !joins(text[..at].chars().next_back()) && !after.is_some_and(char::is_alphanumeric)
    })
}

/// A number with a comma at every third place.
pub fn with_commas(number: u64) -> String {
    let digits = number.to_string();
    let parts: Vec<&str> = digits.as_bytes().rchunks(3).rev().map(|part| std::str::from_utf8(part).expect("digits")).collect();
    parts.join(",")
}

/// Every colour and number of cells that a text counts, as `colour K: N cells` or `WHITE: N cells`, in the text's order.
pub fn counted(text: &str) -> Vec<(u8, u64)> {
    let starts = text.match_indices("colour ").chain(text.match_indices("WHITE: "));
    let mut starts: Vec<usize> = starts.map(|(at, _)| at).collect();
    starts.sort_unstable();
    starts.into_iter().filter_map(|at| count_at(&text[at..])).collect()
}

/// The count that a text begins with. Its number has commas, and one cell is in the singular.
fn count_at(text: &str) -> Option<(u8, u64)> {
    let (name, rest) = text.split_once(": ")?;
    let colour = if name == "WHITE" { 0 } else { name.strip_prefix("colour ")?.parse().ok()? };
    let number = rest.split(' ').next()?;
    let count: u64 = number.replace(',', "").parse().ok()?;
    let phrase = format!("{} {}", with_commas(count), if count == 1 { "cell" } else { "cells" });
    let after = rest.strip_prefix(&phrase)?.chars().next();
    (!after.is_some_and(char::is_alphanumeric)).then_some((colour, count))
}
