//! Why a command was not carried out.

use oboeridge::Refusal;
use std::fmt;
use std::io;
use std::path::Path;

/// What went wrong: the library refused, perhaps with a word on the file at fault; or a file or an argument is bad.
#[derive(Debug)]
pub enum Trouble {
    Refused(Refusal),
    Explained(Refusal, String),
    Bad(String),
}

impl Trouble {
    /// The exit status that tells the two apart.
    pub fn status(&self) -> u8 {
        match self {
            Trouble::Refused(_) | Trouble::Explained(..) => 1,
            Trouble::Bad(_) => 2,
        }
    }

    /// A file that cannot be used, and why.
    pub fn with_file(path: &Path, why: impl fmt::Display) -> Trouble {
        Trouble::Bad(format!("{}: {why}", path.display()))
    }
}

impl From<Refusal> for Trouble {
    fn from(refusal: Refusal) -> Trouble {
        Trouble::Refused(refusal)
    }
}

impl From<io::Error> for Trouble {
    fn from(error: io::Error) -> Trouble {
        Trouble::Bad(format!("standard output: {error}"))
    }
}

impl fmt::Display for Trouble {
    /// One line, whatever a file's name holds.
    fn fmt(&self, f: &mut fmt::Formatter) -> fmt::Result {
        let line = match self {
            Trouble::Refused(refusal) => refusal.to_string(),
            Trouble::Explained(refusal, why) => format!("{refusal}; {why}"),
            Trouble::Bad(why) => why.clone(),
        };
        f.write_str(&line.replace(char::is_control, "?"))
    }
}
