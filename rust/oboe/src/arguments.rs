//! What is asked for on the command line.

use crate::decimal;
use crate::files::{Kind, Output};
use crate::trouble::Trouble;
use oboeridge::{Cell, Ground, Operation, Place, Window};
use std::ffi::OsString;
use std::path::PathBuf;
use std::str::FromStr;

/// A command, with all that it needs.
pub enum Request {
    Overlay(Laying, Option<Output>),
    Window(PathBuf, Window, Option<Output>),
    Check(PathBuf),
    Lookup(PathBuf, Cell),
    Convert(PathBuf, Output),
    ShowMap(PathBuf, Option<Output>),
    ShowOverlay(Laying, Option<Output>),
    Help,
}

/// Two maps to be laid over one another.
pub struct Laying {
    pub operation: Operation,
    pub first: PathBuf,
    pub second: PathBuf,
    pub place: Place,
    pub window: Option<Window>,
}

/// The words of a command line: those that stand by themselves, and the options with what belongs to them.
#[derive(Default)]
struct Given {
    words: Vec<OsString>,
    out: Option<PathBuf>,
    place: Option<Place>,
    window: Option<Window>,
}

fn bad(why: impl Into<String>) -> Trouble {
    Trouble::Bad(format!("{}; oboe help says how it is called", why.into()))
}

/// What the arguments ask for.
pub fn read(arguments: impl Iterator<Item = OsString>) -> Result<Request, Trouble> {
    let mut given = Given::default();
    let mut rest = arguments;
    while let Some(word) = rest.next() {
        given.take(word, &mut rest)?;
    }
    let Some(command) = given.words.first() else {
        return Err(bad("no command is named"));
    };
    let command = command.to_string_lossy().into_owned();
    given.words.remove(0);
    given.request(&command)
}

impl Given {
    /// Takes a word, and what belongs to it if it is an option.
    fn take(&mut self, word: OsString, rest: &mut impl Iterator<Item = OsString>) -> Result<(), Trouble> {
        let twice = match word.to_str() {
            Some("-o") => self.out.replace(PathBuf::from(rest.next().ok_or_else(|| bad("-o names no file"))?)).is_some(),
            Some("--cells") => {
                let [dy, dx] = numbers("--cells", rest, whole)?;
                self.place.replace(Place::Cells { dy, dx }).is_some()
            }
            Some("--ground") => {
                let [north1, east1, cell1, north2, east2, cell2] = numbers("--ground", rest, ground)?;
                let first = Ground { north: north1, east: east1, cell: cell1 };
                let second = Ground { north: north2, east: east2, cell: cell2 };
                self.place.replace(Place::OnGround { first, second }).is_some()
            }
            Some("--window") => {
                let [wy, wx, size] = numbers("--window", rest, whole)?;
                self.window.replace(Window { wy, wx, size: size_of(size)? }).is_some()
            }
            Some(option) if option.starts_with('-') && i64::from_str(option).is_err() => {
                return Err(bad(format!("{option} is no option")));
            }
            _ => {
                self.words.push(word);
                return Ok(());
            }
        };
        if twice {
            return Err(bad("a place, a window or an output is given twice"));
        }
        Ok(())
    }

    /// The request that a command makes of what was given with it.
    fn request(self, command: &str) -> Result<Request, Trouble> {
        match (command, self.words.len()) {
            ("overlay", _) => self.laying().map(|(laying, out)| Request::Overlay(laying, out)),
            ("show", 3) => {
                let (laying, out) = self.laying()?;
                Ok(Request::ShowOverlay(laying, drawn(out)?))
            }
            ("show", _) => {
                let ([map], out) = self.only("MAP")?;
                Ok(Request::ShowMap(map.into(), drawn(out)?))
            }
            ("window", _) => {
                let ([map, wy, wx, size], out) = self.only("MAP, WY, WX and SIZE")?;
                let window = Window { wy: whole(&wy)?, wx: whole(&wx)?, size: size_of(whole(&size)?)? };
                Ok(Request::Window(map.into(), window, out))
            }
            ("check", _) => {
                let ([map], out) = self.only("MAP")?;
                none(out)?;
                Ok(Request::Check(map.into()))
            }
            ("lookup", _) => {
                let ([map, row, column], out) = self.only("MAP, ROW and COLUMN")?;
                none(out)?;
                Ok(Request::Lookup(map.into(), Cell { row: whole(&row)?, column: whole(&column)? }))
            }
            ("list", _) => self.conversion(|kind| kind == Kind::List, ".oboe"),
            ("raster", _) => self.conversion(|kind| kind != Kind::List, ".pbm, .pgm or .png"),
            ("help", _) => {
                let ([], out) = self.only("no words")?;
                none(out)?;
                Ok(Request::Help)
            }
            _ => Err(bad(format!("there is no command {command}"))),
        }
    }

    /// Exactly so many words, and perhaps an output; neither a place nor a window.
    fn only<const N: usize>(self, wanted: &str) -> Result<([OsString; N], Option<Output>), Trouble> {
        if self.place.is_some() || self.window.is_some() {
            return Err(bad("--cells, --ground and --window belong to two maps"));
        }
        let words = self.words.try_into().map_err(|_| bad(format!("{wanted} are to be given, and nothing else")))?;
        Ok((words, self.out.map(Output::named).transpose()?))
    }

    /// Two maps under an operation, and perhaps an output.
    fn laying(self) -> Result<(Laying, Option<Output>), Trouble> {
        let words: Result<[OsString; 3], _> = self.words.try_into();
        let [operation, first, second] =
            words.map_err(|_| bad("OPERATION, FIRST and SECOND are to be given, and nothing else"))?;
        let operation = match operation.to_str() {
            Some("intersection") => Operation::Intersection,
            Some("union") => Operation::Union,
            Some("difference") => Operation::Difference,
            _ => return Err(bad(format!("{} is neither intersection, union nor difference", operation.to_string_lossy()))),
        };
        let place = self.place.ok_or_else(|| bad("--cells or --ground is to say where the second map lies"))?;
        let laying = Laying { operation, first: first.into(), second: second.into(), place, window: self.window };
        Ok((laying, self.out.map(Output::named).transpose()?))
    }

    /// A map to be written in another way, to an output of some kinds.
    fn conversion(self, fits: impl FnOnce(Kind) -> bool, endings: &str) -> Result<Request, Trouble> {
        let ([map], out) = self.only("MAP and -o OUT")?;
        match out {
            Some(out) if fits(out.kind) => Ok(Request::Convert(map.into(), out)),
            _ => Err(bad(format!("-o is to name a file that ends in {endings}"))),
        }
    }
}

/// An output that is to hold a drawing.
fn drawn(out: Option<Output>) -> Result<Option<Output>, Trouble> {
    match out {
        Some(out) if out.kind != Kind::Png => Err(bad("a drawing's file ends in .png")),
        _ => Ok(out),
    }
}

/// No output, where there is nothing to write.
fn none(out: Option<Output>) -> Result<(), Trouble> {
    match out {
        Some(_) => Err(bad("there is nothing to write to a file")),
        None => Ok(()),
    }
}

/// The numbers that belong to an option.
fn numbers<T: Copy + Default, const N: usize>(
    option: &str,
    rest: &mut impl Iterator<Item = OsString>,
    read: impl Fn(&OsString) -> Result<T, Trouble>,
) -> Result<[T; N], Trouble> {
    let mut numbers = [T::default(); N];
    for number in &mut numbers {
        *number = read(&rest.next().ok_or_else(|| bad(format!("{option} is to have {N} numbers")))?)?;
    }
    Ok(numbers)
}

/// A whole number.
fn whole(word: &OsString) -> Result<i64, Trouble> {
    let number = word.to_str().and_then(|text| text.parse().ok());
    number.ok_or_else(|| bad(format!("{} is no whole number of 64 bits", word.to_string_lossy())))
}

/// A size, which has no sign.
fn size_of(number: i64) -> Result<u64, Trouble> {
    u64::try_from(number).map_err(|_| bad(format!("the size {number} is below 0")))
}

/// A ground number.
fn ground(word: &OsString) -> Result<f64, Trouble> {
    let number = word.to_str().and_then(decimal::read);
    number.ok_or_else(|| bad(format!("{} is no plain decimal number that can be kept exactly", word.to_string_lossy())))
}
