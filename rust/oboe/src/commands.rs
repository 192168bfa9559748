//! The commands, over the library's calls.

use crate::arguments::{Laying, Request};
use crate::drawing::Panel;
use crate::fault::explained;
use crate::files::Output;
use crate::map::{self, colour_line, listed, Owned};
use crate::trouble::Trouble;
use crate::{placement, progress, sheet, terminal};
use oboeridge::{Cell, Operation, Shift, Window};
use std::io::{self, Write};
use std::path::{Path, PathBuf};

/// What `oboe help` prints: the calls, as docs/COMMAND.md has them.
const HELP: &str = include_str!("help.txt");

/// Carries a request out.
pub fn run(request: Request) -> Result<(), Trouble> {
    match request {
        Request::Overlay(laying, out) => overlay(&laying, out),
        Request::Window(path, window, out) => window_of(&path, window, out),
        Request::Check(path) => check(&path),
        Request::Lookup(path, cell) => lookup(&path, cell),
        Request::Convert(path, out) => convert(&path, &out),
        Request::ShowMap(path, out) => show_map(&path, out),
        Request::ShowOverlay(laying, out) => show_overlay(&laying, out),
        Request::Help => Ok(write!(io::stdout(), "{HELP}")?),
    }
}

fn say(line: &str) -> Result<(), Trouble> {
    Ok(writeln!(io::stdout(), "{line}")?)
}

/// A result: written if it is to be, then said how long its list is and how many cells each colour has.
fn give(name: &str, result: &Owned, out: Option<Output>) -> Result<(), Trouble> {
    if let Some(out) = out {
        out.write(result)?;
    }
    say(&format!("{name}: {}", result.leaves()))?;
    result.cells_by_colour().into_iter().try_for_each(|(colour, cells)| say(&format!("  {}", colour_line(colour, cells))))
}

/// Two maps that were read, and where the second one lies.
struct Laid {
    first: Owned,
    second: Owned,
    shift: Shift,
}

impl Laid {
    /// Reads two maps, finds where the second lies, and says so; warns if it lies elsewhere altogether.
    fn read(laying: &Laying) -> Result<Laid, Trouble> {
        let (first, second) = (map::read(&laying.first)?, map::read(&laying.second)?);
        let shift = oboeridge::place(laying.place)?;
        // A map of no side is refused by the overlay itself.
        if let (Some(side), Some(second_side)) = (first.side(), second.side()) {
            let shared = placement::shared_cells(side, shift.dy, shift.dx, second_side);
            say(&placement::sentence(side, shift, shared))?;
            if shared == 0 {
                eprintln!("oboe: warning: the two squares do not meet: no cell of the second map lies on the first");
            }
        }
        Ok(Laid { first, second, shift })
    }

    /// The window of the result: the one named, or the first map's own square.
    fn window(&self, laying: &Laying) -> Window {
        laying.window.unwrap_or(Window { wy: 0, wx: 0, size: self.first.size })
    }

    /// The second map laid over the first.
    fn result(&self, laying: &Laying) -> Result<Owned, Trouble> {
        let laid = || {
            listed(self.window(laying).size, |out| {
                oboeridge::overlay(laying.operation, self.first.lent(), self.second.lent(), self.shift, laying.window, out)
            })
        };
        let maps = [(laying.first.as_path(), &self.first), (laying.second.as_path(), &self.second)];
        progress::during("laying the second map over the first", laid).map_err(|refusal| explained(refusal, &maps))
    }

    /// The second map as it lies in the window: its union with a map of one WHITE cell.
    fn second_in_window(&self, window: Window) -> Result<Owned, Trouble> {
        let white = Owned { size: 0, list: vec![0] };
        Ok(listed(window.size, |out| {
            oboeridge::overlay(Operation::Union, white.lent(), self.second.lent(), self.shift, Some(window), out)
        })?)
    }
}

fn overlay(laying: &Laying, out: Option<Output>) -> Result<(), Trouble> {
    let result = Laid::read(laying)?.result(laying)?;
    give(name_of(laying.operation), &result, out)
}

fn window_of(path: &Path, window: Window, out: Option<Output>) -> Result<(), Trouble> {
    let map = map::read(path)?;
    let cut = progress::during("cutting the window", || map.window(window));
    give("window", &cut.map_err(|refusal| explained(refusal, &[(path, &map)]))?, out)
}

fn check(path: &Path) -> Result<(), Trouble> {
    let map = map::read(path)?;
    oboeridge::check(map.lent()).map_err(|refusal| explained(refusal, &[(path, &map)]))?;
    say(&format!("{}: well formed, size {}, {}", path.display(), map.size, map.leaves()))
}

fn lookup(path: &Path, cell: Cell) -> Result<(), Trouble> {
    let map = map::read(path)?;
    let colour = oboeridge::lookup(map.lent(), cell).map_err(|refusal| explained(refusal, &[(path, &map)]))?;
    say(&colour.to_string())
}

fn convert(path: &Path, out: &Output) -> Result<(), Trouble> {
    let map = map::read(path)?;
    let shortest = map.shortest().map_err(|refusal| explained(refusal, &[(path, &map)]))?;
    out.write(&shortest)?;
    say(&format!("{}: {}", out.path.display(), shortest.leaves()))
}

fn show_map(path: &Path, out: Option<Output>) -> Result<(), Trouble> {
    let map = map::read(path)?;
    let panel = Panel::new(file_name(path), &map).map_err(|refusal| explained(refusal, &[(path, &map)]))?;
    draw(&[panel], out)
}

fn show_overlay(laying: &Laying, out: Option<Output>) -> Result<(), Trouble> {
    let laid = Laid::read(laying)?;
    let result = laid.result(laying)?;
    let window = laid.window(laying);
    let panels = [
        Panel::new(file_name(&laying.first), &laid.first.window(window)?)?,
        Panel::new(file_name(&laying.second), &laid.second_in_window(window)?)?,
        Panel::new(name_of(laying.operation).to_string(), &result)?,
    ];
    draw(&panels, out)
}

/// Draws panels in the terminal, and as a picture if one is to be written.
fn draw(panels: &[Panel], out: Option<Output>) -> Result<(), Trouble> {
    if let Some(out) = out {
        let what = format!("drawing {}", out.path.display());
        progress::during(&what, || out.write_bytes(&sheet::png(panels)))?;
    }
    Ok(write!(io::stdout(), "{}", terminal::drawn(panels))?)
}

fn name_of(operation: Operation) -> &'static str {
    match operation {
        Operation::Intersection => "intersection",
        Operation::Union => "union",
        Operation::Difference => "difference",
    }
}

/// The last part of a path, fit to be shown.
fn file_name(path: &Path) -> String {
    let name = path.file_name().map_or_else(|| path.to_path_buf(), PathBuf::from);
    name.to_string_lossy().replace(char::is_control, "?")
}

#[cfg(test)]
mod tests {
    use super::HELP;

    #[test]
    fn the_help_is_that_of_the_document() {
        let document = include_str!("../../../docs/COMMAND.md");
        assert!(HELP.lines().count() > 5);
        HELP.lines().for_each(|line| assert!(document.contains(&format!("\n    {line}\n")), "{line}"));
    }
}
