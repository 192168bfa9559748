//! What is measured: each call of the product beside its rivals, whose answers must be the same.

use crate::leaf;
use crate::maps::{raster, Pair};
use crate::painter;
use crate::plain::{decode, encode, Encoder, Rasters};
use crate::timing::{race, Times};
use oboeridge::{Map, Operation, Shift, Window};

/// A difference between two rivals' answers, by where it was seen.
pub type Outcome<Answer> = Result<Answer, String>;

/// A map with its raster.
pub struct Drawn {
    pub size: u64,
    pub cells: Vec<u8>,
    pub list: Vec<u64>,
}

impl Drawn {
    pub fn map(&self) -> Map<'_> {
        Map { size: self.size, list: &self.list }
    }
}

/// The two maps of a pair, of the size.
pub fn drawn(pair: &Pair, size: u64) -> [Drawn; 2] {
    pair.kinds.map(|kind| {
        let cells = raster(kind, size);
        let mut list = Vec::new();
        encode(Encoder::Words, size, &cells, &mut list);
        Drawn { size, cells, list }
    })
}

/// What is done with two maps at a shift: an operation, or the window of the first that begins at the shift.
#[derive(Clone, Copy)]
pub enum Task {
    Overlay(Operation),
    Window,
}

pub const TASKS: [(&str, Task); 4] = [
    ("intersection", Task::Overlay(Operation::Intersection)),
    ("union", Task::Overlay(Operation::Union)),
    ("difference", Task::Overlay(Operation::Difference)),
    ("window", Task::Window),
];

/// A task with its maps and its shift.
#[derive(Clone, Copy)]
struct Job<'a> {
    task: Task,
    maps: [Map<'a>; 2],
    shift: Shift,
}

impl Job<'_> {
    /// The first map's own square, or the window that the task asks for.
    fn frame(&self) -> Window {
        let size = self.maps[0].size;
        match self.task {
            Task::Overlay(_) => Window { wy: 0, wx: 0, size },
            Task::Window => Window { wy: self.shift.dy, wx: self.shift.dx, size },
        }
    }

    /// The leaves that the product writes.
    fn product(&self, out: &mut [u64]) -> Option<usize> {
        let leaves = match self.task {
            Task::Overlay(operation) => oboeridge::overlay(operation, self.maps[0], self.maps[1], self.shift, None, out),
            Task::Window => oboeridge::window(self.maps[0], self.frame(), out),
        };
        leaves.ok().map(|leaves| leaves as usize)
    }

    /// The leaves that the painter without proofs writes.
    fn by_hand(&self, out: &mut [u64]) -> Option<usize> {
        let leaves = match self.task {
            Task::Overlay(operation) => painter::overlay(operation, self.maps, self.shift, self.frame(), out),
            Task::Window => painter::window(self.maps[0], self.frame(), out),
        };
        leaves.ok()
    }

    /// The leaves that the raster route makes.
    fn by_raster(&self, encoder: Encoder, rasters: &mut Rasters) -> Option<usize> {
        let made = match self.task {
            Task::Overlay(operation) => rasters.overlay(encoder, operation, self.maps, self.shift, self.frame()),
            Task::Window => rasters.window(encoder, self.maps[0], self.frame()),
        };
        made.ok().map(|()| rasters.list.len())
    }
}

/// The rivals of an overlay, in the order in which they are timed.
pub const LENT: usize = 0;
pub const EXACT: usize = 1;
pub const BY_HAND: usize = 2;
pub const BY_RASTER: usize = 3;
pub const BY_WORDS: usize = 4;

/// The memory that the rivals work in, kept from one measure to the next.
pub struct Memory {
    pub lent: Vec<u64>,
    by_hand: Vec<u64>,
    by_raster: Rasters,
    by_words: Rasters,
    cells: [Vec<u8>; 2],
}

impl Memory {
    /// Memory for maps up to a size.
    pub fn new(size: u64) -> Memory {
        let words = leaf::area(size) as usize;
        Memory {
            lent: vec![0; words],
            by_hand: vec![0; words],
            by_raster: Rasters::new(size),
            by_words: Rasters::new(size),
            cells: [vec![0; words], vec![0; words]],
        }
    }
}

/// The leaves of a task's result, and the times of its rivals.
pub fn overlay(rounds: usize, maps: [&Drawn; 2], task: Task, shift: Shift, memory: &mut Memory) -> Outcome<(usize, Times)> {
    let job = Job { task, maps: maps.map(Drawn::map), shift };
    let Memory { lent, by_hand, by_raster, by_words, .. } = memory;
    let lent = &mut lent[..leaf::area(maps[0].size) as usize];
    let leaves = job.product(lent).ok_or("the product refuses an overlay")?;
    let mut exact = vec![0; leaves];
    let mut counts = [None; 5];
    let [a, b, c, d, e] = &mut counts;
    let times = race(
        rounds,
        &mut [
            &mut || *a = job.product(lent),
            &mut || *b = job.product(&mut exact),
            &mut || *c = job.by_hand(by_hand),
            &mut || *d = job.by_raster(Encoder::Quarters, by_raster),
            &mut || *e = job.by_raster(Encoder::Words, by_words),
        ],
    );
    let lists = [&lent[..leaves], &by_hand[..leaves], &by_raster.list, &by_words.list];
    if counts != [Some(leaves); 5] || lists.iter().any(|&list| list != exact) {
        return Err("the rivals' overlays differ".into());
    }
    Ok((leaves, times))
}

/// The times of the check of a list: the product's, the plain one's.
pub fn check(rounds: usize, drawn: &Drawn) -> Outcome<Times> {
    let mut counts = [0; 2];
    let [a, b] = &mut counts;
    let times = race(
        rounds,
        &mut [&mut || *a = oboeridge::check(drawn.map()).unwrap_or(0) as usize, &mut || {
            *b = leaf::check(drawn.size, &drawn.list).unwrap_or(0)
        }],
    );
    if counts != [drawn.list.len(); 2] {
        return Err("the rivals' checks differ".into());
    }
    Ok(times)
}

/// The times of raster to list: the product's with 4^n words lent and with exact room, the encoder's by quarters and by words.
pub fn to_list(rounds: usize, drawn: &Drawn, memory: &mut Memory) -> Outcome<Times> {
    let Memory { lent, by_raster, by_words, .. } = memory;
    let (size, cells, leaves) = (drawn.size, &drawn.cells, drawn.list.len());
    let lent = &mut lent[..cells.len()];
    let mut exact = vec![0; leaves];
    let mut counts = [0; 2];
    let [a, b] = &mut counts;
    let times = race(
        rounds,
        &mut [
            &mut || *a = oboeridge::to_list(size, cells, lent).unwrap_or(0) as usize,
            &mut || *b = oboeridge::to_list(size, cells, &mut exact).unwrap_or(0) as usize,
            &mut || encode(Encoder::Quarters, size, cells, &mut by_raster.list),
            &mut || encode(Encoder::Words, size, cells, &mut by_words.list),
        ],
    );
    let lists = [&lent[..leaves], &exact, &by_raster.list, &by_words.list];
    if counts != [leaves; 2] || lists.iter().any(|&list| list != drawn.list) {
        return Err("the rivals' lists of a raster differ".into());
    }
    Ok(times)
}

/// The times of list to raster: the product's, the plain decoder's.
pub fn to_raster(rounds: usize, drawn: &Drawn, memory: &mut Memory) -> Outcome<Times> {
    let [a, b] = &mut memory.cells;
    let (a, b) = (&mut a[..drawn.cells.len()], &mut b[..drawn.cells.len()]);
    let mut done = [false; 2];
    let [first, second] = &mut done;
    let times = race(
        rounds,
        &mut [&mut || *first = oboeridge::to_raster(drawn.map(), a).is_ok(), &mut || *second = decode(drawn.map(), b).is_ok()],
    );
    if done != [true; 2] || a != drawn.cells || b != drawn.cells {
        return Err("the rivals' rasters differ".into());
    }
    Ok(times)
}
