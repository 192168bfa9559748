//! The model with one mistake.

use raster::answer::{rule, Answer};
use raster::model::word::Leaf;
use raster::model::{tiling, Model};
use raster::product::{Cell, Direction, Ground, Operation, Product, Shift, Window, FARTHEST, LARGEST_MAP_SIZE};

use crate::dense::{self, lacks_only_space, own_square, Map};

/// A mistake that a product could make. Many are those that look right to the paper.
#[derive(Clone, Copy, Debug, PartialEq, Eq)]
pub enum Mistake {
    EastForNorth,
    GroundRounded,
    NegativeZeroRefused,
    CellSidesNotCompared,
    WholeCellsBeforeCellSides,
    LookupRowMinusOneReadsRowZero,
    LookupByColumnAndRow,
    NeighbourBeyondIsTheBlock,
    NeighbourOfUnalignedCode,
    RowMinusOneReadsRowZero,
    BeyondIsNotWhite,
    IntersectionKeepsFirstColour,
    UnionPrefersSecondColour,
    DifferenceKeepsSecondColour,
    ColoursAreBits,
    OffsetsExchanged,
    WindowIgnored,
    WindowOfSecondMap,
    OnlyNorthWestQuarter,
    OutputUnmerged,
    AnyFourMerged,
    NoRoomOffByOne,
    NoRoomBeforeMerging,
    NoRoomNumberIsSpace,
    PositionOffByOne,
    PositionIsLength,
    SpareBitsIgnored,
    EntriesBehindTheEndIgnored,
    ListBeforeOffset,
    SecondListBeforeFirst,
    OffsetBeforeSize,
    WrongAxis,
    WindowSizeIsFirst,
    FarthestRefused,
    LargestSizeRefused,
    RasterByColumns,
    RasterLengthNotChecked,
    ListBeforeRasterLength,
    WritesOnRefusal,
    WritesOnePastCount,
    WritesNothing,
    RefusesAll,
    AlwaysOneLeaf,
}

fn refuses<T>(rule: u64, number: u64) -> Answer<T> {
    Answer::Refuses { rule, number }
}

/// The nearest shift in whole cells.
fn rounded(first: Ground, second: Ground) -> Shift {
    let cells = |distance: f64| (distance / first.cell).round() as i64;
    Shift { dy: cells(first.north - second.north), dx: cells(second.east - first.east) }
}

/// Writes a list as it is, if it has room.
fn copied(list: &[u64], out: &mut [u64]) -> Answer<u64> {
    if list.len() > out.len() {
        return refuses(rule::SPACE, list.len() as u64);
    }
    out[..list.len()].copy_from_slice(list);
    Answer::Gives(list.len() as u64)
}

/// A list in which the first four leaves of one level and colour are one, brothers or not.
fn any_four_merged(list: &[u64]) -> Vec<u64> {
    // All but the codes.
    let are_alike = |four: &[u64]| four.iter().all(|word| word % 65_536 == four[0] % 65_536);
    match list.windows(4).position(are_alike) {
        Some(place) => [&list[..place], &[list[place] + 256], &list[place + 4..]].concat(),
        None => list.to_vec(),
    }
}

/// The mistakes in which offsets or lists are refused too soon.
const EARLY_REFUSALS: [Mistake; 4] =
    [Mistake::ListBeforeOffset, Mistake::SecondListBeforeFirst, Mistake::OffsetBeforeSize, Mistake::FarthestRefused];

/// A product with one mistake.
pub struct Wrong(pub Mistake);

impl Product for Wrong {
    fn check(&self, n: u64, list: &[u64]) -> Answer<u64> {
        self.told(n, list, Model.check(n, &self.read(n, list)))
    }

    fn lookup(&self, n: u64, list: &[u64], cell: Cell) -> Answer<u64> {
        let cell = match self.0 {
            Mistake::LookupRowMinusOneReadsRowZero if cell.row == -1 => Cell { row: 0, ..cell },
            Mistake::LookupByColumnAndRow => Cell { row: cell.column, column: cell.row },
            _ => cell,
        };
        self.told(n, list, Model.lookup(n, &self.read(n, list), cell))
    }

    fn neighbour(&self, n: u64, code: u64, level: u64, direction: Direction) -> Answer<u64> {
        let code = match self.0 {
            Mistake::NeighbourOfUnalignedCode if level <= n.min(LARGEST_MAP_SIZE) => code >> (2 * level) << (2 * level),
            _ => code,
        };
        match (self.0, Model.neighbour(n, code, level, direction)) {
            (Mistake::NeighbourBeyondIsTheBlock, Answer::Refuses { rule: rule::BEYOND, .. }) => Answer::Gives(code),
            (_, answer) => self.told(n, &[], answer),
        }
    }

    fn place_cells(&self, dy: i64, dx: i64) -> Answer<Shift> {
        let right = || Model.place_cells(dy, dx);
        self.refused_too_soon(right, &[], &[dy, dx]).unwrap_or(self.told(0, &[], right()))
    }

    fn place_ground(&self, first: Ground, second: Ground) -> Answer<Shift> {
        let right = Model.place_ground(first, second);
        let with_equal_sides = Model.place_ground(first, Ground { cell: first.cell, ..second });
        match (self.0, right) {
            (Mistake::EastForNorth, Answer::Gives(shift)) => Answer::Gives(Shift { dy: -shift.dy, ..shift }),
            (Mistake::GroundRounded, Answer::Refuses { rule: rule::WHOLE_CELLS, .. }) => Answer::Gives(rounded(first, second)),
            (Mistake::NegativeZeroRefused, Answer::Gives(_)) if first.north.to_bits() == 1 << 63 => refuses(rule::GROUND, 0),
            (Mistake::CellSidesNotCompared, Answer::Refuses { rule: rule::CELL_SIDES, .. }) => with_equal_sides,
            (Mistake::WholeCellsBeforeCellSides, Answer::Refuses { rule: rule::CELL_SIDES, .. }) => match with_equal_sides {
                Answer::Refuses { rule: rule::WHOLE_CELLS, .. } => with_equal_sides,
                _ => right,
            },
            _ => self.told(0, &[], right),
        }
    }

    fn window(&self, n: u64, list: &[u64], window: Window, out: &mut [u64]) -> Answer<u64> {
        let right = || Model.window(n, list, window, &mut []);
        let refusal = self.refused_too_soon(right, &[(n, list)], &[0, 0, window.wy, window.wx]);
        let is_copied = self.0 == Mistake::OutputUnmerged && window == own_square(n) && lacks_only_space(right());
        let answer = refusal.unwrap_or_else(|| {
            let map = (n, &self.read(n, list)[..]);
            let ask = |out: &mut [u64]| if is_copied { copied(list, out) } else { dense::window(self.0, map, window, out) };
            self.written(list, out, ask)
        });
        self.told(n, list, answer)
    }

    fn overlay(
        &self,
        operation: Operation,
        n: u64,
        first: &[u64],
        m: u64,
        second: &[u64],
        shift: Shift,
        window: Option<Window>,
        out: &mut [u64],
    ) -> Answer<u64> {
        let right = || Model.overlay(operation, n, first, m, second, shift, window, &mut []);
        let Window { wy, wx, .. } = window.unwrap_or(own_square(n));
        let refusal = self.refused_too_soon(right, &[(n, first), (m, second)], &[shift.dy, shift.dx, wy, wx]);
        let (shift, window) = match self.0 {
            Mistake::OffsetsExchanged => (Shift { dy: shift.dx, dx: shift.dy }, window),
            Mistake::WindowIgnored => (shift, None),
            Mistake::WindowOfSecondMap => (shift, window.or(Some(own_square(m)))),
            _ => (shift, window),
        };
        let answer = refusal.unwrap_or_else(|| {
            let maps = [(n, &self.read(n, first)[..]), (m, &self.read(m, second)[..])];
            self.written(first, out, |out| dense::overlay(self.0, operation, maps, shift, window, out))
        });
        self.told(n, first, answer)
    }

    fn to_list(&self, n: u64, cells: &[u8], out: &mut [u64]) -> Answer<u64> {
        let cells = match self.0 {
            Mistake::RasterLengthNotChecked if n <= LARGEST_MAP_SIZE => &cells[..cells.len().min(4_usize.pow(n as u32))],
            _ => cells,
        };
        let answer = self.written(&[], out, |out| Model.to_list(n, cells, out));
        self.told(n, &[], answer)
    }

    fn to_raster(&self, n: u64, list: &[u64], cells: &mut [u8]) -> Answer<u64> {
        let answer = Model.to_raster(n, &self.read(n, list), cells);
        match (self.0, answer) {
            (Mistake::RasterByColumns, Answer::Gives(_)) => dense::transpose(cells),
            (Mistake::WritesOnRefusal, Answer::Refuses { .. }) => cells.iter_mut().take(1).for_each(|cell| *cell = 0),
            (Mistake::ListBeforeRasterLength, Answer::Refuses { rule: rule::RASTER, .. }) => {
                if let refusal @ Answer::Refuses { .. } = Model.check(n, list) {
                    return refusal;
                }
            }
            _ => (),
        }
        self.told(n, list, answer)
    }
}

impl Wrong {
    /// The list as this product reads it.
    fn read(&self, n: u64, list: &[u64]) -> Vec<u64> {
        match self.0 {
            Mistake::SpareBitsIgnored => list.iter().map(|word| word & 0x0000_00ff_ffff_ffff).collect(),
            Mistake::EntriesBehindTheEndIgnored if n <= LARGEST_MAP_SIZE => {
                let mut cells = 0;
                let is_before_end = |word: &&u64| {
                    let is_before_end = cells < 1_u128 << (2 * n);
                    cells += 1_u128 << (2 * Leaf::of(**word).level).min(60);
                    is_before_end
                };
                list.iter().take_while(is_before_end).copied().collect()
            }
            _ => list.to_vec(),
        }
    }

    /// The answer as this product tells it.
    fn told<T>(&self, n: u64, list: &[u64], answer: Answer<T>) -> Answer<T> {
        let Answer::Refuses { rule, number } = answer else {
            return match self.0 {
                Mistake::RefusesAll => refuses(rule::SPACE, 0),
                Mistake::LargestSizeRefused if n == LARGEST_MAP_SIZE => refuses(rule::SIZE, 0),
                _ => answer,
            };
        };
        match (self.0, rule) {
            (Mistake::PositionOffByOne, rule::FIRST_LIST) => refuses(rule, number + 1),
            (Mistake::PositionIsLength, rule::FIRST_LIST) => refuses(rule, list.len() as u64),
            (Mistake::WrongAxis, rule::OFFSET) => refuses(rule, number ^ 1),
            (Mistake::WindowSizeIsFirst, rule::SIZE) if number == 2 => refuses(rule, 0),
            _ => answer,
        }
    }

    /// A refusal that this product gives before the right one. The right answer is that of the model when it is lent no space.
    fn refused_too_soon<T>(&self, right: impl Fn() -> Answer<T>, maps: &[Map], offsets: &[i64]) -> Option<Answer<T>> {
        if !EARLY_REFUSALS.contains(&self.0) {
            return None;
        }
        let rule = if let Answer::Refuses { rule, .. } = right() { rule } else { 0 };
        let wrong_list = |place: usize, rule: u64| {
            let (size, list) = maps[place];
            tiling::first_wrong(size as u32, list).map(|number| refuses(rule, number))
        };
        let offset_above = |limit: i64| {
            let place = offsets.iter().position(|offset| !(-limit..=limit).contains(offset));
            place.map(|place| refuses(rule::OFFSET, place as u64))
        };
        match (self.0, rule) {
            (Mistake::ListBeforeOffset, rule::OFFSET) if !maps.is_empty() => wrong_list(0, rule::FIRST_LIST),
            (Mistake::SecondListBeforeFirst, rule::FIRST_LIST) if maps.len() == 2 => wrong_list(1, rule::SECOND_LIST),
            (Mistake::OffsetBeforeSize, rule::SIZE) => offset_above(FARTHEST),
            (Mistake::FarthestRefused, rule) if rule != rule::SIZE => offset_above(FARTHEST - 1),
            _ => None,
        }
    }

    /// The answer of a call that writes to the space lent, as this product writes. The list is what it was made from.
    fn written(&self, list: &[u64], out: &mut [u64], ask: impl Fn(&mut [u64]) -> Answer<u64>) -> Answer<u64> {
        let space = out.len();
        let answer = match self.0 {
            Mistake::NoRoomOffByOne => ask(&mut out[..space.saturating_sub(1)]),
            Mistake::NoRoomBeforeMerging if space < list.len() => match ask(&mut vec![0; space]) {
                Answer::Gives(_) => refuses(rule::SPACE, list.len() as u64),
                answer => answer,
            },
            Mistake::WritesNothing => ask(&mut out.to_vec()),
            _ => ask(out),
        };
        match (self.0, answer) {
            (Mistake::NoRoomNumberIsSpace, Answer::Refuses { rule: rule::SPACE, .. }) => refuses(rule::SPACE, space as u64 + 1),
            (Mistake::WritesOnRefusal, Answer::Refuses { .. }) => {
                out.iter_mut().take(1).for_each(|word| *word = 0);
                answer
            }
            (Mistake::WritesOnePastCount, Answer::Gives(length)) => {
                out.iter_mut().skip(length as usize).take(1).for_each(|word| *word = 0);
                answer
            }
            (Mistake::AlwaysOneLeaf, Answer::Gives(_)) => Answer::Gives(1),
            (Mistake::AnyFourMerged, Answer::Gives(length)) => copied(&any_four_merged(&out[..length as usize]), out),
            _ => answer,
        }
    }
}
