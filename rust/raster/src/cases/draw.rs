//! Random cases: every call, most of them good, many with faults, some with several.

use super::case::{Case, Given};
use super::{faults, grounds, lists, places};
use crate::answer::{rule, Answer};
use crate::generator::Generator;
use crate::model::word::cells;
use crate::model::{tiling, Model};
use crate::product::{Direction, Operation, Shift, Window, LARGEST_MAP_SIZE};

/// One case in so many is of this size. The model takes a while over it.
const LARGE: u64 = 10;
const LARGE_EVERY: usize = 5_000;

/// One case in so many is of the largest size, and no more than this number in all.
const LARGEST_EVERY: usize = 60_000;
const LARGEST_COUNT: usize = 3;

/// The size to which a call may be lent a word for each cell.
const ROOMY_SIZE: u64 = 8;

/// Draws a case in which no map or window that is painted is above this size.
type Call = fn(u64, &mut Generator) -> Case;

/// The calls, those with more to go wrong more often.
const CALLS: [Call; 16] = [
    check,
    lookup,
    lookup,
    neighbour,
    place_cells,
    place_ground,
    place_ground,
    window,
    window,
    window,
    overlay,
    overlay,
    overlay,
    overlay,
    to_list,
    to_raster,
];

/// How many faults a case gets. Two and three test the order of the checks.
const FAULTS: [usize; 12] = [0, 0, 0, 0, 0, 0, 1, 1, 2, 2, 2, 3];

/// The case of this number in a run.
pub fn case(number: usize, generator: &mut Generator) -> Case {
    let mut case = match largest_size(number, generator) {
        LARGEST_MAP_SIZE => large(number / LARGEST_EVERY, LARGEST_MAP_SIZE, generator),
        LARGE => large(number / LARGE_EVERY, LARGE, generator),
        largest => everyday(largest, generator),
    };
    lend_space(&mut case, generator);
    case
}

/// A case in which nothing above this size is painted, with faults or without.
fn everyday(largest: u64, generator: &mut Generator) -> Case {
    let mut case = generator.pick(&CALLS)(largest, generator);
    for _ in 0..generator.pick(&FAULTS) {
        faults::spoil(&mut case, generator);
    }
    if generator.one_in(40) {
        faults::ask_for_largest(&mut case, generator);
    }
    case
}

/// A case of about this size, without faults and with much to see. The calls come by turns, so that none is left to chance.
fn large(turn: usize, size: u64, generator: &mut Generator) -> Case {
    let (n, m) = (size, size - generator.below(3) as u64);
    let list = Given(lists::fine_tiling(n, generator));
    match turn % 4 {
        0 => {
            let shift = places::near_shift(n, m, generator);
            let (operation, window) = (generator.pick(&Operation::ALL), Some(places::near_window(n, n, generator)));
            let second = Given(lists::fine_tiling(m, generator));
            Case::Overlay { operation, n, first: list, m, second, shift, window, space: 0 }
        }
        1 => Case::Window { n, list, window: places::near_window(m, n, generator), space: 0 },
        2 => Case::ToList { n, cells: Given(tiling::painted(n as u32, &list).cells), space: 0 },
        _ => Case::ToRaster { n, list, length: cells(n as u32) as usize },
    }
}

/// The size that no map or window of a case is above, if it is to be painted.
fn largest_size(number: usize, generator: &mut Generator) -> u64 {
    let turn = number + 1;
    if turn.is_multiple_of(LARGEST_EVERY) && turn / LARGEST_EVERY <= LARGEST_COUNT {
        return LARGEST_MAP_SIZE;
    }
    if turn.is_multiple_of(LARGE_EVERY) {
        return LARGE;
    }
    match generator.below(100) {
        0..=2 => 8,
        3..=17 => 6,
        _ => 4,
    }
}

/// A size up to the largest. The larger of two draws is taken, since small maps have little in them.
fn size(largest: u64, generator: &mut Generator) -> u64 {
    let draws = largest as usize + 1;
    generator.below(draws).max(generator.below(draws)) as u64
}

/// A size and its list where nothing is painted: at times of any size, but then the list is not long.
fn unpainted(largest: u64, generator: &mut Generator) -> (u64, Given<u64>) {
    if generator.one_in(4) {
        let n = generator.below(LARGEST_MAP_SIZE as usize + 1) as u64;
        (n, Given(lists::coarse_tiling(n, generator)))
    } else {
        let n = size(largest, generator);
        (n, Given(lists::tiling(n, generator)))
    }
}

/// A check of a list.
fn check(largest: u64, generator: &mut Generator) -> Case {
    let (n, list) = unpainted(largest, generator);
    Case::Check { n, list }
}

/// A lookup of a cell of the square.
fn lookup(largest: u64, generator: &mut Generator) -> Case {
    let (n, list) = unpainted(largest, generator);
    Case::Lookup { n, list, cell: places::cell(n, generator) }
}

/// A neighbour of a block of any square.
fn neighbour(_: u64, generator: &mut Generator) -> Case {
    let n = generator.below(LARGEST_MAP_SIZE as usize + 1) as u64;
    let (level, code) = places::block(n, generator);
    Case::Neighbour { n, code, level, direction: generator.pick(&Direction::ALL) }
}

/// A place in cells.
fn place_cells(largest: u64, generator: &mut Generator) -> Case {
    let Shift { dy, dx } = places::shift(largest, largest, generator);
    Case::PlaceCells { dy, dx }
}

/// A place on the ground.
fn place_ground(_: u64, generator: &mut Generator) -> Case {
    let [first, second] = grounds::references(generator);
    Case::PlaceGround { first, second }
}

/// A window of one map.
fn window(largest: u64, generator: &mut Generator) -> Case {
    let (n, other) = (size(largest, generator), size(largest, generator));
    let size = generator.pick(&[n, other, other]);
    let window = places::window(size, n, n, Shift { dy: 0, dx: 0 }, generator);
    Case::Window { n, list: Given(lists::tiling(n, generator)), window, space: 0 }
}

/// An operation on two maps, with a window or without.
fn overlay(largest: u64, generator: &mut Generator) -> Case {
    let (n, m, size) = (size(largest, generator), size(largest, generator), size(largest, generator));
    let shift = places::shift(n, m, generator);
    let window = (!generator.one_in(3)).then(|| places::window(size, n, m, shift, generator));
    let (first, second) = (Given(lists::tiling(n, generator)), Given(lists::tiling(m, generator)));
    Case::Overlay { operation: generator.pick(&Operation::ALL), n, first, m, second, shift, window, space: 0 }
}

/// A raster that becomes a list.
fn to_list(largest: u64, generator: &mut Generator) -> Case {
    let n = size(largest, generator);
    Case::ToList { n, cells: Given(lists::raster(n, generator)), space: 0 }
}

/// A list that becomes a raster.
fn to_raster(largest: u64, generator: &mut Generator) -> Case {
    let n = size(largest, generator);
    Case::ToRaster { n, list: Given(lists::tiling(n, generator)), length: cells(n as u32) as usize }
}

/// Lends space for the result: none, too little, just enough, or more.
fn lend_space(case: &mut Case, generator: &mut Generator) {
    // No list is empty, so where the model is lent no space it tells how much is needed, unless it refuses for another reason.
    let needed = match case.ask(&Model, &mut case.memory()) {
        Answer::Refuses { rule: rule::SPACE, number } => number as usize,
        _ => generator.pick(&[1, 5, 64]),
    };
    let drawn = if result_size(case) <= ROOMY_SIZE {
        let roomy = cells(result_size(case) as u32) as usize;
        generator.pick(&[0, 1, needed - 1, needed - 1, needed, needed, needed, needed, needed + 1, needed + 20, roomy, roomy])
    } else {
        generator.pick(&[needed - 1, needed, needed, needed + 1000])
    };
    if let Some(space) = case.space() {
        *space = drawn;
    }
}

/// The size of the result, if the call writes a list.
fn result_size(case: &Case) -> u64 {
    match case {
        Case::Window { window: Window { size, .. }, .. } => *size,
        Case::Overlay { n, window, .. } => window.map_or(*n, |window| window.size),
        Case::ToList { n, .. } => *n,
        _ => 0,
    }
}

#[cfg(test)]
mod tests {
    use super::*;
    use std::collections::BTreeMap;

    /// The calls and what each may answer: it gives something, or refuses by a rule, with a number where a rule has several.
    const ANSWERS: [(&str, &str); 9] = [
        ("Check", "gives;1 0;3"),
        ("Lookup", "gives;1 0;3;9"),
        ("Neighbour", "gives;1 0;12;9"),
        ("PlaceCells", "gives;2 0;2 1"),
        ("PlaceGround", "gives;6 0;6 1;6 2;6 3;6 4;6 5;7;8 0;8 1;2 0;2 1"),
        ("Window", "gives;1 0;1 2;2 2;2 3;3;5"),
        ("Overlay", "gives;1 0;1 1;1 2;2 0;2 1;2 2;2 3;3;4;5"),
        ("ToList", "gives;1 0;10;5"),
        ("ToRaster", "gives;1 0;10;3"),
    ];

    /// What the model answers to a case, in the words of the table.
    fn answer(case: &Case) -> String {
        match case.ask(&Model, &mut case.memory()) {
            Answer::Gives(_) => "gives".to_string(),
            Answer::Refuses { rule: rule @ (rule::SIZE | rule::OFFSET | rule::GROUND | rule::WHOLE_CELLS), number } => {
                format!("{rule} {number}")
            }
            Answer::Refuses { rule, .. } => rule.to_string(),
        }
    }

    #[test]
    fn every_answer_of_every_call_has_its_share() {
        let mut generator = Generator::new(6);
        let mut shares: BTreeMap<(String, String), usize> = BTreeMap::new();
        for number in 0..20_000 {
            let case = case(number, &mut generator);
            let written = format!("{case:?}");
            let call = written.split(' ').next().unwrap_or_default();
            *shares.entry((call.to_string(), answer(&case))).or_default() += 1;
        }
        let mut expected = 0;
        for (call, answers) in ANSWERS {
            for answer in answers.split(';') {
                let share = shares.get(&(call.to_string(), answer.to_string())).copied().unwrap_or_default();
                assert!(share >= 30, "{share} of {call}, {answer}");
                expected += 1;
            }
        }
        assert_eq!(shares.len(), expected, "{shares:?}");
    }

    #[test]
    fn few_cases_are_large() {
        let mut generator = Generator::new(8);
        let largest: Vec<u64> = (0..200_000).map(|number| largest_size(number, &mut generator)).collect();
        let count = |size: u64| largest.iter().filter(|largest| **largest == size).count();
        assert_eq!((count(12), count(10)), (3, 37));
        assert!(count(4) > 150_000 && count(6) > 20_000 && count(8) > 4_000);
    }
}
