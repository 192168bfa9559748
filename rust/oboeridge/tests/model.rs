//! The product is held to the independent raster program: on random cases of all calls, from a fixed seed and a fresh one, and on all
//! small cases. `OBOERIDGE_SEED` names the fresh seed; the clock does where it is not set.

use std::env;
use std::io;
use std::time::{SystemTime, UNIX_EPOCH};

use oboeridge::{Block, Map, Refusal};
use raster::answer::Answer;
use raster::cases::{compare_cases, compare_small};
use raster::product::{Cell, Direction, Ground, Operation, Product, Shift, Window};

/// How many random cases each seed draws.
const CASES: usize = 200_000;

struct Proved;

fn answer<T>(result: Result<T, Refusal>) -> Answer<T> {
    match result {
        Ok(value) => Answer::Gives(value),
        Err(Refusal { rule, number }) => Answer::Refuses { rule, number },
    }
}

fn place(place: oboeridge::Place) -> Answer<Shift> {
    answer(oboeridge::place(place).map(|oboeridge::Shift { dy, dx }| Shift { dy, dx }))
}

fn ground(Ground { north, east, cell }: Ground) -> oboeridge::Ground {
    oboeridge::Ground { north, east, cell }
}

fn seen(Window { wy, wx, size }: Window) -> oboeridge::Window {
    oboeridge::Window { wy, wx, size }
}

/// The directions and the operations are told by their names, so that the two sides may number them as they like.
fn direction(direction: Direction) -> oboeridge::Direction {
    use oboeridge::Direction as D;
    match direction {
        Direction::North => D::North,
        Direction::NorthEast => D::NorthEast,
        Direction::East => D::East,
        Direction::SouthEast => D::SouthEast,
        Direction::South => D::South,
        Direction::SouthWest => D::SouthWest,
        Direction::West => D::West,
        Direction::NorthWest => D::NorthWest,
    }
}

fn operation(operation: Operation) -> oboeridge::Operation {
    match operation {
        Operation::Intersection => oboeridge::Operation::Intersection,
        Operation::Union => oboeridge::Operation::Union,
        Operation::Difference => oboeridge::Operation::Difference,
    }
}

impl Product for Proved {
    fn check(&self, size: u64, list: &[u64]) -> Answer<u64> {
        answer(oboeridge::check(Map { size, list }))
    }

    fn lookup(&self, size: u64, list: &[u64], Cell { row, column }: Cell) -> Answer<u64> {
        answer(oboeridge::lookup(Map { size, list }, oboeridge::Cell { row, column }).map(u64::from))
    }

    fn neighbour(&self, n: u64, code: u64, level: u64, towards: Direction) -> Answer<u64> {
        answer(oboeridge::neighbour(n, Block { code, level }, direction(towards)))
    }

    fn place_cells(&self, dy: i64, dx: i64) -> Answer<Shift> {
        place(oboeridge::Place::Cells { dy, dx })
    }

    fn place_ground(&self, first: Ground, second: Ground) -> Answer<Shift> {
        place(oboeridge::Place::OnGround { first: ground(first), second: ground(second) })
    }

    fn window(&self, size: u64, list: &[u64], window: Window, out: &mut [u64]) -> Answer<u64> {
        answer(oboeridge::window(Map { size, list }, seen(window), out))
    }

    fn overlay(
        &self,
        by: Operation,
        n: u64,
        first: &[u64],
        m: u64,
        second: &[u64],
        Shift { dy, dx }: Shift,
        window: Option<Window>,
        out: &mut [u64],
    ) -> Answer<u64> {
        let (first, second) = (Map { size: n, list: first }, Map { size: m, list: second });
        answer(oboeridge::overlay(operation(by), first, second, oboeridge::Shift { dy, dx }, window.map(seen), out))
    }

    fn to_list(&self, n: u64, cells: &[u8], out: &mut [u64]) -> Answer<u64> {
        answer(oboeridge::to_list(n, cells, out))
    }

    fn to_raster(&self, size: u64, list: &[u64], cells: &mut [u8]) -> Answer<u64> {
        answer(oboeridge::to_raster(Map { size, list }, cells))
    }
}

fn agrees(seed: u64) {
    let tally = compare_cases(&Proved, seed, CASES, &mut io::stderr(), false).expect("a report can be written");
    assert_eq!((tally.passed, tally.failed), (CASES, 0), "seed {seed}");
}

#[test]
fn the_product_agrees_on_the_fixed_cases() {
    agrees(1);
}

#[test]
fn the_product_agrees_on_fresh_cases() {
    let clock = || SystemTime::now().duration_since(UNIX_EPOCH).expect("a clock past 1970").as_secs();
    agrees(env::var("OBOERIDGE_SEED").map_or_else(|_| clock(), |seed| seed.parse().expect("a number for a seed")));
}

#[test]
fn the_product_agrees_on_all_small_cases() {
    let tally = compare_small(&Proved, &mut io::stderr()).expect("a report can be written");
    assert!(tally.is_good());
}

#[test]
fn a_refusal_is_a_sentence_with_its_numbers() {
    let error = oboeridge::check(Map { size: 1, list: &[0, 65_536, 131_072] }).expect_err("the list stops short");
    assert_eq!(error.to_string(), "the first map's list is wrong at entry 3, or stops short there (refusal 3, number 3)");
    let error = oboeridge::place(oboeridge::Place::Cells { dy: 0, dx: 65_537 }).expect_err("it is too far");
    assert_eq!(error.to_string(), "the second map lies too many columns away: more than 65,536 (refusal 2, number 1)");
}
