//! The order of the checks: calls in which everything is wrong, mended one fault after the other.

use raster::answer::Answer::{self, Gives, Refuses};
use raster::model::Model;
use raster::product::{Cell, Direction, Ground, Operation, Product, Shift, Window};

/// A size, an offset and a list that are refused, and good ones. The bad list is wrong at its second entry for any size.
const BAD_SIZE: u64 = 13;
const BAD_OFFSET: i64 = 65_537;
const BAD_LIST: [u64; 2] = [0, u64::MAX];
const GOOD_LIST: [u64; 4] = [1, 65_538, 131_075, 196_612];

/// What stood in the space lent.
const BEFORE: u64 = 77;

fn refuses<T>(rule: u64, number: u64) -> Answer<T> {
    Refuses { rule, number }
}

/// Asks with the first mended faults left out, one more each time, and compares with what is expected each time.
fn mend<T: std::fmt::Debug + PartialEq>(expected: &[Answer<T>], ask: impl Fn(usize) -> Answer<T>) {
    for (mended, expected) in expected.iter().enumerate() {
        assert_eq!(&ask(mended), expected, "{mended} mended");
    }
}

/// The good argument once its fault is mended, the bad one before.
fn after<T>(mended: usize, fault: usize, good: T, bad: T) -> T {
    if mended > fault {
        good
    } else {
        bad
    }
}

/// Asks with so much space, of which nothing may change on a refusal, nor behind the list.
fn guarded(space: usize, ask: impl FnOnce(&mut [u64]) -> Answer<u64>) -> Answer<u64> {
    let mut out = vec![BEFORE; space];
    let answer = ask(&mut out);
    let written = if let Gives(length) = answer { length as usize } else { 0 };
    assert!(out[written..].iter().all(|word| *word == BEFORE));
    answer
}

#[test]
fn an_overlay_is_refused_in_the_order_of_the_table() {
    let expected = [
        refuses(1, 0),
        refuses(1, 1),
        refuses(1, 2),
        refuses(2, 0),
        refuses(2, 1),
        refuses(2, 2),
        refuses(2, 3),
        refuses(3, 1),
        refuses(4, 1),
        refuses(5, 4),
        Gives(4),
    ];
    mend(&expected, |mended| {
        let (n, m) = (after(mended, 0, 1, BAD_SIZE), after(mended, 1, 1, BAD_SIZE));
        let shift = Shift { dy: after(mended, 3, 0, BAD_OFFSET), dx: after(mended, 4, 0, -BAD_OFFSET) };
        let (wy, wx) = (after(mended, 5, 0, i64::MIN), after(mended, 6, 0, i64::MAX));
        let window = Window { wy, wx, size: after(mended, 2, 1, u64::MAX) };
        let first = after(mended, 7, &GOOD_LIST[..], &BAD_LIST);
        let second = after(mended, 8, &GOOD_LIST[..], &BAD_LIST);
        let space = after(mended, 9, 5, 3);
        guarded(space, |out| Model.overlay(Operation::Union, n, first, m, second, shift, Some(window), out))
    });
}

#[test]
fn an_overlay_without_a_window_has_that_of_its_first_map() {
    let (shift, list) = (Shift { dy: 0, dx: 1 }, [512]);
    let overlay = |n, first: &[u64]| guarded(16, |out| Model.overlay(Operation::Union, n, first, 2, &list, shift, None, out));
    assert_eq!(overlay(1, &GOOD_LIST), Gives(4));
    assert_eq!(overlay(BAD_SIZE, &GOOD_LIST), refuses(1, 0));
}

#[test]
fn a_window_is_refused_in_the_order_of_the_table() {
    let expected = [refuses(1, 0), refuses(1, 2), refuses(2, 2), refuses(2, 3), refuses(3, 1), refuses(5, 4), Gives(4)];
    mend(&expected, |mended| {
        let (wy, wx) = (after(mended, 2, 0, BAD_OFFSET), after(mended, 3, 0, BAD_OFFSET));
        let window = Window { wy, wx, size: after(mended, 1, 1, 64) };
        let list = after(mended, 4, &GOOD_LIST[..], &BAD_LIST);
        guarded(after(mended, 5, 4, 0), |out| Model.window(after(mended, 0, 1, 64), list, window, out))
    });
}

#[test]
fn a_check_and_a_lookup_are_refused_in_order() {
    mend(&[refuses(1, 0), refuses(3, 1), Gives(4)], |mended| {
        Model.check(after(mended, 0, 1, BAD_SIZE), after(mended, 1, &GOOD_LIST[..], &BAD_LIST))
    });
    mend(&[refuses(1, 0), refuses(3, 1), refuses(9, 0), refuses(9, 0), Gives(3)], |mended| {
        let cell = Cell { row: after(mended, 2, 1, -1), column: after(mended, 3, 0, i64::MAX) };
        Model.lookup(after(mended, 0, 1, BAD_SIZE), after(mended, 1, &GOOD_LIST[..], &BAD_LIST), cell)
    });
}

#[test]
fn a_neighbour_is_refused_in_order() {
    mend(&[refuses(1, 0), refuses(12, 0), refuses(12, 0), refuses(9, 0), Gives(12)], |mended| {
        let direction = after(mended, 3, Direction::South, Direction::North);
        let (code, level) = (after(mended, 1, 4, 5), after(mended, 2, 1, 64));
        Model.neighbour(after(mended, 0, 2, BAD_SIZE), code, level, direction)
    });
    for (code, level) in [(16, 0), (1, 1), (4, 2), (0, 3), (0, u64::MAX), (u64::MAX, 0), (1 << 32, 0)] {
        assert_eq!(Model.neighbour(2, code, level, Direction::East), refuses(12, 0), "{code} {level}");
    }
}

#[test]
fn the_eight_neighbours_go_clockwise_from_north() {
    // The cell at row 1, column 1 of a square of size 2 has the code 3.
    let expected = [1, 4, 6, 12, 9, 8, 2, 0].map(Gives);
    assert_eq!(Direction::ALL.map(|direction| Model.neighbour(2, 3, 0, direction)), expected);
    for direction in Direction::ALL {
        assert_eq!(Model.neighbour(2, 0, 2, direction), refuses(9, 0));
    }
}

#[test]
fn a_place_in_cells_is_refused_in_order() {
    mend(&[refuses(2, 0), refuses(2, 1), Gives(Shift { dy: 1, dx: 2 })], |mended| {
        Model.place_cells(after(mended, 0, 1, i64::MIN), after(mended, 1, 2, i64::MAX))
    });
}

#[test]
fn a_place_on_the_ground_is_refused_in_order() {
    let mut expected: Vec<Answer<Shift>> = (0..6).map(|number| refuses(6, number)).collect();
    expected.extend([refuses(7, 0), refuses(8, 0), refuses(8, 1), refuses(2, 0), refuses(2, 1), Gives(Shift { dy: -2, dx: 3 })]);
    mend(&expected, |mended| {
        let first_cell = after(mended, 6, 2.0, 4.0);
        let north = after(mended, 9, 4.0, 131_074.0) + after(mended, 7, 0.0, 0.5);
        let east = after(mended, 10, 6.0, 131_074.0) + after(mended, 8, 0.0, 0.5);
        let first = Ground {
            north: after(mended, 0, 0.0, f64::NAN),
            east: after(mended, 1, -0.0, f64::INFINITY),
            cell: after(mended, 2, first_cell, 0.0),
        };
        let second =
            Ground { north: after(mended, 3, north, 0.1), east: after(mended, 4, east, 1e9), cell: after(mended, 5, 2.0, -2.0) };
        Model.place_ground(first, second)
    });
}

#[test]
fn a_raster_is_refused_in_order() {
    let cells = [1, 2, 3, 4, 0];
    mend(&[refuses(1, 0), refuses(10, 0), refuses(5, 4), Gives(4)], |mended| {
        let cells = after(mended, 1, &cells[..4], &cells);
        guarded(after(mended, 2, 6, 3), |out| Model.to_list(after(mended, 0, 1, BAD_SIZE), cells, out))
    });
    mend(&[refuses(1, 0), refuses(10, 0), refuses(3, 1), Gives(4)], |mended| {
        let mut raster = vec![9; after(mended, 1, 4, 3)];
        let list = after(mended, 2, &GOOD_LIST[..], &BAD_LIST);
        let answer = Model.to_raster(after(mended, 0, 1, u64::MAX), list, &mut raster);
        assert_eq!(raster.iter().all(|cell| *cell == 9), answer != Gives(4));
        answer
    });
}
