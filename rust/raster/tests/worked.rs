//! The cases that the paper works by hand.

use raster::answer::Answer::{self, Gives, Refuses};
use raster::model::Model;
use raster::product::{Cell, Ground, Operation, Product, Shift, Window};

/// The paper's picture P: 1100, 1101, 0011, 0011.
const P: [u64; 7] = [257, 262_144, 327_680, 393_216, 458_753, 524_544, 786_689];
const P_CELLS: [u8; 16] = [1, 1, 0, 0, 1, 1, 0, 1, 0, 0, 1, 1, 0, 0, 1, 1];

/// The paper's S: one black leaf of size 1.
const S: [u64; 1] = [257];

/// What stood in the space lent.
const BEFORE: u64 = 77;

/// The answer for S on P at this place, and what stands in the space lent afterwards.
fn s_on_p(operation: Operation, dy: i64, dx: i64, space: usize) -> (Answer<u64>, Vec<u64>) {
    let mut out = vec![BEFORE; space];
    (Model.overlay(operation, 2, &P, 1, &S, Shift { dy, dx }, None, &mut out), out)
}

/// The words of a window, or the refusal.
fn window(n: u64, list: &[u64], wy: i64, wx: i64, size: u64) -> Answer<Vec<u64>> {
    let mut out = vec![BEFORE; 64];
    Model.window(n, list, Window { wy, wx, size }, &mut out).map(|length| out[..length as usize].to_vec())
}

fn ground(north: f64, east: f64, cell: f64) -> Ground {
    Ground { north, east, cell }
}

#[test]
fn the_words_of_p() {
    let mut out = [BEFORE; 8];
    assert_eq!(Model.to_list(2, &P_CELLS, &mut out), Gives(7));
    assert_eq!((out[4], out[6], out[7]), (458_753, 786_689, BEFORE));
    assert_eq!(out[..7], P);
    let mut cells = [9; 16];
    assert_eq!(Model.to_raster(2, &P, &mut cells), Gives(16));
    assert_eq!(cells, P_CELLS);
}

#[test]
fn s_on_p_at_1_1() {
    let (answer, out) = s_on_p(Operation::Intersection, 1, 1, 11);
    assert_eq!((answer, out[10]), (Gives(10), BEFORE));
    let black: Vec<u64> = out[..10].iter().copied().filter(|word| word % 256 != 0).collect();
    // The codes 03 and 30 in base 4, of single cells.
    assert_eq!(black, [3 * 65_536 + 1, 12 * 65_536 + 1]);
    assert_eq!(s_on_p(Operation::Union, 1, 1, 16).0, Gives(10));
    assert_eq!(s_on_p(Operation::Difference, 1, 1, 16).0, Gives(13));
}

#[test]
fn s_on_p_with_room_for_9_and_for_10() {
    assert_eq!(s_on_p(Operation::Intersection, 1, 1, 9), (Refuses { rule: 5, number: 10 }, vec![BEFORE; 9]));
    assert_eq!(s_on_p(Operation::Intersection, 1, 1, 10).0, Gives(10));
}

#[test]
fn s_on_p_at_4_0() {
    let (answer, out) = s_on_p(Operation::Intersection, 4, 0, 1);
    assert_eq!((answer, out), (Gives(1), vec![512]));
}

#[test]
fn windows() {
    assert_eq!(window(2, &P, -1, -1, 1), Gives(vec![0, 65_536, 131_072, 196_609]));
    assert_eq!(window(2, &P, 0, 0, 3).map(|words| words.len()), Gives(10));
    assert_eq!(window(2, &P, 0, 0, 2), Gives(P.to_vec()));
}

#[test]
fn four_alike_brothers_are_accepted_and_merged() {
    let list = [1, 65_537, 131_073, 196_609];
    assert_eq!(Model.check(1, &list), Gives(4));
    assert_eq!(window(1, &list, 0, 0, 1), Gives(vec![257]));
}

#[test]
fn lists_that_are_not_well_formed() {
    for (n, list, number) in [(1, &[0, 65_536, 131_072][..], 3), (1, &[], 0), (0, &[], 0), (1, &[512], 0), (2, &[0, 65_792], 1)] {
        assert_eq!(Model.check(n, list), Refuses { rule: 3, number });
    }
}

#[test]
fn size_12_and_size_13() {
    let whole = [12 * 256 + 5];
    assert_eq!(Model.check(12, &whole), Gives(1));
    assert_eq!(Model.check(13, &[13 * 256]), Refuses { rule: 1, number: 0 });
    assert_eq!(Model.lookup(12, &whole, Cell { row: 4095, column: 4095 }), Gives(5));
    assert_eq!(window(12, &whole, 4095, 4095, 0), Gives(vec![5]));
    assert_eq!(window(12, &whole, 0, 0, 12), Gives(whole.to_vec()));
    assert_eq!(window(12, &whole, 0, 0, 13), Refuses { rule: 1, number: 2 });
}

#[test]
fn offset_65_536_and_65_537() {
    assert_eq!(Model.place_cells(65_536, -65_536), Gives(Shift { dy: 65_536, dx: -65_536 }));
    assert_eq!(Model.place_cells(0, 65_537), Refuses { rule: 2, number: 1 });
    assert_eq!(s_on_p(Operation::Union, 65_536, -65_536, 7).0, Gives(7));
    assert_eq!(s_on_p(Operation::Union, -65_537, 0, 7).0, Refuses { rule: 2, number: 0 });
    assert_eq!(window(0, &[1], -65_536, 65_536, 0), Gives(vec![0]));
    assert_eq!(window(0, &[1], 0, -65_537, 0), Refuses { rule: 2, number: 3 });
}

#[test]
fn placing_on_the_ground() {
    let first = ground(1000.0, 500.0, 10.0);
    assert_eq!(Model.place_ground(first, ground(970.0, 520.0, 10.0)), Gives(Shift { dy: 3, dx: 2 }));
    assert_eq!(Model.place_ground(first, ground(975.0, 520.0, 10.0)), Refuses { rule: 8, number: 0 });
    assert_eq!(Model.place_ground(first, ground(970.0, 520.0, 5.0)), Refuses { rule: 7, number: 0 });
}

#[test]
fn a_north_of_a_tenth_and_of_a_half() {
    let zero = ground(0.0, 0.0, 0.5);
    assert_eq!(Model.place_ground(ground(0.1, 0.0, 0.5), zero), Refuses { rule: 6, number: 0 });
    assert_eq!(Model.place_ground(ground(0.5, -0.0, 0.5), zero), Gives(Shift { dy: 1, dx: 0 }));
}
