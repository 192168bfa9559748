//! The list file: what is written is read again, what is not whole is no list file, and what holds a wrong list is refused.

mod common;

use common::dense::{checkerboard, drawn, made, plain};
use common::{lists, pictures, Folder};
use raster::answer::Answer;
use raster::generator::Generator;
use raster::model::Model;
use raster::picture::Picture;
use raster::product::Product;

/// Every call that reads one map, in which MAP is its name. Those that write have OUT for theirs.
const CALLS: [&str; 6] =
    ["check MAP", "lookup MAP 0 0", "window MAP 0 0 1 -o OUT", "list MAP -o OUT", "raster MAP -o out.pgm", "show MAP -o out.png"];

/// A list file that is none: every call says so, in place and with another output, and no file is changed.
#[track_caller]
fn assert_no_list_file(folder: &Folder, bytes: &[u8]) {
    folder.write("bad.oboe", bytes);
    folder.write("out.oboe", "what was there");
    let before = folder.contents();
    folder.run("list bad.oboe -o bad.oboe").wrong_naming("bad.oboe");
    folder.run("list bad.oboe -o out.oboe").wrong_naming("bad.oboe");
    assert!(folder.contents() == before, "a file was changed");
}

/// A whole list file of P is taken in the same place, and written again.
#[track_caller]
fn assert_list_file(folder: &Folder, bytes: &[u8]) {
    folder.write("bad.oboe", bytes);
    folder.run("list bad.oboe -o out.oboe").done();
    assert_eq!(folder.read("out.oboe"), p());
}

/// P as a list file.
fn p() -> Vec<u8> {
    lists::written(2, &lists::P)
}

/// A list that is not well formed is refused by every call, and no file is changed.
#[track_caller]
fn assert_refused(size: u64, words: &[u64], rule: u64, number: u64) {
    let folder = Folder::with_worked_maps();
    folder.write("bad.oboe", lists::written(size, words));
    folder.write("out.oboe", "what was there");
    let before = folder.contents();
    for call in CALLS {
        for out in ["out.oboe", "bad.oboe", "new.oboe"] {
            folder.run(&call.replace("MAP", "bad.oboe").replace("OUT", out)).refused(rule, number);
        }
    }
    let (second_rule, second_number) = if rule == 1 { (1, 1) } else { (4, number) };
    for call in ["overlay union", "show difference"] {
        folder.run(&format!("{call} bad.oboe p.pbm --cells 0 0 -o out.png")).refused(rule, number);
        folder.run(&format!("{call} p.pbm bad.oboe --cells 0 0 -o out.png")).refused(second_rule, second_number);
    }
    assert!(folder.contents() == before, "a file was changed");
}

#[test]
fn a_picture_goes_to_its_shortest_list_and_back() {
    let folder = Folder::fresh();
    let mut generator = Generator::new(21);
    for size in [0, 0, 1, 1, 2, 2, 3, 3, 4, 5, 6] {
        let coloured = drawn(size, &[0, 3, 200, 255], &mut generator);
        let noise = made(size, |row, column| (row * row * 7 + column * 13) as u8);
        for picture in [coloured, noise, plain(size, 0), plain(size, 255)] {
            folder.write_map("map.pgm", &picture);
            folder.run("list map.pgm -o map.oboe").done();
            assert_eq!(folder.read("map.oboe"), lists::of(&picture));
            folder.run("raster map.oboe -o again.pgm").done();
            assert_eq!(folder.read_map("again.pgm"), picture);
            folder.run("list map.oboe -o again.oboe").done();
            assert_eq!(folder.read("again.oboe"), folder.read("map.oboe"));
        }
    }
}

#[test]
fn a_list_of_a_million_leaves_goes_there_and_back() {
    let folder = Folder::fresh();
    let picture = checkerboard(10);
    folder.write("map.pbm", pictures::p4(&picture));
    folder.run("list map.pbm -o map.oboe").done_in_its_time();
    assert!(folder.read("map.oboe") == lists::of(&picture));
    folder.run("check map.oboe").done_in_its_time().says_leaves(1_048_576);
    folder.run("raster map.oboe -o again.pbm").done_in_its_time();
    assert!(folder.read_map("again.pbm") == picture);
}

#[test]
fn the_bytes_of_p_are_those_of_the_table() {
    let folder = Folder::with_worked_maps();
    folder.run("list p.pbm -o p.oboe").done();
    let bytes = folder.read("p.oboe");
    assert_eq!(bytes.len(), 8 + 8 + 8 + 8 * 7 + 4);
    assert_eq!(&bytes[..24], b"OBOELIST\x02\0\0\0\0\0\0\0\x07\0\0\0\0\0\0\0");
    assert_eq!(&bytes[24 + 8 * 4..24 + 8 * 5], 458_753_u64.to_le_bytes());
    assert_eq!(bytes, p());
}

#[test]
fn a_flipped_bit_is_refused_and_nothing_is_overwritten() {
    let folder = Folder::fresh();
    let whole = p();
    for bit in 0..8 * whole.len() {
        let mut flipped = whole.clone();
        flipped[bit / 8] ^= 1 << (bit % 8);
        assert_no_list_file(&folder, &flipped);
    }
    assert_list_file(&folder, &whole);
}

#[test]
fn a_list_file_that_is_cut_short_or_goes_on_is_refused_and_nothing_is_overwritten() {
    let folder = Folder::fresh();
    let whole = p();
    for length in 0..whole.len() {
        assert_no_list_file(&folder, &whole[..length]);
    }
    for more in [&b"\0"[..], b"\n", b"\xff", &[0; 8], &whole] {
        assert_no_list_file(&folder, &[&whole, more].concat());
    }
    assert_no_list_file(&folder, &lists::sealed(whole.clone()));
    assert_list_file(&folder, &whole);
}

#[test]
fn every_call_refuses_a_list_file_with_another_checksum() {
    let folder = Folder::fresh();
    let mut bytes = p();
    bytes[83] ^= 128;
    folder.write("bad.oboe", &bytes);
    for call in CALLS {
        folder.run(&call.replace("MAP", "bad.oboe").replace("OUT", "bad.oboe")).wrong_naming("bad.oboe");
    }
    assert_eq!(folder.contents(), [("bad.oboe".to_string(), bytes)]);
    assert_list_file(&folder, &p());
}

#[test]
fn a_number_of_leaves_that_is_not_that_of_the_file_is_no_list_file() {
    let folder = Folder::fresh();
    let wrapped = (1 << 61) + 7;
    for claimed in [0, 1, 6, 8, 1 << 32, 1 << 40, wrapped, 1 << 63, u64::MAX] {
        assert_no_list_file(&folder, &lists::sealed(lists::unsealed(2, claimed, &lists::P)));
        assert_no_list_file(&folder, &lists::unsealed(2, claimed, &lists::P));
    }
    for letters in [&b"OBOELISt"[..], b"oboelist", b"OBOELIST"] {
        let bytes = [letters, &lists::unsealed(2, 7, &lists::P)[8..]].concat();
        let right = letters == b"OBOELIST";
        folder.write("map", lists::sealed(bytes));
        assert_eq!(folder.run("check map").status, Some(if right { 0 } else { 2 }));
    }
}

#[test]
fn a_list_file_of_another_size_is_refused_by_the_library() {
    // The first leaf is too large for size 0 and all of size 1; in size 3 the list stops short.
    assert_refused(0, &lists::P, 3, 0);
    assert_refused(1, &lists::P, 3, 1);
    assert_refused(3, &lists::P, 3, 7);
    assert_refused(12, &lists::P, 3, 7);
    for size in [13, 32, 64, 258, (1 << 32) + 2, u64::MAX] {
        assert_refused(size, &lists::P, 1, 0);
    }
}

#[test]
fn the_worked_wrong_lists_are_refused_with_the_number_of_the_entry() {
    assert_refused(1, &[0, 65_536, 131_072], 3, 3);
    assert_refused(1, &[], 3, 0);
    assert_refused(1, &[512], 3, 0);
    assert_refused(2, &[0, 65_792], 3, 1);
    assert_refused(0, &[1, 65_537], 3, 1);
}

#[test]
fn of_two_wrong_lists_the_first_is_refused() {
    let folder = Folder::fresh();
    folder.write("short.oboe", lists::written(1, &[0, 65_536, 131_072]));
    folder.write("empty.oboe", lists::written(1, &[]));
    folder.run("overlay union short.oboe empty.oboe --cells 0 0").refused(3, 3);
    folder.run("overlay union empty.oboe short.oboe --cells 0 0").refused(3, 0);
    folder.run("show union empty.oboe short.oboe --cells 0 0").refused(3, 0);
}

#[test]
fn every_flipped_bit_of_a_word_with_the_right_checksum_is_judged_as_the_rules_say() {
    let folder = Folder::fresh();
    for bit in 0..64 * lists::P.len() {
        let mut words = lists::P;
        words[bit / 64] ^= 1 << (bit % 64);
        folder.write("map.oboe", lists::written(2, &words));
        let ran = folder.run("check map.oboe");
        match Model.check(2, &words) {
            Answer::Gives(count) => ran.done().says_leaves(count as usize),
            Answer::Refuses { rule, number } => ran.refused(rule, number),
        }
    }
}

#[test]
fn a_list_with_four_alike_brothers_is_taken_and_written_shorter() {
    let folder = Folder::fresh();
    folder.write("long.oboe", lists::written(1, &[1, 65_537, 131_073, 196_609]));
    folder.run("check long.oboe").done().says_leaves(4);
    folder.run("list long.oboe -o short.oboe").done();
    assert_eq!(folder.read_list("short.oboe"), lists::List { size: 1, words: vec![257] });
    folder.run("check short.oboe").done().says_leaves(1);
    folder.run("window long.oboe 0 0 1 -o window.oboe").done();
    assert_eq!(folder.read_list("window.oboe"), lists::List { size: 1, words: vec![257] });
    folder.run("raster long.oboe -o long.pbm").done();
    assert_eq!(folder.read_map("long.pbm"), plain(1, 1));
}

#[test]
fn a_single_cell_is_a_list_file_too() {
    let folder = Folder::fresh();
    for colour in [0, 1, 255] {
        folder.write("cell.oboe", lists::written(0, &[u64::from(colour)]));
        folder.run("raster cell.oboe -o cell.pgm").done();
        assert_eq!(folder.read_map("cell.pgm"), Picture { size: 0, cells: vec![colour] });
        assert_eq!(folder.run("lookup cell.oboe 0 0").done().out, format!("{colour}\n"));
        folder.run("list cell.pgm -o again.oboe").done();
        assert_eq!(folder.read("again.oboe"), folder.read("cell.oboe"));
    }
}
