//! What the command answers: the worked cases of the rules, random maps held to the table of the operations, the placement line
//! and the counts.

mod common;

use common::dense::{self, drawn, made, one_cell, plain, OPERATIONS};
use common::lists::List;
use common::ran::{counted, with_commas, Ran};
use common::{lists, pictures, Folder};
use raster::generator::Generator;
use raster::model::shortest::shortest;
use raster::picture::Picture;

/// The placement line, which is the first that an overlay prints.
#[track_caller]
fn placement(ran: &Ran) -> &str {
    let line = ran.out.lines().next().unwrap_or_else(|| panic!("nothing was printed: {ran:#?}"));
    assert!(line.starts_with("second map: "), "{ran:#?}");
    assert_eq!(ran.out.matches("second map: ").count(), 1, "{ran:#?}");
    line
}

/// How far and which way, in words; nothing for 0, which has no fixed words.
fn way(count: i64, name: &str, forward: &str, back: &str) -> Option<String> {
    let plural = if count.abs() == 1 { "" } else { "s" };
    let direction = if count > 0 { forward } else { back };
    (count != 0).then(|| format!("{} {name}{plural} {direction}", with_commas(count.unsigned_abs())))
}

/// The placement line says this shift and this number of shared cells.
#[track_caller]
fn assert_placed(ran: &Ran, (dy, dx): (i64, i64), shared: u64, cells: u64) {
    let line = placement(ran);
    let share = format!("; the squares share {} of the first map's {} cell", with_commas(shared), with_commas(cells));
    assert!(line.strip_suffix('s').unwrap_or(line).ends_with(&share), "{share}: {ran:#?}");
    let (south, east) = (way(dy, "row", "south", "north"), way(dx, "column", "east", "west"));
    if let (Some(south), Some(east)) = (&south, &east) {
        assert!(line.starts_with(&format!("second map: {south}, {east}; ")), "{ran:#?}");
    }
    for words in [south, east].into_iter().flatten() {
        assert!(line.contains(&words), "{words}: {ran:#?}");
    }
}

/// The list that a call writes for P and S.
#[track_caller]
fn written(line: &str) -> List {
    let folder = Folder::with_worked_maps();
    folder.run(&format!("{line} -o out.oboe")).done();
    folder.read_list("out.oboe")
}

#[test]
fn the_words_of_p_are_those_of_the_rules() {
    let list = written("list p.pbm");
    assert_eq!((list.size, list.words[4], list.words[6]), (2, 458_753, 786_689));
    assert_eq!(list.words, lists::P);
}

#[test]
fn the_worked_overlays_of_s_on_p() {
    let folder = Folder::with_worked_maps();
    for (operation, leaves) in [("intersection", 10), ("union", 10), ("difference", 13)] {
        let ran = folder.run(&format!("overlay {operation} p.pbm s.pbm --cells 1 1 -o out.oboe")).done();
        ran.says_leaves(leaves);
        assert_placed(&ran, (1, 1), 4, 16);
        assert_eq!(placement(&ran), "second map: 1 row south, 1 column east; the squares share 4 of the first map's 16 cells");
        assert_eq!(folder.read_list("out.oboe").words.len(), leaves);
    }
    let black: Vec<u64> = written("overlay intersection p.pbm s.pbm --cells 1 1").words;
    // 03 and 30 in base 4 are 3 and 12.
    assert_eq!(black.into_iter().filter(|word| word % 256 == 1).collect::<Vec<_>>(), [3 * 65_536 + 1, 12 * 65_536 + 1]);
}

#[test]
fn an_overlay_says_where_the_second_map_lies_then_its_leaves_then_its_colours() {
    let folder = Folder::with_worked_maps();
    let ran = folder.run("overlay difference p.pbm s.pbm --cells 1 1").done();
    ran.says_leaves(13);
    ran.says_counts(&[(0, 9), (1, 7)].into());
    let line_of = |phrase: &str| ran.out.lines().position(|line| line.contains(phrase)).expect("the line is there");
    assert_eq!(line_of("second map: "), 0);
    assert!(0 < line_of("13 leaves"), "{ran:#?}");
    assert!(line_of("13 leaves") <= line_of("WHITE: 9 cells").min(line_of("colour 1: 7 cells")), "{ran:#?}");
    assert_eq!(folder.names(), ["p.pbm", "s.pbm"]);
}

#[test]
fn the_worked_overlay_of_squares_that_do_not_meet() {
    let folder = Folder::with_worked_maps();
    let ran = folder.run("overlay intersection p.pbm s.pbm --cells 4 0 -o out.oboe").warned();
    assert_eq!(folder.read_list("out.oboe"), List { size: 2, words: vec![512] });
    ran.says_leaves(1);
    ran.says_counts(&[(0, 16)].into());
    assert_placed(&ran, (4, 0), 0, 16);
}

#[test]
fn the_worked_windows() {
    assert_eq!(written("window p.pbm -1 -1 1"), List { size: 1, words: vec![0, 65_536, 131_072, 196_609] });
    let wide = written("window p.pbm 0 0 3");
    assert_eq!((wide.size, wide.words.len()), (3, 10));
    assert_eq!(written("window p.pbm 0 0 2").words, lists::P);
    assert_eq!(written("window p.pbm 65536 -65536 0"), List { size: 0, words: vec![0] });
}

#[test]
fn the_worked_places_on_the_ground() {
    let folder = Folder::with_worked_maps();
    folder.write_map("q.pgm", &one_cell(2, 0, 1, 5));
    let ran = folder.run("overlay union p.pbm q.pgm --ground 1000 500 10 970 520 10 -o ground.oboe").done();
    assert_eq!(placement(&ran), "second map: 3 rows south, 2 columns east; the squares share 2 of the first map's 16 cells");
    folder.run("overlay union p.pbm q.pgm --cells 3 2 -o cells.oboe").done();
    assert_eq!(folder.read("ground.oboe"), folder.read("cells.oboe"));
    let overlay = "overlay union p.pbm q.pgm --ground 1000 500 10";
    folder.run(&format!("{overlay} 975 520 10")).refused_at_once(8, 0);
    folder.run(&format!("{overlay} 970 525 10")).refused_at_once(8, 1);
    folder.run(&format!("{overlay} 975 525 10")).refused_at_once(8, 0);
    folder.run(&format!("{overlay} 970 520 5")).refused_at_once(7, 0);
    folder.run(&format!("{overlay} 975 525 5")).refused_at_once(7, 0);
    let ran = folder.run("overlay union p.pbm q.pgm --ground 970 520 10 1000 500 10").done();
    assert_eq!(placement(&ran), "second map: 3 rows north, 2 columns west; the squares share 2 of the first map's 16 cells");
    let ran = folder.run("overlay union p.pbm q.pgm --ground -7.5 -0.5 0.5 -8 -0 0.5").done();
    assert_eq!(placement(&ran), "second map: 1 row south, 1 column east; the squares share 9 of the first map's 16 cells");
}

#[test]
fn a_ground_number_that_is_not_usable_is_refused_with_its_place() {
    let folder = Folder::with_worked_maps();
    let good = ["0.5", "0", "0.5", "0", "-16777216", "0.5"];
    for place in 0..6 {
        for bad in ["0.1", "16777217", "-16777217", "16777216.0009765625", "100000000000000", "0.0001"] {
            let mut numbers = good;
            numbers[place] = bad;
            folder.run(&format!("overlay union p.pbm s.pbm --ground {}", numbers.join(" "))).refused_at_once(6, place as u64);
            folder.run(&format!("show union p.pbm s.pbm --ground {}", numbers.join(" "))).refused_at_once(6, place as u64);
        }
    }
    for bad in ["0", "-0", "-10"] {
        folder.run(&format!("overlay union p.pbm s.pbm --ground 0 0 {bad} 0 0 10")).refused_at_once(6, 2);
        folder.run(&format!("overlay union p.pbm s.pbm --ground 0 0 10 0 0 {bad}")).refused_at_once(6, 5);
    }
    folder.run("overlay union p.pbm s.pbm --ground 0.1 0.1 0 0.1 0.1 0").refused_at_once(6, 0);
    folder.run("overlay union p.pbm s.pbm --ground 16777216 0 1 0 0 1").refused_at_once(2, 0);
    folder.run("overlay union p.pbm s.pbm --ground 0 0 1 0 -16777216 1").refused_at_once(2, 1);
}

#[test]
fn a_ground_number_is_never_rounded_to_a_usable_one() {
    let folder = Folder::with_worked_maps();
    for near in ["1000.00000000000001", "999.99999999999999999", "1000.0000000000000000000000000000000001"] {
        for numbers in ["NEAR 500 10 970 520 10", "1000 NEAR 10 970 520 10", "1030 500 10 NEAR 520 10", "0 0 NEAR 0 0 1000"] {
            let ran = folder.run(&format!("overlay union p.pbm s.pbm --ground {}", numbers.replace("NEAR", near)));
            // Taken for a number that is not usable, or for none: but never for 1000.
            assert!(ran.status == Some(1) && ran.err.contains("(refusal 6, number ") || ran.status == Some(2), "{ran:#?}");
            assert_eq!((ran.out.as_str(), ran.error_line().starts_with("oboe: ")), ("", true), "{ran:#?}");
        }
    }
    folder.run("overlay union p.pbm s.pbm --ground 1000.0 500 10 1000.000 500 10").done();
}

#[test]
fn lookup_prints_the_colour_and_nothing_else() {
    let folder = Folder::with_worked_maps();
    let picture = made(3, |row, column| (row * 32 + column * 4) as u8);
    folder.write_map("map.pgm", &picture);
    folder.write("map.oboe", lists::of(&picture));
    for cell in 0..64 {
        for name in ["map.pgm", "map.oboe"] {
            let ran = folder.run(&format!("lookup {name} {} {}", cell / 8, cell % 8)).done();
            assert_eq!(ran.out, format!("{}\n", picture.cells[cell]));
        }
    }
    assert_eq!(folder.run("lookup p.pbm 1 3").done().out, "1\n");
    assert_eq!(folder.run("lookup p.pbm 1 2").done().out, "0\n");
}

#[test]
fn a_cell_beyond_the_map_is_refused_and_row_minus_1_is_not_row_0() {
    let folder = Folder::with_worked_maps();
    for cell in ["-1 0", "0 -1", "-1 -1", "4 0", "0 4", "9223372036854775807 0", "0 -9223372036854775808", "4294967296 0"] {
        folder.run(&format!("lookup p.pbm {cell}")).refused_at_once(9, 0);
    }
    assert_eq!(folder.run("lookup p.pbm 0 0").done().out, "1\n");
}

#[test]
fn check_says_that_a_map_is_well_formed_and_counts_its_leaves() {
    let folder = Folder::with_worked_maps();
    for (name, leaves) in [("p.pbm", 7), ("s.pbm", 1)] {
        let ran = folder.run(&format!("check {name}")).done();
        assert!(ran.says("well formed"), "{ran:#?}");
        ran.says_leaves(leaves);
    }
    folder.write("noise.pgm", pictures::p5(&dense::checkerboard(5)));
    folder.run("check noise.pgm").done().says_leaves(1024);
}

#[test]
fn an_offset_or_origin_too_far_away_is_refused_with_its_number() {
    let folder = Folder::with_worked_maps();
    for far in ["65537", "-65537", "9223372036854775807", "-9223372036854775808", "4294967296"] {
        folder.run(&format!("overlay union p.pbm s.pbm --cells {far} 0")).refused_at_once(2, 0);
        folder.run(&format!("overlay union p.pbm s.pbm --cells 0 {far}")).refused_at_once(2, 1);
        folder.run(&format!("overlay union p.pbm s.pbm --cells {far} {far} --window {far} {far} 0")).refused_at_once(2, 0);
        folder.run(&format!("overlay union p.pbm s.pbm --cells 0 0 --window {far} 0 0")).refused(2, 2);
        folder.run(&format!("overlay union p.pbm s.pbm --cells 0 0 --window 0 {far} 0")).refused(2, 3);
        folder.run(&format!("window p.pbm {far} 0 0")).refused_at_once(2, 2);
        folder.run(&format!("window p.pbm 0 {far} 0")).refused_at_once(2, 3);
        folder.run(&format!("show union p.pbm s.pbm --cells {far} 0")).refused(2, 0);
        folder.run(&format!("show union p.pbm s.pbm --cells 0 0 --window 0 {far} 0")).refused(2, 3);
    }
    let ran = folder.run("overlay union p.pbm s.pbm --cells 65536 -65536 --window 65536 -65536 1 -o far.pbm");
    assert!(ran.status == Some(0) && ran.err.contains("warning"), "{ran:#?}");
    assert_placed(&ran, (65_536, -65_536), 0, 16);
    assert!(placement(&ran).contains("65,536 rows south, 65,536 columns west"), "{ran:#?}");
    assert_eq!(folder.read_map("far.pbm"), plain(1, 1));
}

#[test]
fn a_window_of_a_size_above_12_is_refused() {
    let folder = Folder::with_worked_maps();
    for size in ["13", "63", "64", "256", "4294967296", "9223372036854775807"] {
        folder.run(&format!("window p.pbm 0 0 {size}")).refused_at_once(1, 2);
        folder.run(&format!("overlay union p.pbm s.pbm --cells 0 0 --window 0 0 {size}")).refused(1, 2);
        folder.run(&format!("show union p.pbm s.pbm --cells 0 0 --window 0 0 {size}")).refused(1, 2);
    }
    folder.run("window p.pbm -2 -2 12 -o wide.oboe").done();
    assert_eq!(folder.read_list("wide.oboe").size, 12);
}

/// Runs overlays of two squares, with the shifts at which they just meet and just do not, and hands over what each printed, its
/// shift, and how many cells the squares share.
fn at_the_edges(options: &str, judge: impl Fn(Ran, (i64, i64), u64, &Picture)) {
    let folder = Folder::fresh();
    for (first, second) in [(0, 0), (1, 2), (2, 1), (3, 0)] {
        let (first, second) = (plain(first, 1), plain(second, 1));
        folder.write_map("first.pgm", &first);
        folder.write_map("second.pgm", &second);
        let edges = [-(second.side() as i64), 1 - second.side() as i64, 0, first.side() as i64 - 1, first.side() as i64];
        for (dy, dx) in edges.into_iter().flat_map(|dy| edges.map(|dx| (dy, dx))) {
            let ran = folder.run(&format!("overlay union first.pgm second.pgm --cells {dy} {dx} {options}"));
            judge(ran, (dy, dx), dense::shared(&first, &second, (dy, dx)), &first);
        }
    }
}

#[test]
fn a_warning_is_given_exactly_when_the_squares_do_not_meet() {
    at_the_edges("", |ran, shift, shared, first| {
        let ran = if shared > 0 { ran.done() } else { ran.warned() };
        assert_placed(&ran, shift, shared, first.cells.len() as u64);
    });
}

#[test]
fn the_placement_line_speaks_of_the_squares_whatever_the_window() {
    at_the_edges("--window 100 100 1", |ran, shift, shared, first| {
        assert_eq!(ran.status, Some(0), "{ran:#?}");
        assert_placed(&ran, shift, shared, first.cells.len() as u64);
        ran.says_counts(&[(0, 4)].into());
    });
}

#[test]
fn what_is_warned_of_is_the_squares_whatever_the_window() {
    at_the_edges("--window 100 100 1", |ran, _, shared, _| {
        let _ = if shared > 0 { ran.done() } else { ran.warned() };
    });
}

/// A random map and a file of any kind that shows it.
fn random_map(generator: &mut Generator) -> (Picture, Vec<u8>) {
    let picture = drawn(generator.below(4) as u32, &[0, 0, 1, 2, 255], generator);
    let files = [pictures::p2(&picture), pictures::p5(&picture), lists::of(&picture)];
    let bytes = files[generator.below(3)].clone();
    (picture, bytes)
}

/// A window near both maps, or the first map's square.
fn random_frame(generator: &mut Generator) -> Option<dense::Window> {
    let frame = (generator.between(-9, 9), generator.between(-9, 9), generator.below(5) as u32);
    (!generator.one_in(3)).then_some(frame)
}

#[test]
fn overlays_of_random_maps_agree_with_the_table_cell_by_cell() {
    let (folder, mut generator) = (Folder::fresh(), Generator::new(31));
    for case in 0..240 {
        let ((first, first_file), (second, second_file)) = (random_map(&mut generator), random_map(&mut generator));
        folder.write("first", first_file);
        folder.write("second", second_file);
        let (shift, frame) = ((generator.between(-9, 9), generator.between(-9, 9)), random_frame(&mut generator));
        let window = frame.map_or(String::new(), |(wy, wx, size)| format!("--window {wy} {wx} {size}"));
        let operation = OPERATIONS[case % 3];
        let out = ["out.pgm", "out.oboe"][case / 3 % 2];
        let ran = folder.run(&format!("overlay {operation} first second --cells {} {} {window} -o {out}", shift.0, shift.1));
        let expected = dense::overlay(operation, &first, &second, shift, frame);
        let shared = dense::shared(&first, &second, shift);
        assert_eq!((ran.status, ran.err.contains("warning") || shared > 0), (Some(0), true), "{ran:#?}");
        match out {
            "out.pgm" => assert_eq!(folder.read_map(out), expected, "{ran:#?}"),
            _ => assert_eq!(folder.read(out), lists::of(&expected), "{ran:#?}"),
        }
        assert_placed(&ran, shift, shared, first.cells.len() as u64);
        ran.says_leaves(shortest(&expected).len());
        ran.says_counts(&dense::counts(&expected));
    }
}

#[test]
fn windows_of_random_maps_agree_with_the_map_cell_by_cell() {
    let (folder, mut generator) = (Folder::fresh(), Generator::new(32));
    for case in 0..120 {
        let (map, file) = random_map(&mut generator);
        folder.write("map", file);
        let (wy, wx, size) = random_frame(&mut generator).unwrap_or((0, 0, map.size));
        let out = ["out.pgm", "out.oboe"][case % 2];
        folder.run(&format!("window map {wy} {wx} {size} -o {out}")).done();
        let expected = dense::window(&map, (wy, wx, size));
        match out {
            "out.pgm" => assert_eq!(folder.read_map(out), expected),
            _ => assert_eq!(folder.read(out), lists::of(&expected)),
        }
    }
}

#[test]
fn a_random_place_on_the_ground_is_the_same_place_in_cells() {
    let (folder, mut generator) = (Folder::fresh(), Generator::new(33));
    for _ in 0..60 {
        folder.write("first", random_map(&mut generator).1);
        folder.write("second", random_map(&mut generator).1);
        let (dy, dx) = (generator.between(-7, 7), generator.between(-7, 7));
        // All in 1024ths, so that every number is exact.
        let (north, east, cell) =
            (generator.between(-9_000, 9_000), generator.between(-9_000, 9_000), generator.between(1, 5_000));
        let numbers = [north, east, cell, north - dy * cell, east + dx * cell, cell].map(|number| number as f64 / 1024.0);
        let ground = numbers.map(|number| number.to_string()).join(" ");
        let on_ground = folder.run(&format!("overlay union first second --ground {ground} -o ground.oboe"));
        let in_cells = folder.run(&format!("overlay union first second --cells {dy} {dx} -o cells.oboe"));
        assert_eq!((on_ground.status, placement(&on_ground)), (Some(0), placement(&in_cells)));
        assert_eq!(folder.read("ground.oboe"), folder.read("cells.oboe"));
    }
}

#[test]
fn the_largest_maps_are_laid_together_and_numbers_have_commas() {
    let folder = Folder::fresh();
    let (first, second) = (made(12, |row, _| u8::from(row < 3)), made(12, |_, column| 2 * u8::from(column == 4095)));
    folder.write_map("first.pgm", &first);
    folder.write_map("second.pgm", &second);
    let ran = folder.run("overlay union first.pgm second.pgm --cells -1000 1 -o out.pgm");
    assert_eq!(ran.status, Some(0), "{ran:#?}");
    assert_placed(&ran, (-1000, 1), 3096 * 4095, 16_777_216);
    assert!(
        placement(&ran).contains("1,000 rows north, 1 column east; the squares share 12,678,120 of the first map's 16,777,216")
    );
    let expected = dense::overlay("union", &first, &second, (-1000, 1), None);
    assert!(folder.read_map("out.pgm") == expected);
    ran.says_counts(&dense::counts(&expected));
    ran.says_leaves(shortest(&expected).len());
}

#[test]
fn every_colour_is_counted() {
    let folder = Folder::fresh();
    folder.write_map("map.pgm", &made(4, |row, column| (16 * row + column) as u8));
    folder.write_map("white.pgm", &plain(4, 0));
    let ran = folder.run("overlay union map.pgm white.pgm --cells 0 0").done();
    assert_eq!(counted(&ran.out).len(), 256, "{ran:#?}");
    ran.says_counts(&(0..=255).map(|colour| (colour, 1)).collect());
    ran.says_leaves(256);
}
