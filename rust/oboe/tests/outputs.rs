//! Output files: of each ending what it says, whole or not at all; a file that was there is as it was if anything is refused.

mod common;

use std::fs;
use std::process::Stdio;
use std::thread::sleep;
use std::time::Duration;

use common::dense::{checkerboard, drawn, made, one_cell, plain};
use common::{lists, pictures, png, Folder};
use raster::generator::Generator;

/// What an output file held before.
const BEFORE: &str = "what was there before";

/// Every call that writes a file named by OUT.
const WRITERS: [&str; 6] = [
    "overlay union p.pbm s.pbm --cells 1 1 -o OUT",
    "overlay union p.pbm s.pbm --ground 1000 500 10 990 510 10 --window -1 -1 3 -o OUT",
    "window p.pbm 0 0 2 -o OUT",
    "list p.pbm -o OUT",
    "raster p.pbm -o OUT",
    "show p.pbm -o OUT",
];

/// A picture whose cells look like chance, so that no file of it is small.
fn noise(size: u32) -> raster::picture::Picture {
    let mut generator = Generator::new(41);
    let cells = (0..1 << (2 * size)).map(|_| generator.below(256) as u8).collect();
    raster::picture::Picture { size, cells }
}

#[test]
fn every_ending_writes_its_own_kind_of_file() {
    let folder = Folder::with_worked_maps();
    let shown = raster::picture::read(pictures::P.as_bytes()).expect("P is a picture");
    for call in ["overlay union p.pbm p.pbm --cells 0 0 -o", "window p.pbm 0 0 2 -o"] {
        folder.run(&format!("{call} out.oboe")).done();
        assert_eq!(folder.read_list("out.oboe").words, lists::P);
        for name in ["out.pbm", "out.pgm"] {
            folder.run(&format!("{call} {name}")).done();
            assert_eq!(folder.read_map(name), shown);
        }
        folder.run(&format!("{call} out.png")).done();
        let drawn = png::read(&folder.read("out.png"));
        assert_eq!((drawn.width, drawn.height), (4, 4));
        assert!(folder.read("out.pbm").starts_with(b"P4") && folder.read("out.pgm").starts_with(b"P5"));
    }
    assert_eq!(folder.names(), ["out.oboe", "out.pbm", "out.pgm", "out.png", "p.pbm", "s.pbm"]);
}

#[test]
fn what_is_written_is_read_again() {
    let folder = Folder::fresh();
    let mut generator = Generator::new(42);
    for size in 0..6 {
        let picture = drawn(size, &[0, 1], &mut generator);
        folder.write_map("map.pgm", &picture);
        for name in ["out.pbm", "out.pgm"] {
            folder.run(&format!("raster map.pgm -o {name}")).done();
            assert_eq!(folder.read_map(name), picture);
            folder.run(&format!("list {name} -o again.oboe")).done();
            assert_eq!(folder.read("again.oboe"), lists::of(&picture));
        }
    }
}

#[test]
fn a_file_is_never_of_another_kind_than_its_ending() {
    let folder = Folder::with_worked_maps();
    for call in ["list p.pbm -o out.pgm", "raster p.pbm -o out.oboe"] {
        let ran = folder.run(call);
        match ran.status {
            Some(0) if call.ends_with("pgm") => assert_eq!(folder.read_map("out.pgm").size, 2),
            Some(0) => assert_eq!(folder.read_list("out.oboe").words, lists::P),
            _ => {
                ran.wrong();
                assert_eq!(folder.names().len(), 2);
            }
        }
        let _ = fs::remove_file(folder.path().join("out.pgm"));
    }
    folder.works();
}

#[test]
fn an_output_in_a_folder_that_is_missing_is_refused() {
    let folder = Folder::with_worked_maps();
    for call in WRITERS {
        folder.run(&call.replace("OUT", "missing/out.png")).wrong_in_the_end();
        folder.run(&call.replace("OUT", "p.pbm/out.png")).wrong_in_the_end();
        assert_eq!(folder.names(), ["p.pbm", "s.pbm"]);
    }
    assert_eq!(folder.read("p.pbm"), pictures::P.as_bytes());
    folder.works();
}

#[test]
fn an_output_that_is_a_folder_is_refused_and_nothing_is_left_beside_it() {
    let folder = Folder::with_worked_maps();
    fs::create_dir(folder.path().join("out.png")).expect("a folder");
    folder.write("out.png/inside", BEFORE);
    for call in WRITERS {
        folder.run(&call.replace("OUT", "out.png")).wrong_in_the_end();
        assert_eq!(folder.names(), ["out.png", "p.pbm", "s.pbm"]);
        assert_eq!(folder.read("out.png/inside"), BEFORE.as_bytes());
    }
    folder.works();
}

#[test]
fn an_unknown_ending_is_refused_and_nothing_is_written() {
    let folder = Folder::with_worked_maps();
    for name in ["out.gif", "out", "out.", "out.pn", "out.pngx", "out.png.txt", "png", "out.ppm", "-", "out.oboe~"] {
        for call in WRITERS {
            folder.run(&call.replace("OUT", name)).wrong();
        }
    }
    for call in WRITERS {
        let mut words: Vec<&str> = call.split(' ').collect();
        *words.last_mut().expect("a word") = "";
        folder.run_words(&words).wrong();
    }
    for name in ["out.oboe", "out.pbm", "out.pgm"] {
        folder.run(&format!("show p.pbm -o {name}")).wrong();
        folder.run(&format!("show union p.pbm s.pbm --cells 0 0 -o {name}")).wrong();
    }
    assert_eq!(folder.names(), ["p.pbm", "s.pbm"]);
    folder.works();
}

#[test]
fn a_map_with_other_colours_is_not_written_as_a_pbm_picture() {
    let folder = Folder::fresh();
    for colour in [2, 3, 128, 255] {
        folder.write_map("map.pgm", &one_cell(3, 7, 7, colour));
        folder.write_map("white.pgm", &plain(3, 0));
        let calls =
            ["raster map.pgm -o", "window map.pgm 4 4 2 -o", "overlay union white.pgm map.pgm --cells 0 0 -o"].map(String::from);
        for call in calls {
            folder.run(&format!("{call} out.pbm")).wrong_in_the_end();
            assert_eq!(folder.names(), ["map.pgm", "white.pgm"]);
            folder.write("out.pbm", BEFORE);
            folder.run(&format!("{call} out.pbm")).wrong_in_the_end();
            assert_eq!(folder.read("out.pbm"), BEFORE.as_bytes());
            fs::remove_file(folder.path().join("out.pbm")).expect("the file is there");
        }
        // The window does not see the colour, so it has room.
        folder.run("window map.pgm 0 0 2 -o out.pbm").done();
        assert_eq!(folder.read_map("out.pbm"), plain(2, 0));
        fs::remove_file(folder.path().join("out.pbm")).expect("the file is there");
    }
}

#[test]
fn a_file_that_was_there_is_as_it_was_whatever_is_refused() {
    let folder = Folder::with_worked_maps();
    folder.write("p.oboe", lists::written(2, &lists::P));
    folder.write("wrong.oboe", lists::written(2, &[0, 65_792]));
    folder.write("cut.oboe", &lists::written(2, &lists::P)[..40]);
    folder.write("out.oboe", BEFORE);
    let before = folder.contents();
    let refused = [
        ("window p.oboe 0 0 13", 1),
        ("window p.oboe 65537 0 1", 1),
        ("list wrong.oboe", 1),
        ("overlay union wrong.oboe s.pbm --cells 0 0", 1),
        ("overlay union p.oboe wrong.oboe --cells 0 0", 1),
        ("overlay union p.oboe s.pbm --cells 65537 0", 1),
        ("overlay union p.oboe s.pbm --cells 0 0 --window 0 0 13", 1),
        ("overlay union p.oboe s.pbm --ground 0.1 0 1 0 0 1", 1),
        ("overlay union p.oboe s.pbm --ground 0 0 1 0 0 2", 1),
        ("overlay union p.oboe s.pbm --ground 0 0 2 1 0 2", 1),
        ("list cut.oboe", 2),
        ("list missing.oboe", 2),
        ("overlay union p.oboe cut.oboe --cells 0 0", 2),
        ("overlay xor p.oboe s.pbm --cells 0 0", 2),
        ("overlay union p.oboe s.pbm --cells 0", 2),
        ("window p.oboe 0 0", 2),
        ("list p.oboe s.pbm", 2),
    ];
    for (call, status) in refused {
        for out in ["out.oboe", "new.oboe", "p.oboe", "wrong.oboe"] {
            let ran = folder.run(&format!("{call} -o {out}"));
            assert_eq!(ran.status, Some(status), "{ran:#?}");
            assert!(ran.error_line().starts_with("oboe: "), "{ran:#?}");
            assert!(folder.contents() == before, "a file was changed by {call} -o {out}");
        }
    }
}

#[test]
fn an_output_may_be_an_input_and_is_replaced_when_all_is_done() {
    let folder = Folder::fresh();
    let (first, second) = (one_cell(2, 0, 0, 3), one_cell(2, 3, 3, 9));
    folder.write("first.oboe", lists::of(&first));
    folder.write_map("second.pgm", &second);
    folder.run("overlay union first.oboe second.pgm --cells 0 0 -o first.oboe").done();
    let both = made(2, |row, column| first.colour_at(row, column) + second.colour_at(row, column));
    assert_eq!(folder.read("first.oboe"), lists::of(&both));
    folder.run("overlay union first.oboe second.pgm --cells 0 0 -o second.pgm").done();
    assert_eq!(folder.read_map("second.pgm"), both);
    folder.write("long.oboe", lists::written(1, &[1, 65_537, 131_073, 196_609]));
    folder.run("list long.oboe -o long.oboe").done();
    assert_eq!(folder.read_list("long.oboe").words, [257]);
    folder.run("window second.pgm 3 3 0 -o second.pgm").done();
    assert_eq!(folder.read_map("second.pgm"), plain(0, 9));
    assert_eq!(folder.names(), ["first.oboe", "long.oboe", "second.pgm"]);
}

#[test]
fn a_longer_file_that_was_there_is_replaced_whole() {
    let folder = Folder::with_worked_maps();
    folder.write("out.oboe", vec![7; 100_000]);
    folder.run("list p.pbm -o out.oboe").done();
    assert_eq!(folder.read("out.oboe"), lists::written(2, &lists::P));
}

#[test]
fn an_output_may_lie_in_another_folder() {
    let folder = Folder::with_worked_maps();
    fs::create_dir(folder.path().join("inner")).expect("a folder");
    let whole = folder.path().join("whole.oboe").display().to_string();
    for name in ["inner/out.oboe", "./inner/../out.oboe", &whole] {
        folder.run(&format!("list p.pbm -o {name}")).done();
        assert_eq!(folder.read_list(name).words, lists::P);
    }
    assert_eq!(folder.names(), ["inner", "out.oboe", "p.pbm", "s.pbm", "whole.oboe"]);
    assert_eq!(fs::read_dir(folder.path().join("inner")).expect("the folder").count(), 1);
}

#[test]
fn an_output_may_have_the_longest_name_that_a_file_has() {
    let folder = Folder::with_worked_maps();
    let longest = format!("{}.oboe", "n".repeat(250));
    // That it can be a file's name at all is seen first.
    folder.write(&longest, BEFORE);
    folder.run(&format!("list p.pbm -o {longest}")).done();
    assert_eq!(folder.read_list(&longest).words, lists::P);
    assert_eq!(folder.names(), [&longest, "p.pbm", "s.pbm"]);
}

#[test]
fn a_file_that_cannot_be_written_to_its_end_is_not_there_at_all() {
    let folder = Folder::fresh();
    folder.write("first.pgm", pictures::p5(&noise(6)));
    folder.write("black.pgm", pictures::p5(&checkerboard(7)));
    let calls = [
        "list first.pgm -o out.oboe",
        "raster first.pgm -o out.pgm",
        "raster first.pgm -o out.png",
        "raster black.pgm -o out.pbm",
        "show first.pgm -o out.png",
        "window first.pgm 1 1 6 -o out.oboe",
        "overlay union first.pgm black.pgm --cells 0 0 -o out.oboe",
    ];
    for call in calls {
        let out = call.split(' ').next_back().expect("a name");
        let limited = format!("ulimit -f 1; trap '' XFSZ; exec \"$OBOE\" {call}");
        folder.run_shell(&limited).wrong_in_the_end();
        assert_eq!(folder.names(), ["black.pgm", "first.pgm"], "{call}");
        folder.write(out, BEFORE);
        folder.run_shell(&limited).wrong_in_the_end();
        assert_eq!(folder.names().len(), 3, "{call}");
        assert_eq!(folder.read(out), BEFORE.as_bytes());
        folder.run(call).done();
        assert!(folder.read(out).len() > 1024, "{call} has to write more than the limit");
        fs::remove_file(folder.path().join(out)).expect("the file is there");
    }
}

#[test]
fn a_large_output_is_never_seen_in_part() {
    let folder = Folder::fresh();
    folder.write("map.pgm", pictures::p5(&checkerboard(11)));
    let whole = 28 + 8 * 4_194_304;
    let out = folder.path().join("out.oboe");
    let mut child =
        folder.command().args(["list", "map.pgm", "-o", "out.oboe"]).stdout(Stdio::null()).spawn().expect("it starts");
    loop {
        let ended = child.try_wait().expect("the command can be waited for");
        match fs::metadata(&out) {
            Ok(file) => assert_eq!(file.len(), whole),
            Err(_) => assert!(ended.is_none(), "it ended without its file"),
        }
        if let Some(status) = ended {
            assert_eq!(status.code(), Some(0));
            break;
        }
        sleep(Duration::from_micros(200));
    }
    assert_eq!(folder.names(), ["map.pgm", "out.oboe"]);
}

#[test]
fn a_run_that_is_ended_early_leaves_the_old_file_or_the_whole_new_one() {
    let folder = Folder::fresh();
    let picture = checkerboard(9);
    folder.write("map.pgm", pictures::p5(&picture));
    folder.write("out.oboe", BEFORE);
    folder.run("list map.pgm -o new.oboe").done_in_its_time();
    let (old, new) = (BEFORE.as_bytes(), folder.read("new.oboe"));
    assert!(new == lists::of(&picture));
    for wait in 0..30 {
        let mut child =
            folder.command().args(["list", "map.pgm", "-o", "out.oboe"]).stdout(Stdio::null()).spawn().expect("it starts");
        sleep(Duration::from_micros(500 * wait));
        let _ = child.kill();
        let _ = child.wait();
        let out = folder.read("out.oboe");
        assert!(out == old || out == new, "a file of {} bytes after {wait} half milliseconds", out.len());
        folder.write("out.oboe", BEFORE);
    }
}

#[test]
fn runs_at_the_same_time_do_not_mix_their_files() {
    let folder = Folder::fresh();
    let maps: Vec<_> = (1..=6).map(|colour| made(7, |row, column| colour * ((row + column) % 2) as u8)).collect();
    for (number, map) in maps.iter().enumerate() {
        folder.write_map(&format!("{number}.pgm"), map);
    }
    for _ in 0..5 {
        let start = |number: usize| {
            let words = ["list".to_string(), format!("{number}.pgm"), "-o".to_string(), "out.oboe".to_string()];
            folder.command().args(words).stdout(Stdio::null()).stderr(Stdio::null()).spawn().expect("it starts")
        };
        let children: Vec<_> = (0..maps.len()).map(start).collect();
        for mut child in children {
            assert_eq!(child.wait().expect("it ends").code(), Some(0));
        }
        let out = folder.read("out.oboe");
        assert!(maps.iter().any(|map| out == lists::of(map)), "the file is none of theirs");
        assert_eq!(folder.names().len(), maps.len() + 1, "{:?}", folder.names());
    }
}

#[test]
fn what_cannot_be_printed_is_an_error_and_no_panic() {
    let folder = Folder::with_worked_maps();
    for call in ["lookup p.pbm 0 0", "check p.pbm", "show p.pbm", "help", "overlay union p.pbm s.pbm --cells 0 0"] {
        let ran = folder.run_shell(&format!("exec \"$OBOE\" {call} >/dev/full"));
        assert_eq!(ran.status, Some(2), "{ran:#?}");
        assert!(ran.error_line().starts_with("oboe: "), "{ran:#?}");
        let ran = folder.run_shell(&format!("\"$OBOE\" {call} | true"));
        assert!(!ran.err.contains("panicked"), "{ran:#?}");
        folder.run(call).done();
    }
}
