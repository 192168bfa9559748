//! Which files are maps, and what they show: every kind of picture is read, and everything else is refused in one line.

mod common;

use std::ffi::OsStr;
use std::fs;
use std::os::unix::ffi::OsStrExt;

use common::dense::{checkerboard, drawn, made, one_cell, plain};
use common::ran::Ran;
use common::{lists, pictures, Folder};
use raster::generator::Generator;
use raster::picture::Picture;

/// The picture that the command sees in a file.
#[track_caller]
fn seen(bytes: &[u8]) -> Picture {
    let folder = Folder::fresh();
    folder.write("map", bytes);
    let ran = folder.run("raster map -o out.pgm").done_in_its_time();
    // A small map is read in less than a second.
    assert!(ran.err.is_empty() || bytes.len() > 1 << 20, "{ran:#?}");
    folder.read_map("out.pgm")
}

/// A file is no map for any command that is given it.
#[track_caller]
fn assert_no_map(what: &str, bytes: &[u8]) {
    let folder = Folder::with_worked_maps();
    folder.write("given.map", bytes);
    let before = folder.contents();
    for line in ["check given.map", "raster given.map -o out.pgm"] {
        let ran = folder.run(line);
        assert_eq!(ran.status, Some(2), "{what}: {ran:#?}");
        ran.wrong_naming("given.map");
    }
    assert!(folder.contents() == before, "{what}: a file was changed");
    folder.works();
}

#[track_caller]
fn assert_all_are_no_maps(texts: &[&str]) {
    for text in texts {
        assert_no_map(text, text.as_bytes());
    }
}

#[track_caller]
fn assert_read(text: &[u8], cells: &[u8]) {
    let size = (cells.len() as u32).trailing_zeros() / 2;
    assert_eq!(seen(text), Picture { size, cells: cells.to_vec() }, "{}", String::from_utf8_lossy(text));
}

#[test]
fn every_kind_of_black_and_white_picture_is_read_at_every_small_side() {
    let mut generator = Generator::new(11);
    for size in 0..=5 {
        for picture in [drawn(size, &[0, 1], &mut generator), checkerboard(size), plain(size, 1)] {
            for bytes in [pictures::p1(&picture), pictures::p2(&picture), pictures::p4(&picture), pictures::p5(&picture)] {
                assert_eq!(seen(&bytes), picture);
            }
            assert_eq!(seen(&lists::of(&picture)), picture);
        }
    }
}

#[test]
fn every_kind_of_coloured_picture_is_read_at_every_small_side() {
    let mut generator = Generator::new(12);
    for size in 0..=5 {
        let picture = made(size, |row, column| (row * 37 + column * 11 + 5) as u8);
        let blocks = drawn(size, &[0, 1, 9, 128, 255], &mut generator);
        for picture in [picture, blocks] {
            for bytes in [pictures::p2(&picture), pictures::p5(&picture), lists::of(&picture)] {
                assert_eq!(seen(&bytes), picture);
            }
        }
    }
}

#[test]
fn a_map_of_4096_cells_a_side_is_read_from_every_kind_of_file() {
    let picture = made(12, |row, column| u8::from((row / 3 + column / 5) % 4 == 1 || row == column));
    let files = [pictures::p1(&picture), pictures::p2(&picture), pictures::p4(&picture), pictures::p5(&picture)];
    for bytes in files.iter().chain([&lists::of(&picture)]) {
        assert!(seen(bytes) == picture, "a file of {} bytes", bytes.len());
    }
}

#[test]
fn the_header_of_a_plain_picture_may_have_comments_and_odd_white_space() {
    assert_read(b"P1#a comment\n# another 9 9\r 002\t#c\n\x0b02\x0c0 1\r\n1\x0b\x0c\t1", &[0, 1, 1, 1]);
    assert_read(b"P1\r2\r2\r0111\r", &[0, 1, 1, 1]);
    assert_read(b"P1 2 2 0111 \t\n\x0b\x0c\r", &[0, 1, 1, 1]);
    assert_read(b"P2 # c\n2 # d 7\n 002\n# e\n\t015\n 0 7\t15\r\n\x0b\x0c003\n", &[0, 7, 15, 3]);
    assert_read(b"P2\n1\n1\n255\n0000200", &[200]);
    assert_read(b"P1 1 1 1", &[1]);
}

#[test]
fn the_header_of_a_raw_picture_may_have_comments_and_odd_white_space() {
    assert_read(b"P5\n# one 9\n2\t#two\r\n 02\x0b\n# three\n0255\n\x01\x02\x03\x04", &[1, 2, 3, 4]);
    assert_read(b"P5 2\r2\r7\x0c\x07\x06\x00\x01", &[7, 6, 0, 1]);
    assert_read(b"P4# one\n#two\n00002 # three\n 2\n\x40\x80", &[0, 1, 1, 0]);
}

#[test]
fn white_space_and_comments_after_a_raw_header_are_cells() {
    assert_read(b"P5 2 2 255\n#\n \t", &[35, 10, 32, 9]);
    assert_read(b"P5 1 1 255\r\n", &[10]);
    // The bits of # are 00100011, those of a line's end 00001010.
    assert_read(b"P4 2 2\n\n#", &[0, 0, 0, 0]);
    assert_read(b"P4 4 4\n#\n \t", &[0, 0, 1, 0, 0, 0, 0, 0, 0, 0, 1, 0, 0, 0, 0, 0]);
}

#[test]
fn the_unused_bits_of_a_raw_row_are_no_cells() {
    let mut generator = Generator::new(13);
    for size in 0..=2 {
        for picture in [plain(size, 0), plain(size, 1), drawn(size, &[0, 1], &mut generator)] {
            assert_eq!(seen(&pictures::p4_with_padding(&picture, 1)), picture);
        }
    }
}

#[test]
fn a_value_is_the_colour_itself_whatever_the_maximum() {
    assert_read(b"P2 2 2 15 0 1 7 15", &[0, 1, 7, 15]);
    assert_read(b"P2 2 2 1 0 1 1 0", &[0, 1, 1, 0]);
    assert_read(b"P5 2 2 200\n\x00\x01\xc8\x07", &[0, 1, 200, 7]);
}

#[test]
fn the_names_of_files_do_not_matter() {
    let folder = Folder::fresh();
    let picture = one_cell(2, 1, 2, 1);
    for name in ["raw.png", "raw.oboe", "raw"] {
        folder.write(name, pictures::p4(&picture));
        assert_eq!(folder.run(&format!("lookup {name} 1 2")).done().out, "1\n");
    }
    folder.write("list.pbm", lists::of(&picture));
    assert_eq!(folder.run("lookup list.pbm 1 2").done().out, "1\n");
    fs::write(folder.path().join(OsStr::from_bytes(b"\xff\xfe.map")), pictures::p1(&picture)).expect("a name that is no text");
    let ran = Ran::of("check", folder.command().arg("check").arg(OsStr::from_bytes(b"\xff\xfe.map"))).done();
    assert!(ran.says("well formed"), "{ran:#?}");
}

#[test]
fn a_picture_that_is_not_square_is_no_map() {
    assert_all_are_no_maps(&["P1 2 4 01110111", "P1 4 2 01110111", "P2 2 1 9 1 2", "P5 1 2 9\nab", "P5 4 1 255\nabcd"]);
    assert_no_map("P4 8 by 16", &[&b"P4 8 16\n"[..], &[0; 16]].concat());
    assert_no_map("P4 16 by 8", &[&b"P4 16 8\n"[..], &[0; 16]].concat());
}

#[test]
fn a_side_that_is_no_power_of_two_is_no_map() {
    assert_all_are_no_maps(&["P1 3 3 011101110", "P1 0 0 ", "P2 0 0 1 ", "P5 0 0 255\n", "P4 0 0\n"]);
    for side in [3, 5, 6, 7, 12, 100] {
        assert_no_map("P5", &[format!("P5 {side} {side} 255\n").as_bytes(), &vec![1; side * side]].concat());
        assert_no_map("P4", &[format!("P4 {side} {side}\n").as_bytes(), &vec![1; side * side.div_ceil(8)]].concat());
    }
}

#[test]
fn a_side_of_8192_cells_is_no_map() {
    assert_no_map("P4", &[&b"P4 8192 8192\n"[..], &vec![0; 8192 * 1024]].concat());
    assert_no_map("P5", &[&b"P5 8192 8192 255\n"[..], &vec![0; 8192]].concat());
}

#[test]
fn a_side_that_would_wrap_around_is_no_map() {
    for side in ["258", "65538", "4294967298", "18446744073709551618", "340282366920938463463374607431768211458"] {
        let texts =
            [format!("P1 {side} {side} 0111"), format!("P2 {side} {side} 1 0 1 1 1"), format!("P5 {side} {side} 9\nabcd")];
        assert_all_are_no_maps(&texts.each_ref().map(String::as_str));
    }
    assert_all_are_no_maps(&["P1 -2 -2 0111", "P1 2.0 2.0 0111", "P1 0x2 0x2 0111", "P1 2e0 2e0 0111", "P1 +2 +2 0111"]);
}

#[test]
fn a_maximum_of_0_or_above_255_is_no_map() {
    for most in ["0", "256", "257", "511", "65535", "65536", "4294967297", "18446744073709551617", "-1", "x", ""] {
        assert_no_map(most, format!("P2 1 1 {most} 0").as_bytes());
        assert_no_map(most, format!("P5 1 1 {most}\n\0").as_bytes());
        assert_no_map(most, format!("P5 1 1 {most}\n\0\0").as_bytes());
    }
}

#[test]
fn a_value_above_the_maximum_is_no_map() {
    assert_all_are_no_maps(&[
        "P2 1 1 7 8",
        "P2 2 2 7 0 1 2 8",
        "P2 2 2 255 0 1 2 256",
        "P5 1 1 7\n\x08",
        "P5 2 2 7\n\x07\x00\x00\x08",
    ]);
    assert_all_are_no_maps(&["P2 1 1 255 257", "P2 1 1 255 4294967297", "P2 1 1 255 18446744073709551617", "P2 1 1 255 -1"]);
    assert_all_are_no_maps(&["P2 1 1 255 1.0", "P2 1 1 255 0x1", "P2 1 1 255 a", "P2 1 1 255 1a", "P2 1 1 255 +1"]);
    assert_all_are_no_maps(&["P1 1 1 2", "P1 1 1 a", "P1 2 2 0121", "P1 2 2 01\x001"]);
}

#[test]
fn a_picture_that_is_cut_short_is_no_map_wherever_it_is_cut() {
    let picture = one_cell(1, 1, 1, 1);
    for whole in [pictures::p4(&picture), pictures::p5(&picture), b"P1 2 2 0001".to_vec(), b"P2 2 2 9 0 0 0 1".to_vec()] {
        assert_eq!(seen(&whole), picture);
        for length in 0..whole.len() {
            assert_no_map(&format!("{length} bytes"), &whole[..length]);
        }
    }
    assert_no_map("4,096 a side", b"P5 4096 4096 255\nabc");
}

#[test]
fn bytes_after_the_end_are_no_map() {
    let picture = one_cell(1, 1, 1, 1);
    for whole in [pictures::p4(&picture), pictures::p5(&picture)] {
        for more in [&b"\n"[..], b" ", b"\0", b"1", &whole] {
            assert_no_map("a raw picture that goes on", &[&whole, more].concat());
        }
    }
    for whole in [pictures::p1(&picture), pictures::p2(&picture)] {
        for more in [&b"0"[..], b"\n1", b"#", b"# a comment\n", b"\0", b" x", &whole] {
            assert_no_map("a plain picture that goes on", &[&whole, more].concat());
        }
    }
}

#[test]
fn each_word_of_a_header_is_followed_by_white_space() {
    assert_all_are_no_maps(&[
        "P12 2 0111",
        "P1 2 20111",
        " P1 2 2 0111",
        "\nP1 2 2 0111",
        "P",
        "P1",
        "P1 ",
        "P1 2 2",
        "P2 1 1 2551",
    ]);
    assert_all_are_no_maps(&["P52 2 9\nabcd", "P5 1 1 200a", "P5 1 1 255", "P4 1 1", "P1 # 2 2 0111", "p1 2 2 0111"]);
}

#[test]
fn other_kinds_of_file_are_no_maps() {
    assert_all_are_no_maps(&[
        "",
        "\n",
        "hello",
        "OBOELIST",
        "P3 1 1 255 0 0 0",
        "P6 1 1 255\nabc",
        "P0 1 1 1",
        "\u{feff}P1 1 1 1",
    ]);
    assert_no_map("PAM", b"P7\nWIDTH 1\nHEIGHT 1\nDEPTH 1\nMAXVAL 255\nTUPLTYPE GRAYSCALE\nENDHDR\na");
    let folder = Folder::with_worked_maps();
    folder.run("raster p.pbm -o p.png").done();
    assert_no_map("the command's own PNG picture", &folder.read("p.png"));
}

#[test]
fn a_file_that_is_not_there_and_a_folder_are_no_maps() {
    let folder = Folder::with_worked_maps();
    fs::create_dir(folder.path().join("folder")).expect("a folder");
    let before = folder.names();
    for name in ["missing.pbm", "folder", "folder/", "missing/p.pbm", "p.pbm/p.pbm"] {
        for line in
            ["check MAP", "lookup MAP 0 0", "window MAP 0 0 1", "list MAP -o out.oboe", "raster MAP -o out.pgm", "show MAP"]
        {
            folder.run(&line.replace("MAP", name)).wrong_naming(name);
        }
        folder.run(&format!("overlay union p.pbm {name} --cells 0 0 -o out.pgm")).wrong_naming(name);
        folder.run(&format!("overlay union {name} p.pbm --cells 0 0 -o out.pgm")).wrong_naming(name);
        folder.run(&format!("show union p.pbm {name} --cells 0 0 -o out.png")).wrong_naming(name);
    }
    assert_eq!(folder.names(), before);
    folder.works();
}

#[test]
fn of_two_maps_the_wrong_one_is_named() {
    let folder = Folder::with_worked_maps();
    folder.write("bad.map", "P1 3 3 000000000");
    folder.run("overlay union p.pbm bad.map --cells 0 0").wrong_naming("bad.map");
    folder.run("overlay union bad.map p.pbm --cells 0 0").wrong_naming("bad.map");
    folder.run("show union p.pbm bad.map --cells 0 0").wrong_naming("bad.map");
    folder.run("overlay union p.pbm s.pbm --cells 0 0").done();
}

#[test]
fn a_name_with_a_line_end_in_it_keeps_the_error_on_one_line() {
    let folder = Folder::with_worked_maps();
    folder.run_words(&["check", "no\nsuch\r\nmap"]).wrong();
    folder.write("bad\nmap", "hello");
    folder.run_words(&["check", "bad\nmap"]).wrong();
    folder.works();
}

#[test]
fn an_endless_file_is_no_map() {
    let folder = Folder::with_worked_maps();
    folder.works();
    // Whoever reads on to its end runs into the limit of memory, in KiB, and may take a second to get there.
    let ran = folder.run_shell("ulimit -v 500000; exec \"$OBOE\" check /dev/zero");
    assert_eq!((ran.status, ran.out.as_str()), (Some(2), ""), "{ran:#?}");
    let last = ran.err.lines().last().expect("a line");
    assert!(last.starts_with("oboe: ") && last.contains("/dev/zero"), "{ran:#?}");
}
