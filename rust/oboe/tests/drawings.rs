//! What `show` draws, and PNG pictures, which are read here by a reader of the tests' own.

mod common;

use std::collections::{BTreeMap, BTreeSet};

use common::dense::{self, drawn, made, one_cell, plain, OPERATIONS};
use common::png::{self, Png};
use common::ran::{counted, Ran};
use common::{lists, Folder};
use raster::generator::Generator;
use raster::picture::Picture;

const WHITE: [u8; 3] = [255, 255, 255];

/// What `show` prints of a map.
#[track_caller]
fn shown(picture: &Picture) -> Ran {
    let folder = Folder::fresh();
    folder.write_map("map.pgm", picture);
    folder.run("show map.pgm").done_in_its_time()
}

/// The PNG picture that `show` makes of a map.
#[track_caller]
fn shown_as_png(picture: &Picture) -> Png {
    let folder = Folder::fresh();
    folder.write_map("map.pgm", picture);
    folder.run("show map.pgm -o out.png").done_in_its_time();
    png::read(&folder.read("out.png"))
}

/// The lines of a drawing that count neither cells nor leaves.
fn drawing(ran: &Ran) -> Vec<&str> {
    ran.out.lines().filter(|line| !line.contains("cell") && !line.contains("lea")).collect()
}

/// The width of a drawing in characters.
fn width(ran: &Ran) -> usize {
    drawing(ran).iter().map(|line| line.trim_end().chars().count()).max().unwrap_or(0)
}

/// How many pixels a picture has of its commonest colour that is not white.
fn most_pixels(png: &Png) -> usize {
    let mut counts: BTreeMap<[u8; 3], usize> = BTreeMap::new();
    for pixel in png.pixels.iter().filter(|pixel| **pixel != WHITE) {
        *counts.entry(*pixel).or_insert(0) += 1;
    }
    counts.into_values().max().expect("a pixel that is not white")
}

/// Each cell of a picture is one pixel; pixels are alike exactly where the cells are, and white exactly where they are WHITE.
#[track_caller]
fn assert_one_pixel_a_cell(png: &Png, picture: &Picture) {
    assert_eq!((png.width, png.height), (picture.side(), picture.side()));
    let (mut by_colour, mut by_pixel) = (BTreeMap::new(), BTreeMap::new());
    for (pixel, colour) in png.pixels.iter().zip(&picture.cells) {
        assert_eq!(by_colour.entry(*colour).or_insert(*pixel), pixel, "colour {colour} has two pixels");
        assert_eq!(by_pixel.entry(*pixel).or_insert(*colour), colour, "the pixel {pixel:?} has two colours");
        assert_eq!(*pixel == WHITE, *colour == 0, "colour {colour} is the pixel {pixel:?}");
    }
}

#[test]
fn a_png_picture_has_one_pixel_for_each_cell() {
    let folder = Folder::fresh();
    let mut generator = Generator::new(51);
    for size in 0..=6 {
        let colours = drawn(size, &[0, 1, 2, 17, 254, 255], &mut generator);
        let black = drawn(size, &[0, 1], &mut generator);
        for picture in [colours, black, plain(size, 0), plain(size, 1), plain(size, 77)] {
            folder.write_map("map.pgm", &picture);
            folder.write("map.oboe", lists::of(&picture));
            for name in ["map.pgm", "map.oboe"] {
                folder.run(&format!("raster {name} -o out.png")).done();
                assert_one_pixel_a_cell(&png::read(&folder.read("out.png")), &picture);
            }
        }
    }
}

#[test]
fn all_256_colours_have_pixels_of_their_own() {
    let folder = Folder::fresh();
    let picture = made(4, |row, column| (16 * row + column) as u8);
    folder.write_map("map.pgm", &picture);
    folder.run("raster map.pgm -o out.png").done();
    let png = png::read(&folder.read("out.png"));
    assert_one_pixel_a_cell(&png, &picture);
    assert_eq!(png.pixels.iter().collect::<BTreeSet<_>>().len(), 256);
}

#[test]
fn a_large_png_picture_has_one_pixel_for_each_cell() {
    let folder = Folder::fresh();
    let mut generator = Generator::new(52);
    let noise = Picture { size: 9, cells: (0..1 << 18).map(|_| generator.below(256) as u8).collect() };
    let regular = made(11, |row, column| ((row / 7 + column / 3) % 11) as u8);
    for picture in [noise, regular] {
        folder.write_map("map.pgm", &picture);
        folder.run("raster map.pgm -o out.png").done_in_its_time();
        assert_one_pixel_a_cell(&png::read(&folder.read("out.png")), &picture);
    }
}

#[test]
fn an_overlay_and_a_window_are_written_as_png_pictures_too() {
    let folder = Folder::fresh();
    let mut generator = Generator::new(53);
    let (first, second) = (drawn(3, &[0, 4, 5], &mut generator), drawn(2, &[0, 6, 7], &mut generator));
    folder.write_map("first.pgm", &first);
    folder.write_map("second.pgm", &second);
    for operation in OPERATIONS {
        folder.run(&format!("overlay {operation} first.pgm second.pgm --cells 1 -1 -o out.png")).done();
        let expected = dense::overlay(operation, &first, &second, (1, -1), None);
        assert_one_pixel_a_cell(&png::read(&folder.read("out.png")), &expected);
    }
    folder.run("window first.pgm -1 2 3 -o out.png").done();
    assert_one_pixel_a_cell(&png::read(&folder.read("out.png")), &dense::window(&first, (-1, 2, 3)));
}

#[test]
fn a_drawing_on_a_pipe_is_plain_text() {
    let folder = Folder::with_worked_maps();
    folder.write_map("colours.pgm", &made(4, |row, column| (16 * row + column) as u8));
    let calls =
        ["show p.pbm", "show colours.pgm", "show union p.pbm s.pbm --cells 1 1", "show difference colours.pgm p.pbm --cells 0 0"];
    for call in calls {
        let ran = folder.run(call).done();
        assert!(ran.out.lines().count() >= 4, "{ran:#?}");
        assert!(ran.out.chars().all(|character| character == '\n' || !character.is_control()), "{ran:#?}");
    }
}

#[test]
fn a_drawing_counts_the_cells_of_each_colour() {
    let mut generator = Generator::new(54);
    for size in [0, 1, 2, 3, 5, 8] {
        let picture = drawn(size, &[0, 1, 2, 30, 255], &mut generator);
        shown(&picture).says_counts(&dense::counts(&picture));
    }
    let all = made(4, |row, column| (16 * row + column) as u8);
    shown(&all).says_counts(&dense::counts(&all));
    let large = one_cell(12, 100, 3000, 9);
    shown(&large).says_counts(&[(0, 16_777_215), (9, 1)].into());
}

#[test]
fn a_drawing_of_two_maps_counts_the_cells_of_their_overlay() {
    let folder = Folder::fresh();
    let mut generator = Generator::new(55);
    for operation in OPERATIONS {
        let (first, second) = (drawn(3, &[0, 4, 5], &mut generator), drawn(3, &[0, 6, 7], &mut generator));
        folder.write_map("first.pgm", &first);
        folder.write_map("second.pgm", &second);
        for (window, frame) in [("", None), ("--window -1 -3 4", Some((-1, -3, 4)))] {
            let ran = folder.run(&format!("show {operation} first.pgm second.pgm --cells 2 -1 {window}")).done();
            let said = counted(&ran.out);
            let expected = dense::counts(&dense::overlay(operation, &first, &second, (2, -1), frame));
            for (colour, count) in expected {
                assert!(said.contains(&(colour, count)), "colour {colour}: {count} is not said: {ran:#?}");
            }
        }
    }
}

#[test]
fn every_place_of_a_cell_is_drawn_differently() {
    let places: Vec<(usize, usize)> = (0..64).map(|cell| (cell / 8, cell % 8)).collect();
    let texts: BTreeSet<String> = places.iter().map(|(row, column)| shown(&one_cell(3, *row, *column, 1)).out).collect();
    assert_eq!(texts.len(), 64);
    let pixels: BTreeSet<Vec<[u8; 3]>> =
        places.iter().map(|(row, column)| shown_as_png(&one_cell(3, *row, *column, 1)).pixels).collect();
    assert_eq!(pixels.len(), 64);
}

#[test]
fn two_colours_are_drawn_differently() {
    let folder = Folder::fresh();
    let halves = |west: u8, east: u8| made(2, move |_, column| if column < 2 { west } else { east });
    folder.write_map("one.pgm", &halves(3, 4));
    folder.write_map("other.pgm", &halves(4, 3));
    let [one, other] = ["show one.pgm", "show other.pgm"].map(|line| folder.run(line).done());
    assert_ne!(drawing(&one), drawing(&other));
    folder.run("show one.pgm -o one.png").done();
    folder.run("show other.pgm -o other.png").done();
    assert_ne!(png::read(&folder.read("one.png")), png::read(&folder.read("other.png")));
}

#[test]
fn a_single_cell_of_the_largest_map_does_not_vanish() {
    let corners = [(0, 0), (0, 4095), (4095, 0), (4095, 4095), (1234, 2345)];
    let mut texts = vec![shown(&plain(12, 0))];
    texts.extend(corners.map(|(row, column)| shown(&one_cell(12, row, column, 7))));
    let drawings: BTreeSet<Vec<&str>> = texts.iter().map(drawing).collect();
    assert_eq!(drawings.len(), 6, "two of the drawings are the same");
    let white = drawing(&texts[0]);
    let line_of = |ran: &Ran| drawing(ran).iter().zip(&white).position(|(one, other)| one != other).expect("a line that differs");
    assert!(line_of(&texts[1]) < line_of(&texts[5]) && line_of(&texts[5]) < line_of(&texts[3]));
    assert_eq!(line_of(&texts[1]), line_of(&texts[2]));
    // What counts the cells is the same in all of these, so that they differ in the drawing alone.
    let pngs: BTreeSet<Vec<[u8; 3]>> =
        corners.iter().map(|(row, column)| shown_as_png(&one_cell(12, *row, *column, 7)).pixels).collect();
    assert_eq!(pngs.len(), 5);
}

#[test]
fn a_spot_shows_the_commonest_colour_that_is_not_white() {
    // Of every 4 by 4 cells ten are WHITE, four of colour 3 and two of colour 5. A spot stands for so many cells or more.
    let mixed = made(12, |row, column| [[0, 5, 0, 3], [0, 3, 0, 0], [3, 0, 0, 5], [0, 0, 3, 0]][row % 4][column % 4]);
    let uniform = shown(&plain(12, 3));
    assert_eq!(drawing(&shown(&mixed)), drawing(&uniform));
    // One cell of colour 5 beside many of colour 3 in its spot is not shown.
    let one = made(12, |row, column| if (row, column) == (17, 17) { 5 } else { 3 });
    assert_eq!(drawing(&shown(&one)), drawing(&uniform));
    // Of the PNG picture nothing but the words beside the drawing may be other pixels.
    let (mixed, uniform) = (most_pixels(&shown_as_png(&mixed)), most_pixels(&shown_as_png(&plain(12, 3))));
    assert!(10 * mixed > 9 * uniform, "{mixed} and {uniform} pixels");
}

#[test]
fn two_maps_and_their_overlay_are_drawn_side_by_side() {
    let folder = Folder::with_worked_maps();
    let alone = folder.run("show p.pbm -o alone.png").done();
    let [here, there] = ["--cells 1 1", "--cells 0 1"]
        .map(|place| folder.run(&format!("show intersection p.pbm s.pbm {place} -o three.png")).done());
    assert!(width(&here) > width(&alone), "{alone:#?} {here:#?}");
    assert_ne!(drawing(&here), drawing(&there));
    let [alone, three] = ["alone.png", "three.png"].map(|name| png::read(&folder.read(name)));
    assert!(three.width > alone.width, "{} and {}", three.width, alone.width);
}

#[test]
fn the_place_on_the_ground_and_the_window_are_drawn() {
    let folder = Folder::with_worked_maps();
    let in_cells = folder.run("show union p.pbm s.pbm --cells 3 2 -o cells.png").done();
    let on_ground = folder.run("show union p.pbm s.pbm --ground 1000 500 10 970 520 10 -o ground.png").done();
    assert_eq!(drawing(&in_cells), drawing(&on_ground));
    assert_eq!(png::read(&folder.read("cells.png")), png::read(&folder.read("ground.png")));
    let moved = folder.run("show union p.pbm s.pbm --cells 3 2 --window 1 1 2").done();
    assert_ne!(drawing(&in_cells), drawing(&moved));
}

#[test]
fn the_drawing_is_in_the_terminal_with_and_without_a_file() {
    let folder = Folder::with_worked_maps();
    for call in ["show p.pbm", "show union p.pbm s.pbm --cells 1 1"] {
        let (without, with) = (folder.run(call).done(), folder.run(&format!("{call} -o out.png")).done());
        let lines: Vec<&str> = with.out.lines().collect();
        assert!(without.out.lines().all(|line| lines.contains(&line)), "{without:#?} {with:#?}");
    }
    assert_eq!(folder.names(), ["out.png", "p.pbm", "s.pbm"]);
}
