//! Arguments: what is missing, too much, unknown or no number is one clear line and status 2, and nothing is written.

mod common;

use std::ffi::OsStr;
use std::os::unix::ffi::OsStrExt;

use common::ran::Ran;
use common::Folder;

/// Every line of these is wrong, and no file comes of it.
#[track_caller]
fn assert_wrong(lines: &[&str]) {
    let folder = Folder::with_worked_maps();
    let before = folder.contents();
    for line in lines {
        folder.run(line).wrong();
        assert!(folder.contents() == before, "{line} wrote something");
    }
    folder.works();
}

#[test]
fn no_arguments_at_all_are_wrong() {
    assert_wrong(&[""]);
}

#[test]
fn help_names_every_command() {
    let ran = Folder::fresh().run("help").done();
    for name in
        ["overlay", "window", "check", "lookup", "list", "raster", "show", "help", "--cells", "--ground", "--window", "-o"]
    {
        assert!(ran.says(name) || ran.out.contains(&format!(" {name} ")), "{name} is not named: {ran:#?}");
    }
}

#[test]
fn an_unknown_word_is_wrong() {
    assert_wrong(&[
        "frobnicate",
        "Overlay union p.pbm s.pbm --cells 0 0",
        "over union p.pbm s.pbm --cells 0 0",
        "p.pbm",
        "-o out.png",
    ]);
    assert_wrong(&[
        "overlay xor p.pbm s.pbm --cells 0 0",
        "overlay UNION p.pbm s.pbm --cells 0 0",
        "show xor p.pbm s.pbm --cells 0 0",
    ]);
    assert_wrong(&[
        "check p.pbm --fast",
        "overlay union p.pbm s.pbm --cells 0 0 --fast",
        "check --cells 0 0 p.pbm",
        "list p.pbm --out x",
    ]);
    let folder = Folder::with_worked_maps();
    folder.run("frobnicate").wrong_naming("frobnicate");
    folder.run("overlay xor p.pbm s.pbm --cells 0 0").wrong_naming("xor");
    folder.run("check p.pbm --fast").wrong_naming("--fast");
}

#[test]
fn a_missing_argument_is_wrong() {
    assert_wrong(&[
        "check",
        "lookup",
        "lookup p.pbm",
        "lookup p.pbm 0",
        "window",
        "window p.pbm",
        "window p.pbm 0",
        "window p.pbm 0 0",
    ]);
    assert_wrong(&[
        "list",
        "list p.pbm",
        "raster",
        "raster p.pbm",
        "list -o out.oboe",
        "raster -o out.pgm",
        "show",
        "show -o out.png",
    ]);
    assert_wrong(&[
        "overlay",
        "overlay union",
        "overlay union p.pbm",
        "overlay union p.pbm --cells 0 0",
        "overlay p.pbm s.pbm --cells 0 0",
    ]);
    assert_wrong(&[
        "overlay union p.pbm s.pbm --cells",
        "overlay union p.pbm s.pbm --cells 1",
        "show union p.pbm s.pbm --cells 1",
    ]);
    assert_wrong(&["overlay union p.pbm s.pbm --cells 0 -o out.oboe", "overlay union p.pbm s.pbm --cells 0 0 -o"]);
    assert_wrong(&["list p.pbm -o", "raster p.pbm -o", "window p.pbm 0 0 1 -o", "show p.pbm -o"]);
    assert_wrong(&["overlay union p.pbm s.pbm --ground 0 0 1 0 0", "overlay union p.pbm s.pbm --ground"]);
    assert_wrong(&["overlay union p.pbm s.pbm --cells 0 0 --window", "overlay union p.pbm s.pbm --cells 0 0 --window 0 0"]);
    assert_wrong(&["overlay union p.pbm s.pbm --window 0 0 --cells 0 0", "show union p.pbm --cells 0 0"]);
}

#[test]
fn an_argument_too_many_is_wrong() {
    assert_wrong(&["check p.pbm s.pbm", "lookup p.pbm 0 0 0", "window p.pbm 0 0 1 1", "list p.pbm s.pbm -o out.oboe"]);
    assert_wrong(&["raster p.pbm s.pbm -o out.pgm", "show p.pbm s.pbm", "show union p.pbm s.pbm p.pbm --cells 0 0"]);
    assert_wrong(&["overlay union p.pbm s.pbm p.pbm --cells 0 0", "overlay union p.pbm s.pbm --cells 0 0 0"]);
    assert_wrong(&["overlay union p.pbm s.pbm --ground 0 0 1 0 0 1 1", "overlay union p.pbm s.pbm --cells 0 0 --window 0 0 1 1"]);
}

#[test]
fn help_takes_no_arguments() {
    assert_wrong(&["help me", "help overlay window", "help -o out.png"]);
}

#[test]
fn an_option_that_the_command_does_not_have_is_wrong() {
    assert_wrong(&[
        "check p.pbm -o out.oboe",
        "lookup p.pbm 0 0 -o out.oboe",
        "check p.pbm --cells 0 0",
        "list p.pbm -o a.oboe --cells 0 0",
    ]);
    assert_wrong(&[
        "window p.pbm 0 0 1 --cells 0 0",
        "window p.pbm 0 0 1 --window 0 0 1",
        "raster p.pbm -o out.pgm --window 0 0 1",
    ]);
    assert_wrong(&["show p.pbm --cells 0 0", "lookup p.pbm 0 0 --ground 0 0 1 0 0 1"]);
}

#[test]
fn an_option_twice_is_wrong() {
    assert_wrong(&["overlay union p.pbm s.pbm --cells 0 0 --cells 0 0", "overlay union p.pbm s.pbm --cells 0 0 --cells 1 1"]);
    assert_wrong(&["overlay union p.pbm s.pbm --ground 0 0 1 0 0 1 --ground 0 0 1 0 0 1"]);
    assert_wrong(&["overlay union p.pbm s.pbm --cells 0 0 --window 0 0 1 --window 0 0 1", "list p.pbm -o a.oboe -o b.oboe"]);
    assert_wrong(&["overlay union p.pbm s.pbm --cells 0 0 -o a.oboe -o a.oboe", "show p.pbm -o a.png -o a.png"]);
}

#[test]
fn both_or_neither_of_the_two_places_are_wrong() {
    for command in ["overlay", "show"] {
        let both = format!("{command} union p.pbm s.pbm --cells 0 0 --ground 0 0 1 0 0 1");
        let turned = format!("{command} union p.pbm s.pbm --ground 0 0 1 0 0 1 --cells 0 0");
        let neither = format!("{command} union p.pbm s.pbm");
        let window = format!("{command} union p.pbm s.pbm --window 0 0 1");
        assert_wrong(&[&both, &turned, &neither, &window]);
    }
}

#[test]
fn what_is_no_number_is_wrong() {
    let folder = Folder::with_worked_maps();
    let before = folder.contents();
    for bad in ["x", "1.5", "1e3", "0x10", "--", "1,000", "", "3rows", "−1", "١", "9223372036854775808", "-9223372036854775809"]
    {
        let lines = [
            "lookup p.pbm BAD 0",
            "lookup p.pbm 0 BAD",
            "window p.pbm BAD 0 1",
            "window p.pbm 0 BAD 1",
            "window p.pbm 0 0 BAD",
            "overlay union p.pbm s.pbm --cells BAD 0",
            "overlay union p.pbm s.pbm --cells 0 BAD -o out.oboe",
            "show union p.pbm s.pbm --cells 0 0 --window BAD 0 1",
            "overlay union p.pbm s.pbm --cells 0 0 --window 0 0 BAD",
        ];
        // As a size, 2^63 may be a number above 12 as well as none.
        for line in lines.iter().filter(|line| bad != "9223372036854775808" || !line.ends_with("0 0 BAD")) {
            let words: Vec<&str> = line.split(' ').map(|word| if word == "BAD" { bad } else { word }).collect();
            folder.run_words(&words).wrong();
        }
    }
    for bad in ["99999999999999999999", "-1"] {
        folder.run(&format!("window p.pbm 0 0 {bad}")).wrong_naming(bad);
    }
    assert!(folder.contents() == before);
    folder.works();
}

#[test]
fn what_is_no_ground_number_is_wrong() {
    let folder = Folder::with_worked_maps();
    for place in 0..6 {
        for bad in ["x", "", "1,5", "0x10", "10m", "--", "1e", "٣"] {
            let mut words = vec!["overlay", "union", "p.pbm", "s.pbm", "--ground", "0", "0", "1", "0", "0", "1"];
            words[5 + place] = bad;
            folder.run_words(&words).wrong();
        }
        for bad in ["nan", "NaN", "inf", "-inf", "infinity", "1e400", "1e300", "-1e300"] {
            let mut words = vec!["overlay", "union", "p.pbm", "s.pbm", "--ground", "0", "0", "1", "0", "0", "1"];
            words[5 + place] = bad;
            // It may be taken for no number, or for one that is not usable.
            let ran = folder.run_words(&words);
            match ran.status {
                Some(1) => ran.refused_at_once(6, place as u64),
                _ => ran.wrong(),
            }
        }
    }
    folder.run("overlay union p.pbm s.pbm --ground 0 0 1 0 0 1").done();
}

#[test]
fn a_wrong_number_is_named() {
    let folder = Folder::with_worked_maps();
    folder.run("lookup p.pbm seven 0").wrong_naming("seven");
    folder.run("overlay union p.pbm s.pbm --cells 0 seven").wrong_naming("seven");
    folder.run("overlay union p.pbm s.pbm --ground 0 0 seven 0 0 1").wrong_naming("seven");
    folder.run("lookup p.pbm 9223372036854775808 0").wrong_naming("9223372036854775808");
    folder.works();
}

#[test]
fn negative_numbers_are_taken() {
    let folder = Folder::with_worked_maps();
    let ran = folder.run("overlay union p.pbm s.pbm --cells -1 -1 --window -2 -2 3 -o out.pbm").done();
    assert!(
        ran.out.starts_with("second map: 1 row north, 1 column west; the squares share 1 of the first map's 16 cells\n"),
        "{ran:#?}"
    );
    assert_eq!(folder.read_map("out.pbm").size, 3);
    folder.run("window p.pbm -1 -2 1 -o out.pbm").done();
    folder.run("show union p.pbm s.pbm --cells -1 -1 --window -2 -2 3").done();
    folder.run("overlay union p.pbm s.pbm --ground -10 -20.5 0.5 -10.5 -20.5 0.5 -o out.pbm").done();
    folder.run("lookup p.pbm -1 -1").refused_at_once(9, 0);
}

#[test]
fn a_line_end_in_an_argument_keeps_the_error_on_one_line() {
    let folder = Folder::with_worked_maps();
    let calls: [&[&str]; 4] = [
        &["no\ncommand"],
        &["overlay", "no\roperation"],
        &["lookup", "p.pbm", "1\n", "0"],
        &["list", "p.pbm", "-o", "out\n.gif"],
    ];
    for words in calls {
        folder.run_words(words).wrong();
    }
    assert_eq!(folder.names(), ["p.pbm", "s.pbm"]);
    folder.works();
}

#[test]
fn an_argument_that_is_no_text_is_wrong() {
    let folder = Folder::with_worked_maps();
    let odd = OsStr::from_bytes(b"\xff\xfe");
    Ran::of("odd command", folder.command().arg(odd)).wrong();
    Ran::of("odd map", folder.command().arg("check").arg(odd)).wrong();
    Ran::of("odd number", folder.command().args(["lookup", "p.pbm", "0"]).arg(odd)).wrong();
    Ran::of("odd output", folder.command().args(["list", "p.pbm", "-o"]).arg(odd)).wrong();
}
