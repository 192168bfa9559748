//! The examples in the README are run, and print what stands there.

mod common;

use std::fs;
use std::path::Path;

use common::{Folder, OBOE};

/// How a line of an example's block begins, and one that is a call of the command.
const INDENT: &str = "    ";
const CALL: &str = "    $ ./oboe ";

/// An example: what is called, and the lines that it prints.
#[derive(Debug)]
struct Example {
    call: String,
    printed: Vec<String>,
}

/// The indented blocks of a text. An empty line is of the block if the next line that is not empty is indented too.
fn blocks(text: &str) -> Vec<Vec<&str>> {
    let (mut blocks, mut block, mut empty) = (Vec::new(), Vec::new(), 0);
    for line in text.lines().chain(["end"]) {
        if line.trim().is_empty() {
            empty += 1;
            continue;
        }
        if line.starts_with(INDENT) {
            block.extend(vec!["    "; if block.is_empty() { 0 } else { empty }]);
            block.push(line);
        } else if !block.is_empty() {
            blocks.push(std::mem::take(&mut block));
        }
        empty = 0;
    }
    blocks
}

/// The examples of a block that begins with a call. Each further call in it begins another example.
fn examples_of(block: &[&str]) -> Vec<Example> {
    let mut examples: Vec<Example> = Vec::new();
    for line in block {
        if line.starts_with(CALL) {
            examples.push(Example { call: line[INDENT.len() + "$ ".len()..].to_string(), printed: Vec::new() });
        } else {
            let example = examples.last_mut().expect("the block begins with a call");
            example.printed.push(line[INDENT.len()..].trim_end().to_string());
        }
    }
    examples
}

/// The call with the command's own path, and its output file moved into the folder; and that file's name, if it has one.
fn moved(call: &str, folder: &Folder) -> (String, Option<String>) {
    let mut words: Vec<String> = call.split(' ').map(String::from).collect();
    words[0] = format!("'{OBOE}'");
    let out = words.iter().position(|word| word == "-o").map(|place| place + 1);
    let name = out.map(|place| words[place].rsplit('/').next().expect("a name").to_string());
    if let (Some(place), Some(name)) = (out, &name) {
        words[place] = format!("'{}'", folder.path().join(name).display());
    }
    (words.join(" "), name)
}

#[test]
fn the_examples_print_what_the_readme_says() {
    let root = Path::new(env!("CARGO_MANIFEST_DIR")).join("../..");
    let text = fs::read_to_string(root.join("README.md")).expect("the README is there");
    let examples: Vec<Example> =
        blocks(&text).iter().filter(|block| block[0].starts_with(CALL)).flat_map(|block| examples_of(block)).collect();
    assert!(!examples.is_empty(), "the README has no example");
    for mut example in examples {
        let folder = Folder::fresh();
        let (call, out) = moved(&example.call, &folder);
        let ran = common::ran::Ran::of(&call, folder.program("sh").current_dir(&root).args(["-c", &call]));
        let mut printed: Vec<String> = ran.out.lines().map(|line| line.trim_end().to_string()).collect();
        // An empty line at the end of either is between this example and the next.
        for lines in [&mut printed, &mut example.printed] {
            lines.truncate(lines.iter().rposition(|line| !line.is_empty()).map_or(0, |last| last + 1));
        }
        assert_eq!(printed, example.printed, "{ran:#?}");
        if let (Some(0), Some(name)) = (ran.status, out) {
            assert!(!folder.read(&name).is_empty(), "{name} is empty");
        }
    }
}
