//! The program as it is called: on itself, on commands that cannot be right, and with wrong arguments.

use std::process::{Command, Output};

const RASTER: &str = env!("CARGO_BIN_EXE_raster");

fn raster(arguments: &[&str]) -> Output {
    Command::new(RASTER).args(arguments).output().expect("the program starts")
}

fn last_line(output: &Output) -> String {
    String::from_utf8_lossy(&output.stdout).lines().last().unwrap_or_default().to_string()
}

#[test]
fn it_passes_its_own_texts() {
    let output = raster(&["texts", RASTER, "leaves"]);
    assert!(output.status.success());
    assert!(last_line(&output).ends_with(" passed, 0 failed"));
}

#[test]
fn commands_that_are_no_leaves_fail() {
    for command in ["cat", "true"] {
        let output = raster(&["texts", command]);
        assert_eq!(output.status.code(), Some(1));
        assert!(last_line(&output).starts_with("0 passed, "));
    }
}

#[test]
fn a_command_that_prints_the_right_lines_and_breaks_fails() {
    let output = raster(&["texts", "sh", "-c", "\"$0\" leaves; exit 1", RASTER]);
    assert!(last_line(&output).starts_with("0 passed, "));
}

#[test]
fn a_command_that_cannot_be_started_is_one_message() {
    let output = raster(&["texts", "./no such command"]);
    assert_eq!((output.status.code(), output.stdout.len()), (Some(1), 0));
    assert!(output.stderr.starts_with(b"raster: cannot start ./no such command: "));
}

#[test]
fn wrong_arguments_give_the_usage() {
    for arguments in [&[][..], &["texts"], &["leaves", "file"], &["overlay"]] {
        let output = raster(arguments);
        assert_eq!((output.status.code(), output.stdout.len()), (Some(2), 0));
        assert!(output.stderr.starts_with(b"usage: raster leaves"));
    }
}
