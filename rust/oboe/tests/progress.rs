//! What takes longer than a second says on standard error what it is doing; what is quick says nothing there.

mod common;

use std::fs::{File, OpenOptions};
use std::io::{Read, Write};
use std::process::{Child, Stdio};
use std::sync::mpsc::{channel, Receiver, RecvTimeoutError};
use std::thread;
use std::time::{Duration, Instant};

use common::{pictures, Folder};

/// A named pipe of the folder. It is held open for both ends, so that nobody waits for it to be opened.
fn pipe(folder: &Folder, name: &str) -> File {
    let made = folder.program("mkfifo").arg(name).status().expect("mkfifo starts");
    assert!(made.success(), "a named pipe is made");
    OpenOptions::new().read(true).write(true).open(folder.path().join(name)).expect("the pipe is opened")
}

/// What a stream brings, as it comes. It closes when the stream does.
fn heard(mut stream: impl Read + Send + 'static) -> Receiver<Vec<u8>> {
    let (sender, receiver) = channel();
    thread::spawn(move || {
        let mut bytes = [0; 4096];
        while let Ok(count @ 1..) = stream.read(&mut bytes) {
            if sender.send(bytes[..count].to_vec()).is_err() {
                return;
            }
        }
    });
    receiver
}

/// All that is still to come from a stream.
fn all(receiver: &Receiver<Vec<u8>>) -> String {
    String::from_utf8(receiver.iter().flatten().collect()).expect("what is printed is UTF-8")
}

/// The exit status of a run, which has to end within five seconds.
#[track_caller]
fn ended(child: &mut Child) -> Option<i32> {
    let start = Instant::now();
    while start.elapsed() < Duration::from_secs(5) {
        if let Some(status) = child.try_wait().expect("the command can be waited for") {
            return status.code();
        }
        thread::sleep(Duration::from_millis(5));
    }
    let _ = child.kill();
    let _ = child.wait();
    panic!("the command does not end")
}

fn start(folder: &Folder, line: &str) -> Child {
    folder.command().args(line.split(' ')).stdout(Stdio::piped()).stderr(Stdio::piped()).spawn().expect("the command starts")
}

#[test]
fn a_map_that_is_slow_to_come_is_spoken_of_while_it_comes() {
    for line in ["check slow", "overlay union p.pbm slow --cells 1 1", "overlay union slow s.pbm --cells 1 1"] {
        let folder = Folder::with_worked_maps();
        let mut writer = pipe(&folder, "slow");
        let mut child = start(&folder, line);
        let (out, err) = (heard(child.stdout.take().expect("a pipe")), heard(child.stderr.take().expect("a pipe")));
        // The map comes once something was said, or after three seconds of silence.
        let said = err.recv_timeout(Duration::from_secs(3));
        writer.write_all(pictures::P.as_bytes()).expect("the map is written");
        drop(writer);
        assert_eq!(ended(&mut child), Some(0), "{line}");
        assert_ne!(said, Err(RecvTimeoutError::Timeout), "{line}: nothing was said in three seconds");
        let said = String::from_utf8(said.expect("something was said")).expect("what is printed is UTF-8") + &all(&err);
        assert!(said.chars().any(char::is_alphabetic), "{line}: {said:?} does not say what is being done");
        let quick = folder.run(&line.replace("slow", "p.pbm"));
        assert_eq!(all(&out).replace("slow", "p.pbm"), quick.out, "{line}");
    }
}

#[test]
fn a_map_that_comes_within_half_a_second_is_not_spoken_of() {
    let folder = Folder::with_worked_maps();
    let mut writer = pipe(&folder, "slow");
    let mut child = start(&folder, "lookup slow 0 0");
    let (out, err) = (heard(child.stdout.take().expect("a pipe")), heard(child.stderr.take().expect("a pipe")));
    thread::sleep(Duration::from_millis(400));
    writer.write_all(pictures::P.as_bytes()).expect("the map is written");
    drop(writer);
    assert_eq!(ended(&mut child), Some(0));
    assert_eq!((all(&out), all(&err)), ("1\n".to_string(), String::new()));
}

#[test]
fn a_slow_file_that_is_no_map_ends_in_the_one_line_of_the_error() {
    let folder = Folder::fresh();
    let mut writer = pipe(&folder, "slow");
    let mut child = start(&folder, "check slow");
    let (out, err) = (heard(child.stdout.take().expect("a pipe")), heard(child.stderr.take().expect("a pipe")));
    thread::sleep(Duration::from_millis(1500));
    writer.write_all(b"no map at all").expect("the bytes are written");
    drop(writer);
    assert_eq!((ended(&mut child), all(&out)), (Some(2), String::new()));
    let said = all(&err);
    let last = said.trim_end_matches('\n').rsplit(['\n', '\r']).next().expect("a line");
    assert!(said.ends_with('\n') && last.contains("oboe: ") && last.contains("slow"), "{said:?}");
    assert!(said.len() > last.len() + 1, "nothing was said before the error: {said:?}");
}

#[test]
fn a_quick_run_says_nothing_on_standard_error() {
    let folder = Folder::with_worked_maps();
    let lines = [
        "overlay union p.pbm s.pbm --cells 1 1 -o out.oboe",
        "overlay union p.pbm s.pbm --ground 0 0 1 0 0 1 --window 0 0 3 -o out.png",
        "window p.pbm 0 0 3 -o out.pgm",
        "check p.pbm",
        "lookup p.pbm 0 0",
        "list p.pbm -o out.oboe",
        "raster p.pbm -o out.png",
        "show p.pbm -o out.png",
        "show union p.pbm s.pbm --cells 1 1 -o out.png",
        "help",
    ];
    for line in lines {
        folder.run(line).done();
    }
    assert_eq!(folder.names(), ["out.oboe", "out.pgm", "out.png", "p.pbm", "s.pbm"]);
}
