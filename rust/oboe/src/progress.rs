//! What takes long says what it is.

use std::io::{self, IsTerminal, Write};
use std::sync::mpsc::{self, Receiver, RecvTimeoutError};
use std::thread;
use std::time::Duration;

/// So long a piece of work may take before something is said of it, and again in a terminal.
const PATIENCE: Duration = Duration::from_secs(1);

/// Does some work, and says on standard error what it is once it takes longer than a second.
pub fn during<T>(what: &str, work: impl FnOnce() -> T) -> T {
    let (at_work, done) = mpsc::channel();
    thread::scope(|scope| {
        scope.spawn(move || watch(what, &done));
        let answer = work();
        drop(at_work);
        answer
    })
}

/// Says what is being done until it is done: once, or in a terminal with the seconds, on one line that is cleared in the end.
fn watch(what: &str, done: &Receiver<()>) {
    let terminal = io::stderr().is_terminal();
    let mut seconds = 0u64;
    while done.recv_timeout(PATIENCE) == Err(RecvTimeoutError::Timeout) {
        seconds += PATIENCE.as_secs();
        if terminal {
            eprint!("\roboe: {what}, {seconds} s");
        } else if seconds == PATIENCE.as_secs() {
            eprintln!("oboe: {what}");
        }
        // What is said of progress may be lost; the work goes on.
        io::stderr().flush().ok();
    }
    if terminal && seconds > 0 {
        eprint!("\r\x1b[K");
    }
}
