//! A word on standard error while something takes long.

use super::amounts::time;
use std::io::{self, IsTerminal};
use std::sync::mpsc::{self, Receiver, RecvTimeoutError};
use std::thread;
use std::time::{Duration, Instant};

/// Does the work; from the second second on says what it is and how long it has taken.
pub fn watched<T>(what: &str, work: impl FnOnce() -> T) -> T {
    thread::scope(|scope| {
        let (end, ended) = mpsc::channel::<()>();
        scope.spawn(move || tell(what, ended));
        let out = work();
        drop(end);
        out
    })
}

fn tell(what: &str, ended: Receiver<()>) {
    let begun = Instant::now();
    let shown = io::stderr().is_terminal();
    let mut next = Duration::from_millis(1500);
    let mut said = false;
    while ended.recv_timeout(next.saturating_sub(begun.elapsed())) == Err(RecvTimeoutError::Timeout) {
        let words = format!("{what}: {} so far", time(begun.elapsed().as_secs_f64()));
        if shown {
            eprint!("\r{words}   ");
            next += Duration::from_secs(1);
        } else {
            // In a log each line stays: say it at ever longer intervals.
            eprintln!("{words}");
            next *= 2;
        }
        said = true;
    }
    if said && shown {
        eprintln!();
    }
}
