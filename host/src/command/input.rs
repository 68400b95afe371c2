//! Secrets from standard input.

use super::files::whole;
use std::io::{self, BufRead, IsTerminal};
use std::process::{Command, Stdio};

/// All of standard input, or at a terminal one line that is not shown. A newline at the end is dropped.
pub fn secret(prompt: &str) -> Result<Vec<u8>, String> {
    let stdin = io::stdin();
    let read = if stdin.is_terminal() { typed(prompt) } else { whole(stdin.lock()) };
    let mut bytes = read.map_err(|trouble| format!("standard input: {trouble}"))?;
    if bytes.last() == Some(&b'\n') {
        bytes.pop();
    }
    Ok(bytes)
}

/// A secret to be kept: at a terminal it is typed twice.
pub fn new_secret(prompt: &str) -> Result<Vec<u8>, String> {
    let first = secret(prompt)?;
    if io::stdin().is_terminal() && secret("once more: ")? != first {
        return Err("these are two different ones".into());
    }
    Ok(first)
}

fn typed(prompt: &str) -> io::Result<Vec<u8>> {
    eprint!("{prompt}");
    let _unseen = Unseen::begin();
    let mut line = Vec::new();
    io::stdin().lock().read_until(b'\n', &mut line)?;
    Ok(line)
}

/// While it lives the terminal does not show what is typed.
struct Unseen;

impl Unseen {
    fn begin() -> Unseen {
        stty("-echo");
        Unseen
    }
}

impl Drop for Unseen {
    fn drop(&mut self) {
        stty("echo");
        eprintln!();
    }
}

/// Without `stty` the line is shown, which is no reason to stop.
fn stty(word: &str) {
    let _ = Command::new("stty").arg(word).stderr(Stdio::null()).status();
}
