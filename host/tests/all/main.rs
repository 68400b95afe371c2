//! Every test of the proved library and of what lies over it, against programs that share no code with them.
//!
//! Each test runs in a process of its own: one that touches a byte it was not lent is a failure like any other. Words
//! on the command line choose the tests whose names have one of them. RINNAMOYLE_SEED chooses the random inputs.

mod cards;
mod command;
mod derivations;
mod example;
mod lend;
mod library;
mod logins;
mod others;
mod tally;
mod texts;
mod vectors;
mod wrapper;

use apart::random::Random;
use std::process::{Command, ExitCode, Output};
use std::time::Instant;
use std::{env, panic};

/// What a test has to say when nothing failed: what it tried, or why it did not.
pub enum Said {
    Tried(String),
    Skipped(String),
}

type Test = (&'static str, fn(&mut Random) -> Said);

const TESTS: &[&[Test]] = &[
    vectors::TESTS,
    derivations::TESTS,
    cards::TESTS,
    texts::TESTS,
    logins::TESTS,
    wrapper::TESTS,
    others::TESTS,
    library::TESTS,
    example::TESTS,
    command::TESTS,
];

const SKIPPED: i32 = 3;

fn main() -> ExitCode {
    let words: Vec<String> = env::args().skip(1).collect();
    match words.as_slice() {
        [one, name] if one == "--one" => run_here(name),
        _ => run_all(&words),
    }
}

fn tests() -> impl Iterator<Item = &'static Test> {
    TESTS.iter().copied().flatten()
}

fn seed() -> u64 {
    env::var("RINNAMOYLE_SEED").map_or(7914, |word| word.parse().expect("RINNAMOYLE_SEED is a number"))
}

fn run_here(name: &str) -> ExitCode {
    let (_, run) = tests().find(|(known, _)| *known == name).expect("a test's name");
    match run(&mut Random::seeded(seed())) {
        Said::Tried(words) => {
            println!("{words}");
            ExitCode::SUCCESS
        }
        Said::Skipped(words) => {
            println!("{words}");
            ExitCode::from(SKIPPED as u8)
        }
    }
}

fn run_all(words: &[String]) -> ExitCode {
    println!("seed {} (another: RINNAMOYLE_SEED=..)", seed());
    let chosen = |test: &&Test| words.is_empty() || words.iter().any(|word| test.0.contains(word.as_str()));
    let [mut passed, mut failed] = [0, 0];
    for (name, _) in tests().filter(chosen) {
        match run_apart(name) {
            Some(true) => passed += 1,
            Some(false) => failed += 1,
            None => {}
        }
    }
    println!("{passed} passed, {failed} failed");
    ExitCode::from(u8::from(failed > 0 || passed == 0))
}

/// Runs one test in a process of its own: whether it passed, or nothing where it was skipped.
fn run_apart(name: &str) -> Option<bool> {
    let begun = Instant::now();
    let exe = env::current_exe().expect("this program's file");
    let told = Command::new(exe).args(["--one", name]).output().expect("this program, once more");
    let words = String::from_utf8_lossy(&told.stdout).trim_end().to_string();
    let seconds = begun.elapsed().as_secs_f64();
    match told.status.code() {
        Some(0) => {
            println!("ok    {name}: {words} ({seconds:.1} s)");
            Some(true)
        }
        Some(SKIPPED) => {
            println!("skip  {name}: {words}");
            None
        }
        _ => {
            println!("FAIL  {name}: {}", why(&told));
            Some(false)
        }
    }
}

fn why(told: &Output) -> String {
    let words = String::from_utf8_lossy(&told.stderr).trim_end().to_string();
    match told.status.code() {
        Some(_) => words,
        None => format!("{}: a byte was touched that was not lent? {words}", told.status),
    }
}

/// Which of several cases failed: panics with its words before those of the assertion.
pub fn case<T>(words: impl Fn() -> String, run: impl FnOnce() -> T) -> T {
    match panic::catch_unwind(panic::AssertUnwindSafe(run)) {
        Ok(out) => out,
        Err(_) => panic!("in this case: {}", words()),
    }
}
