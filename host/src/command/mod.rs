//! One module for each thing that the command does, and a few that they share.

mod amounts;
mod card;
mod files;
mod help;
mod input;
mod login;
mod meter;
mod options;
mod plan;
mod plot;
mod progress;
mod work;

use options::{Known, Options};
use rinnamoyle::Refusal;
use std::ffi::OsString;

pub const YES: u8 = 0;
pub const NO: u8 = 1;
pub const REFUSED: u8 = 2;

/// What goes to standard output, and the exit status.
pub struct Said {
    pub text: String,
    pub status: u8,
}

impl Said {
    fn well(text: impl Into<String>) -> Said {
        Said { text: text.into(), status: YES }
    }
}

/// A desk's refusal in words.
fn refused(reason: impl Into<Refusal>) -> String {
    format!("refused: {}", reason.into())
}

/// Something to do, by the words that choose it.
struct Job {
    words: &'static [&'static str],
    known: Known,
    help: &'static str,
    run: fn(&Options) -> Result<Said, String>,
}

const JOBS: [Job; 4] = [
    Job { words: &["login"], known: login::KNOWN, help: help::LOGIN, run: login::run },
    Job { words: &["card", "write"], known: card::WRITE_KNOWN, help: help::CARD_WRITE, run: card::write },
    Job { words: &["card", "show"], known: card::SHOW_KNOWN, help: help::CARD_SHOW, run: card::show },
    Job { words: &["plan"], known: plan::KNOWN, help: help::PLAN, run: plan::run },
];

/// Does what the words say.
pub fn run(words: &[OsString]) -> Result<Said, String> {
    let job = JOBS.iter().find(|job| job.is_named_by(words));
    match job {
        Some(job) => job.done(&words[job.words.len()..]),
        None if asks_for_help(words) || words.first().is_some_and(|word| word == "help") => Ok(Said::well(help::ALL)),
        None => Err(format!("{}\n{}", unknown(words), hint("--help"))),
    }
}

fn asks_for_help(words: &[OsString]) -> bool {
    words.iter().any(|word| word == "--help" || word == "-h")
}

impl Job {
    fn is_named_by(&self, words: &[OsString]) -> bool {
        words.len() >= self.words.len() && words.iter().zip(self.words).all(|(given, own)| given == own)
    }

    fn done(&self, words: &[OsString]) -> Result<Said, String> {
        if asks_for_help(words) {
            return Ok(Said::well(self.help));
        }
        let said = Options::sorted(words, self.known).and_then(|options| (self.run)(&options));
        said.map_err(|trouble| format!("{trouble}\n{}", hint(&[self.words, &["--help"]].concat().join(" "))))
    }
}

fn unknown(words: &[OsString]) -> String {
    match words.first() {
        None => "nothing to do".into(),
        Some(word) if word == "card" => "card what? write or show".into(),
        Some(word) => format!("{} is nothing that I do", word.to_string_lossy()),
    }
}

fn hint(words: &str) -> String {
    format!("`rinnamoyle {words}` says how it is used")
}
