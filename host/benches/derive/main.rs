//! The library beside plain Rust and the scrypts of other houses: one process, one round after another, each
//! contestant once in a round. Prints a table for docs/MEASURED.md.

mod contest;
mod fast;

use contest::{Contestant, Fastest, House, Ours, Straightforward};
use std::env;
use std::process::Command;

const SPACINGS: [u64; 4] = [1, 2, 4, 512];

/// A contestant that takes seconds is asked in the first rounds only.
const ROUNDS_IF_SLOW: usize = 3;

fn main() {
    let rounds = rounds();
    let (mut all, missing) = contestants();
    for round in 0..rounds {
        eprintln!("round {} of {rounds}", round + 1);
        for contestant in all.iter_mut().filter(|one| round < ROUNDS_IF_SLOW || !one.slow()) {
            contestant.run();
        }
    }
    println!("{}\n{}", about(rounds), table(&all));
    missing.iter().for_each(|word| println!("Left out: {word}"));
}

fn rounds() -> usize {
    let words: Vec<String> = env::args().collect();
    let after = words.iter().position(|word| word == "--rounds").and_then(|at| words.get(at + 1));
    after.map_or(15, |word| word.parse().expect("--rounds wants a number"))
}

/// The two plain ones first: the others are held to them.
fn contestants() -> (Vec<Contestant>, Vec<String>) {
    let mut all = vec![
        Contestant::new("straightforward Rust (a)", Straightforward::new()),
        Contestant::new("fastest plain scalar Rust (b)", Fastest::new()),
    ];
    all.extend(SPACINGS.map(|spacing| Contestant::new(format!("ours, k = {spacing}"), Ours::new(spacing))));
    let mut missing = Vec::new();
    for other in apart::others::all() {
        match other {
            Ok(other) => all.push(Contestant::new(format!("{} (its own memory)", other.name), House(other))),
            Err(word) => missing.push(word),
        }
    }
    (all, missing)
}

/// What a command writes; nothing where it is not here.
fn told(command: &str, words: &[&str]) -> String {
    let told = Command::new(command).args(words).output();
    told.map_or(String::new(), |told| String::from_utf8_lossy(&told.stdout).trim().to_string())
}

/// The processor's name, which /proc/cpuinfo has on x86-64 alone.
fn model() -> String {
    let info = told("lscpu", &[]);
    let name = info.lines().find_map(|line| line.strip_prefix("Model name:"));
    name.map_or("unknown processor".into(), |name| name.trim().to_string())
}

fn about(rounds: usize) -> String {
    format!(
        "RFC 7914's third vector (N = 16,384, r = 8, p = 1, 64 bytes), every key checked. {}, {}; {}, opt-level 3 for \
         that processor's baseline, (b) with codegen-units = 1, (a) with cargo's own. Processor time of the one thread; \
         {rounds} interleaved rounds ({ROUNDS_IF_SLOW} for what takes over a second); buffers written beforehand. Ratios \
         are medians of a round's ratios.\n",
        env::consts::ARCH,
        model(),
        told("rustc", &["--version"])
    )
}

fn table(all: &[Contestant]) -> String {
    let mut text = "| scrypt | median ms | best ms | to (a) | to (b) | mixings | ns a mixing |\n".to_string();
    text += "|---|---:|---:|---:|---:|---:|---:|\n";
    for one in all {
        let [median, best] = [one.median(), one.best()].map(|seconds| 1e3 * seconds);
        let [to_a, to_b] = [&all[0], &all[1]].map(|plain| one.ratio(plain));
        let nanoseconds = 1e9 * one.median() / one.mixings as f64;
        let row = [one.name.clone(), format!("{median:.2}"), format!("{best:.2}"), format!("{to_a:.3}")];
        let rest = [format!("{to_b:.3}"), one.mixings.to_string(), format!("{nanoseconds:.0}")];
        text += &format!("| {} | {} |\n", row.join(" | "), rest.join(" | "));
    }
    text
}
