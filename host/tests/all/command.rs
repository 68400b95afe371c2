//! The command, as the desk runs it.

use crate::example::Folder;
use crate::{case, Said, Test};
use apart::card::{self, Card};
use apart::random::Random;
use apart::scrypt;
use std::fs;
use std::io::Write;
use std::path::Path;
use std::process::{Command, Stdio};

pub const TESTS: &[Test] = &[
    ("the command: logins", logins),
    ("the command: the card among the examples", example_card),
    ("the command: progress", progress),
    ("the command: cards", cards),
    ("the command: plans and pictures", plans),
    ("the command: help", help),
    ("the command: what it cannot do", troubles),
];

/// What a run of the command gave.
struct Ran {
    out: String,
    err: String,
    status: Option<i32>,
}

fn run(words: &[&str], input: &[u8]) -> Ran {
    let mut child = Command::new(env!("CARGO_BIN_EXE_rinnamoyle"))
        .args(words)
        .stdin(Stdio::piped())
        .stdout(Stdio::piped())
        .stderr(Stdio::piped())
        .spawn()
        .expect("the command starts");
    // A command that stops before it reads leaves a closed pipe: that is its right.
    let _ = child.stdin.take().unwrap().write_all(input);
    let told = child.wait_with_output().expect("the command ends");
    let text = |bytes: Vec<u8>| String::from_utf8(bytes).expect("text");
    Ran { out: text(told.stdout), err: text(told.stderr), status: told.status.code() }
}

fn path(path: &Path) -> &str {
    path.to_str().expect("a plain path")
}

fn card(password: &[u8], [exponent, r, p]: [u64; 3]) -> Vec<u8> {
    let salt = b"eight by".to_vec();
    let key = scrypt::scrypt(password, &salt, [1 << exponent, r, p], 32).0;
    card::write(&Card { exponent, r, p, salt, key }, 200).expect("a good card")
}

fn logins(_: &mut Random) -> Said {
    let folder = Folder::new();
    let file = folder.file("rover.card");
    let good = card(b"open sesame", [6, 2, 1]);
    fs::write(&file, &good).expect("a file");
    let bad = folder.file("bad.card");
    fs::write(&bad, &good[..20]).expect("a file");
    let [file, bad] = [path(&file), path(&bad)];
    let tries: [(&[&str], &[u8], &str, i32); 13] = [
        (&["login", file], b"rover:open sesame", "yes\n", 0),
        (&["login", file], b"rover:open sesame\n", "yes\n", 0),
        (&["login", file], b"rover:open sesame\n\n", "no\n", 1),
        (&["login", file], b"rover:open sesam", "no\n", 1),
        (&["login", file], b"a:b:open sesame", "yes\n", 0),
        (&["login", file, "--scratch", "64K"], b"rover:open sesame", "yes\n", 0),
        (&["login", "--scratch=2K", file, "--allowance", "2^16"], b"rover:open sesame", "yes\n", 0),
        (&["login", file], b"rover", "refused: text desk, 31: ", 2),
        (&["login", file], b"", "refused: text desk, 31: ", 2),
        (&["login", file], b":x", "refused: text desk, 32: ", 2),
        (&["login", bad], b"rover", "refused: card desk, 22: ", 2),
        (&["login", file, "--scratch", "1279"], b"rover:x", "refused: derivation desk, 8: ", 2),
        (&["login", file, "--allowance", "127"], b"rover:x", "refused: derivation desk, 9: ", 2),
    ];
    for (words, input, wanted, status) in tries {
        let ran = run(words, input);
        assert_eq!(ran.status, Some(status), "{words:?}: {}{}", ran.out, ran.err);
        assert!(if status == 2 { ran.out.starts_with(wanted) } else { ran.out == wanted }, "{words:?}: {}", ran.out);
        assert_eq!(ran.err, "", "{words:?}");
    }
    Said::Tried(format!("{} with their exit status", tries.len()))
}

/// Some seconds of work: standard error says how it goes, standard output the answer alone.
fn progress(_: &mut Random) -> Said {
    let folder = Folder::new();
    let file = folder.file("slow.card");
    fs::write(&file, card(b"x", [13, 8, 1])).expect("a file");
    let ran = run(&["login", path(&file), "--scratch", "12K"], b"a:x");
    assert_eq!((ran.out.as_str(), ran.status), ("yes\n", Some(0)));
    assert!(ran.err.contains("deriving, about ") && ran.err.contains(" so far"), "{:?}", ran.err);
    Said::Tried(format!("{} lines of it", ran.err.lines().count()))
}

/// The first thing that a reader tries.
fn example_card(_: &mut Random) -> Said {
    let file = Path::new(env!("CARGO_MANIFEST_DIR")).join("examples/rover.card");
    let ran = run(&["login", path(&file)], b"rover:open sesame");
    assert_eq!((ran.out.as_str(), ran.status), ("yes\n", Some(0)), "{}", ran.err);
    Said::Tried("rover:open sesame is let in".into())
}

fn cards(_: &mut Random) -> Said {
    let folder = Folder::new();
    let file = folder.file("new.card");
    let salt = "0123456789abcdef0011";
    let write = |more: &[&str], password: &[u8]| {
        let costs = ["--salt", salt, "--n", "64", "--r", "3", "--p", "2", "--key-length", "24"];
        run(&[&["card", "write", path(&file)], &costs[..], more].concat(), password)
    };
    let first = write(&[], b"secret\n");
    assert_eq!(first.status, Some(0), "{}", first.err);
    let bytes = fs::read(&file).expect("the card");
    let wanted = card::read(&bytes).expect("a good card");
    assert_eq!((wanted.exponent, wanted.r, wanted.p, wanted.salt.len()), (6, 3, 2, 10));
    assert_eq!(wanted.key, scrypt::scrypt(b"secret", &wanted.salt, [64, 3, 2], 24).0);

    assert_eq!(write(&[], b"other").status, Some(2), "over a file that is there");
    assert_eq!(write(&["--force"], b"with:colon").status, Some(2), "a password that no login could bring");
    assert_eq!(fs::read(&file).unwrap(), bytes);
    assert_eq!(write(&["--force", "--scratch", "6K"], b"secret").status, Some(0));
    assert_eq!(fs::read(&file).unwrap(), bytes, "the scratch changed the card");

    let key: String = wanted.key.iter().map(|byte| format!("{byte:02x}")).collect();
    let shown = run(&["card", "show", path(&file)], b"").out;
    assert!(shown.contains(salt) && shown.contains("64 (2^6)") && !shown.contains(&key), "{shown}");
    assert!(run(&["card", "show", "--key", path(&file)], b"").out.contains(&key));
    Said::Tried("written, shown, held to the independent reader and scrypt".into())
}

fn plans(_: &mut Random) -> Said {
    let folder = Folder::new();
    let picture = folder.file("plan.svg");
    let table = run(&["plan", "--n", "1024", "--r", "8", "--p", "16", "--scratch", "64K", "--scratch", "1K"], b"");
    assert_eq!(table.status, Some(0), "{}", table.err);
    let row = table.out.lines().find(|line| line.contains("65,536")).expect("its row");
    let cells: Vec<&str> = row.split_whitespace().collect();
    assert_eq!(cells[..6], ["65,536", "64", "KiB", "32", "32", "540,672"], "case K");
    assert!(table.out.lines().any(|line| line.contains("1,024") && line.contains("refused: 8")), "{}", table.out);
    let words = ["plan", "--n", "64", "--r", "1", "--plot", path(&picture), "--allowance", "1000"];
    let drawn = run(&words, b"");
    assert_eq!(drawn.status, Some(0), "{}", drawn.err);
    assert_eq!(drawn.out.lines().filter(|line| line.ends_with("refused: 9")).count(), 3, "{}", drawn.out);
    let svg = fs::read_to_string(&picture).expect("the picture");
    assert!(svg.starts_with("<svg") && svg.ends_with("</svg>\n"));
    assert_eq!(svg.matches("<circle").count(), 7, "a dot for each spacing");
    assert_eq!(svg.matches("<text").count(), svg.matches("</text>").count());
    Said::Tried("case K's row, refused rows, a picture with its seven spacings".into())
}

fn help(_: &mut Random) -> Said {
    let topics: [&[&str]; 6] = [
        &["--help"],
        &["help"],
        &["login", "--help"],
        &["card", "write", "--help"],
        &["card", "show", "-h"],
        &["plan", "--help"],
    ];
    for words in topics {
        let ran = run(words, b"");
        assert_eq!((ran.status, ran.err.as_str()), (Some(0), ""), "{words:?}");
        assert!(ran.out.starts_with("rinnamoyle") && ran.out.lines().count() > 3, "{words:?}");
        assert!(ran.out.lines().all(|line| line.chars().count() <= 120), "{words:?}");
    }
    Said::Tried(format!("{} pages", topics.len()))
}

/// Each with exit status 2, nothing on standard output, a word on what is wrong and where to read on.
fn troubles(_: &mut Random) -> Said {
    let folder = Folder::new();
    let file = folder.file("some.card");
    fs::write(&file, card(b"x", [1, 1, 1])).expect("a file");
    let [card, none, here] = [path(&file), "/no/such/file", path(file.parent().unwrap())];
    let salted = ["card", "write", none, "--salt", "0123456789abcdef"];
    let with = |more: &[&'static str]| [&salted[..], more].concat();
    let tries: Vec<(Vec<&str>, &str)> = vec![
        (vec![], "nothing to do"),
        (vec!["dance"], "dance"),
        (vec!["card"], "write or show"),
        (vec!["card", "dance"], "write or show"),
        (vec!["login"], "CARD is missing"),
        (vec!["login", none], none),
        (vec!["login", here], here),
        (vec!["login", card, card], "too many"),
        (vec!["login", card, "--scratch"], "--scratch wants a value"),
        (vec!["login", card, "--scratch", "many"], "many"),
        (vec!["login", card, "--scratch", "-5"], "-5"),
        (vec!["login", card, "--scratch", "+5"], "+5"),
        (vec!["login", card, "--scratch", "99999999999999999999"], "99999999999999999999"),
        (vec!["login", card, "--scratch", "17179869184G"], "17179869184G"),
        (vec!["login", card, "--scratch", "2^64"], "2^64"),
        (vec!["login", card, "--scratch", "2^62"], "no memory"),
        (vec!["login", card, "--allowance", "1", "--allowance", "2"], "twice"),
        (vec!["login", card, "--password", "x"], "--password is no option here"),
        (vec!["card", "write", none], "--salt is missing"),
        (vec!["card", "write", none, "--salt", "xyz"], "xyz"),
        (vec!["card", "write", none, "--salt", "0123"], "24"),
        (vec!["card", "write", none, "--salt", "012"], "012"),
        (with(&["--n", "1000"]), "6:"),
        (with(&["--n", "2^21"]), "7:"),
        (with(&["--n", "2^16", "--r", "1"]), "7:"),
        (with(&["--r", "0"]), "4:"),
        (with(&["--p", "65"]), "5:"),
        (with(&["--key-length", "15"]), "24:"),
        (with(&["--key-length", "2^60"]), "24:"),
        (with(&["--n", "2", "--scratch", "4K"]), "8:"),
        (with(&["--n", "16", "--allowance", "31"]), "9:"),
        (with(&["--n", "16", "--force=yes"]), "--force takes no value"),
        (with(&["--n", "16"]), none),
        (vec!["card", "show", none], none),
        (vec!["card", "show", concat!(env!("CARGO_MANIFEST_DIR"), "/Cargo.toml")], "22:"),
        (vec!["plan", "here"], "here"),
        (vec!["plan", "--n", "3"], "6:"),
        (vec!["plan", "--card", card, "--n", "4"], "--n"),
        (vec!["plan", "--n", "4", "--plot", "/no/such/picture.svg"], "/no/such/picture.svg"),
    ];
    for (words, wanted) in &tries {
        let ran = case(|| format!("{words:?}"), || run(words, b"password"));
        assert_eq!((ran.status, ran.out.as_str()), (Some(2), ""), "{words:?}: {}", ran.err);
        assert!(ran.err.starts_with("rinnamoyle: ") && ran.err.contains(wanted), "{words:?}: {}", ran.err);
        assert!(ran.err.contains("--help`"), "{words:?}: {}", ran.err);
    }
    Said::Tried(format!("{} of them", tries.len()))
}
