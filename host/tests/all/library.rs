//! The archive that is linked here: this processor's objects, made from the sources that are in the repository now.

use crate::example::{host, words};
use crate::{Said, Test};
use apart::random::Random;
use apart::sha256::sha256;
use std::env::consts::ARCH;
use std::path::{Path, PathBuf};
use std::process::{Command, Output};
use std::{env, fs};

#[path = "../../archive.rs"]
mod archive;

pub const TESTS: &[Test] = &[
    ("the archive's processor and sources", linked),
    ("archives that must not be linked", wrong),
    ("what the archive wants of whoever links it", wants),
    ("a module for another processor", module),
    ("a processor that is neither", neither),
];

fn hex(bytes: &[u8]) -> String {
    bytes.iter().map(|byte| format!("{byte:02x}")).collect()
}

fn files_below(folder: &Path, found: &mut Vec<PathBuf>) {
    for entry in fs::read_dir(folder).expect("a folder of the repository") {
        let path = entry.expect("its entry").path();
        match path.is_dir() {
            true => files_below(&path, found),
            false => found.push(path),
        }
    }
}

/// The sum of every file that has a part in the proof, as `host/library` writes it down: of a line for each, its sum and
/// its path from the repository's root, in the order of their bytes.
fn sources() -> String {
    let root = host("..");
    let mut files = vec![root.join("crates.txt")];
    for entry in fs::read_dir(root.join("crates")).expect("the crates") {
        let crate_of = entry.expect("a crate").path();
        for part in ["src", "specs", "proofs"].map(|part| crate_of.join(part)).iter().filter(|part| part.is_dir()) {
            files_below(part, &mut files);
        }
    }
    let name = |file: &PathBuf| file.strip_prefix(&root).expect("below the root").to_str().expect("a name").to_string();
    let mut named: Vec<(String, PathBuf)> = files.into_iter().map(|file| (name(&file), file)).collect();
    named.sort();
    let line =
        |(name, file): &(String, PathBuf)| format!("{}  {name}\n", hex(&sha256(&fs::read(file).expect("a file"))));
    hex(&sha256(named.iter().map(line).collect::<String>().as_bytes()))
}

/// What is wrong with an archive whose record says this, where the sources have that sum.
fn trouble(archive: &[u8], record: &str, sources: &str) -> Option<String> {
    let said = |word: &str| record.lines().find_map(|line| line.strip_prefix(word)?.strip_prefix(' '));
    let wanted =
        [("processor", ARCH.to_string()), ("sources", sources.to_string()), ("archive", hex(&sha256(archive)))];
    let differs = wanted.into_iter().find(|(word, value)| said(word) != Some(value.as_str()));
    match archive::objects_for(ARCH, archive) {
        Err(words) => Some(words),
        Ok(_) => differs.map(|(word, _)| format!("its record has another {word}")),
    }
}

/// The archive that this program is linked with, and what was written down of it.
fn here() -> (Vec<u8>, String) {
    let archive = Path::new(env!("RINNAMOYLE_ARCHIVE"));
    let record = fs::read_to_string(archive.with_extension("from")).expect("the record beside the archive");
    (fs::read(archive).expect("the archive"), record)
}

fn linked(_: &mut Random) -> Said {
    let (archive, record) = here();
    assert_eq!(trouble(&archive, &record, &sources()), None, "`host/library` makes a new one");
    let objects = archive::objects_for(ARCH, &archive).expect("as above");
    Said::Tried(format!("{objects} object, {ARCH}, from the sources as they are"))
}

/// Where the archive's one object begins: at the only ELF mark.
fn object_at(archive: &[u8]) -> usize {
    archive.windows(6).position(|bytes| bytes == b"\x7fELF\x02\x01").expect("an object")
}

/// Each of these is noticed, so the test above can fail.
fn wrong(_: &mut Random) -> Said {
    let (archive, record) = here();
    let (sources, elf) = (sources(), object_at(&archive));
    let changed = |at: usize, byte: u8| {
        let mut copy = archive.clone();
        assert_ne!(copy[at], byte);
        copy[at] = byte;
        copy
    };
    let told = |archive: &[u8], record: &str| trouble(archive, record, &sources).expect("something is wrong");
    let (number, other) = if ARCH == "x86_64" { (183, "aarch64") } else { (62, "x86_64") };
    assert_eq!(
        told(&changed(elf + 18, number), &record),
        format!("it has an object for {other}, and {ARCH} is wanted")
    );
    assert!(told(&changed(elf + 18, 243), &record).contains("is no object for"), "riscv64");
    assert!(told(&changed(elf + 4, 1), &record).contains("is no object for"), "an object of 32 bits");
    assert!(told(&changed(elf, 0), &record).contains("is no object for"), "no object at all");
    assert_eq!(told(&archive[..archive.len() - 1], &record), "it is cut short");
    assert_eq!(told(&archive[..8], &record), "it has no object");
    assert_eq!(told(b"", &record), "it is no archive");
    // The same object twice over, the second one another processor's.
    let member = archive[elf - 60..].to_vec();
    let mut two = [&archive[..], &member[..]].concat();
    two[archive.len() + 60 + 18] = number;
    assert!(told(&two, &record).contains(other));
    assert_eq!(
        told(&changed(archive.len() - 1, !archive[archive.len() - 1]), &record),
        "its record has another archive"
    );
    assert_eq!(told(&archive, &record.replace(&sources, &"0".repeat(64))), "its record has another sources");
    assert_eq!(told(&archive, &record.replace(ARCH, other)), "its record has another processor");
    assert_eq!(told(&archive, ""), "its record has another processor");
    Said::Tried("8 archives and 4 records, each refused for its own reason".into())
}

/// Two names that every C library has, and no third: a program that brings those itself links without one.
fn wants(_: &mut Random) -> Said {
    let told =
        Command::new("nm").arg("-u").arg(env!("RINNAMOYLE_ARCHIVE")).output().expect("nm, of the C compiler's own");
    assert!(told.status.success(), "{}", words(&told));
    let said = words(&told);
    let names: Vec<&str> = said.lines().filter_map(|line| line.trim().strip_prefix("U ")).collect();
    assert_eq!(names, ["memcpy", "memset"]);
    Said::Tried(names.join(" and "))
}

/// What `aarch64/module.awk` makes of a module.
fn retold(module: &str) -> Output {
    let file = env::temp_dir().join(format!("rinnamoyle-{}.ll", std::process::id()));
    let empty = "target datalayout = \"own\"\ntarget triple = \"aarch64\"\n";
    fs::write(&file, empty).expect("a file");
    let second = file.with_extension("second");
    fs::write(&second, module).expect("a file");
    let told =
        Command::new("awk").arg("-f").arg(host("aarch64/module.awk")).args([&file, &second]).output().expect("awk");
    fs::remove_file(file).expect("the file");
    fs::remove_file(second).expect("the file");
    told
}

/// What is x86-64's own is changed, all else stays, and a form that nobody tried there is refused.
fn module(_: &mut Random) -> Said {
    let before = "target datalayout = \"x\"\n\
        target triple = \"x86_64\"\n\
        define internal noundef ptr @\"a::b\"(ptr noundef %a0) #0 {\n  ret ptr %a0\n}\n\
        define noundef ptr @large(ptr noundef %a0, ptr noundef byval([72 x i8]) align 8 %a1, i64 noundef %a2) #0 {\n  \
        call void @\"a::b\"(ptr %a0)\n  ret ptr %a0\n}\n\
        define { i64, i64 } @small(ptr noundef %a0, i64 noundef %a1) #0 {\n  ret { i64, i64 } %r7\n}\n\
        attributes #0 = { nounwind \"target-cpu\"=\"x86-64\" }\n";
    let after = "target datalayout = \"own\"\n\
        target triple = \"aarch64\"\n\
        define internal noundef ptr @\"a::b\"(ptr noundef %a0) #0 {\n  ret ptr %a0\n}\n\
        define void @large(ptr noundef sret(i8) align 8 %a0, ptr noundef align 8 %a1, i64 noundef %a2) #0 {\n  \
        call void @\"a::b\"(ptr %a0)\n  ret void\n}\n\
        define { i64, i64 } @small(ptr noundef %a0, i64 noundef %a1) #0 {\n  ret { i64, i64 } %r7\n}\n\
        attributes #0 = { nounwind }\n";
    let told = retold(before);
    assert_eq!((words(&told).as_str(), told.status.success()), (after, true));
    let refused = [
        ("define noundef zeroext i8 @f() #0 {\n", "another type returned"),
        ("define { double, i64 } @f() #0 {\n", "another type returned"),
        ("define void @f(i32 noundef %a0) #0 {\n", "another type of parameter"),
        ("define void @f(i64 noundef %a0, i8 noundef zeroext %a1) #0 {\n", "another type of parameter"),
        ("define noundef ptr @f(i64 noundef %a0) #0 {\n", "a struct returned in another way"),
        ("define noundef ptr @f(ptr noundef %a0) #0 {\n  ret ptr %r1\n}\n", "a struct returned in another way"),
        ("  call void @f(ptr %a0)\n", "a call of an exported function"),
        ("declare i64 @read(i32, ptr, i64) #0\n", "a call out of the library"),
    ];
    for (module, why) in refused {
        let told = retold(module);
        assert!(!told.status.success() && words(&told).contains(why), "{module}: {}", words(&told));
    }
    Said::Tried(format!("one told again, {} refused", refused.len()))
}

/// No proof is begun: there is no `rt` on this PATH, and the word is not about that.
fn neither(_: &mut Random) -> Said {
    for processor in ["riscv64", "x86-64", "armv7l"] {
        let told =
            Command::new(host("library")).arg(processor).env("PATH", "/usr/bin:/bin").output().expect("it starts");
        let word = format!("no library for the processor {processor}, only for x86_64 and aarch64");
        assert!(words(&told).contains(&word) && told.status.code() == Some(1), "{}", words(&told));
    }
    Said::Tried("a plain word, before anything is proved".into())
}
