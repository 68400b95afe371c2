//! The header, the C example and the vectors' lines, by a C compiler.

use crate::{Said, Test};
use apart::random::Random;
use std::path::{Path, PathBuf};
use std::process::{Command, Output};
use std::{env, fs, process};

pub const TESTS: &[Test] = &[
    ("the C example", example),
    ("the vectors' lines, called from C", lines),
    ("the header's structs and those of the wrapper", same_structs),
    ("the header in C++", in_cpp),
];

const STRICT: [&str; 5] = ["-Wall", "-Wextra", "-Wpedantic", "-Wconversion", "-Werror"];

pub fn host(path: &str) -> PathBuf {
    Path::new(env!("CARGO_MANIFEST_DIR")).join(path)
}

/// A folder of this process, gone when it is dropped.
pub struct Folder(PathBuf);

impl Folder {
    pub fn new() -> Folder {
        let path = env::temp_dir().join(format!("rinnamoyle-{}", process::id()));
        fs::create_dir_all(&path).expect("a folder for the test's files");
        Folder(path)
    }

    pub fn file(&self, name: &str) -> PathBuf {
        self.0.join(name)
    }
}

impl Drop for Folder {
    fn drop(&mut self) {
        let _ = fs::remove_dir_all(&self.0);
    }
}

pub fn words(told: &Output) -> String {
    String::from_utf8_lossy(&[&told.stdout[..], &told.stderr[..]].concat()).into_owned()
}

/// Compiles a program against header and library, and runs it on files of the repository.
fn compiled_and_run(source: &Path, folder: &Folder, files: &[&str]) -> Output {
    let program = folder.file("program");
    let told = Command::new("cc")
        .args(["-std=c99", "-O2"])
        .args(STRICT)
        .arg("-I")
        .arg(host("include"))
        .args([source, Path::new(env!("RINNAMOYLE_ARCHIVE"))])
        .arg("-o")
        .arg(&program)
        .output()
        .expect("a C compiler, cc");
    assert!(told.status.success(), "{}", words(&told));
    Command::new(program).args(files.iter().map(|file| host(file))).output().expect("the program starts")
}

fn example(_: &mut Random) -> Said {
    let told = compiled_and_run(&host("examples/login.c"), &Folder::new(), &[]);
    assert_eq!((words(&told).as_str(), told.status.code()), ("yes\n", Some(0)));
    Said::Tried("compiled with every warning an error, and it says yes".into())
}

fn lines(_: &mut Random) -> Said {
    let vectors = ["../crates/vectors/stdin", "../crates/vectors/stdout"];
    let told = compiled_and_run(&host("tests/lines.c"), &Folder::new(), &vectors);
    assert!(told.status.success(), "{}", words(&told));
    Said::Tried(words(&told).trim_end().into())
}

/// C prints the place of each field: they must be those that the wrapper declares, one u64 after another.
fn same_structs(_: &mut Random) -> Said {
    let structs = [
        ("derived", "number spacing stored mixings"),
        ("card", "number exponent r p salt_at salt_len key_at key_len"),
        ("written", "number length"),
        ("text", "number user_len password_at password_len"),
        ("answer", "answer desk number"),
    ];
    let mut source = "#include <stddef.h>\n#include \"rinnamoyle.h\"\nint main(void) {\n    return !(1".to_string();
    let mut fields = 0;
    for (name, names) in structs {
        for (i, field) in names.split(' ').enumerate() {
            source += &format!("\n        && offsetof(struct rinnamoyle_{name}, {field}) == {}", 8 * i);
            fields += 1;
        }
        let count = names.split(' ').count();
        source += &format!("\n        && sizeof(struct rinnamoyle_{name}) == {}", 8 * count);
    }
    source += ");\n}\n";
    let folder = Folder::new();
    let file = folder.file("structs.c");
    fs::write(&file, source).expect("a file");
    let told = compiled_and_run(&file, &folder, &[]);
    assert!(told.status.success(), "a field lies elsewhere");
    Said::Tried(format!("5 structs, {fields} fields"))
}

fn in_cpp(_: &mut Random) -> Said {
    let header = host("include/rinnamoyle.h");
    let told = Command::new("c++").args(["-x", "c++", "-fsyntax-only"]).args(STRICT).arg(header).output();
    match told {
        Ok(told) => {
            // A header compiled by itself is warned of as such by some compilers.
            assert!(told.status.success() || words(&told).contains("#pragma once"), "{}", words(&told));
            Said::Tried("compiled with every warning an error".into())
        }
        Err(_) => Said::Skipped("there is no C++ compiler".into()),
    }
}
