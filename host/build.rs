//! Makes the proved static library for the processor that is built for, by `host/library`, and links it.
//!
//! `RINNAMOYLE_LIB_DIR` names a folder with a ready `librinnamoyle.a` instead.

mod archive;

use std::path::{Path, PathBuf};
use std::process::{self, Command};
use std::{env, fs};

const ARCHIVE: &str = "librinnamoyle.a";
const RECORD: &str = "librinnamoyle.from";

fn main() {
    println!("cargo:rerun-if-env-changed=RINNAMOYLE_LIB_DIR");
    let processor = env::var("CARGO_CFG_TARGET_ARCH").expect("cargo sets it");
    let made = match env::var_os("RINNAMOYLE_LIB_DIR") {
        Some(folder) => ready(PathBuf::from(folder)),
        None => proved(&processor),
    };
    link(&made, &processor);
}

fn folder(name: &str) -> PathBuf {
    PathBuf::from(env::var_os(name).expect("cargo sets it"))
}

/// Ends the build with a word that is not a backtrace.
fn stop(words: &str) -> ! {
    eprintln!("\n{words}\n");
    process::exit(1)
}

fn ready(folder: PathBuf) -> PathBuf {
    let archive = folder.join(ARCHIVE);
    println!("cargo:rerun-if-changed={}", archive.display());
    if !archive.is_file() {
        stop(&format!("RINNAMOYLE_LIB_DIR is set, and {} is no file", archive.display()));
    }
    archive
}

/// The last line that `host/library` writes is the archive's path.
fn proved(processor: &str) -> PathBuf {
    let host = folder("CARGO_MANIFEST_DIR");
    for source in ["../crates.txt", "library", "common.sh"].map(|name| host.join(name)).into_iter().chain(parts(&host))
    {
        println!("cargo:rerun-if-changed={}", source.display());
    }
    match Command::new(host.join("library")).arg(processor).output() {
        Err(trouble) => stop(&format!("host/library did not start: {trouble}")),
        Ok(told) if !told.status.success() => stop(&format!(
            "{}The library is proved and built with the Rattle kit: put its `rt` on PATH, or name a folder with a ready \
             {ARCHIVE} in RINNAMOYLE_LIB_DIR",
            String::from_utf8_lossy(&told.stderr)
        )),
        Ok(told) => PathBuf::from(String::from_utf8_lossy(&told.stdout).trim_end()),
    }
}

/// The folders that have a part in the proof. Not the crates' own: rt keeps its work there, and each build would make the next.
fn parts(host: &Path) -> Vec<PathBuf> {
    let crates = fs::read_dir(host.join("../crates")).unwrap_or_else(|trouble| stop(&format!("../crates: {trouble}")));
    let folders = crates.flatten().flat_map(|each| ["src", "specs", "proofs"].map(|part| each.path().join(part)));
    folders.filter(|folder| folder.is_dir()).collect()
}

/// Links a copy: `host/library` begins its folder anew, and a build must survive that.
fn link(made: &Path, processor: &str) {
    let out = folder("OUT_DIR");
    let bytes = fs::read(made).unwrap_or_else(|trouble| stop(&format!("{} cannot be read: {trouble}", made.display())));
    if let Err(trouble) = archive::objects_for(processor, &bytes) {
        stop(&format!("{} cannot be linked: {trouble}. `host/library` makes one", made.display()));
    }
    fs::write(out.join(ARCHIVE), bytes).expect("cargo's own folder takes a file");
    // A ready archive may come without its record: it links, and the tests say that nobody knows where it is from.
    let record = fs::read(made.with_file_name(RECORD)).unwrap_or_default();
    fs::write(out.join(RECORD), record).expect("cargo's own folder takes a file");
    println!("cargo:rustc-link-search=native={}", out.display());
    println!("cargo:rustc-link-lib=static=rinnamoyle");
    println!("cargo:rustc-env=RINNAMOYLE_ARCHIVE={}", out.join(ARCHIVE).display());
}
