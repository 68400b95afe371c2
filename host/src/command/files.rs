//! Files as bytes.

use std::fs::{File, OpenOptions};
use std::io::{self, Read, Write};
use std::os::unix::fs::OpenOptionsExt;
use std::path::Path;

/// Far more than any card or login has.
const MOST: u64 = 1 << 20;

pub fn read(file: &Path) -> Result<Vec<u8>, String> {
    File::open(file).and_then(whole).map_err(|trouble| named(file, trouble))
}

/// All that can be read, or an error where that does not end.
pub fn whole(from: impl Read) -> io::Result<Vec<u8>> {
    let mut bytes = Vec::new();
    from.take(MOST + 1).read_to_end(&mut bytes)?;
    if bytes.len() as u64 > MOST {
        return Err(io::Error::new(io::ErrorKind::InvalidData, "over 1 MiB: neither a card nor a login"));
    }
    Ok(bytes)
}

/// Writes a file, over one that is there only if told to. A card is for its owner's eyes.
pub fn write(file: &Path, bytes: &[u8], over: bool) -> Result<(), String> {
    let mut how = OpenOptions::new();
    how.write(true).mode(0o600);
    if over {
        how.create(true).truncate(true);
    } else {
        how.create_new(true);
    }
    how.open(file).and_then(|mut open| open.write_all(bytes)).map_err(|trouble| named(file, trouble))
}

fn named(file: &Path, trouble: io::Error) -> String {
    let more = if trouble.kind() == io::ErrorKind::AlreadyExists { " (--force writes over it)" } else { "" };
    format!("{}: {trouble}{more}", file.display())
}
