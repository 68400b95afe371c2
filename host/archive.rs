//! What an archive holds, read from its own bytes: the objects must all be one processor's.

/// How many objects the archive has, all of them for the processor; or what is wrong, in a line.
pub fn objects_for(processor: &str, archive: &[u8]) -> Result<usize, String> {
    let mut rest = archive.strip_prefix(b"!<arch>\n").ok_or("it is no archive")?;
    let mut objects = 0;
    while !rest.is_empty() {
        let (name, member, after) = first_member(rest).ok_or("it is cut short")?;
        // The tables of symbols and of long names are the archive's own.
        if !name.starts_with('/') || name[1..].starts_with(|c: char| c.is_ascii_digit()) {
            match processor_of(member) {
                Some(found) if found == processor => objects += 1,
                Some(found) => return Err(format!("it has an object for {found}, and {processor} is wanted")),
                None => return Err(format!("its member {name} is no object for x86_64 or aarch64 Linux")),
            }
        }
        rest = after;
    }
    if objects == 0 {
        return Err("it has no object".into());
    }
    Ok(objects)
}

/// A member's name and bytes, and what follows: a header of 60 bytes, the bytes, and one more where their number is odd.
fn first_member(rest: &[u8]) -> Option<(String, &[u8], &[u8])> {
    let (header, rest) = rest.split_at_checked(60)?;
    let field = |range: std::ops::Range<usize>| std::str::from_utf8(&header[range]).ok().map(str::trim_end);
    let (name, size) = (field(0..16)?.to_string(), field(48..58)?.parse().ok()?);
    let (member, rest) = rest.split_at_checked(size)?;
    Some((name, member, &rest[(size % 2).min(rest.len())..]))
}

/// The processor of an ELF object of 64 bits, the lowest byte first.
fn processor_of(object: &[u8]) -> Option<&'static str> {
    if !object.starts_with(b"\x7fELF\x02\x01") {
        return None;
    }
    match object.get(18..20)? {
        [62, 0] => Some("x86_64"),
        [183, 0] => Some("aarch64"),
        _ => None,
    }
}
