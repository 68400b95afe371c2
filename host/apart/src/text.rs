//! Login texts, taken apart as the scope paper describes them.

pub const USER_MOST: usize = 64;

/// User name and password, or the refusal's number.
pub fn read(text: &[u8]) -> Result<(&[u8], &[u8]), u64> {
    let mut from_the_end = text.rsplitn(2, |byte| *byte == b':');
    let password = from_the_end.next().unwrap();
    let user = from_the_end.next().ok_or(31u64)?;
    if user.is_empty() || user.len() > USER_MOST {
        return Err(32);
    }
    Ok((user, password))
}
