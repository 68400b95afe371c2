//! `rinnamoyle card write FILE` and `rinnamoyle card show FILE`

use super::amounts::{grouped, hex, unhex};
use super::options::{Known, Options};
use super::work::Lent;
use super::{files, input, refused, Said};
use rinnamoyle::{derive, read_card, read_text, write_card, Cost};

pub const WRITE_KNOWN: Known = Known {
    valued: &["--salt", "--n", "--r", "--p", "--key-length", "--scratch", "--allowance"],
    bare: &["--force"],
    often: &[],
};

pub const SHOW_KNOWN: Known = Known { valued: &[], bare: &["--key"], often: &[] };

const KEY_LENGTH: u64 = 32;

/// The most bytes that a card has.
const ROOM: usize = 64 + 64 + 12;

/// The costs that the options name, the house's where they are silent.
pub fn cost(options: &Options) -> Result<Cost, String> {
    let or = |name, house| Ok::<u64, String>(options.amount(name)?.unwrap_or(house));
    let cost = Cost { n: or("--n", Cost::HOUSE.n)?, r: or("--r", Cost::HOUSE.r)?, p: or("--p", Cost::HOUSE.p)? };
    cost.check().map_err(refused)?;
    Ok(cost)
}

pub fn write(options: &Options) -> Result<Said, String> {
    let file = options.file("FILE")?;
    let cost = cost(options)?;
    let salt = salt(options)?;
    let length = options.amount("--key-length")?.unwrap_or(KEY_LENGTH);
    let mut key = vec![0; length.min(ROOM as u64) as usize];
    // A card with a key of zeros: what would be refused in the end is refused before the work.
    made(&salt, &key, cost)?;
    let mut lent = Lent::asked(options, Some(cost))?;
    let password = password()?;
    let done =
        lent.watched(Some(cost), |scratch, allowance| derive(&password, &salt, cost, &mut key, scratch, allowance));
    done.map_err(|reason| refused(reason) + &lent.numbers(cost, reason))?;
    let card = made(&salt, &key, cost)?;
    files::write(file, &card, options.has("--force"))?;
    Ok(Said::well(format!("{}: a card of {} bytes\n", file.display(), card.len())))
}

fn salt(options: &Options) -> Result<Vec<u8>, String> {
    let text = options.value("--salt").ok_or("--salt is missing: 8 to 64 bytes as hex digits")?.to_string_lossy();
    unhex(&text).ok_or_else(|| format!("--salt wants hex digits, two for each byte, and {text} is something else"))
}

/// A password that some login can bring: one that the text desk would cut would open no card.
fn password() -> Result<Vec<u8>, String> {
    let password = input::new_secret("password (not shown): ")?;
    let text = [b"user:", &password[..]].concat();
    match read_text(&text) {
        Ok(parts) if parts.password == password => Ok(password),
        _ => Err("no login can bring this password: a text is cut at its last colon".into()),
    }
}

fn made(salt: &[u8], key: &[u8], cost: Cost) -> Result<Vec<u8>, String> {
    let mut room = [0; ROOM];
    let exponent = u64::from(cost.n.trailing_zeros());
    let length = write_card(salt, key, exponent, cost.r, cost.p, &mut room).map_err(refused)?;
    Ok(room[..length].to_vec())
}

pub fn show(options: &Options) -> Result<Said, String> {
    let bytes = files::read(options.file("FILE")?)?;
    let card = read_card(&bytes).map_err(refused)?;
    let key = if options.has("--key") { hex(card.key) } else { "(--key shows it)".into() };
    Ok(Said::well(format!(
        "card  {} bytes\nN     {} (2^{})\nr     {}\np     {}\nsalt  {} bytes: {}\nkey   {} bytes: {key}\n",
        bytes.len(),
        grouped(card.cost().n),
        card.exponent,
        card.r,
        card.p,
        card.salt.len(),
        hex(card.salt),
        card.key.len(),
    )))
}
