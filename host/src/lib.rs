//! The proved scrypt login box, for Rust.
//!
//! Four jobs: [`derive`] a key, take a login text apart ([`read_text`]), read and write a card ([`read_card`],
//! [`write_card`]), check a login against a card ([`login`]). Every buffer is yours: a call has no heap, keeps nothing
//! and leaves your scratch all zero, or, where it refuses, as it was.
//!
//! ```
//! use rinnamoyle::{derive, login, write_card, Answer, Cost};
//!
//! let cost = Cost { n: 16, r: 1, p: 1 };
//! let mut scratch = vec![0; cost.scratch(1) as usize];
//! let mut key = [0; 32];
//! let done = derive(b"sesame", b"eight by", cost, &mut key, &mut scratch, 32).unwrap();
//! assert_eq!((done.spacing, done.mixings), (1, 32));
//!
//! let mut room = [0; 128];
//! let length = write_card(b"eight by", &key, 4, cost.r, cost.p, &mut room).unwrap();
//! let card = &room[..length];
//! assert_eq!(login(b"rover:sesame", card, &mut scratch, 32), Answer::Yes);
//! assert_eq!(login(b"rover:Sesame", card, &mut scratch, 32), Answer::No);
//! ```

pub mod ffi;

mod cost;
mod refusal;

pub use cost::{Cost, Plan};
pub use refusal::{CardRefusal, DerivationRefusal, Refusal, TextRefusal};

/// What an accepted derivation reports beside the key.
#[derive(Clone, Copy, Debug, PartialEq, Eq)]
pub struct Derived {
    /// k: every k-th block was stored.
    pub spacing: u64,
    /// N/k, the blocks stored.
    pub stored: u64,
    /// The block mixings made.
    pub mixings: u64,
}

/// A card taken apart. Salt and key are parts of the bytes that were lent.
#[derive(Clone, Copy, Debug, PartialEq, Eq)]
pub struct Card<'a> {
    /// N is 2 to this power.
    pub exponent: u64,
    pub r: u64,
    pub p: u64,
    pub salt: &'a [u8],
    pub key: &'a [u8],
}

impl Card<'_> {
    /// The costs, with N for the exponent.
    pub fn cost(&self) -> Cost {
        Cost { n: 1 << self.exponent, r: self.r, p: self.p }
    }
}

/// A login text taken apart, in parts of the bytes that were lent.
#[derive(Clone, Copy, Debug, PartialEq, Eq)]
pub struct Text<'a> {
    pub user: &'a [u8],
    pub password: &'a [u8],
}

/// A login's answer.
#[derive(Clone, Copy, Debug, PartialEq, Eq)]
pub enum Answer {
    Yes,
    No,
    Refused(Refusal),
}

/// Fills `key` by scrypt, with as much of every N blocks stored as `scratch` has room for.
///
/// `allowance` is the most block mixings that you will pay for. Where the derivation is refused, key and scratch keep
/// every byte; otherwise the scratch is all zero.
pub fn derive(
    pass: &[u8],
    salt: &[u8],
    cost: Cost,
    key: &mut [u8],
    scratch: &mut [u8],
    allowance: u64,
) -> Result<Derived, DerivationRefusal> {
    let told = ffi::derive(pass, salt, [cost.n, cost.r, cost.p], key, scratch, allowance);
    DerivationRefusal::check(told.number)?;
    Ok(Derived { spacing: told.spacing, stored: told.stored, mixings: told.mixings })
}

/// Takes a card apart.
pub fn read_card(card: &[u8]) -> Result<Card<'_>, CardRefusal> {
    let told = ffi::card_read(card);
    CardRefusal::check(told.number)?;
    Ok(Card {
        exponent: told.exponent,
        r: told.r,
        p: told.p,
        salt: part(card, told.salt_at, told.salt_len),
        key: part(card, told.key_at, told.key_len),
    })
}

/// Writes a card to the front of `room` and returns its length; `room`'s other bytes stay.
pub fn write_card(
    salt: &[u8],
    key: &[u8],
    exponent: u64,
    r: u64,
    p: u64,
    room: &mut [u8],
) -> Result<usize, CardRefusal> {
    let told = ffi::card_write(salt, key, [exponent, r, p], room);
    CardRefusal::check(told.number)?;
    Ok(told.length as usize)
}

/// Takes `user:password` apart at the last colon.
pub fn read_text(text: &[u8]) -> Result<Text<'_>, TextRefusal> {
    let told = ffi::text_read(text);
    TextRefusal::check(told.number)?;
    Ok(Text { user: part(text, 0, told.user_len), password: part(text, told.password_at, told.password_len) })
}

/// Holds a login text to a card: card, text and derivation are looked at in that order.
pub fn login(text: &[u8], card: &[u8], scratch: &mut [u8], allowance: u64) -> Answer {
    let told = ffi::login(text, card, scratch, allowance);
    match (told.answer, Refusal::check(told.desk, told.number)) {
        (0, Ok(())) => Answer::No,
        (1, Ok(())) => Answer::Yes,
        (2, Err(refusal)) => Answer::Refused(refusal),
        (answer, _) => refusal::unlisted(answer),
    }
}

/// A part that the library names by place and length.
fn part(lent: &[u8], at: u64, length: u64) -> &[u8] {
    &lent[at as usize..][..length as usize]
}
