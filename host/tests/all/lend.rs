//! The library's calls on buffers between guard pages, each held to what the papers say of it.
//!
//! What is only read lies in pages that may not be written. What is written holds a pattern before: after a refusal
//! every byte of it must be there, after an accepted call the scratch must be zero.

use apart::guard::{Against, Guarded};
use apart::random::Random;
use apart::rules::{plan, Asked, Planned};
use apart::{card, login, scrypt, text};
use rinnamoyle::ffi;

/// A derivation to be tried.
#[derive(Clone, Debug)]
pub struct Derivation {
    pub pass: Vec<u8>,
    pub salt: Vec<u8>,
    pub costs: [u64; 3],
    pub key: usize,
    pub scratch: usize,
    pub allowance: u64,
}

impl Derivation {
    pub fn asked(&self) -> Asked {
        Asked {
            pass: self.pass.len(),
            salt: self.salt.len(),
            key: self.key,
            costs: self.costs,
            scratch: self.scratch,
            allowance: self.allowance,
        }
    }
}

pub fn side(random: &mut Random) -> Against {
    random.one_of(&[Against::Front, Against::End])
}

fn pattern(length: usize) -> impl Iterator<Item = u8> {
    (0..length).map(|i| (i % 251) as u8 ^ 0x5a)
}

/// A buffer that holds the pattern.
fn patterned(length: usize, random: &mut Random) -> Guarded {
    let mut lent = Guarded::zero(length, side(random));
    lent.iter_mut().zip(pattern(length)).for_each(|(byte, mark)| *byte = mark);
    lent
}

fn keeps_pattern(lent: &[u8]) -> bool {
    lent.iter().copied().eq(pattern(lent.len()))
}

pub fn all_zero(lent: &[u8]) -> bool {
    lent.iter().all(|byte| *byte == 0)
}

/// Derives, and holds report, key and scratch to the papers. The key and the report, where it is accepted.
pub fn derive(asked: &Derivation, random: &mut Random) -> Result<(Vec<u8>, ffi::Derived), u64> {
    let apart = |planned: &Planned| {
        let (key, places) = scrypt::scrypt(&asked.pass, &asked.salt, asked.costs, asked.key);
        (key, scrypt::mixings(asked.costs, &places, planned.spacing))
    };
    derive_as(asked, random, apart)
}

/// The same, with the key and the mixings of an accepted derivation from elsewhere.
pub fn derive_as(
    asked: &Derivation,
    random: &mut Random,
    apart: impl FnOnce(&Planned) -> (Vec<u8>, u64),
) -> Result<(Vec<u8>, ffi::Derived), u64> {
    let pass = Guarded::only_read(&asked.pass, side(random));
    let salt = Guarded::only_read(&asked.salt, side(random));
    let mut key = patterned(asked.key, random);
    let mut scratch = patterned(asked.scratch, random);
    let told = ffi::derive(&pass, &salt, asked.costs, &mut key, &mut scratch, asked.allowance);
    assert!(key.untouched() && scratch.untouched(), "a byte beside a lent buffer changed");
    match plan(&asked.asked()) {
        Err(number) => {
            assert_eq!(told, ffi::Derived { number, spacing: 0, stored: 0, mixings: 0 });
            assert!(keeps_pattern(&key) && keeps_pattern(&scratch), "a refusal changed a lent byte");
            Err(number)
        }
        Ok(planned) => {
            let (wanted, mixings) = apart(&planned);
            let Planned { spacing, stored, worst } = planned;
            assert_eq!(told, ffi::Derived { number: 0, spacing, stored, mixings });
            assert!(mixings <= worst, "more mixings than the worst case");
            assert_eq!(*key, *wanted, "another key");
            assert!(all_zero(&scratch), "the scratch is not all zero");
            Ok((wanted, told))
        }
    }
}

/// Reads a card, and holds the answer to the paper's.
pub fn read_card(bytes: &[u8], random: &mut Random) -> Result<(), u64> {
    let lent = Guarded::only_read(bytes, side(random));
    let told = ffi::card_read(&lent);
    let ffi::CardRead { exponent, r, p, .. } = told;
    match card::read(bytes) {
        Err(number) => {
            let bare =
                ffi::CardRead { number, exponent: 0, r: 0, p: 0, salt_at: 0, salt_len: 0, key_at: 0, key_len: 0 };
            assert_eq!(told, bare);
            assert_eq!(rinnamoyle::read_card(&lent).map_err(|refusal| refusal.number()), Err(number));
            Err(number)
        }
        Ok(wanted) => {
            assert_eq!(told.number, 0);
            let part = |at: u64, length: u64| lent[at as usize..][..length as usize].to_vec();
            let (salt, key) = (part(told.salt_at, told.salt_len), part(told.key_at, told.key_len));
            assert_eq!(card::Card { exponent, r, p, salt, key }, wanted);
            let safe = rinnamoyle::read_card(&lent).expect("the raw call accepted it");
            assert_eq!((safe.exponent, safe.salt, safe.key), (exponent, &wanted.salt[..], &wanted.key[..]));
            Ok(())
        }
    }
}

/// Writes a card to a room, and holds every byte of the room to the paper.
pub fn write_card(wanted: &card::Card, room: usize, random: &mut Random) -> Result<Vec<u8>, u64> {
    let salt = Guarded::only_read(&wanted.salt, side(random));
    let key = Guarded::only_read(&wanted.key, side(random));
    let mut lent = patterned(room, random);
    let told = ffi::card_write(&salt, &key, [wanted.exponent, wanted.r, wanted.p], &mut lent);
    assert!(lent.untouched(), "a byte beside the room changed");
    let written = card::write(wanted, room);
    let (number, length) = written.as_ref().map_or_else(|number| (*number, 0), |bytes| (0, bytes.len() as u64));
    assert_eq!(told, ffi::CardWritten { number, length });
    let expected = written.iter().flatten().copied().chain(pattern(room).skip(length as usize));
    assert!(lent.iter().copied().eq(expected), "the room holds something else");
    written
}

/// Takes a text apart, and holds the answer to the paper's.
pub fn read_text(bytes: &[u8], random: &mut Random) -> Result<(), u64> {
    let lent = Guarded::only_read(bytes, side(random));
    let told = ffi::text_read(&lent);
    let safe = rinnamoyle::read_text(&lent);
    match text::read(bytes) {
        Err(number) => {
            assert_eq!(told, ffi::TextRead { number, user_len: 0, password_at: 0, password_len: 0 });
            assert_eq!(safe.map_err(|refusal| refusal.number()), Err(number));
            Err(number)
        }
        Ok((user, password)) => {
            assert_eq!(told.number, 0);
            assert_eq!(safe, Ok(rinnamoyle::Text { user, password }));
            Ok(())
        }
    }
}

/// A login to be tried.
#[derive(Clone, Debug)]
pub struct Login {
    pub text: Vec<u8>,
    pub card: Vec<u8>,
    pub allowance: u64,
}

/// Checks a login on a scratch with the pattern, and holds answer and scratch to the paper.
pub fn login(asked: &Login, scratch: usize, random: &mut Random) -> Result<bool, (u64, u64)> {
    let mut lent = patterned(scratch, random);
    let answer = login_on(asked, &mut lent, random);
    assert_eq!(answer, login::login(&asked.text, &asked.card, scratch, asked.allowance));
    match answer {
        Ok(_) => assert!(all_zero(&lent), "the scratch is not all zero"),
        Err(_) => assert!(keeps_pattern(&lent), "a refusal changed the scratch"),
    }
    answer
}

/// Checks a login on a scratch as it is.
pub fn login_on(asked: &Login, scratch: &mut Guarded, random: &mut Random) -> Result<bool, (u64, u64)> {
    let text = Guarded::only_read(&asked.text, side(random));
    let card = Guarded::only_read(&asked.card, side(random));
    let told = ffi::login(&text, &card, scratch, asked.allowance);
    assert!(scratch.untouched(), "a byte beside the scratch changed");
    match told {
        ffi::LoginAnswer { answer: 2, desk, number } => Err((desk, number)),
        ffi::LoginAnswer { answer, desk: 0, number: 0 } if answer < 2 => Ok(answer == 1),
        _ => panic!("no login's answer: {told:?}"),
    }
}
