//! Cards, read and written as the scope paper describes them.

use crate::rules::{n_is_bad, p_is_bad, r_is_bad};

#[derive(Clone, Debug, PartialEq, Eq)]
pub struct Card {
    pub exponent: u64,
    pub r: u64,
    pub p: u64,
    pub salt: Vec<u8>,
    pub key: Vec<u8>,
}

/// The card in these bytes, or the refusal's number.
pub fn read(bytes: &[u8]) -> Result<Card, u64> {
    let Some((front, trailer)) = bytes.split_last_chunk::<12>() else { return Err(21) };
    let [s0, s1, k0, k1, edition, exponent, r, p, mark @ ..] = *trailer;
    if mark != *b"RTKC" {
        return Err(22);
    }
    if edition != 1 {
        return Err(23);
    }
    let back = |low: u8, high: u8| i64::from(low) + 256 * i64::from(high);
    let (salt_back, key_back) = (back(s0, s1), back(k0, k1));
    if lengths_are_bad(salt_back - key_back, key_back) || salt_back != front.len() as i64 {
        return Err(24);
    }
    let [exponent, r, p] = [exponent, r, p].map(u64::from);
    if costs_are_bad(exponent, r, p) {
        return Err(25);
    }
    let (salt, key) = front.split_at((salt_back - key_back) as usize);
    Ok(Card { exponent, r, p, salt: salt.to_vec(), key: key.to_vec() })
}

/// The bytes of a card, or why it is not written to a room of that length.
pub fn write(card: &Card, room: usize) -> Result<Vec<u8>, u64> {
    let (salt, key) = (&card.salt, &card.key);
    if lengths_are_bad(salt.len() as i64, key.len() as i64) {
        return Err(24);
    }
    if costs_are_bad(card.exponent, card.r, card.p) {
        return Err(25);
    }
    let costs = [card.exponent, card.r, card.p].map(|x| x as u8);
    let distances = [salt.len() + key.len(), key.len()].map(|x| (x as u16).to_le_bytes()).concat();
    let bytes = [salt, key, &distances[..], &[1], &costs, b"RTKC"].concat();
    if room < bytes.len() {
        return Err(26);
    }
    Ok(bytes)
}

fn lengths_are_bad(salt: i64, key: i64) -> bool {
    !(16..=64).contains(&key) || !(8..=64).contains(&salt)
}

fn costs_are_bad(exponent: u64, r: u64, p: u64) -> bool {
    !(1..=20).contains(&exponent) || r_is_bad(r) || p_is_bad(p) || n_is_bad(1 << exponent, r)
}
