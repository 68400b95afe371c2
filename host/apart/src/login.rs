//! A login: card, text and derivation, asked in that order.

use crate::rules::{plan, Asked};
use crate::{card, scrypt, text};

/// A login's answer, or the desk that refused (1 card, 2 text, 3 derivation) with its number.
pub fn login(text: &[u8], card: &[u8], scratch: usize, allowance: u64) -> Result<bool, (u64, u64)> {
    let card = card::read(card).map_err(|number| (1, number))?;
    let (_, password) = text::read(text).map_err(|number| (2, number))?;
    let costs = [1 << card.exponent, card.r, card.p];
    let [pass, salt, key] = [password, &card.salt, &card.key].map(<[u8]>::len);
    let asked = Asked { pass, salt, key, costs, scratch, allowance };
    plan(&asked).map_err(|number| (3, number))?;
    Ok(scrypt::scrypt(password, &card.salt, costs, key).0 == card.key)
}
