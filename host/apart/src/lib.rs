//! The papers once more, in code that shares no line with the proved library.
//!
//! `sha256` and `scrypt` are FIPS 180-4, RFC 2104, RFC 8018 and RFC 7914 written down as they read, every block
//! stored. `rules`, `card`, `text` and `login` are the scope paper's tables. `others` finds the scrypts of other
//! houses that are installed here. `guard` lends buffers whose neighbours cannot be touched. `random` repeats itself
//! from its seed.

pub mod card;
pub mod guard;
pub mod login;
pub mod others;
pub mod random;
pub mod rules;
pub mod scrypt;
pub mod sha256;
pub mod text;
