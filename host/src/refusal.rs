//! The papers' refusals as enums: a number, and a text that says what to do.

use std::error::Error;
use std::fmt;

/// An enum whose cases carry the paper's numbers, from one table of name, number and meaning.
macro_rules! refusals {
    ($(#[$about:meta])* $name:ident of $desk:ident { $($case:ident = $number:literal, $meaning:literal;)* }) => {
        $(#[$about])*
        #[derive(Clone, Copy, Debug, PartialEq, Eq, Hash)]
        pub enum $name {
            $(#[doc = $meaning] $case = $number,)*
        }

        impl $name {
            /// Every case, in the order in which the paper looks.
            pub const ALL: &'static [$name] = &[$($name::$case,)*];

            /// The paper's number.
            pub fn number(self) -> u64 {
                self as u64
            }

            /// What is wrong, and what to do.
            pub fn meaning(self) -> &'static str {
                match self { $($name::$case => $meaning,)* }
            }

            /// The case with this number is the error; 0 refuses nothing.
            pub(crate) fn check(number: u64) -> Result<(), $name> {
                match number {
                    0 => Ok(()),
                    $($number => Err($name::$case),)*
                    _ => unlisted(number),
                }
            }
        }

        impl fmt::Display for $name {
            fn fmt(&self, f: &mut fmt::Formatter) -> fmt::Result {
                write!(f, "{}: {}", self.number(), self.meaning())
            }
        }

        impl Error for $name {}

        impl From<$name> for Refusal {
            fn from(reason: $name) -> Refusal {
                Refusal::$desk(reason)
            }
        }
    };
}

/// The library's promises shut this out: an archive of another edition was linked.
pub(crate) fn unlisted(number: u64) -> ! {
    panic!("the library answered {number}, which this wrapper's tables do not have: build both from one tree")
}

refusals! {
    /// Why a derivation says no.
    DerivationRefusal of Derivation {
        PassphraseTooLong = 1, "the passphrase has over 1,024 bytes: shorten it";
        SaltTooLong = 2, "the salt has over 1,024 bytes: shorten it";
        KeyLength = 3, "the key buffer is empty or has over 256 bytes: ask for 1 to 256";
        BlockSize = 4, "r is 0 or over 32: choose 1 to 32";
        Lanes = 5, "p is 0 or over 64: choose 1 to 64";
        NoPowerOfTwo = 6, "N is below 2 or not a power of two: choose 2, 4, 8 and so on";
        CostTooLarge = 7, "N is over 1,048,576, or not below 2^(16*r): choose a smaller N (at most 32,768 where r is 1)";
        ScratchTooShort = 8, "the scratch holds fewer than p + 4 whole blocks of 128*r bytes: lend more scratch";
        AllowanceTooSmall = 9, "the worst case, p*N*(k + 1) mixings, is above the allowance: lend more scratch, which \
            lowers k, or allow more mixings";
    }
}

refusals! {
    /// Why a card is not read, or not written.
    CardRefusal of Card {
        TooShort = 21, "the card has under 12 bytes, less than a trailer: is the file whole?";
        NoMark = 22, "the last four bytes are not RTKC: this is no card, or bytes were added behind it";
        Edition = 23, "the edition is not 1: write the card anew in this edition";
        Distances = 24, "salt or key has a length that no card has (salt 8 to 64 bytes, key 16 to 64), or the trailer's \
            distances do not lead to the card's first byte: take a whole card, and one alone";
        Costs = 25, "the costs are out of range: the exponent goes from 1 to 20 (to 15 where r is 1), r from 1 to 32, p \
            from 1 to 64";
        RoomTooShort = 26, "the room is shorter than the card: lend salt + key + 12 bytes";
    }
}

refusals! {
    /// Why a login text is not taken apart.
    TextRefusal of Text {
        NoColon = 31, "the text has no colon: give user:password";
        UserName = 32, "the user name is empty or has over 64 bytes: give 1 to 64 before the last colon";
    }
}

/// Which desk refused a login, with that desk's own reason.
#[derive(Clone, Copy, Debug, PartialEq, Eq, Hash)]
pub enum Refusal {
    Card(CardRefusal),
    Text(TextRefusal),
    Derivation(DerivationRefusal),
}

impl Refusal {
    /// The desk's name.
    pub fn desk(self) -> &'static str {
        match self {
            Refusal::Card(_) => "card",
            Refusal::Text(_) => "text",
            Refusal::Derivation(_) => "derivation",
        }
    }

    /// That desk's number.
    pub fn number(self) -> u64 {
        match self {
            Refusal::Card(reason) => reason.number(),
            Refusal::Text(reason) => reason.number(),
            Refusal::Derivation(reason) => reason.number(),
        }
    }

    /// The desk that the library names by a number, with its reason, is the error; 0 is none.
    pub(crate) fn check(desk: u64, number: u64) -> Result<(), Refusal> {
        match desk {
            0 => Ok(()),
            1 => Ok(CardRefusal::check(number)?),
            2 => Ok(TextRefusal::check(number)?),
            3 => Ok(DerivationRefusal::check(number)?),
            _ => unlisted(desk),
        }
    }
}

impl fmt::Display for Refusal {
    fn fmt(&self, f: &mut fmt::Formatter) -> fmt::Result {
        let reason: &dyn fmt::Display = match self {
            Refusal::Card(reason) => reason,
            Refusal::Text(reason) => reason,
            Refusal::Derivation(reason) => reason,
        };
        write!(f, "{} desk, {reason}", self.desk())
    }
}

impl Error for Refusal {}
