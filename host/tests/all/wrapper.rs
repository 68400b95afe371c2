//! The safe wrapper: each of the library's numbers as the enum's case that has it.

use crate::{Said, Test};
use apart::random::Random;
use rinnamoyle::{derive, write_card, CardRefusal, Cost, DerivationRefusal, Derived, TextRefusal};

pub const TESTS: &[Test] = &[("the wrapper's tables", tables), ("the wrapper's refusals", refusals)];

fn tables(_: &mut Random) -> Said {
    fn numbers<T: Copy>(all: &[T], number: fn(T) -> u64) -> Vec<u64> {
        all.iter().map(|case| number(*case)).collect()
    }
    assert_eq!(numbers(DerivationRefusal::ALL, DerivationRefusal::number), Vec::from_iter(1..=9));
    assert_eq!(numbers(CardRefusal::ALL, CardRefusal::number), Vec::from_iter(21..=26));
    assert_eq!(numbers(TextRefusal::ALL, TextRefusal::number), [31, 32]);
    Said::Tried("1 to 9, 21 to 26, 31 and 32".into())
}

/// What reading and logins say is held to the raw calls where those are tried.
fn refusals(_: &mut Random) -> Said {
    let house = Cost { n: 16, r: 1, p: 1 };
    let asked = |pass: usize, salt: usize, cost: Cost, key: usize, scratch: usize, allowance: u64| {
        let (mut key, mut scratch) = (vec![0; key], vec![0; scratch]);
        derive(&vec![0; pass], &vec![0; salt], cost, &mut key, &mut scratch, allowance)
    };
    let derivations = [
        asked(1025, 0, house, 32, 2560, 32),
        asked(0, 1025, house, 32, 2560, 32),
        asked(0, 0, house, 257, 2560, 32),
        asked(0, 0, Cost { r: 33, ..house }, 32, 2560, 32),
        asked(0, 0, Cost { p: 65, ..house }, 32, 2560, 32),
        asked(0, 0, Cost { n: 15, ..house }, 32, 2560, 32),
        asked(0, 0, Cost { n: 65536, ..house }, 32, 2560, 32),
        asked(0, 0, house, 32, 639, 272),
        asked(0, 0, house, 32, 2560, 31),
    ];
    assert!(derivations.iter().zip(DerivationRefusal::ALL).all(|(told, case)| *told == Err(*case)), "{derivations:?}");
    assert_eq!(asked(0, 0, house, 32, 2560, 32), Ok(Derived { spacing: 1, stored: 16, mixings: 32 }));
    let write = |salt: usize, exponent: u64, room: usize| {
        write_card(&vec![0; salt], &[0; 16], exponent, 1, 1, &mut vec![0; room])
    };
    assert_eq!(write(7, 0, 0), Err(CardRefusal::Distances));
    assert_eq!(write(8, 0, 0), Err(CardRefusal::Costs));
    assert_eq!(write(8, 4, 35), Err(CardRefusal::RoomTooShort));
    assert_eq!(write(8, 4, 36), Ok(36));
    Said::Tried("every refusal of a derivation and of writing a card".into())
}
