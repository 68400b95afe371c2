//! The same keys as the scrypts of other houses, where they are installed.

use crate::lend::{derive_as, Derivation};
use crate::{case, Said, Test};
use apart::others::{self, Other};
use apart::random::Random;
use apart::rules::Planned;
use apart::scrypt;

pub const TESTS: &[Test] = &[
    ("keys of OpenSSL", |random| compared(0, random)),
    ("keys of libsodium", |random| compared(1, random)),
    ("keys of Tarsnap's library", |random| compared(2, random)),
    ("keys of libscrypt", |random| compared(3, random)),
];

fn compared(which: usize, random: &mut Random) -> Said {
    match others::all().swap_remove(which) {
        Ok(other) => with(other, random),
        Err(word) => Said::Skipped(word),
    }
}

fn with(other: Other, random: &mut Random) -> Said {
    let mut tried = 0;
    for _ in 0..400 {
        let asked = any_derivation(random);
        let mut key = vec![0; asked.key];
        if !other.derive(&asked.pass, &asked.salt, asked.costs, &mut key) {
            continue;
        }
        let apart = |planned: &Planned| {
            let (_, places) = scrypt::scrypt(&asked.pass, &asked.salt, asked.costs, asked.key);
            (key, scrypt::mixings(asked.costs, &places, planned.spacing))
        };
        let told = case(|| format!("{asked:?}"), || derive_as(&asked, random, apart));
        assert!(told.is_ok(), "{asked:?}");
        tried += 1;
    }
    assert!(tried > 200, "only {tried} of 400 were to its taste");
    Said::Tried(format!("{tried} derivations, {} others were refused there", 400 - tried))
}

fn any_derivation(random: &mut Random) -> Derivation {
    let costs = [2 << random.index(10), random.within(1..=9), random.within(1..=4)];
    let [n, r, p] = costs;
    let lengths = [random.length(&[64, 200]), random.length(&[64, 200])];
    let [pass, salt] = lengths.map(|length| random.bytes(length));
    let spacing = 1 << random.index(3).min(n.ilog2() as usize);
    let scratch = ((n / spacing + p + 3) * 128 * r) as usize;
    Derivation { pass, salt, costs, key: 1 + random.index(256), scratch, allowance: u64::MAX }
}
