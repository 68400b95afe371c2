//! Cards, whole and damaged: every trailer byte, every length, every cost.

use crate::lend::{read_card, write_card};
use crate::tally::Tally;
use crate::{case, Said, Test};
use apart::card::{write, Card};
use apart::random::Random;

pub const TESTS: &[Test] = &[
    ("every value of every trailer byte", trailer_bytes),
    ("every exponent, r and p", every_cost),
    ("every length of a card", every_length),
    ("distances", distances),
    ("random and damaged cards", damaged),
    ("cards written, and read again", written),
];

fn read(bytes: &[u8], tally: &mut Tally, random: &mut Random) {
    tally.count(case(|| format!("{bytes:02x?}"), || read_card(bytes, random)));
}

pub fn any_card(random: &mut Random) -> Card {
    let [salt, key] = [8 + random.index(57), 16 + random.index(49)];
    let r = random.within(1..=32);
    let exponent = random.within(1..=if r == 1 { 15 } else { 20 });
    Card { exponent, r, p: random.within(1..=64), salt: random.bytes(salt), key: random.bytes(key) }
}

fn bytes_of(card: &Card) -> Vec<u8> {
    write(card, usize::MAX).expect("a good card")
}

fn trailer_bytes(random: &mut Random) -> Said {
    let mut tally = Tally::default();
    for card in [any_card(random), any_card(random), any_card(random)] {
        let whole = bytes_of(&card);
        for at in whole.len() - 12..whole.len() {
            for value in 0..=255 {
                let mut bytes = whole.clone();
                bytes[at] = value;
                read(&bytes, &mut tally, random);
            }
        }
    }
    tally.saw(22..=25);
    Said::Tried(tally.to_string())
}

fn every_cost(random: &mut Random) -> Said {
    let mut tally = Tally::default();
    let mut bytes = bytes_of(&any_card(random));
    let at = bytes.len() - 7;
    for exponent in 0..=255 {
        for r in (0..=40).chain([64, 127, 128, 255]) {
            for p in [0, 1, 2, 63, 64, 65, 128, 255] {
                bytes[at..at + 3].copy_from_slice(&[exponent, r, p]);
                read(&bytes, &mut tally, random);
            }
        }
    }
    tally.saw([25]);
    Said::Tried(tally.to_string())
}

/// Cut at the front or the end, or longer: only the whole card is one.
fn every_length(random: &mut Random) -> Said {
    let mut tally = Tally::default();
    for length in 0..=40 {
        read(&vec![0; length], &mut tally, random);
        read(&b"RTKC".repeat(10)[..length], &mut tally, random);
    }
    for _ in 0..20 {
        let whole = bytes_of(&any_card(random));
        read(&whole, &mut tally, random);
        for cut in 1..=whole.len() {
            read(&whole[cut..], &mut tally, random);
            read(&whole[..whole.len() - cut], &mut tally, random);
            read(&[&random.bytes(cut), &whole[..]].concat(), &mut tally, random);
            read(&[&whole[..], &random.bytes(cut)].concat(), &mut tally, random);
        }
        read(&[&random.bytes(100_000), &whole[..]].concat(), &mut tally, random);
    }
    tally.saw([21, 22, 24]);
    Said::Tried(tally.to_string())
}

/// Distances around every limit on cards of the length that they name, and of another.
fn distances(random: &mut Random) -> Said {
    let mut tally = Tally::default();
    let lengths = [0, 1, 7, 8, 9, 15, 16, 17, 63, 64, 65, 66, 255, 256, 1000, 65535];
    for key in lengths {
        for salt in lengths {
            for off in [-1, 0, 1] {
                let front = (salt + key) as i64 + off;
                let mut bytes = random.bytes(front.max(0) as usize);
                bytes.extend(((salt + key) as u16).to_le_bytes());
                bytes.extend((key as u16).to_le_bytes());
                bytes.extend(*b"\x01\x04\x01\x01RTKC");
                read(&bytes, &mut tally, random);
            }
        }
    }
    // A key distance above the salt distance: the salt's length would be negative.
    for (salt, key) in [(0u16, 16u16), (15, 16), (16, 24), (23, 64), (0, 65535)] {
        let mut bytes = random.bytes(usize::from(salt));
        bytes.extend([salt.to_le_bytes(), key.to_le_bytes()].concat());
        bytes.extend(*b"\x01\x04\x01\x01RTKC");
        read(&bytes, &mut tally, random);
    }
    tally.saw([24]);
    Said::Tried(tally.to_string())
}

/// Bytes changed, and bytes that never were a card.
fn damaged(random: &mut Random) -> Said {
    let mut tally = Tally::default();
    for _ in 0..30_000 {
        let mut bytes = bytes_of(&any_card(random));
        for _ in 0..random.index(3) {
            let last = if random.once_in(2) { 12 } else { bytes.len() };
            let at = bytes.len() - 1 - random.index(last);
            bytes[at] ^= 1 << random.index(8);
        }
        if random.once_in(20) {
            let length = random.length(&[12, 200]);
            bytes = random.bytes(length);
        }
        if random.once_in(20) {
            bytes.truncate(random.index(200));
        }
        read(&bytes, &mut tally, random);
    }
    tally.saw(21..=25);
    Said::Tried(tally.to_string())
}

fn written(random: &mut Random) -> Said {
    let mut tally = Tally::default();
    let mut one = |card: &Card, room: usize, random: &mut Random| {
        let told = case(|| format!("{card:?}, room {room}"), || write_card(card, room, random));
        if let Ok(bytes) = &told {
            assert_eq!(apart::card::read(bytes).as_ref(), Ok(card));
            read_card(bytes, random).expect("a written card is read");
        }
        tally.count(told);
    };
    for salt in 0..=70 {
        for key in 0..=70 {
            let card = Card { salt: random.bytes(salt), key: random.bytes(key), ..any_card(random) };
            for room in [salt + key + 11, salt + key + 12, salt + key + 13] {
                one(&card, room, random);
            }
        }
    }
    for _ in 0..10_000 {
        let mut card = any_card(random);
        let odd = [0, 1, 15, 16, 20, 21, 32, 33, 63, 64, 65, 255, 256, 257, 260, 1 << 32, (1 << 32) + 4, u64::MAX];
        match random.index(4) {
            0 => card.exponent = random.one_of(&odd),
            1 => card.r = random.one_of(&odd),
            2 => card.p = random.one_of(&odd),
            _ => {}
        }
        let room = random.length(&[0, card.salt.len() + card.key.len() + 12, 300]);
        one(&card, room, random);
    }
    tally.saw(24..=26);
    Said::Tried(tally.to_string())
}
