//! Login texts: every short one, user names around the limit, long ones.

use crate::lend::read_text;
use crate::tally::Tally;
use crate::{case, Said, Test};
use apart::random::Random;

pub const TESTS: &[Test] = &[("every short text", short), ("user names, passwords and colons", shapes)];

fn read(text: &[u8], tally: &mut Tally, random: &mut Random) {
    tally.count(case(|| format!("{:?}", String::from_utf8_lossy(text)), || read_text(text, random)));
}

/// Every text of up to twelve bytes that are colons or not.
fn short(random: &mut Random) -> Said {
    let mut tally = Tally::default();
    for length in 0..=12 {
        for colons in 0..1u32 << length {
            let byte = |i: u32| if colons >> i & 1 == 1 { b':' } else { b'a' + i as u8 };
            let text: Vec<u8> = (0..length).map(byte).collect();
            read(&text, &mut tally, random);
        }
    }
    tally.saw([31, 32]);
    Said::Tried(tally.to_string())
}

fn shapes(random: &mut Random) -> Said {
    let mut tally = Tally::default();
    for user in 0..=70 {
        for password in [0, 1, 63, 64, 65, 1023, 1024, 1025] {
            let colon_less = |random: &mut Random, length| -> Vec<u8> {
                random.bytes(length).into_iter().map(|byte| if byte == b':' { b';' } else { byte }).collect()
            };
            let [user, password] = [user, password].map(|length| colon_less(random, length));
            read(&[&user[..], b":", &password].concat(), &mut tally, random);
            read(&[&user[..], b"::", &password].concat(), &mut tally, random);
            read(&[&user[..], &password].concat(), &mut tally, random);
        }
    }
    for _ in 0..20_000 {
        let length = random.length(&[0, 64, 130]);
        let mut text = random.bytes(length);
        for _ in 0..random.index(4) {
            if !text.is_empty() {
                let at = random.index(text.len());
                text[at] = b':';
            }
        }
        read(&text, &mut tally, random);
    }
    for at in [0, 1, 64, 65, 500_000, 999_999] {
        let mut long = vec![b'x'; 1_000_000];
        long[at] = b':';
        read(&long, &mut tally, random);
    }
    tally.saw([31, 32]);
    Said::Tried(tally.to_string())
}
