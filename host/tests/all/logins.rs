//! Logins: the three desks in their order, right and wrong passwords, and one scratch for many.

use crate::lend::{all_zero, login, login_on, side, Login};
use crate::{case, Said, Test};
use apart::card::{self, Card};
use apart::guard::Guarded;
use apart::random::Random;
use apart::scrypt;
use std::collections::BTreeMap;

pub const TESTS: &[Test] = &[
    ("random logins", many),
    ("one byte of text or card changed", one_byte),
    ("the desks in their order", desks),
    ("sequences of logins over one scratch", sequences),
];

type Answer = Result<bool, (u64, u64)>;

/// How often each answer came, by name.
#[derive(Default)]
struct Answers(BTreeMap<String, u64>);

impl Answers {
    fn count(&mut self, answer: Answer) {
        let name = match answer {
            Ok(true) => "yes".into(),
            Ok(false) => "no".into(),
            Err((desk, number)) => format!("desk {desk}'s {number}"),
        };
        *self.0.entry(name).or_default() += 1;
    }

    fn saw(&self, names: &[&str]) {
        names.iter().for_each(|name| assert!(self.0.contains_key(*name), "{name} never came"));
    }

    fn said(&self) -> Said {
        let words: Vec<String> = self.0.iter().map(|(name, times)| format!("{times} x {name}")).collect();
        Said::Tried(words.join(", "))
    }
}

const ALL: [&str; 12] = [
    "yes",
    "no",
    "desk 1's 21",
    "desk 1's 22",
    "desk 1's 23",
    "desk 1's 24",
    "desk 1's 25",
    "desk 2's 31",
    "desk 2's 32",
    "desk 3's 1",
    "desk 3's 8",
    "desk 3's 9",
];

fn tried(asked: &Login, scratch: usize, random: &mut Random) -> Answer {
    case(|| format!("{asked:?}, scratch {scratch}"), || login(asked, scratch, random))
}

/// What small costs need at every spacing; a damaged card that asks for more is refused.
const ENOUGH: u64 = 20_000;

/// A card that this password opens.
fn card_for(password: &[u8], [exponent, r, p]: [u64; 3], random: &mut Random) -> Card {
    let (salt, length) = (8 + random.index(57), 16 + random.index(49));
    let salt = random.bytes(salt);
    let key = scrypt::scrypt(password, &salt, [1 << exponent, r, p], length).0;
    Card { exponent, r, p, salt, key }
}

/// A login that says yes, if the scratch allows.
fn opened(costs: [u64; 3], random: &mut Random) -> Login {
    let password = any_password(random);
    let card = bytes_of(&card_for(&password, costs, random));
    let user_length = 1 + random.index(64);
    Login { text: [&random.bytes(user_length), &b":"[..], &password].concat(), card, allowance: ENOUGH }
}

fn small_costs(random: &mut Random) -> [u64; 3] {
    [random.within(1..=5), random.within(1..=2), random.within(1..=2)]
}

fn bytes_of(card: &Card) -> Vec<u8> {
    card::write(card, usize::MAX).expect("a good card")
}

fn any_password(random: &mut Random) -> Vec<u8> {
    let length = if random.once_in(10) { random.length(&[0, 64, 1024]) } else { random.index(40) };
    random.bytes(length).into_iter().map(|byte| if byte == b':' { b';' } else { byte }).collect()
}

/// A login that mostly gets as far as yes or no.
fn any_login(random: &mut Random) -> Login {
    let costs = small_costs(random);
    let mut asked = opened(costs, random);
    if random.once_in(15) {
        let length = random.length(&[0, 64]);
        asked.text.splice(..0, random.bytes(length));
    }
    damage(&mut asked.text, random);
    damage(&mut asked.card, random);
    asked.allowance = random.one_of(&[ENOUGH, ENOUGH, 4096, 200, 60]);
    asked
}

fn damage(bytes: &mut Vec<u8>, random: &mut Random) {
    match random.index(12) {
        0 => {
            let at = random.index(bytes.len());
            bytes[at] ^= 1 << random.index(8);
        }
        1 => {
            let near_the_end = bytes.len() - 1 - random.index(bytes.len().min(12));
            bytes[near_the_end] = random.word() as u8;
        }
        2 if random.once_in(2) => bytes.truncate(random.index(bytes.len() + 1)),
        3 if random.once_in(4) => bytes.retain(|byte| *byte != b':'),
        4 if random.once_in(4) => *bytes = b"RTKC".to_vec(),
        _ => {}
    }
}

/// Enough for some spacing of every small card, or one too short.
fn any_scratch(random: &mut Random) -> usize {
    match random.index(8) {
        0 => random.index(700),
        1 => 0,
        _ => 640 + random.index(12_000),
    }
}

fn many(random: &mut Random) -> Said {
    let mut answers = Answers::default();
    for _ in 0..12_000 {
        let asked = any_login(random);
        let scratch = any_scratch(random);
        answers.count(tried(&asked, scratch, random));
    }
    answers.saw(&ALL);
    answers.said()
}

/// Each byte of a login that says yes, changed: no byte is overlooked.
fn one_byte(random: &mut Random) -> Said {
    let mut answers = Answers::default();
    let user = b"rover";
    let mut whole = opened([3, 1, 1], random);
    let password = whole.text.rsplit(|byte| *byte == b':').next().unwrap();
    whole.text = [user, &b":"[..], password].concat();
    let scratch = 4096;
    assert_eq!(tried(&whole, scratch, random), Ok(true));
    for at in 0..whole.text.len() {
        let mut asked = whole.clone();
        asked.text[at] ^= 1 << random.index(8);
        let answer = tried(&asked, scratch, random);
        // A user name is looked at for its shape alone.
        assert_eq!(answer == Ok(true), at < user.len(), "byte {at} of the text");
        answers.count(answer);
    }
    for at in 0..whole.card.len() {
        let mut asked = whole.clone();
        asked.card[at] ^= 1 << random.index(8);
        let answer = tried(&asked, scratch, random);
        assert_ne!(answer, Ok(true), "byte {at} of the card");
        answers.count(answer);
    }
    answers.said()
}

/// Faults at each desk, alone and together: the first desk in the order speaks.
fn desks(random: &mut Random) -> Said {
    let mut answers = Answers::default();
    let good = bytes_of(&card_for(b"c", [4, 1, 2], random));
    let broken = |at_the_end: usize, value: u8| {
        let mut bytes = good.clone();
        let at = bytes.len() - at_the_end;
        bytes[at] = value;
        bytes
    };
    let long = [b"a:", &[b'x'; 1025][..]].concat();
    let user = [&[b'x'; 65][..], b":c"].concat();
    let cards =
        [(good[..11].to_vec(), 21), (broken(1, b'c'), 22), (broken(8, 2), 23), (broken(12, 0), 24), (broken(7, 0), 25)];
    let texts: [(&[u8], u64); 7] =
        [(b"", 31), (b"nocolon", 31), (b":x", 32), (&user, 32), (b"a:b:c", 0), (b"a:d", 0), (&long, 0)];
    for (card, card_number) in cards.into_iter().chain([(good.clone(), 0)]) {
        for (text, text_number) in texts {
            for (scratch, allowance) in [(0, 0), (16384, 0), (16384, u64::MAX)] {
                let asked = Login { text: text.to_vec(), card: card.clone(), allowance };
                let answer = tried(&asked, scratch, random);
                if card_number > 0 {
                    assert_eq!(answer, Err((1, card_number)));
                } else if text_number > 0 {
                    assert_eq!(answer, Err((2, text_number)));
                }
                answers.count(answer);
            }
        }
    }
    answers.saw(&ALL);
    answers.said()
}

/// The wrapper's answer, in the library's numbers.
fn wrapped(asked: &Login, scratch: &mut [u8]) -> Answer {
    use rinnamoyle::{Answer, Refusal};
    let desk = |refusal| match refusal {
        Refusal::Card(_) => 1,
        Refusal::Text(_) => 2,
        Refusal::Derivation(_) => 3,
    };
    match rinnamoyle::login(&asked.text, &asked.card, scratch, asked.allowance) {
        Answer::Yes => Ok(true),
        Answer::No => Ok(false),
        Answer::Refused(refusal) => Err((desk(refusal), refusal.number())),
    }
}

/// One scratch, lent to one login after another and never cleared between them: each answers as alone on a zero one.
fn sequences(random: &mut Random) -> Said {
    let mut answers = Answers::default();
    for _ in 0..150 {
        let length = any_scratch(random).max(1500);
        let mut scratch = Guarded::copy(&random.bytes(length), side(random));
        let mut kept: Vec<Login> = (0..5).map(|_| any_login(random)).collect();
        kept.extend((0..2).map(|_| opened([4, 1, 1], random)));
        for _ in 0..40 {
            let asked = kept[random.index(kept.len())].clone();
            let before = scratch.to_vec();
            let answer = login_on(&asked, &mut scratch, random);
            let alone = wrapped(&asked, &mut vec![0; length]);
            assert_eq!(answer, alone, "{asked:?} over a used scratch of {length}");
            assert_eq!(answer, apart::login::login(&asked.text, &asked.card, length, asked.allowance), "{asked:?}");
            assert!(if answer.is_ok() { all_zero(&scratch) } else { *scratch == *before }, "{asked:?}");
            answers.count(answer);
        }
    }
    answers.saw(&["yes", "no", "desk 3's 9"]);
    answers.said()
}
