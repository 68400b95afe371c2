//! Derivations: refusals and their order, spacing, keys, counts, over random inputs and at every limit.

use crate::lend::{derive, Derivation};
use crate::tally::Tally;
use crate::{case, Said, Test};
use apart::random::Random;
use apart::rules::{plan, KEY_MOST, N_MOST, PASS_MOST, P_MOST, R_MOST, SALT_MOST};
use rinnamoyle::{ffi, Cost};
use std::thread;

pub const TESTS: &[Test] = &[
    ("every set of faults at once", sets_of_faults),
    ("one input at its limits", limits),
    ("scratch and allowance at every spacing", spacings),
    ("more scratch, fewer mixings, the same key", falling),
    ("random derivations", many),
    ("shorter keys, and a zero byte added", related_keys),
    ("the wrapper's plans", wrapper_plans),
    ("a stack of 64 KiB", small_stack),
];

fn tried(asked: &Derivation, random: &mut Random) -> Result<(Vec<u8>, ffi::Derived), u64> {
    case(|| format!("{asked:?}"), || derive(asked, random))
}

/// An accepted derivation on a scratch for a spacing.
fn good(costs: [u64; 3], spacing: u64) -> Derivation {
    Derivation {
        pass: b"open sesame".to_vec(),
        salt: b"Rinnamoyle".to_vec(),
        costs,
        key: 32,
        scratch: needed(costs, spacing),
        allowance: worst(costs, spacing),
    }
}

fn needed([n, r, p]: [u64; 3], spacing: u64) -> usize {
    ((n / spacing + p + 3) * 128 * r) as usize
}

fn worst([n, _, p]: [u64; 3], spacing: u64) -> u64 {
    p * n * (spacing + 1)
}

/// Each of the nine refusals brought about or not: the first must be given, whatever comes after it.
fn sets_of_faults(random: &mut Random) -> Said {
    let mut tally = Tally::default();
    for set in 0..1u32 << 9 {
        for _ in 0..4 {
            let asked = with_faults(set, random);
            let first = (1..=9).find(|number| has(set, *number)).map_or(Ok(()), Err);
            let told = tried(&asked, random);
            assert_eq!(told.as_ref().map(|_| ()).map_err(|number| *number), first, "{asked:?}");
            tally.count(told);
        }
    }
    tally.saw(1..=9);
    Said::Tried(format!("all 512, four times: {tally}"))
}

fn has(set: u32, number: u64) -> bool {
    set >> (number - 1) & 1 == 1
}

fn with_faults(set: u32, random: &mut Random) -> Derivation {
    let mut asked = good([16, 1, 1], random.one_of(&[1, 4, 16]));
    let [n, r, p] = &mut asked.costs;
    if has(set, 1) {
        asked.pass = random.bytes(PASS_MOST + 1);
    }
    if has(set, 2) {
        asked.salt = random.bytes(SALT_MOST + 1);
    }
    if has(set, 3) {
        asked.key = random.one_of(&[0, KEY_MOST + 1]);
    }
    if has(set, 4) {
        *r = random.one_of(&[0, R_MOST + 1, u64::MAX]);
    }
    if has(set, 5) {
        *p = random.one_of(&[0, P_MOST + 1, u64::MAX]);
    }
    *n = match (has(set, 6), has(set, 7)) {
        (false, false) => 16,
        (true, false) => random.one_of(&[0, 1, 3, 15, 17]),
        (false, true) => random.one_of(&[1 << 16, 2 * N_MOST, 1 << 63]),
        (true, true) => random.one_of(&[N_MOST + 1, 3 * N_MOST, u64::MAX]),
    };
    if has(set, 8) {
        asked.scratch = random.one_of(&[0, needed([16, 1, 1], 16) - 1]);
    }
    if has(set, 9) {
        asked.allowance = 0;
    }
    asked
}

/// Each input in turn goes through the numbers around its limits, the others being good.
fn limits(random: &mut Random) -> Said {
    let base = good([4, 1, 1], 1);
    let mut cases = Vec::new();
    for length in [0, 1, 31, 32, 55, 56, 63, 64, 65, 119, 120, 127, 128, 129, 1023, 1024, 1025, 5000, 1 << 20] {
        cases.push(Derivation { pass: random.bytes(length), ..base.clone() });
        cases.push(Derivation { salt: random.bytes(length), ..base.clone() });
    }
    for key in [0, 1, 2, 31, 32, 33, 63, 64, 65, 255, 256, 257, 5000] {
        cases.push(Derivation { key, ..base.clone() });
    }
    let around = |most: u64| [0, 1, 2, 3, most - 1, most, most + 1, most + 2, 1 << 32, 1 << 57, 1 << 63, u64::MAX];
    for r in around(R_MOST) {
        cases.push(with_costs([4, r, 1]));
    }
    for p in around(P_MOST) {
        cases.push(with_costs([4, 1, p]));
    }
    for n in (0..64).flat_map(|e| [(1u64 << e) - 1, 1 << e, (1 << e) + 1]).chain([u64::MAX]) {
        cases.extend([1, 2, 3, 4, 32].map(|r| with_costs([n, r, 1])));
    }
    let mut tally = Tally::default();
    cases.iter().for_each(|asked| tally.count(tried(asked, random)));
    tally.saw((1..=7).chain([9]));
    Said::Tried(tally.to_string())
}

/// Scratch for good costs of a like size, and an allowance that shuts out what would take long.
fn with_costs([n, r, p]: [u64; 3]) -> Derivation {
    let like = [n.clamp(2, 64).next_power_of_two(), r.clamp(1, R_MOST), p.clamp(1, P_MOST)];
    Derivation { costs: [n, r, p], allowance: 1 << 12, ..good(like, 1) }
}

/// One byte more or less at every spacing, and one mixing more or less in the allowance.
fn spacings(random: &mut Random) -> Said {
    let mut tally = Tally::default();
    let costs = [2, 4, 16, 64].into_iter().flat_map(|n| [[n, 1, 1], [n, 2, 1], [n, 1, 3], [n, 3, 2]]);
    for costs in costs.chain([[4, 32, 1], [2, 1, 64], [8, 31, 2]]) {
        for spacing in powers(costs[0]) {
            let exact = good(costs, spacing);
            let block = 128 * costs[1] as usize;
            for scratch in [exact.scratch - 1, exact.scratch, exact.scratch + 1, exact.scratch + block - 1] {
                for allowance in [exact.allowance - 1, exact.allowance, 2 * exact.allowance] {
                    tally.count(tried(&Derivation { scratch, allowance, ..exact.clone() }, random));
                }
            }
        }
    }
    tally.saw([8, 9]);
    Said::Tried(tally.to_string())
}

fn powers(n: u64) -> impl Iterator<Item = u64> {
    (0..=n.ilog2()).map(|e| 1 << e)
}

/// More scratch never costs more mixings, and never changes the key.
fn falling(random: &mut Random) -> Said {
    let mut tried_spacings = 0;
    for costs in [[256, 1, 1], [64, 2, 3], [1024, 1, 2]] {
        let pass = random.bytes(20);
        let at = |spacing, random: &mut Random| {
            let asked = Derivation { pass: pass.clone(), ..good(costs, spacing) };
            tried(&asked, random).map(|(key, told)| (key, told.mixings)).expect("accepted")
        };
        let all: Vec<_> = powers(costs[0]).map(|spacing| at(spacing, random)).collect();
        assert!(all.is_sorted_by(|(key, mixings), (other, more)| key == other && mixings <= more), "{costs:?}");
        tried_spacings += all.len();
    }
    Said::Tried(format!("{tried_spacings} spacings"))
}

fn many(random: &mut Random) -> Said {
    let mut tally = Tally::default();
    for i in 0..20_000 {
        // Once in a while one that takes longer; the others are kept short, by a refusal if need be.
        let most = if i % 500 == 0 { 400_000 } else { 6_000 };
        let mut asked = any_derivation(random);
        if let Ok(planned) = plan(&asked.asked()) {
            if planned.worst * asked.costs[1] > most {
                asked.allowance = planned.worst - 1;
            }
        }
        tally.count(tried(&asked, random));
    }
    tally.saw(1..=9);
    Said::Tried(tally.to_string())
}

/// Mostly within the limits, now and then beside one.
fn any_derivation(random: &mut Random) -> Derivation {
    let costs = [any_n(random), any_small(random, R_MOST), any_small(random, P_MOST)];
    let like = [costs[0].clamp(2, 64), costs[1].clamp(1, R_MOST), costs[2].clamp(1, P_MOST)];
    let powers: Vec<u64> = powers(like[0]).collect();
    let spacing = random.one_of(&powers);
    let (needed, worst) = (needed(like, spacing), worst(like, spacing));
    Derivation {
        pass: any_bytes(random, PASS_MOST),
        salt: any_bytes(random, SALT_MOST),
        costs,
        key: if random.once_in(12) { random.length(&[0, KEY_MOST]) } else { 1 + random.index(100) },
        scratch: random.one_of(&[needed, needed, needed, needed - 1, needed + 1, 2 * needed, 0]),
        allowance: random.one_of(&[u64::MAX, u64::MAX, worst, worst, worst - 1, 2 * worst, 0]),
    }
}

fn any_bytes(random: &mut Random, most: usize) -> Vec<u8> {
    let length = if random.once_in(12) { random.length(&[64, 128, most]) } else { random.index(150) };
    random.bytes(length)
}

fn any_n(random: &mut Random) -> u64 {
    match random.index(12) {
        0 => random.word() >> random.index(64),
        1 => 1 << random.index(64),
        _ => 2 << random.index(6),
    }
}

fn any_small(random: &mut Random, most: u64) -> u64 {
    match random.index(12) {
        0 => random.one_of(&[0, most - 1, most, most + 1, u64::MAX]),
        1 => random.within(1..=most),
        _ => random.within(1..=3),
    }
}

/// A shorter key is the start of a longer one; a zero byte after a passphrase of at most 63 bytes changes nothing.
fn related_keys(random: &mut Random) -> Said {
    for length in 0..=64 {
        let base = Derivation { pass: random.bytes(length), key: 256, ..good([4, 1, 2], 2) };
        let key_of = |asked: Derivation, random: &mut Random| tried(&asked, random).expect("accepted").0;
        let long = key_of(base.clone(), random);
        let short = key_of(Derivation { key: 1 + 3 * length, ..base.clone() }, random);
        assert_eq!(short, long[..short.len()]);
        let more = Derivation { pass: [&base.pass[..], &[0]].concat(), ..base };
        assert_eq!(key_of(more, random) == long, length <= 63, "a zero byte after {length}");
    }
    Said::Tried("passphrases of 0 to 64 bytes".into())
}

/// The plan that the command shows is the one that the library runs by.
fn wrapper_plans(random: &mut Random) -> Said {
    let mut tally = Tally::default();
    for _ in 0..20_000 {
        let asked = Derivation { allowance: u64::MAX, pass: vec![], salt: vec![], key: 1, ..any_derivation(random) };
        let [n, r, p] = asked.costs;
        let told = Cost { n, r, p }.plan(asked.scratch as u64);
        let told = told.map(|plan| [plan.spacing, plan.stored, plan.worst]).map_err(|refusal| refusal.number());
        assert_eq!(told, plan(&asked.asked()).map(|plan| [plan.spacing, plan.stored, plan.worst]), "{asked:?}");
        tally.count(told);
    }
    tally.saw(4..=8);
    Said::Tried(tally.to_string())
}

/// What the header says of the stack.
fn small_stack(random: &mut Random) -> Said {
    let asked = good([64, 32, 2], 4);
    let mut key = vec![0; asked.key];
    let mut scratch = vec![0; asked.scratch];
    let card = apart::card::Card { exponent: 6, r: 32, p: 2, salt: asked.salt.clone(), key: random.bytes(64) };
    let card = apart::card::write(&card, 256).expect("a good card");
    let on_it = move || {
        let told = ffi::derive(&asked.pass, &asked.salt, asked.costs, &mut key, &mut scratch, u64::MAX);
        let answer = rinnamoyle::login(b"user:password", &card, &mut scratch, u64::MAX);
        let mut room = [0; 256];
        let read = rinnamoyle::read_card(&card).expect("a good card");
        let written = rinnamoyle::write_card(read.salt, read.key, read.exponent, read.r, read.p, &mut room);
        (told.number, answer, written)
    };
    // Where the system gives a thread no less (aarch64: 128 KiB), it is that.
    let thread = thread::Builder::new().stack_size(64 << 10).spawn(on_it).expect("a thread");
    assert_eq!(thread.join().unwrap(), (0, rinnamoyle::Answer::No, Ok(10 + 64 + 12)));
    Said::Tried("derivation, login and card within it".into())
}
