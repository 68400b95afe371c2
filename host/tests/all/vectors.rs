//! Published vectors, and the scope paper's own numbers.

use crate::lend::{derive, derive_as, login, read_card, write_card, Derivation, Login};
use crate::{case, Said, Test};
use apart::card::Card;
use apart::random::Random;
use apart::rules::Planned;
use apart::scrypt;

pub const TESTS: &[Test] = &[
    ("RFC 7914 section 12", section_12),
    ("RFC 7914 section 12, N = 1,048,576", section_12_largest),
    ("RFC 7914 section 13's key", section_13),
    ("cases A to L", a_to_l),
    ("the card of 36 bytes", whole_card),
];

pub fn unhex(text: &str) -> Vec<u8> {
    let digits: Vec<u32> = text.chars().filter_map(|c| c.to_digit(16)).collect();
    digits.chunks(2).map(|pair| (16 * pair[0] + pair[1]) as u8).collect()
}

struct Vector {
    pass: &'static str,
    salt: &'static str,
    costs: [u64; 3],
    key: &'static str,
}

const SECTION_12: [Vector; 4] = [
    Vector {
        pass: "",
        salt: "",
        costs: [16, 1, 1],
        key: "77 d6 57 62 38 65 7b 20 3b 19 ca 42 c1 8a 04 97 f1 6b 48 44 e3 07 4a e8 df df fa 3f ed e2 14 42
              fc d0 06 9d ed 09 48 f8 32 6a 75 3a 0f c8 1f 17 e8 d3 e0 fb 2e 0d 36 28 cf 35 e2 0c 38 d1 89 06",
    },
    Vector {
        pass: "password",
        salt: "NaCl",
        costs: [1024, 8, 16],
        key: "fd ba be 1c 9d 34 72 00 78 56 e7 19 0d 01 e9 fe 7c 6a d7 cb c8 23 78 30 e7 73 76 63 4b 37 31 62
              2e af 30 d9 2e 22 a3 88 6f f1 09 27 9d 98 30 da c7 27 af b9 4a 83 ee 6d 83 60 cb df a2 cc 06 40",
    },
    Vector {
        pass: "pleaseletmein",
        salt: "SodiumChloride",
        costs: [16384, 8, 1],
        key: "70 23 bd cb 3a fd 73 48 46 1c 06 cd 81 fd 38 eb fd a8 fb ba 90 4f 8e 3e a9 b5 43 f6 54 5d a1 f2
              d5 43 29 55 61 3f 0f cf 62 d4 97 05 24 2a 9a f9 e6 1e 85 dc 0d 65 1e 40 df cf 01 7b 45 57 58 87",
    },
    LARGEST,
];

const LARGEST: Vector = Vector {
    pass: "pleaseletmein",
    salt: "SodiumChloride",
    costs: [1048576, 8, 1],
    key: "21 01 cb 9b 6a 51 1a ae ad db be 09 cf 70 f8 81 ec 56 8d 57 4a 2f fd 4d ab e5 ee 98 20 ad aa 47
          8e 56 fd 8f 4b a5 d0 9f fa 1c 6d 92 7c 40 f4 c3 37 30 40 49 e8 a9 52 fb cb f4 5c 6f a7 7a 41 a4",
};

/// Section 13: the key of its PKCS#8 example.
const RABBIT: Vector = Vector {
    pass: "Rabbit",
    salt: "Mouse",
    costs: [1048576, 8, 1],
    key: "E2 77 EA 2C AC B2 3E DA FC 03 9D 22 9B 79 DC 13 EC ED B6 01 D9 9B 18 2A 9F ED BA 1E 2B FB 4F 58",
};

impl Vector {
    /// The derivation on the shortest scratch for a spacing.
    fn spaced(&self, spacing: u64) -> Derivation {
        let [n, r, p] = self.costs;
        Derivation {
            pass: self.pass.into(),
            salt: self.salt.into(),
            costs: self.costs,
            key: unhex(self.key).len(),
            scratch: ((n / spacing + p + 3) * 128 * r) as usize,
            allowance: u64::MAX,
        }
    }

    /// Against the published key alone; with every block stored the count is 2·p·N.
    fn holds_at_1(&self, random: &mut Random) {
        let [n, _, p] = self.costs;
        let told = derive_as(&self.spaced(1), random, |_| (unhex(self.key), 2 * p * n));
        assert!(told.is_ok());
    }
}

fn section_12(random: &mut Random) -> Said {
    let spacings = [1, 2, 8];
    let (_, small) = SECTION_12.split_last().unwrap();
    for vector in small {
        vector.holds_at_1(random);
        for spacing in spacings {
            let (key, told) = derive(&vector.spaced(spacing), random).expect("accepted");
            assert_eq!((key, told.spacing), (unhex(vector.key), spacing));
        }
    }
    Said::Tried(format!("{} vectors at k = 1, 2 and 8, mixings counted apart", small.len()))
}

fn section_12_largest(random: &mut Random) -> Said {
    LARGEST.holds_at_1(random);
    Said::Tried("1 vector at k = 1, over 1 GiB of scratch".into())
}

fn section_13(random: &mut Random) -> Said {
    let mut mixings = 0;
    let counted = |planned: &Planned| {
        let (key, places) = scrypt::scrypt(RABBIT.pass.as_bytes(), RABBIT.salt.as_bytes(), RABBIT.costs, 32);
        assert_eq!(key, unhex(RABBIT.key), "the independent scrypt");
        mixings = scrypt::mixings(RABBIT.costs, &places, planned.spacing);
        (key, mixings)
    };
    derive_as(&RABBIT.spaced(4), random, counted).expect("accepted");
    Said::Tried(format!("1 vector at k = 4, {mixings} mixings"))
}

fn a_to_l(random: &mut Random) -> Said {
    const ANY: u64 = u64::MAX;
    type Row = (&'static str, [u64; 3], u64, u64, Result<(u64, u64), u64>);
    const ROWS: [Row; 12] = [
        ("A", [16, 1, 1], 2560, 32, Ok((1, 16))),
        ("B", [16, 1, 1], 2559, 48, Ok((2, 8))),
        ("C", [16, 1, 1], 1536, 47, Err(9)),
        ("D", [16, 1, 1], 1535, 80, Ok((4, 4))),
        ("E", [16, 1, 1], 640, 272, Ok((16, 1))),
        ("F", [16, 1, 1], 639, 272, Err(8)),
        ("G", [16, 1, 1], 2560, 31, Err(9)),
        ("H", [65536, 1, 1], ANY, ANY, Err(7)),
        ("I", [1000, 8, 1], ANY, ANY, Err(6)),
        ("J", [1, 0, 1], ANY, ANY, Err(4)),
        ("K", [1024, 8, 16], 65536, 540672, Ok((32, 32))),
        ("L", [16384, 8, 1], 65536, 8404992, Ok((512, 32))),
    ];
    let any = |amount: u64, some: &[u64]| if amount == ANY { some.to_vec() } else { vec![amount] };
    let mut tried = 0;
    for (name, costs, scratch, allowance, wanted) in ROWS {
        for scratch in any(scratch, &[0, 1, 4096, 1 << 20]) {
            for allowance in any(allowance, &[0, 1 << 32, u64::MAX]) {
                let (pass, salt) = (random.bytes(9), random.bytes(11));
                let asked = Derivation { pass, salt, costs, key: 32, scratch: scratch as usize, allowance };
                let told = case(|| format!("row {name}"), || derive(&asked, random));
                assert_eq!(told.map(|(_, told)| (told.spacing, told.stored)), wanted, "row {name}");
                tried += 1;
            }
        }
    }
    Said::Tried(format!("12 rows, {tried} derivations asked for"))
}

fn whole_card(random: &mut Random) -> Said {
    let bytes = unhex(
        "01 02 03 04 05 06 07 08 10 11 12 13 14 15 16 17 18 19 1A 1B 1C 1D 1E 1F 18 00 10 00 01 04 01 01 52 54 4B 43",
    );
    assert_eq!(bytes.len(), 36);
    let card = Card { exponent: 4, r: 1, p: 1, salt: (1..=8).collect(), key: (0x10..=0x1f).collect() };
    assert_eq!(apart::card::read(&bytes), Ok(card.clone()));
    read_card(&bytes, random).expect("accepted");
    assert_eq!(write_card(&card, 36, random), Ok(bytes.clone()));
    let asked = Login { text: b"a:b:c".to_vec(), card: bytes, allowance: 32 };
    assert_eq!(login(&asked, 2560, random), Ok(false));
    Said::Tried("read, written, and a login's no".into())
}
