//! SHA-256 (FIPS 180-4), HMAC (RFC 2104) and PBKDF2 with one iteration (RFC 8018).

/// Section 4.2.2: the first 32 bits of the fractional parts of the cube roots of the first 64 primes. They are worked
/// out, so that no table is copied from anywhere.
const K: [u32; 64] = fractions(3);

/// Section 5.3.3: the same of the square roots of the first eight.
const H: [u32; 8] = fractions(2);

const fn fractions<const COUNT: usize>(degree: u32) -> [u32; COUNT] {
    let mut words = [0; COUNT];
    let mut prime = 2;
    let mut i = 0;
    while i < COUNT {
        // The root of prime * 2^(32 * degree) is 2^32 times the root of prime: its low word is the fraction.
        words[i] = root(prime << (32 * degree), degree) as u32;
        prime = prime_from(prime + 1);
        i += 1;
    }
    words
}

/// The largest number whose power is at most x.
const fn root(x: u128, degree: u32) -> u128 {
    let (mut low, mut high) = (0u128, 1 << 40);
    while high - low > 1 {
        let middle = (low + high) / 2;
        if middle.pow(degree) <= x {
            low = middle;
        } else {
            high = middle;
        }
    }
    low
}

const fn prime_from(mut x: u128) -> u128 {
    while !is_prime(x) {
        x += 1;
    }
    x
}

const fn is_prime(x: u128) -> bool {
    let mut d = 2;
    while d * d <= x {
        if x % d == 0 {
            return false;
        }
        d += 1;
    }
    true
}

pub fn sha256(message: &[u8]) -> [u8; 32] {
    let state = padded(message).chunks(64).fold(H, compress);
    let mut digest = [0; 32];
    for (to, word) in digest.chunks_mut(4).zip(state) {
        to.copy_from_slice(&word.to_be_bytes());
    }
    digest
}

/// Section 5.1.1.
fn padded(message: &[u8]) -> Vec<u8> {
    let mut all = message.to_vec();
    all.push(0x80);
    while all.len() % 64 != 56 {
        all.push(0);
    }
    all.extend((8 * message.len() as u64).to_be_bytes());
    all
}

/// Section 6.2.2.
fn compress(state: [u32; 8], block: &[u8]) -> [u32; 8] {
    let w = schedule(block);
    let [mut a, mut b, mut c, mut d, mut e, mut f, mut g, mut h] = state;
    for t in 0..64 {
        let big_1 = e.rotate_right(6) ^ e.rotate_right(11) ^ e.rotate_right(25);
        let ch = (e & f) ^ (!e & g);
        let t1 = h.wrapping_add(big_1).wrapping_add(ch).wrapping_add(K[t]).wrapping_add(w[t]);
        let big_0 = a.rotate_right(2) ^ a.rotate_right(13) ^ a.rotate_right(22);
        let maj = (a & b) ^ (a & c) ^ (b & c);
        (h, g, f, e, d, c, b, a) = (g, f, e, d.wrapping_add(t1), c, b, a, t1.wrapping_add(big_0).wrapping_add(maj));
    }
    let mut next = state;
    for (word, more) in next.iter_mut().zip([a, b, c, d, e, f, g, h]) {
        *word = word.wrapping_add(more);
    }
    next
}

fn schedule(block: &[u8]) -> [u32; 64] {
    let mut w = [0; 64];
    for (word, bytes) in w.iter_mut().zip(block.chunks(4)) {
        *word = u32::from_be_bytes(bytes.try_into().unwrap());
    }
    for t in 16..64 {
        let small_0 = w[t - 15].rotate_right(7) ^ w[t - 15].rotate_right(18) ^ (w[t - 15] >> 3);
        let small_1 = w[t - 2].rotate_right(17) ^ w[t - 2].rotate_right(19) ^ (w[t - 2] >> 10);
        w[t] = w[t - 16].wrapping_add(small_0).wrapping_add(w[t - 7]).wrapping_add(small_1);
    }
    w
}

pub fn hmac(key: &[u8], message: &[u8]) -> [u8; 32] {
    let mut block = [0; 64];
    if key.len() > 64 {
        block[..32].copy_from_slice(&sha256(key));
    } else {
        block[..key.len()].copy_from_slice(key);
    }
    let outer_after = |pad: u8, rest: &[u8]| sha256(&[&block.map(|x| x ^ pad)[..], rest].concat());
    outer_after(0x5c, &outer_after(0x36, message))
}

/// PBKDF2-HMAC-SHA-256 with one iteration.
pub fn pbkdf2(pass: &[u8], salt: &[u8], key: &mut [u8]) {
    for (piece, number) in key.chunks_mut(32).zip(1u32..) {
        let t = hmac(pass, &[salt, &number.to_be_bytes()[..]].concat());
        piece.copy_from_slice(&t[..piece.len()]);
    }
}
