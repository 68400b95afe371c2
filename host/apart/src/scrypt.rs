//! scrypt as RFC 7914 reads: every block stored, N and r known at run time alone.

use crate::sha256::pbkdf2;

/// Section 3: Salsa20/8, in place.
fn salsa20_8(block: &mut [u32; 16]) {
    let mut x = *block;
    for _ in 0..4 {
        for [a, b, c, d] in [[0, 4, 8, 12], [5, 9, 13, 1], [10, 14, 2, 6], [15, 3, 7, 11]] {
            quarter(&mut x, a, b, c, d);
        }
        for [a, b, c, d] in [[0, 1, 2, 3], [5, 6, 7, 4], [10, 11, 8, 9], [15, 12, 13, 14]] {
            quarter(&mut x, a, b, c, d);
        }
    }
    for (word, more) in block.iter_mut().zip(x) {
        *word = word.wrapping_add(more);
    }
}

#[inline(always)]
fn quarter(x: &mut [u32; 16], a: usize, b: usize, c: usize, d: usize) {
    x[b] ^= x[a].wrapping_add(x[d]).rotate_left(7);
    x[c] ^= x[b].wrapping_add(x[a]).rotate_left(9);
    x[d] ^= x[c].wrapping_add(x[b]).rotate_left(13);
    x[a] ^= x[d].wrapping_add(x[c]).rotate_left(18);
}

/// Section 4: from one block of 32·r words to another.
fn block_mix(from: &[u32], to: &mut [u32]) {
    let r = from.len() / 32;
    let mut x: [u32; 16] = from[from.len() - 16..].try_into().unwrap();
    for (i, piece) in from.chunks_exact(16).enumerate() {
        for (word, more) in x.iter_mut().zip(piece) {
            *word ^= more;
        }
        salsa20_8(&mut x);
        let place = i / 2 + (i % 2) * r;
        to[16 * place..16 * place + 16].copy_from_slice(&x);
    }
}

/// Section 5: `x` in place, with room for N blocks. `looked_up` is told each j.
fn ro_mix(x: &mut [u32], n: u64, room: &mut [u32], mut looked_up: impl FnMut(u64)) {
    let mut mixed = vec![0; x.len()];
    for block in room.chunks_exact_mut(x.len()).take(n as usize) {
        block.copy_from_slice(x);
        block_mix(x, &mut mixed);
        x.copy_from_slice(&mixed);
    }
    for _ in 0..n {
        let last = &x[x.len() - 16..];
        let j = (last[0] as u64 | (last[1] as u64) << 32) % n;
        looked_up(j);
        let block = &room[j as usize * x.len()..][..x.len()];
        for (word, more) in x.iter_mut().zip(block) {
            *word ^= more;
        }
        block_mix(x, &mut mixed);
        x.copy_from_slice(&mixed);
    }
}

/// How many words `scrypt_in` wants lent.
pub fn words(n: u64, r: u64) -> usize {
    (32 * n * r) as usize
}

/// Section 6, with the room for V lent.
pub fn scrypt_in(
    pass: &[u8],
    salt: &[u8],
    [n, r, p]: [u64; 3],
    key: &mut [u8],
    room: &mut [u32],
    mut looked_up: impl FnMut(u64),
) {
    let mut lanes = vec![0; (128 * r * p) as usize];
    pbkdf2(pass, salt, &mut lanes);
    for lane in lanes.chunks_exact_mut((128 * r) as usize) {
        let mut x: Vec<u32> = lane.chunks_exact(4).map(|b| u32::from_le_bytes(b.try_into().unwrap())).collect();
        ro_mix(&mut x, n, room, &mut looked_up);
        for (bytes, word) in lane.chunks_exact_mut(4).zip(x) {
            bytes.copy_from_slice(&word.to_le_bytes());
        }
    }
    pbkdf2(pass, &lanes, key);
}

/// The same with nobody told, compiled here and with this crate's flags: what the benchmark measures.
pub fn scrypt_quiet(pass: &[u8], salt: &[u8], costs: [u64; 3], key: &mut [u8], room: &mut [u32]) {
    scrypt_in(pass, salt, costs, key, room, |_| ())
}

/// The key, and every place j that its lanes looked up, in order.
pub fn scrypt(pass: &[u8], salt: &[u8], [n, r, p]: [u64; 3], length: usize) -> (Vec<u8>, Vec<u64>) {
    let mut key = vec![0; length];
    let mut places = Vec::new();
    scrypt_in(pass, salt, [n, r, p], &mut key, &mut vec![0; words(n, r)], |j| places.push(j));
    (key, places)
}

/// The mixings at a spacing, by definition: 2N in each lane, and j mod k for each lookup.
pub fn mixings([n, _, p]: [u64; 3], places: &[u64], spacing: u64) -> u64 {
    2 * n * p + places.iter().map(|j| j % spacing).sum::<u64>()
}
