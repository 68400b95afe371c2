//! The fastest plain scalar Rust that we know how to write, for N = 16,384 and r = 8 as literals.
//!
//! Tried and measured: sixteen locals and the four double rounds written out; pieces in pairs, so that even and odd
//! places need no sum; each word stored and the next piece's word fetched in one small loop; cells, between which the
//! compiler must keep the order and so leaves the words in scalar registers. V is written where it stays, and X xor
//! V[j] is a pass of its own, in which the cache misses overlap.

use apart::sha256::pbkdf2;
use std::cell::Cell;

const N: usize = 16_384;
const R: usize = 8;
/// The words of a block, of a piece, and of all pieces at even places.
const BLOCK: usize = 32 * R;
const PIECE: usize = 16;
const HALF: usize = PIECE * R;

/// How many words `scrypt` wants lent: V, X and what is mixed next.
pub const WORDS: usize = (N + 2) * BLOCK;

type Block = [Cell<u32>; BLOCK];

macro_rules! quarter {
    ($a:ident $b:ident $c:ident $d:ident) => {
        $b ^= $a.wrapping_add($d).rotate_left(7);
        $c ^= $b.wrapping_add($a).rotate_left(9);
        $d ^= $c.wrapping_add($b).rotate_left(13);
        $a ^= $d.wrapping_add($c).rotate_left(18);
    };
}

#[inline(always)]
fn core(x: [u32; PIECE]) -> [u32; PIECE] {
    let [mut a, mut b, mut c, mut d, mut e, mut f, mut g, mut h, mut i, mut j, mut k, mut l, mut m, mut n, mut o, mut p] =
        x;
    macro_rules! double_round {
        () => {
            quarter!(a e i m);
            quarter!(f j n b);
            quarter!(k o c g);
            quarter!(p d h l);
            quarter!(a b c d);
            quarter!(f g h e);
            quarter!(k l i j);
            quarter!(p m n o);
        };
    }
    double_round!();
    double_round!();
    double_round!();
    double_round!();
    [a, b, c, d, e, f, g, h, i, j, k, l, m, n, o, p]
}

#[inline(never)]
fn block_mix(from: &Block, to: &Block) {
    let mut x = [0; PIECE];
    for w in 0..PIECE {
        x[w] = from[BLOCK - PIECE + w].get() ^ from[w].get();
    }
    for pair in 0..R {
        let piece = 2 * PIECE * pair;
        mixed(&mut x, from, piece + PIECE, to, PIECE * pair);
        mixed(&mut x, from, (piece + 2 * PIECE) % BLOCK, to, HALF + PIECE * pair);
    }
}

/// One core: its words go to their place, and the next piece is taken in.
#[inline(always)]
fn mixed(x: &mut [u32; PIECE], from: &Block, next: usize, to: &Block, at: usize) {
    let z = core(*x);
    for w in 0..PIECE {
        let word = x[w].wrapping_add(z[w]);
        to[at + w].set(word);
        x[w] = word ^ from[next + w].get();
    }
}

fn ro_mix(room: &[Cell<u32>]) {
    let block = |i: usize| -> &Block { room[BLOCK * i..][..BLOCK].try_into().unwrap() };
    for i in 0..N {
        block_mix(block(i), block(i + 1));
    }
    let (x, t) = (block(N), block(N + 1));
    for _ in 0..N {
        let v = block(x[BLOCK - PIECE].get() as usize % N);
        for w in 0..BLOCK {
            t[w].set(x[w].get() ^ v[w].get());
        }
        block_mix(t, x);
    }
}

/// scrypt with p = 1.
pub fn scrypt(pass: &[u8], salt: &[u8], key: &mut [u8], room: &mut [u32]) {
    let mut lane = [0; 4 * BLOCK];
    pbkdf2(pass, salt, &mut lane);
    for (word, bytes) in room.iter_mut().zip(lane.chunks_exact(4)) {
        *word = u32::from_le_bytes(bytes.try_into().unwrap());
    }
    ro_mix(Cell::from_mut(room).as_slice_of_cells());
    for (word, bytes) in room[N * BLOCK..].iter().zip(lane.chunks_exact_mut(4)) {
        bytes.copy_from_slice(&word.to_le_bytes());
    }
    pbkdf2(pass, &lane, key);
}
