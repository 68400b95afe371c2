//! When a derivation says no, and how scratch becomes spacing.

pub const PASS_MOST: usize = 1024;
pub const SALT_MOST: usize = 1024;
pub const KEY_MOST: usize = 256;
pub const R_MOST: u64 = 32;
pub const P_MOST: u64 = 64;
pub const N_MOST: u64 = 1 << 20;

/// All that a derivation's refusals and spacing depend on.
#[derive(Clone, Copy, Debug)]
pub struct Asked {
    pub pass: usize,
    pub salt: usize,
    pub key: usize,
    pub costs: [u64; 3],
    pub scratch: usize,
    pub allowance: u64,
}

/// An accepted derivation's plan.
#[derive(Clone, Copy, Debug, PartialEq, Eq)]
pub struct Planned {
    pub spacing: u64,
    pub stored: u64,
    pub worst: u64,
}

/// The first rule of the table that applies, or the plan.
pub fn plan(asked: &Asked) -> Result<Planned, u64> {
    let [n, r, p] = asked.costs;
    refused(asked.pass > PASS_MOST, 1)?;
    refused(asked.salt > SALT_MOST, 2)?;
    refused(asked.key == 0 || asked.key > KEY_MOST, 3)?;
    refused(r_is_bad(r), 4)?;
    refused(p_is_bad(p), 5)?;
    refused(n < 2 || n.count_ones() != 1, 6)?;
    refused(n_is_bad(n, r), 7)?;
    let planned = spaced(n, r, p, asked.scratch).ok_or(8u64)?;
    refused(planned.worst > asked.allowance, 9)?;
    Ok(planned)
}

fn refused(applies: bool, number: u64) -> Result<(), u64> {
    if applies {
        Err(number)
    } else {
        Ok(())
    }
}

pub fn r_is_bad(r: u64) -> bool {
    !(1..=R_MOST).contains(&r)
}

pub fn p_is_bad(p: u64) -> bool {
    !(1..=P_MOST).contains(&p)
}

/// For a good r: N is over the limit, or not below 2^(16·r), a number that u128 holds where it matters.
pub fn n_is_bad(n: u64, r: u64) -> bool {
    n > N_MOST || u128::from(n) >= 1u128 << (16 * r.min(4))
}

/// The smallest power of two with N/k + p + 3 at most the scratch's whole blocks.
fn spaced(n: u64, r: u64, p: u64, scratch: usize) -> Option<Planned> {
    let blocks = scratch as u64 / (128 * r);
    let halvings = (0..=n.trailing_zeros()).find(|h| (n >> h) + p + 3 <= blocks)?;
    let spacing = 1 << halvings;
    Some(Planned { spacing, stored: n >> halvings, worst: p * n * (spacing + 1) })
}
