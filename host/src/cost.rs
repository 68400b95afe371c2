//! Costs, and what a length of scratch makes of them.

use crate::{derive, DerivationRefusal};

/// What a derivation costs: N steps in each pass of a lane, blocks of 128·r bytes, p lanes.
#[derive(Clone, Copy, Debug, PartialEq, Eq)]
pub struct Cost {
    pub n: u64,
    pub r: u64,
    pub p: u64,
}

/// How a derivation would run on a scratch: known before it runs, from lengths alone.
#[derive(Clone, Copy, Debug, PartialEq, Eq)]
pub struct Plan {
    /// Every k-th block is stored, the others are found by stepping forward from one that is.
    pub spacing: u64,
    /// N/k.
    pub stored: u64,
    /// p·N·(k + 1): what the allowance has to cover.
    pub worst: u64,
}

impl Cost {
    /// The house default.
    pub const HOUSE: Cost = Cost { n: 16_384, r: 8, p: 1 };

    /// Refusals 4 to 7, by the library's own word: with no scratch it gets as far as 8.
    pub fn check(self) -> Result<(), DerivationRefusal> {
        match derive(b"", b"", self, &mut [0], &mut [], 0) {
            Err(DerivationRefusal::ScratchTooShort) => Ok(()),
            Err(refusal) => Err(refusal),
            Ok(_) => unreachable!("a derivation needs scratch"),
        }
    }

    /// A block's length in bytes.
    pub fn block(self) -> u64 {
        128 * self.r
    }

    /// The shortest scratch for a spacing: the stored blocks, p lanes and 3 blocks of working room.
    pub fn scratch(self, spacing: u64) -> u64 {
        (self.n / spacing + self.p + 3) * self.block()
    }

    /// The plan at a spacing.
    pub fn spaced(self, spacing: u64) -> Plan {
        Plan { spacing, stored: self.n / spacing, worst: self.p * self.n * (spacing + 1) }
    }

    /// The plan on a scratch of so many bytes, or why there is none (4 to 8).
    pub fn plan(self, scratch: u64) -> Result<Plan, DerivationRefusal> {
        self.check()?;
        let fits = |spacing: &u64| self.scratch(*spacing) <= scratch;
        let smallest = self.spacings().find(fits).ok_or(DerivationRefusal::ScratchTooShort)?;
        Ok(self.spaced(smallest))
    }

    /// Every spacing there is: 1, 2, 4 and so on to N.
    pub fn spacings(self) -> impl Iterator<Item = u64> {
        (0..u64::BITS).map(|e| 1 << e).take_while(move |k| *k <= self.n)
    }
}

impl Plan {
    /// About how many mixings to expect: a lookup steps (k - 1)/2 blocks forward on average.
    pub fn expected(self, cost: Cost) -> u64 {
        cost.p * cost.n * (self.spacing + 3) / 2
    }
}
