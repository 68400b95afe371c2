//! Scratch and allowance: what a job lends and pays.

use super::amounts::{grouped, size, time};
use super::meter::seconds_per_mixing;
use super::options::Options;
use super::progress::watched;
use rinnamoyle::{Cost, DerivationRefusal};
use std::time::Duration;

/// The most scratch that is lent unasked.
const SCRATCH_UNASKED: u64 = 256 << 20;

/// The most mixings that are paid for unasked: a card that asks for hours is refused.
const ALLOWANCE_UNASKED: u64 = 1 << 24;

/// Work that may take longer than this many mixings is measured beforehand, to say how long it will take.
const LONG: u64 = 1 << 20;

pub struct Lent {
    pub scratch: Vec<u8>,
    pub allowance: u64,
}

impl Lent {
    /// What the options say, or enough for every block that these costs store, within reason.
    pub fn asked(options: &Options, cost: Option<Cost>) -> Result<Lent, String> {
        let scratch = options.amount("--scratch")?.unwrap_or_else(|| cost.map_or(0, scratch_unasked));
        let allowance = options.amount("--allowance")?.unwrap_or(ALLOWANCE_UNASKED);
        Ok(Lent { scratch: zeros(scratch)?, allowance })
    }

    /// Does work with these costs on the scratch, with a word on standard error where it takes long.
    pub fn watched<T>(&mut self, cost: Option<Cost>, work: impl FnOnce(&mut [u8], u64) -> T) -> T {
        let what = cost.map_or("working".into(), |cost| self.forecast(cost));
        watched(&what, || work(&mut self.scratch, self.allowance))
    }

    fn forecast(&self, cost: Cost) -> String {
        match cost.plan(self.scratch.len() as u64) {
            Ok(plan) if plan.worst <= self.allowance && plan.expected(cost) > LONG => {
                let each = seconds_per_mixing(cost, plan, Duration::from_millis(100));
                format!("deriving, about {} in all", time(each * plan.expected(cost) as f64))
            }
            _ => "deriving".into(),
        }
    }

    /// What lies behind refusals 8 and 9: the numbers that were compared.
    pub fn numbers(&self, cost: Cost, refusal: DerivationRefusal) -> String {
        let Cost { n, r, p } = cost;
        let scratch = self.scratch.len() as u64;
        let costs = format!("N = {}, r = {r}, p = {p} on {} bytes of scratch", grouped(n), grouped(scratch));
        match (refusal, cost.plan(scratch)) {
            (DerivationRefusal::ScratchTooShort, _) => {
                format!("\n{costs}: at least {} are needed", grouped(cost.scratch(n)))
            }
            (DerivationRefusal::AllowanceTooSmall, Ok(plan)) => {
                let [worst, allowance] = [plan.worst, self.allowance].map(grouped);
                format!("\n{costs}: k = {}, at worst {worst} mixings, allowed {allowance}", plan.spacing)
            }
            _ => String::new(),
        }
    }
}

fn scratch_unasked(cost: Cost) -> u64 {
    cost.spacings().map(|spacing| cost.scratch(spacing)).find(|scratch| *scratch <= SCRATCH_UNASKED).unwrap_or(0)
}

fn zeros(length: u64) -> Result<Vec<u8>, String> {
    let mut bytes = Vec::new();
    let trouble = || format!("there is no memory for {} of scratch", size(length));
    bytes.try_reserve_exact(usize::try_from(length).map_err(|_| trouble())?).map_err(|_| trouble())?;
    bytes.resize(length as usize, 0);
    Ok(bytes)
}
