//! How long a mixing takes on this machine.

use rinnamoyle::{derive, Cost, Plan};
use std::time::{Duration, Instant};

/// Past this every lookup misses the caches, and more memory makes it no slower.
const ENOUGH: u64 = 32 << 20;

/// About as many mixings as one trial makes, where it can choose.
const MIXINGS: u64 = 50_000;

/// The seconds that one mixing takes in a derivation by this plan, measured for at least so long.
pub fn seconds_per_mixing(cost: Cost, plan: Plan, long: Duration) -> f64 {
    let (trial, spacing) = trial(cost, plan);
    // Written once, so that no page is new to the kernel while the clock runs.
    let mut scratch = vec![1; trial.scratch(spacing) as usize];
    let begun = Instant::now();
    let mut mixings = 0;
    while begun.elapsed() < long {
        let done = derive(b"", b"", trial, &mut [0; 32], &mut scratch, u64::MAX);
        mixings += done.map_or_else(|refusal| panic!("a trial is refused with {refusal}"), |done| done.mixings);
    }
    begun.elapsed().as_secs_f64() / mixings as f64
}

/// A small likeness: one lane, as many blocks stored, as wide a spacing as its time allows.
fn trial(cost: Cost, plan: Plan) -> (Cost, u64) {
    let stored = plan.stored.min(ENOUGH / cost.block());
    let likeness = |spacing| Cost { n: stored * spacing, p: 1, ..cost };
    let short = |spacing: &u64| likeness(*spacing).spaced(*spacing).expected(likeness(*spacing)) <= MIXINGS;
    let within = cost.spacings().take_while(|spacing| *spacing <= plan.spacing);
    let spacing = within.take_while(short).last().unwrap_or(1);
    (likeness(spacing), spacing)
}
