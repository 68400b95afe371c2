//! How often each answer came: a test that never saw a refusal has not tried it.

use std::collections::BTreeMap;
use std::fmt;

#[derive(Default)]
pub struct Tally {
    accepted: u64,
    refused: BTreeMap<u64, u64>,
}

impl Tally {
    pub fn count<T>(&mut self, answer: Result<T, u64>) {
        match answer {
            Ok(_) => self.accepted += 1,
            Err(number) => *self.refused.entry(number).or_default() += 1,
        }
    }

    /// Panics unless accepted calls and each of these refusals came.
    pub fn saw(&self, numbers: impl IntoIterator<Item = u64>) {
        assert!(self.accepted > 0, "nothing was accepted");
        for number in numbers {
            assert!(self.refused.contains_key(&number), "{number} was never given");
        }
    }
}

impl fmt::Display for Tally {
    fn fmt(&self, f: &mut fmt::Formatter) -> fmt::Result {
        write!(f, "{} accepted", self.accepted)?;
        self.refused.iter().try_for_each(|(number, times)| write!(f, ", {times} x {number}"))
    }
}
