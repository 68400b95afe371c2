//! Who is measured, and how.

use crate::fast;
use apart::others::Other;
use apart::scrypt;
use rinnamoyle::{derive, Cost};
use std::ffi::{c_int, c_long};

const PASS: &[u8] = b"pleaseletmein";
const SALT: &[u8] = b"SodiumChloride";
const COSTS: [u64; 3] = [16_384, 8, 1];
const KEY_BEGINS: [u8; 8] = [0x70, 0x23, 0xbd, 0xcb, 0x3a, 0xfd, 0x73, 0x48];

type Key = [u8; 64];

/// A scrypt of the vector.
pub trait Scrypt {
    /// Writes the buffers, so that no page is new and no cache holds more than another's would.
    fn prepare(&mut self);

    /// Derives the key; the mixings made.
    fn derive(&mut self, key: &mut Key) -> u64;
}

pub struct Contestant {
    pub name: String,
    pub mixings: u64,
    scrypt: Box<dyn Scrypt>,
    seconds: Vec<f64>,
}

impl Contestant {
    pub fn new(name: impl Into<String>, scrypt: impl Scrypt + 'static) -> Contestant {
        Contestant { name: name.into(), mixings: 0, scrypt: Box::new(scrypt), seconds: Vec::new() }
    }

    pub fn run(&mut self) {
        let mut key = [0; 64];
        self.scrypt.prepare();
        let begun = processor_seconds();
        self.mixings = self.scrypt.derive(&mut key);
        self.seconds.push(processor_seconds() - begun);
        assert_eq!(key[..8], KEY_BEGINS, "{}: another key", self.name);
    }

    pub fn slow(&self) -> bool {
        self.seconds.iter().any(|seconds| *seconds > 1.0)
    }

    pub fn median(&self) -> f64 {
        median(self.seconds.clone())
    }

    pub fn best(&self) -> f64 {
        self.seconds.iter().copied().fold(f64::INFINITY, f64::min)
    }

    /// The median over the rounds of this one's time to another's in the same round.
    pub fn ratio(&self, to: &Contestant) -> f64 {
        median(self.seconds.iter().zip(&to.seconds).map(|(this, that)| this / that).collect())
    }
}

fn median(mut numbers: Vec<f64>) -> f64 {
    numbers.sort_by(f64::total_cmp);
    numbers[numbers.len() / 2]
}

#[repr(C)]
struct Timespec {
    seconds: i64,
    nanoseconds: c_long,
}

extern "C" {
    fn clock_gettime(clock: c_int, time: *mut Timespec) -> c_int;
}

const THREAD_PROCESSOR_TIME: c_int = 3;

/// What this thread has had of the processor: what neighbours take is not counted.
fn processor_seconds() -> f64 {
    let mut time = Timespec { seconds: 0, nanoseconds: 0 };
    // SAFETY: the struct is C's timespec, and ours.
    let done = unsafe { clock_gettime(THREAD_PROCESSOR_TIME, &mut time) };
    assert_eq!(done, 0, "clock_gettime");
    time.seconds as f64 + 1e-9 * time.nanoseconds as f64
}

/// The proved library at a spacing.
pub struct Ours {
    scratch: Vec<u8>,
}

impl Ours {
    pub fn new(spacing: u64) -> Ours {
        Ours { scratch: vec![0; Ours::cost().scratch(spacing) as usize] }
    }

    fn cost() -> Cost {
        let [n, r, p] = COSTS;
        Cost { n, r, p }
    }
}

impl Scrypt for Ours {
    fn prepare(&mut self) {
        self.scratch.fill(1);
    }

    fn derive(&mut self, key: &mut Key) -> u64 {
        derive(PASS, SALT, Ours::cost(), key, &mut self.scratch, u64::MAX).expect("accepted").mixings
    }
}

/// Every block stored: twice N.
const MIXINGS: u64 = 2 * COSTS[0];

pub struct Straightforward(Vec<u32>);

impl Straightforward {
    pub fn new() -> Straightforward {
        Straightforward(vec![0; scrypt::words(COSTS[0], COSTS[1])])
    }
}

impl Scrypt for Straightforward {
    fn prepare(&mut self) {
        self.0.fill(1);
    }

    fn derive(&mut self, key: &mut Key) -> u64 {
        scrypt::scrypt_quiet(PASS, SALT, COSTS, key, &mut self.0);
        MIXINGS
    }
}

pub struct Fastest(Vec<u32>);

impl Fastest {
    pub fn new() -> Fastest {
        Fastest(vec![0; fast::WORDS])
    }
}

impl Scrypt for Fastest {
    fn prepare(&mut self) {
        self.0.fill(1);
    }

    fn derive(&mut self, key: &mut Key) -> u64 {
        fast::scrypt(PASS, SALT, key, &mut self.0);
        MIXINGS
    }
}

/// Another house's: it takes its memory from the system at each call, which its time has in it.
pub struct House(pub Other);

impl Scrypt for House {
    fn prepare(&mut self) {}

    fn derive(&mut self, key: &mut Key) -> u64 {
        assert!(self.0.derive(PASS, SALT, COSTS, key), "{} refuses", self.0.name);
        MIXINGS
    }
}
