//! Bytes lent between two pages that nobody may touch.
//!
//! A buffer lies against one of its two guard pages; what is left of its own pages on the other side is marked, and
//! `untouched` says whether a mark has gone. A touched guard page ends the process.

use std::ffi::{c_int, c_long, c_void};
use std::ops::{Deref, DerefMut};
use std::{ptr, slice};

const MARK: u8 = 0xa5;

const NOTHING: c_int = 0;
const READ: c_int = 1;
const WRITE: c_int = 2;
const PRIVATE_AND_OF_NO_FILE: c_int = 0x22;

const PAGE_SIZE: c_int = 30;

extern "C" {
    fn mmap(at: *mut c_void, length: usize, may: c_int, flags: c_int, file: c_int, offset: c_long) -> *mut c_void;
    fn mprotect(at: *mut c_void, length: usize, may: c_int) -> c_int;
    fn munmap(at: *mut c_void, length: usize) -> c_int;
    fn sysconf(what: c_int) -> c_long;
}

/// 4 KiB on x86-64; on aarch64 the system's choice of 4, 16 or 64.
fn page() -> usize {
    // SAFETY: it only answers.
    unsafe { sysconf(PAGE_SIZE) as usize }
}

/// Which guard page the buffer lies against.
#[derive(Clone, Copy, Debug)]
pub enum Against {
    Front,
    End,
}

pub struct Guarded {
    /// The first byte between the guard pages.
    first: *mut u8,
    /// How many bytes lie between them: whole pages.
    between: usize,
    at: usize,
    length: usize,
}

impl Guarded {
    /// A buffer of this length, all zero.
    pub fn zero(length: usize, against: Against) -> Guarded {
        let between = length.div_ceil(page()).max(1) * page();
        let first = fenced(between);
        let at = match against {
            Against::Front => 0,
            Against::End => between - length,
        };
        let mut guarded = Guarded { first, between, at, length };
        let (before, after) = guarded.margins();
        before.fill(MARK);
        after.fill(MARK);
        guarded
    }

    /// A buffer that holds a copy of these bytes.
    pub fn copy(bytes: &[u8], against: Against) -> Guarded {
        let mut guarded = Guarded::zero(bytes.len(), against);
        guarded.copy_from_slice(bytes);
        guarded
    }

    /// The same that may only be read.
    pub fn only_read(bytes: &[u8], against: Against) -> Guarded {
        let guarded = Guarded::copy(bytes, against);
        // SAFETY: the pages are this buffer's own.
        let done = unsafe { mprotect(guarded.first.cast(), guarded.between, READ) };
        assert_eq!(done, 0, "mprotect");
        guarded
    }

    /// Whether every byte beside the buffer, up to the guard pages, is as it was made.
    pub fn untouched(&mut self) -> bool {
        let (before, after) = self.margins();
        before.iter().chain(after.iter()).all(|byte| *byte == MARK)
    }

    fn margins(&mut self) -> (&mut [u8], &mut [u8]) {
        // SAFETY: the bytes between the guard pages are mapped and this buffer's own.
        let all = unsafe { slice::from_raw_parts_mut(self.first, self.between) };
        let (before, rest) = all.split_at_mut(self.at);
        (before, &mut rest[self.length..])
    }
}

/// So many bytes to read and write, with a page before and a page after them that may not be touched.
fn fenced(between: usize) -> *mut u8 {
    // SAFETY: a new mapping, and its own pages.
    unsafe {
        let all = mmap(ptr::null_mut(), between + 2 * page(), NOTHING, PRIVATE_AND_OF_NO_FILE, -1, 0);
        assert_ne!(all as isize, -1, "no memory for a buffer of {between} bytes");
        let first = all.cast::<u8>().add(page());
        assert_eq!(mprotect(first.cast(), between, READ | WRITE), 0, "mprotect");
        first
    }
}

impl Deref for Guarded {
    type Target = [u8];

    fn deref(&self) -> &[u8] {
        // SAFETY: within the mapped bytes, for as long as `self` is borrowed.
        unsafe { slice::from_raw_parts(self.first.add(self.at), self.length) }
    }
}

impl DerefMut for Guarded {
    fn deref_mut(&mut self) -> &mut [u8] {
        // SAFETY: as above, and `self` is borrowed alone.
        unsafe { slice::from_raw_parts_mut(self.first.add(self.at), self.length) }
    }
}

impl Drop for Guarded {
    fn drop(&mut self) {
        // SAFETY: the mapping that `fenced` made, and nothing borrows it any more.
        unsafe { munmap(self.first.sub(page()).cast(), self.between + 2 * page()) };
    }
}
