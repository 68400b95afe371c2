//! The C calls of the proved library, and the one place with `unsafe`.
//!
//! Each function here takes slices and hands back the library's own numbers; `include/rinnamoyle.h` says what they
//! mean. The crate's root turns them into enums: call that, unless the numbers are what you want.

/// What a derivation reports.
#[repr(C)]
#[derive(Clone, Copy, Debug, PartialEq, Eq)]
pub struct Derived {
    pub number: u64,
    pub spacing: u64,
    pub stored: u64,
    pub mixings: u64,
}

/// What a card holds: its costs, and where salt and key lie in it.
#[repr(C)]
#[derive(Clone, Copy, Debug, PartialEq, Eq)]
pub struct CardRead {
    pub number: u64,
    pub exponent: u64,
    pub r: u64,
    pub p: u64,
    pub salt_at: u64,
    pub salt_len: u64,
    pub key_at: u64,
    pub key_len: u64,
}

/// How long the card is that was written.
#[repr(C)]
#[derive(Clone, Copy, Debug, PartialEq, Eq)]
pub struct CardWritten {
    pub number: u64,
    pub length: u64,
}

/// Where user name and password lie in a text.
#[repr(C)]
#[derive(Clone, Copy, Debug, PartialEq, Eq)]
pub struct TextRead {
    pub number: u64,
    pub user_len: u64,
    pub password_at: u64,
    pub password_len: u64,
}

/// A login's answer: 0 no, 1 yes, 2 refused; and which desk refused: 1 card, 2 text, 3 derivation.
#[repr(C)]
#[derive(Clone, Copy, Debug, PartialEq, Eq)]
pub struct LoginAnswer {
    pub answer: u64,
    pub desk: u64,
    pub number: u64,
}

extern "C" {
    fn rinnamoyle_derive(
        pass: *const u8,
        pass_len: usize,
        salt: *const u8,
        salt_len: usize,
        n: u64,
        r: u64,
        p: u64,
        key: *mut u8,
        key_len: usize,
        scratch: *mut u8,
        scratch_len: usize,
        allowance: u64,
    ) -> Derived;
    fn rinnamoyle_card_read(card: *const u8, card_len: usize) -> CardRead;
    fn rinnamoyle_card_write(
        salt: *const u8,
        salt_len: usize,
        key: *const u8,
        key_len: usize,
        exponent: u64,
        r: u64,
        p: u64,
        room: *mut u8,
        room_len: usize,
    ) -> CardWritten;
    fn rinnamoyle_text_read(text: *const u8, text_len: usize) -> TextRead;
    fn rinnamoyle_login(
        text: *const u8,
        text_len: usize,
        card: *const u8,
        card_len: usize,
        scratch: *mut u8,
        scratch_len: usize,
        allowance: u64,
    ) -> LoginAnswer;
}

// SAFETY, of every call below: the library asks nothing of its caller but that each pointer is not null and leads to
// as many bytes as the length beside it says, readable, and for a `&mut` writable and met by no other slice. A Rust
// slice is that, an empty one too (its pointer dangles and is not null), and the borrow checker keeps `&mut` slices
// apart from all others. The library keeps no pointer after it returns.

pub fn derive(
    pass: &[u8],
    salt: &[u8],
    [n, r, p]: [u64; 3],
    key: &mut [u8],
    scratch: &mut [u8],
    allowance: u64,
) -> Derived {
    unsafe {
        rinnamoyle_derive(
            pass.as_ptr(),
            pass.len(),
            salt.as_ptr(),
            salt.len(),
            n,
            r,
            p,
            key.as_mut_ptr(),
            key.len(),
            scratch.as_mut_ptr(),
            scratch.len(),
            allowance,
        )
    }
}

pub fn card_read(card: &[u8]) -> CardRead {
    unsafe { rinnamoyle_card_read(card.as_ptr(), card.len()) }
}

pub fn card_write(salt: &[u8], key: &[u8], [exponent, r, p]: [u64; 3], room: &mut [u8]) -> CardWritten {
    unsafe {
        rinnamoyle_card_write(
            salt.as_ptr(),
            salt.len(),
            key.as_ptr(),
            key.len(),
            exponent,
            r,
            p,
            room.as_mut_ptr(),
            room.len(),
        )
    }
}

pub fn text_read(text: &[u8]) -> TextRead {
    unsafe { rinnamoyle_text_read(text.as_ptr(), text.len()) }
}

pub fn login(text: &[u8], card: &[u8], scratch: &mut [u8], allowance: u64) -> LoginAnswer {
    unsafe {
        rinnamoyle_login(
            text.as_ptr(),
            text.len(),
            card.as_ptr(),
            card.len(),
            scratch.as_mut_ptr(),
            scratch.len(),
            allowance,
        )
    }
}
