//! scrypt from other houses, where Debian's packages are installed: found when the program runs, not when it is built.

use std::ffi::{c_char, c_int, c_void, CStr};
use std::mem;

extern "C" {
    fn dlopen(name: *const c_char, how: c_int) -> *mut c_void;
    fn dlsym(library: *mut c_void, name: *const c_char) -> *mut c_void;
}

const NOW: c_int = 2;

/// Passphrase, salt, N, r (32 bits), p (32 bits), key.
type Plain = unsafe extern "C" fn(*const u8, usize, *const u8, usize, u64, u32, u32, *mut u8, usize) -> c_int;

/// Passphrase, salt, N, r, p, the most memory, key.
type Openssl = unsafe extern "C" fn(*const u8, usize, *const u8, usize, u64, u64, u64, u64, *mut u8, usize) -> c_int;

type Start = unsafe extern "C" fn() -> c_int;

#[derive(Clone, Copy)]
enum Call {
    Plain(Plain),
    Openssl(Openssl),
}

/// A package that may be here.
struct Known {
    name: &'static str,
    package: &'static str,
    files: &'static [&'static CStr],
    symbols: &'static [&'static CStr],
    /// To be called once before, so that it looks at what the processor can do.
    start: Option<&'static CStr>,
    openssl: bool,
}

const KNOWN: [Known; 4] = [
    Known {
        name: "OpenSSL",
        package: "libssl3",
        files: &[c"libcrypto.so.3", c"libcrypto.so.1.1"],
        symbols: &[c"EVP_PBE_scrypt"],
        start: None,
        openssl: true,
    },
    Known {
        name: "libsodium",
        package: "libsodium23",
        files: &[c"libsodium.so.23", c"libsodium.so.26"],
        symbols: &[c"crypto_pwhash_scryptsalsa208sha256_ll"],
        start: Some(c"sodium_init"),
        openssl: false,
    },
    Known {
        name: "Tarsnap",
        package: "libscrypt-kdf1",
        files: &[c"libscrypt-kdf.so.1"],
        symbols: &[c"scrypt_kdf", c"crypto_scrypt"],
        start: None,
        openssl: false,
    },
    Known {
        name: "libscrypt",
        package: "libscrypt0",
        files: &[c"libscrypt.so.0"],
        symbols: &[c"libscrypt_scrypt"],
        start: None,
        openssl: false,
    },
];

/// A scrypt that is installed here.
#[derive(Clone, Copy)]
pub struct Other {
    pub name: &'static str,
    call: Call,
}

/// Each known package: its scrypt, or a word on what is missing.
pub fn all() -> Vec<Result<Other, String>> {
    let word = |known: &Known| format!("{} is not installed (Debian: {})", known.name, known.package);
    KNOWN.iter().map(|known| found(known).ok_or_else(|| word(known))).collect()
}

fn found(known: &Known) -> Option<Other> {
    // SAFETY: a system library's own start-up code runs; each symbol has the type that its manual gives.
    let call = unsafe {
        let library = known.files.iter().map(|file| dlopen(file.as_ptr(), NOW)).find(|found| !found.is_null())?;
        if let Some(start) = known.start {
            mem::transmute::<*mut c_void, Option<Start>>(dlsym(library, start.as_ptr()))?();
        }
        let symbol = known.symbols.iter().map(|name| dlsym(library, name.as_ptr())).find(|found| !found.is_null())?;
        if known.openssl {
            Call::Openssl(mem::transmute::<*mut c_void, Openssl>(symbol))
        } else {
            Call::Plain(mem::transmute::<*mut c_void, Plain>(symbol))
        }
    };
    Some(Other { name: known.name, call })
}

impl Other {
    /// Fills the key, or says that these costs are not to its taste.
    pub fn derive(&self, pass: &[u8], salt: &[u8], [n, r, p]: [u64; 3], key: &mut [u8]) -> bool {
        let (at, length) = (key.as_mut_ptr(), key.len());
        // SAFETY: each pointer leads to as many bytes as the length beside it.
        unsafe {
            match self.call {
                Call::Plain(f) => {
                    f(pass.as_ptr(), pass.len(), salt.as_ptr(), salt.len(), n, r as u32, p as u32, at, length) == 0
                }
                Call::Openssl(f) => {
                    f(pass.as_ptr(), pass.len(), salt.as_ptr(), salt.len(), n, r, p, 1 << 34, at, length) == 1
                }
            }
        }
    }
}
