"""SHA-256, HMAC and PBKDF2 by Python's own hashlib and hmac, held to FIPS 180-4, RFC 4231 and RFC 7914 section 11."""
import hashlib
import hmac

from lines import over, said

COUNT = bytes(i % 251 for i in range(1000))
BITS_448 = b"abcdbcdecdefdefgefghfghighijhijkijkljklmklmnlmnomnopnopq"
RFC_4231 = (
    (b"\x0b" * 20, b"Hi There"),
    (b"Jefe", b"what do ya want for nothing?"),
    (b"\xaa" * 20, b"\xdd" * 50),
    (bytes(range(1, 26)), b"\xcd" * 50),
    (b"\x0c" * 20, b"Test With Truncation"),
    (b"\xaa" * 131, b"Test Using Larger Than Block-Size Key - Hash Key First"),
    (b"\xaa" * 131, b"This is a test using a larger than block-size key and a larger than block-size data. "
     b"The key needs to be hashed before being used by the HMAC algorithm."),
)
# case 5 is published with its first 16 bytes alone
RFC_4231_MACS = (
    "b0344c61d8db38535ca8afceaf0bf12b881dc200c9833da726e9376c2e32cff7",
    "5bdcc146bf60754e6a042426089575c75a003f089d2739839dec58b964ec3843",
    "773ea91e36800e46854db8ebd09181a72959098b3ef8c122d9635514ced565fe",
    "82558a389a443c0ea4cc819899f2083a85f0faa3e578f8077a2e3ff46729665b",
    "a3b6167473100ee06e0c796c2955552b",
    "60e431591ee0b67f0d8a26aacbf5b77f8e0bc6213728c5140546040f0ee37f54",
    "9b09ffa71b942fcb27635fbcd5b0e944bfdc63644f0713938a7f51535c3a35e2",
)


def sha256(message):
    return hashlib.sha256(message).digest()


def mac(key, text):
    return hmac.new(key, text, "sha256").digest()


def pbkdf2(passphrase, salt, n):
    """One iteration. hashlib makes no key of no bytes."""
    return hashlib.pbkdf2_hmac("sha256", passphrase, salt, 1, n) if n else b""


def hold():
    assert sha256(b"").hex() == "e3b0c44298fc1c149afbf4c8996fb92427ae41e4649b934ca495991b7852b855"
    assert sha256(b"abc").hex() == "ba7816bf8f01cfea414140de5dae2223b00361a396177a9cb410ff61f20015ad"
    assert sha256(BITS_448).hex() == "248d6a61d20638b8e5c026930c3e6039a33ce45964ff2167f6ecedd419db06c1"
    assert sha256(b"a" * 1000000).hex() == "cdc76e5c9914fb9281a1c7e284d73e67f1809a48a497200e046d39ccc7112cd0"
    for (key, text), published in zip(RFC_4231, RFC_4231_MACS, strict=True):
        assert mac(key, text).hex().startswith(published)
    assert pbkdf2(b"passwd", b"salt", 64).hex() == (
        "55ac046e56e3089fec1691c22544b605f94185216dde0465e68b9d57c20dacbc"
        "49ca9cccf179b645991664b39d77ef317c71b845b1e30bd509112041d3a19783"
    )


def hashed(message, word=None):
    return f"sha256 {word or said(message)}", f"sha256 {said(sha256(message))}"


def maced(key, text):
    return f"hmac {said(key)} {said(text)}", f"hmac {said(mac(key, text))}"


def derived(passphrase, salt, n):
    return f"pbkdf2 {said(passphrase)} {said(salt)} {n}", f"pbkdf2 {said(pbkdf2(passphrase, salt, n))}"


def cases(rng):
    yield "FIPS 180-4's examples: abc, 448 bits, a million a"
    yield hashed(b"abc")
    yield hashed(BITS_448)
    word, message = over(b"a", 1000000)
    yield hashed(message, word)
    yield "SHA-256: every way in which a message can meet the end of a block"
    for n in 0, 1, 55, 56, 63, 64, 65, 119, 120, 127, 128, 1000:
        yield hashed(COUNT[:n])
    yield "SHA-256: every length up to two blocks and more"
    for n in range(2, 137):
        yield hashed(rng.randbytes(n))
    yield "SHA-256: bytes said many times over, up to as many as there is room for"
    for unit, times in (b"a", 0), (b"a", 1), (b"\0", 64), (b"\xff", 4096), (b"\x01\x02\x03", 349525), (b"abcd", 262144):
        word, message = over(unit, times)
        yield hashed(message, word)
    yield "RFC 4231 section 4"
    for key, text in RFC_4231:
        yield maced(key, text)
    yield "HMAC: keys and texts around a block's length"
    for k in 0, 1, 31, 32, 63, 64, 65, 128, 129:
        for t in 0, 1, 55, 56, 63, 64, 65, 120:
            yield maced(rng.randbytes(k), rng.randbytes(t))
    yield "RFC 7914 section 11, the vector of one iteration"
    yield derived(b"passwd", b"salt", 64)
    yield "PBKDF2: passphrases around a block's length, salts around what leaves room for the piece's number, a long salt and a long key"
    for p, s, n in (0, 0, 1), (63, 55, 31), (64, 59, 32), (65, 60, 33), (6, 63, 64), (6, 64, 64), (6, 1000, 64), (1000, 16, 1000):
        yield derived(COUNT[:p], COUNT[:s], n)
    yield "PBKDF2: every salt length around a block, every key length around a piece"
    for s in range(50, 70):
        yield derived(rng.randbytes(8), rng.randbytes(s), 32)
    for n in *range(0, 5), *range(30, 36), *range(62, 67), 96, 97, 4096:
        yield derived(rng.randbytes(rng.randrange(80)), rng.randbytes(rng.randrange(80)), n)
