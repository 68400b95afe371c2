"""Derivations: refusals and spacing by the rules in plain words, keys by OpenSSL's scrypt (hashlib), mixings from the places
that a ROMix of its own looks up, which must end in the same key. Held to RFC 7914 section 12."""
import hashlib

from hashes import pbkdf2
from lines import BEFORE, buffer, over, said
from mixing import romix

ALL = 2**64 - 1
SECTION_12 = {
    (b"", b"", 16, 1, 1): "77d6576238657b203b19ca42c18a0497f16b4844e3074ae8dfdffa3fede21442"
    "fcd0069ded0948f8326a753a0fc81f17e8d3e0fb2e0d3628cf35e20c38d18906",
    (b"password", b"NaCl", 1024, 8, 16): "fdbabe1c9d3472007856e7190d01e9fe7c6ad7cbc8237830e77376634b373162"
    "2eaf30d92e22a3886ff109279d9830dac727afb94a83ee6d8360cbdfa2cc0640",
    (b"pleaseletmein", b"SodiumChloride", 16384, 8, 1): "7023bdcb3afd7348461c06cd81fd38ebfda8fbba904f8e3ea9b543f6545da1f2"
    "d5432955613f0fcf62d49705242a9af9e61e85dc0d651e40dfcf017b45575887",
}
places_of = {}


def refusal(passphrase, salt, key, n, r, p, scratch, allowance):
    """The refusal's number, or 0, with the spacing. Passphrase, salt, key and scratch are lengths."""
    if passphrase > 1024:
        return 1, 0
    if salt > 1024:
        return 2, 0
    if not 1 <= key <= 256:
        return 3, 0
    if not 1 <= r <= 32:
        return 4, 0
    if not 1 <= p <= 64:
        return 5, 0
    if n < 2 or n & (n - 1):
        return 6, 0
    if n > 2**20 or n >= 2 ** (16 * r):
        return 7, 0
    f = scratch // (128 * r)
    if f < p + 4:
        return 8, 0
    k = next(2**i for i in range(21) if n // 2**i + p + 3 <= f)
    return (9, 0) if p * n * (k + 1) > allowance else (0, k)


def scrypt(passphrase, salt, n, r, p, length):
    return hashlib.scrypt(passphrase, salt=salt, n=n, r=r, p=p, dklen=length, maxmem=2**28)


def places(passphrase, salt, n, r, p):
    """The places that the lanes look up."""
    asked = passphrase, salt, n, r, p
    if asked not in places_of:
        size = 128 * r
        b = pbkdf2(passphrase, salt, p * size)
        lanes = [romix(b[at : at + size], n) for at in range(0, p * size, size)]
        key = pbkdf2(passphrase, b"".join(lane for lane, _ in lanes), 64)
        assert key == scrypt(*asked, 64), f"not OpenSSL's key for {asked}"
        assert key.hex() == SECTION_12.get(asked, key.hex()), f"not RFC 7914's key for {asked}"
        places_of[asked] = [j for _, js in lanes for j in js]
    return places_of[asked]


def derive(passphrase, salt, n, r, p, key, scratch, allowance):
    """What is printed behind the name."""
    number, k = refusal(len(passphrase), len(salt), key, n, r, p, scratch, allowance)
    if number:
        return f"{number} spacing 0 stored 0 mixings 0 key {buffer(BEFORE * key)} scratch {buffer(BEFORE * scratch)}"
    mixings = 2 * n * p + sum(j % k for j in places(passphrase, salt, n, r, p))
    made = scrypt(passphrase, salt, n, r, p, key)
    return f"0 spacing {k} stored {n // k} mixings {mixings} key {buffer(made)} scratch zero"


def hold():
    places(b"", b"", 16, 1, 1)


def asked(passphrase, salt, n, r, p, key, scratch, allowance):
    """A case. A passphrase or a salt may be a pair: the line's word for it, and the bytes."""
    words = [x if isinstance(x, tuple) else (said(x), x) for x in (passphrase, salt)]
    numbers = f"{n} {r} {p} {key} {scratch} {allowance}"
    return (
        f"derive {words[0][0]} {words[1][0]} {numbers}",
        f"derive {derive(words[0][1], words[1][1], n, r, p, key, scratch, allowance)}",
    )


def scratch_for(n, r, p, k):
    """The least scratch at which the spacing is k."""
    return 128 * r * (n // k + p + 3)


def worked():
    yield "The worked cases A to L"
    for scratch, allowance in (2560, 32), (2559, 48), (1536, 47), (1535, 80), (640, 272), (639, 272), (2560, 31):
        yield asked(b"", b"", 16, 1, 1, 64, scratch, allowance)
    yield asked(b"", b"", 65536, 1, 1, 64, 65536, ALL)
    yield asked(b"", b"", 1000, 8, 1, 64, 65536, ALL)
    yield asked(b"", b"", 1, 0, 1, 64, 65536, ALL)
    yield asked(b"password", b"NaCl", 1024, 8, 16, 64, 65536, 540672)
    yield asked(b"pleaseletmein", b"SodiumChloride", 16384, 8, 1, 64, 65536, 8404992)
    yield "A case of each refusal: the first that applies is given"
    yield asked(b"", b"", 65536, 2, 1, 64, 65536, 0)
    yield asked(over(b"\0", 1025), b"", 16, 0, 1, 64, 2560, 32)
    yield asked(b"", over(b"\0", 1025), 16, 0, 1, 64, 2560, 32)
    yield asked(b"", b"", 16, 1, 65, 64, 65536, ALL)
    yield asked(b"", b"", 2**63, 32, 1, 64, 65536, ALL)
    yield asked(b"", b"", 16384, 8, 1, 0, 65536, ALL)
    yield asked(b"", b"", 16384, 8, 1, 257, 65536, ALL)


def limits():
    yield "Every limit from both sides: passphrase, salt and key"
    for n in 1023, 1024, 1025, 4096:
        yield asked(over(b"p", n), b"salt", 4, 1, 1, 16, 2048, ALL)
        yield asked(b"pass", over(b"s", n), 4, 1, 1, 16, 2048, ALL)
    yield asked(over(b"p", 1048576), b"salt", 4, 1, 1, 16, 2048, ALL)
    for key in 0, 1, 2, 31, 32, 33, 255, 256, 257, 4096:
        yield asked(b"pass", b"salt", 4, 1, 1, key, 2048, ALL)
    yield "Every limit from both sides: r and p"
    for r in 0, 1, 2, 31, 32, 33, 2**32, 2**32 + 1, 2**57, ALL:
        yield asked(b"pass", b"salt", 2, r, 1, 16, 65536, ALL)
    for p in 0, 1, 2, 63, 64, 65, 2**32 + 1, ALL:
        yield asked(b"pass", b"salt", 2, 1, p, 16, 65536, ALL)
    yield "Every limit from both sides: N"
    for n in *range(0, 18), 31, 32, 33, 2**16 - 1, 2**16, 2**16 + 1, 2**20 - 1, 2**32, 2**63 - 1, 2**63, 2**63 + 1, ALL:
        yield asked(b"pass", b"salt", n, 1, 1, 16, 2560, 1000)
    for r in 1, 2, 3, 32:
        for n in 2**15, 2**16, 2**17, 2**19, 2**20, 2**21, 2**22:
            yield asked(b"pass", b"salt", n, r, 1, 16, 65536, 0)
    yield "Scratch a byte short and as long as needed, allowance one short and as large as needed"
    for n, r, p in (2, 1, 1), (4, 1, 2), (16, 1, 1), (16, 2, 3), (8, 3, 5), (2, 32, 1), (2, 1, 64):
        k = n
        least = scratch_for(n, r, p, k)
        for scratch in 0, least - 1, least, least + 1:
            yield asked(b"pass", b"salt", n, r, p, 32, scratch, ALL)
        for allowance in 0, p * n * (k + 1) - 1, p * n * (k + 1):
            yield asked(b"pass", b"salt", n, r, p, 32, least, allowance)


def spacings():
    yield "Every spacing: the least scratch for it, and a byte less"
    for n, r, p in (16, 1, 1), (16, 1, 2), (16, 2, 1), (32, 1, 3), (64, 1, 1), (64, 2, 2), (8, 8, 1):
        k = 1
        while k <= n:
            scratch = scratch_for(n, r, p, k)
            yield asked(b"rover", b"base", n, r, p, 32, scratch, p * n * (k + 1))
            yield asked(b"rover", b"base", n, r, p, 32, scratch - 1, ALL)
            k *= 2


def together():
    yield "Several refusals at once: each line mends the first of them"
    wrong = (b"p" * 1025, b"s" * 1025, 0, 0, 65, 3, 127, 0)  # passphrase, salt, key, r, p, N, scratch, allowance
    right = (b"p", b"s", 16, 1, 1, 16, 2560, 32)
    for mended in range(9):
        passphrase, salt, key, r, p, n, scratch, allowance = right[:mended] + wrong[mended:]
        words = [over(x[:1], 1025) if len(x) > 1 else x for x in (passphrase, salt)]
        yield asked(*words, n, r, p, key, scratch, allowance)
    passphrase, salt, key, r, p, _, _, _ = right
    yield asked(passphrase, salt, 2**21, r, p, key, 127, 0)
    yield asked(passphrase, salt, 2**16, 1, p, key, 127, 0)


def others(rng):
    yield "Others"
    for _ in range(60):
        n, r, p = 2 ** rng.randrange(1, 7), rng.randrange(1, 4), rng.randrange(1, 4)
        passphrase, salt = rng.randbytes(rng.randrange(70)), rng.randbytes(rng.randrange(70))
        yield asked(passphrase, salt, n, r, p, rng.randrange(1, 80), rng.randrange(128 * r * 4, 65536) // rng.randrange(1, 20), ALL)
    for _ in range(30):
        n, r, p = rng.choice((2, 4, 6, 16, 2**20)), rng.randrange(0, 35), rng.randrange(0, 67)
        yield asked(b"pass", b"salt", n, r, p, rng.randrange(0, 300), rng.randrange(65537), rng.randrange(3000))


def cases(rng):
    yield from worked()
    yield from limits()
    yield from spacings()
    yield from together()
    yield from others(rng)
