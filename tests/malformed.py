"""Lines that are no call: each prints `malformed` and runs nothing. And lines at the edge of what is taken."""
from hashes import hashed, pbkdf2, sha256
from lines import said
from mixing import BLOCK_IN, CORE_IN

NONE = "malformed"
BLOCK, CORE = said(BLOCK_IN), said(CORE_IN)
CARD = "0102030405060708101112131415161718191a1b1c1d1e1f180010000104010152544b43"

NAMES = (
    "sha", "sha25", "sha2567", "sha256a", "SHA256 61", "Sha256 61", "sha512 61", "hash 61", "-", "61", "sha256,61", "sha256\t61",
    "sha256:61", "derivation 61", "car 61", "cards 61", "logins 61 61 1 1", "malformed", "\xff 61", "\0", "sha256\0 61",
)
COUNTS = (
    "sha256", "sha256 61 61", "hmac", "hmac 61", "hmac 61 61 61", "pbkdf2 61 61", "pbkdf2 61 61 1 1", "salsa", f"salsa {CORE} {CORE}",
    "blockmix", f"blockmix {BLOCK}", f"blockmix 1 {BLOCK} 1", f"romix 16 1 {BLOCK}", f"romix 16 1 1 {BLOCK} 1",
    "derive - - 16 1 1 64 2560", "derive - - 16 1 1 64 2560 32 1", "card", f"card {CARD} {CARD}", "write 61 61 4 1 1",
    "write 61 61 4 1 1 40 40", "text", "text 61 61", f"login 61 {CARD} 2560", f"login 61 {CARD} 2560 32 1",
)
SPACES = (
    " sha256 61", "sha256  61", "sha256 61 ", "sha256 ", "sha256  ", " ", "  ", " #", "hmac  61", "hmac 61 ", "hmac 61  61", "\tsha256 61",
    "sha256 61\t", "sha256 61\r", "derive -  - 16 1 1 64 2560 32", "derive - - 16 1 1 64 2560 ", f"login  {CARD} 2560 32",
)
BYTES = (
    "6", "616", "6G", "g6", "0x61", "61,62", "61-", "--", "-61", "AB", "aB", "ab\xe9", "6 1", "61.", "/0", ":0", "`0", "60g0", "''",
    "*", "*3", "61*", "61**2", "61*2*3", "61*-1", "61*+1", "61*a", "61* 2", "-*2", "6*2", "616*2", "61*0x2", "AB*2", "61*2 ",
    "61*18446744073709551616", "61*99999999999999999999", "61*000000000000000000001", "61*18446744073709551615",
    "61*1048577", "6162*524289", "61*1048576*1",
)
NUMBERS = (
    "", "-", "+1", "-1", "1.", "1.0", "1e3", "0x10", "a", "1a", "a1", "1,000", "1_000", "1*2", "18446744073709551616",
    "18446744073709551620", "20000000000000000000", "99999999999999999999", "000000000000000000001", "123456789012345678901", "\xb2",
)


def numbers():
    """A NUMBER, or a LENGTH, in each place that has one."""
    places = (
        "pbkdf2 61 61 {}", f"blockmix {{}} {BLOCK}", f"romix {{}} 1 1 {BLOCK}", f"romix 16 {{}} 1 {BLOCK}", f"romix 16 1 {{}} {BLOCK}",
        "derive - - {} 1 1 64 2560 32", "derive - - 16 {} 1 64 2560 32", "derive - - 16 1 {} 64 2560 32", "derive - - 16 1 1 {} 2560 32",
        "derive - - 16 1 1 64 {} 32", "derive - - 16 1 1 64 2560 {}", "write 61 61 {} 1 1 40", "write 61 61 4 {} 1 40",
        "write 61 61 4 1 {} 40", "write 61 61 4 1 1 {}", f"login 61 {CARD} {{}} 32", f"login 61 {CARD} 2560 {{}}",
    )
    for number in NUMBERS:
        yield places[0].format(number)
    for place in places:
        for number in "x", "18446744073709551616":
            yield place.format(number)


def rooms():
    """Bytes and lengths too long for the program's rooms."""
    for line in (
        "hmac 61 61*4097", "hmac 61*1048577 61", "pbkdf2 61 61*4097 1", "pbkdf2 61 61 4097", "pbkdf2 61 61 18446744073709551615",
        "derive 61*1048577 - 16 1 1 64 2560 32", "derive - 61*4097 16 1 1 64 2560 32", "derive - - 16 1 1 4097 2560 32",
        "derive - - 16 1 1 64 65537 32", "derive - - 16 1 1 64 18446744073709551615 32", "card 61*1048577",
        "write 61*1048577 61 4 1 1 40", "write 61 61*4097 4 1 1 40", "write 61 61 4 1 1 4097", "text 61*1048577",
        "login 61*1048577 61 2560 32", "login 61 61*4097 2560 32", f"login 61 {CARD} 65537 32",
    ):
        yield line


def forbidden():
    """What the core, BlockMix and ROMix do not take."""
    for n in 0, 1, 63, 65, 128:
        yield f"salsa {'00*' + str(n) if n else '-'}"
    for r, size in (0, 0), (0, 128), (1, 0), (1, 127), (1, 129), (1, 256), (2, 128), (32, 4095), (33, 4224), (2**32 + 1, 128), (2**57 + 1, 128):
        block = f"00*{size}" if size else "-"
        yield f"blockmix {r} {block}"
        yield f"romix 16 {r} 1 {block}"
    for n in 0, 3, 6, 12, 15, 17, 1000, 2**32 + 1, 2**64 - 1:
        yield f"romix {n} 1 1 00*128"
    for n, r, k in (16, 1, 0), (16, 1, 17), (1, 1, 2), (16, 1, 2**64 - 1):
        yield f"romix {n} {r} {k} 00*{128 * r}"
    for n, r, k in (512, 1, 1), (1024, 1, 2), (64, 8, 1), (16, 32, 1), (2**20, 1, 2**11):
        yield f"romix {n} {r} {k} 00*{128 * r}"


def taken():
    """At the edge, and still taken."""
    yield "sha256 61*00000000000000000003", hashed(b"aaa")[1]
    yield "sha256 00*0", hashed(b"")[1]
    yield "sha256 0123456789abcdef", f"sha256 {said(sha256(bytes.fromhex('0123456789abcdef')))}"
    yield "pbkdf2 61 61 00000000000000000004", f"pbkdf2 {said(pbkdf2(b'a', b'a', 4))}"
    yield "pbkdf2 61 61*4096 04096", f"pbkdf2 {said(pbkdf2(b'a', b'a' * 4096, 4096))}"
    yield "pbkdf2 - - 0", "pbkdf2 -"


def cases(rng):
    for heading, lines in (
        ("Malformed: names", NAMES),
        ("Malformed: another number of fields", COUNTS),
        ("Malformed: spaces", SPACES),
        ("Malformed: bytes", [f"sha256 {word}" for word in BYTES]),
        ("Malformed: bytes in a second field", [f"hmac 61 {word}" for word in BYTES]),
        ("Malformed: numbers", numbers()),
        ("Malformed: too long for the rooms", rooms()),
        ("Malformed: what the core, BlockMix and ROMix do not take", forbidden()),
    ):
        yield heading
        for line in lines:
            yield line, NONE
    yield "Taken: at the edge of what is malformed"
    yield from taken()


def hold():
    pass
