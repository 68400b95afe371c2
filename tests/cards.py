"""A reader and a writer of cards of its own, held to the paper's whole card, both ways."""
import struct

from lines import BEFORE, buffer, said

WHOLE = bytes.fromhex("0102030405060708 101112131415161718191A1B1C1D1E1F 1800 1000 01 04 01 01 52544B43")
SALT, KEY = WHOLE[:8], WHOLE[8:24]
MARK = b"RTKC"


def costs_pass(exponent, r, p):
    """Refusals 4, 5 and 7, and the exponent's own range."""
    if not 1 <= exponent <= 20:
        return False
    return 1 <= r <= 32 and 1 <= p <= 64 and 2**exponent < 2 ** (16 * r)


def lengths_pass(salt, key):
    return 16 <= key <= 64 and 8 <= salt <= 64


def read(card):
    """(number, exponent, r, p, salt, key)"""

    def no(number):
        return number, 0, 0, 0, b"", b""

    if len(card) < 12:
        return no(21)
    back, key, edition, exponent, r, p, mark = struct.unpack("<HHBBBB4s", card[-12:])
    if mark != MARK:
        return no(22)
    if edition != 1:
        return no(23)
    if not lengths_pass(back - key, key) or back + 12 != len(card):
        return no(24)
    if not costs_pass(exponent, r, p):
        return no(25)
    trailer = len(card) - 12
    return 0, exponent, r, p, card[trailer - back : trailer - key], card[trailer - key : trailer]


def write(salt, key, exponent, r, p, room):
    """(number, length, room)"""
    if not lengths_pass(len(salt), len(key)):
        return 24, 0, room
    if not costs_pass(exponent, r, p):
        return 25, 0, room
    card = salt + key + struct.pack("<HHBBBB", len(salt + key), len(key), 1, exponent, r, p) + MARK
    if len(room) < len(card):
        return 26, 0, room
    return 0, len(card), card + room[len(card) :]


def claims(card):
    """How long the card at the end says it is."""
    return 0 if len(card) < 12 else struct.unpack("<H", card[-12:-10])[0] + 12


def hold():
    assert read(WHOLE) == (0, 4, 1, 1, SALT, KEY)
    assert write(SALT, KEY, 4, 1, 1, bytes(36)) == (0, 36, WHOLE)


def changed(*changes):
    card = bytearray(WHOLE)
    for at, byte in changes:
        card[at] = byte
    return bytes(card)


def shown(card):
    number, exponent, r, p, salt, key = read(card)
    return (
        f"card {said(card)}",
        f"card {number} exponent {exponent} r {r} p {p} salt {said(salt)} key {said(key)} claims {claims(card)}",
    )


def written(salt, key, exponent, r, p, room):
    number, length, after = write(salt, key, exponent, r, p, BEFORE * room)
    return (
        f"write {said(salt)} {said(key)} {exponent} {r} {p} {room}",
        f"write {number} length {length} room {buffer(after)}",
    )


def reads(rng):
    yield "Cards: the paper's, none, and its last 11, 12 and 35 bytes"
    yield shown(WHOLE)
    yield shown(b"")
    for n in 11, 12, 35:
        yield shown(WHOLE[-n:])
    yield "Cards: its ending, its edition, its distances and its costs changed"
    for at, byte in (35, 0x44), (28, 2), (26, 15), (24, 15), (24, 25), (25, 255):
        yield shown(changed((at, byte)))
    for at, byte in (29, 0), (29, 15), (29, 16), (29, 200), (30, 0), (31, 0):
        yield shown(changed((at, byte)))
    yield "Cards: one that fails at 22, 23, 24 and 25, then each with the first of them mended"
    wrong = [(35, 0), (28, 3), (26, 0), (29, 200)]
    for n in range(4):
        yield shown(changed(*wrong[n:]))
    yield "Cards: behind another byte"
    yield shown(b"\0" + WHOLE)
    yield "Cards: each byte of the trailer changed"
    for at in range(24, 36):
        for byte in sorted({WHOLE[at] ^ 1, (WHOLE[at] - 1) % 256, (WHOLE[at] + 1) % 256, 0, 255} - {WHOLE[at]}):
            yield shown(changed((at, byte)))
    yield "Cards: cut at either end, and lengthened"
    for n in range(36):
        yield shown(WHOLE[:n])
        yield shown(WHOLE[36 - n :])
    for more in b"\0", b"\x01", b"RTKC", WHOLE:
        yield shown(WHOLE + more)
        yield shown(more + WHOLE)
    yield "Cards: every length of salt and key from both sides"
    for s, k in (7, 16), (8, 16), (64, 16), (65, 16), (8, 15), (8, 17), (8, 63), (8, 64), (8, 65), (64, 64), (65, 65), (0, 16), (16, 0):
        yield shown(rng.randbytes(s + k) + struct.pack("<HHBBBB", s + k, k, 1, 14, 8, 1) + MARK)
    yield "Cards: every cost from both sides"
    for e in 1, 2, 14, 15, 16, 19, 20, 21, 32, 255:
        for r in 1, 2, 3:
            yield shown(changed((29, e), (30, r)))
    for r in 31, 32, 33, 255:
        yield shown(changed((30, r)))
    for p in 2, 63, 64, 65, 255:
        yield shown(changed((31, p)))
    yield "Cards: others"
    for _ in range(30):
        s, k = rng.randrange(8, 65), rng.randrange(16, 65)
        costs = rng.randrange(1, 21), rng.randrange(2, 33), rng.randrange(1, 65)
        yield shown(rng.randbytes(s + k) + struct.pack("<HHBBBB", s + k, k, 1, *costs) + MARK)
    for n in 12, 36, 40, 100:
        yield shown(rng.randbytes(n))


def writes(rng):
    yield "Cards written: the paper's, room, exponent, N against r, r that a byte cannot hold, and two refusals at once"
    for salt, exponent, r, room in (8, 4, 1, 40), (8, 4, 1, 35), (8, 200, 1, 0), (8, 16, 2, 40), (8, 4, 257, 40), (7, 200, 1, 0):
        yield written(SALT[:salt], KEY, exponent, r, 1, room)
    yield "Cards written: every length from both sides"
    for s in 0, 7, 8, 9, 63, 64, 65, 1000:
        yield written(rng.randbytes(s), KEY, 14, 8, 1, 200)
    for k in 0, 15, 16, 17, 63, 64, 65, 1000:
        yield written(SALT, rng.randbytes(k), 14, 8, 1, 200)
    yield "Cards written: every cost from both sides"
    for e in 0, 1, 15, 16, 20, 21, 63, 64, 256, 260, 2**64 - 1:
        for r in 1, 2:
            yield written(SALT, KEY, e, r, 1, 36)
    for r in 0, 32, 33, 256, 288, 2**32 + 1, 2**64 - 1:
        yield written(SALT, KEY, 4, r, 1, 36)
    for p in 0, 64, 65, 256, 257, 2**32 + 1, 2**64 - 1:
        yield written(SALT, KEY, 4, 1, p, 36)
    yield "Cards written: room a byte short, exact, and longer"
    for s, k in (8, 16), (64, 64), (20, 32):
        for room in 0, s + k + 11, s + k + 12, s + k + 13:
            yield written(rng.randbytes(s), rng.randbytes(k), 20, 32, 64, room)


def cases(rng):
    yield from reads(rng)
    yield from writes(rng)
