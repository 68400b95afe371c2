"""Logins: cards, texts and refusals by the modules beside this one, keys by OpenSSL's scrypt (hashlib)."""
import cards
import derivations
import texts
from lines import said

SALT = bytes(range(1, 9))
KEY = derivations.scrypt(b"c", SALT, 16, 1, 1, 16)
CARD = SALT + KEY + bytes([24, 0, 16, 0, 1, 4, 1, 1]) + b"RTKC"


def hold():
    assert KEY.hex() == "7c079fc2e582a24b56877a7f46074ef4"
    assert cards.write(SALT, KEY, 4, 1, 1, bytes(36)) == (0, 36, CARD)


def with_byte(at, value):
    return CARD[:at] + bytes([value]) + CARD[at + 1 :]


def login(text, card, scratch, allowance):
    """Each desk is asked whole before the next: card, text, derivation."""
    kept = "kept" if scratch else "zero"
    number, exponent, r, p, salt, key = cards.read(card)
    if number:
        return f"refused card {number} scratch {kept}"
    number, _, password = texts.part(text)
    if number:
        return f"refused text {number} scratch {kept}"
    number, _ = derivations.refusal(len(password), len(salt), len(key), 2**exponent, r, p, scratch, allowance)
    if number:
        return f"refused derivation {number} scratch {kept}"
    made = derivations.scrypt(password, salt, 2**exponent, r, p, len(key))
    return ("yes" if made == key else "no") + " scratch zero"


def tried(text, card=CARD, scratch=2560, allowance=32):
    return f"login {said(text)} {said(card)} {scratch} {allowance}", f"login {login(text, card, scratch, allowance)}"


def firsts():
    yield "Logins: yes, and at another spacing"
    yield tried(b"a:b:c")
    yield tried(b"a:b:c", scratch=640, allowance=272)
    yield "Logins: no, for a bit of the password, an empty password, a bit of the salt, a bit of the key"
    yield tried(b"a:b:b")
    yield tried(b"a:")
    yield tried(b"a:b:c", with_byte(0, 0))
    yield tried(b"a:b:c", with_byte(23, 0xF5))
    yield "Logins: refused at each desk; a card that is refused is, whatever the text and the scratch"
    yield tried(b":x", CARD[:11])
    for at, byte in (35, 0x44), (28, 2), (26, 15), (29, 200):
        yield tried(b":x", with_byte(at, byte))
    yield tried(b"x", scratch=639, allowance=0)
    yield tried(b":x", scratch=639, allowance=0)
    yield tried(b"a:" + bytes(1025), scratch=639, allowance=0)
    yield tried(b"a:b:c", scratch=639, allowance=0)
    yield tried(b"a:b:c", allowance=31)


def cases(rng):
    yield from firsts()
    yield "Logins: every bit of the last byte of the key, and a byte in each place of the card"
    for bit in range(8):
        yield tried(b"a:b:c", with_byte(23, CARD[23] ^ 1 << bit))
    for at in range(36):
        yield tried(b"a:b:c", with_byte(at, CARD[at] ^ 1))
    yield "Logins: a passphrase of at most 63 bytes and the same with a zero byte added give one key (HMAC pads with zeros)"
    yield tried(b"a:b:c\0")
    yield tried(b"a:b:c" + bytes(62))
    yield tried(b"a:b:c" + bytes(63))
    yield tried(b"a:b:c" + bytes(64))
    yield "Logins: cards that were written for a password, with that password and with another; scratch and allowance at their edges"
    for _ in range(24):
        password, salt = rng.randbytes(rng.randrange(20)).replace(b":", b";"), rng.randbytes(rng.randrange(8, 65))
        e, r, p, length = rng.randrange(1, 7), rng.randrange(1, 4), rng.randrange(1, 4), rng.randrange(16, 65)
        key = derivations.scrypt(password, salt, 2**e, r, p, length)
        card = cards.write(salt, key, e, r, p, bytes(200))[2][: len(salt) + length + 12]
        k = 2 ** rng.randrange(e + 1)
        scratch, allowance = derivations.scratch_for(2**e, r, p, k), p * 2**e * (k + 1)
        yield tried(b"rover:" + password, card, scratch, allowance)
        yield tried(b"rover:x" + password, card, scratch, allowance)
        yield tried(b"rover:" + password, card, scratch, allowance - 1)
        yield tried(b"rover:" + password, card, derivations.scratch_for(2**e, r, p, 2**e) - 1, allowance)
