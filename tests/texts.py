"""A splitter of login texts of its own, held to the three texts that the paper works out."""
from lines import said


def part(text):
    """(number, user, password)"""
    user, colon, password = text.rpartition(b":")
    if not colon:
        return 31, b"", b""
    if not 1 <= len(user) <= 64:
        return 32, b"", b""
    return 0, user, password


def hold():
    assert part(b"a:b:c") == (0, b"a:b", b"c")
    assert part(b"a:") == (0, b"a", b"")
    assert part(b":x") == (32, b"", b"")


def shown(text):
    number, user, password = part(text)
    return f"text {said(text)}", f"text {number} user {said(user)} password {said(password)}"


def cases(rng):
    yield "Texts: several colons, empty parts, no colon, none, and the longest user name"
    for text in b"a:b:c", b"a:", b":x", b"::", b"abc", b"", b"u" * 64 + b":u", b"u" * 65 + b":u":
        yield shown(text)
    yield "Texts: user names around the longest, also with colons in them; long passwords; any bytes"
    for n in 0, 1, 2, 62, 63, 64, 65, 66, 1000:
        yield shown(b"u" * n + b":")
        yield shown(b"u" * n + b":password")
        yield shown(b":" * n)
    for n in 1024, 1025, 4000:
        yield shown(b"a:" + b"w" * n)
        yield shown(b"w" * n + b":a")
    for text in b"\0:\0", b"\xff:\xff", b"a\n:b\n", b"a :b ", b" : ", b"A:B", b"\xc3\xa9:\xc3\xa9":
        yield shown(text)
    for _ in range(30):
        yield shown(bytes(rng.choice(b":abc\0") for _ in range(rng.randrange(12))))
