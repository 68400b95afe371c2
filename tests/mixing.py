"""Salsa20/8, BlockMix and ROMix of their own, plain and quick, held to RFC 7914's sections 8 to 10 and to each other."""
import struct

from lines import said

MASK = 0xFFFFFFFF


# ---- plain, as the documents say it


def quarterround(y0, y1, y2, y3):
    """The public Salsa20 specification, section 3."""

    def rol(a, b):
        a &= MASK
        return ((a << b) | (a >> (32 - b))) & MASK

    z1 = y1 ^ rol(y0 + y3, 7)
    z2 = y2 ^ rol(z1 + y0, 9)
    z3 = y3 ^ rol(z2 + z1, 13)
    z0 = y0 ^ rol(z3 + z2, 18)
    return z0, z1, z2, z3


def rowround(y):
    """Section 4: each row, begun at the diagonal."""
    z = list(y)
    for row in range(4):
        at = [4 * row + (row + k) % 4 for k in range(4)]
        for place, word in zip(at, quarterround(*(z[k] for k in at))):
            z[place] = word
    return z


def transposed(x):
    return [x[4 * (k % 4) + k // 4] for k in range(16)]


def doubleround(x):
    """Sections 5 and 6: the column round is the row round of the transposed square."""
    return rowround(transposed(rowround(transposed(x))))


def salsa20_8(block):
    words = list(struct.unpack("<16I", block))
    x = words
    for _ in range(4):
        x = doubleround(x)
    return struct.pack("<16I", *((a + b) & MASK for a, b in zip(x, words)))


def xor(a, b):
    return bytes(p ^ q for p, q in zip(a, b, strict=True))


def block_mix(block):
    """RFC 7914, section 4."""
    pieces = [block[k : k + 64] for k in range(0, len(block), 64)]
    x = pieces[-1]
    made = []
    for piece in pieces:
        x = salsa20_8(xor(x, piece))
        made.append(x)
    return b"".join(made[0::2] + made[1::2])


def plain_romix(block, n):
    """RFC 7914 section 5: the block, and the places that step 3 looks up."""
    v = []
    for _ in range(n):
        v.append(block)
        block = block_mix(block)
    places = []
    for _ in range(n):
        j = int.from_bytes(block[-64:], "little") % n
        places.append(j)
        block = block_mix(xor(block, v[j]))
    return block, places


# ---- quick: the four quarters of a round at once, each in 64 bits of one integer. A piece of 64 bytes is four such
# integers, the diagonal of the square and the three that follow it round the columns.

DIAGONALS = (0, 5, 10, 15), (4, 9, 14, 3), (8, 13, 2, 7), (12, 1, 6, 11)
FOUR = sum(MASK << (64 * lane) for lane in range(4))


def packed(block):
    words = struct.unpack(f"<{len(block) // 4}I", block)
    return [
        tuple(sum(words[at + place] << (64 * lane) for lane, place in enumerate(diagonal)) for diagonal in DIAGONALS)
        for at in range(0, len(words), 16)
    ]


def unpacked(pieces):
    words = []
    for piece in pieces:
        square = [0] * 16
        for four, diagonal in zip(piece, DIAGONALS, strict=True):
            for lane, place in enumerate(diagonal):
                square[place] = four >> (64 * lane) & MASK
        words += square
    return struct.pack(f"<{len(words)}I", *words)


def quick_core(a0, b0, c0, d0, F=FOUR):
    a, b, c, d = a0, b0, c0, d0
    for _ in range(8):
        t = (a + d) & F
        b ^= (t << 7 | t >> 25) & F
        t = (b + a) & F
        c ^= (t << 9 | t >> 23) & F
        t = (c + b) & F
        d ^= (t << 13 | t >> 19) & F
        t = (d + c) & F
        a ^= (t << 18 | t >> 14) & F
        # from columns to rows or back: the second and the fourth change places, each turned by its distance from the diagonal
        b, c, d = (d << 192 | d >> 64) & F, (c << 128 | c >> 128) & F, (b << 64 | b >> 192) & F
    return (a + a0) & F, (b + b0) & F, (c + c0) & F, (d + d0) & F


def quick_mix(pieces):
    a, b, c, d = pieces[-1]
    made = []
    for p, q, r, s in pieces:
        a, b, c, d = quick_core(a ^ p, b ^ q, c ^ r, d ^ s)
        made.append((a, b, c, d))
    return made[0::2] + made[1::2]


def romix(block, n):
    """What plain_romix says, for n up to 2^32."""
    pieces, v = packed(block), []
    for _ in range(n):
        v.append(pieces)
        pieces = quick_mix(pieces)
    places = []
    for _ in range(n):
        j = (pieces[-1][0] & MASK) % n
        places.append(j)
        pieces = quick_mix([(a ^ p, b ^ q, c ^ r, d ^ s) for (a, b, c, d), (p, q, r, s) in zip(pieces, v[j])])
    return unpacked(pieces), places


# ---- held to RFC 7914

CORE_IN = bytes.fromhex("""
    7e879a214f3ec9867ca940e641718f26 baee555b8c61c1b50df846116dcd3b1d
    ee24f319df9b3d8514121e4b5ac5aa32 76021d2909c74829edebc68db8b8c25e""")
CORE_OUT = bytes.fromhex("""
    a41f859c6608cc993b81cacb020cef05 044b2181a2fd337dfd7b1c6396682f29
    b4393168e3c9e6bcfe6bc5b7a06d96ba e424cc102c91745c24ad673dc7618f81""")
BLOCK_IN = bytes.fromhex("""
    f7ce0b653d2d72a4108cf5abe912ffdd 777616dbbb27a70e8204f3ae2d0f6fad
    89f68f4811d1e87bcc3bd7400a9ffd29 094f0184639574f39ae5a1315217bcd7
    894991447213bb226c25b54da86370fb cd984380374666bb8ffcb5bf40c254b0
    67d27c51ce4ad5fed829c90b505a571b 7f4d1cad6a523cda770e67bceaaf7e89""")
BLOCK_OUT = CORE_OUT + bytes.fromhex("""
    20edc975323881a80540f64c162dcd3c 21077cfe5f8d5fe2b1a4168f953678b7
    7d3b3d803b60e4ab920996e59b4d53b6 5d2a225877d5edf5842cb9f14eefe425""")
ROMIX_OUT = bytes.fromhex("""
    79ccc193629debca047f0b70604bf6b6 2ce3dd4a9626e355fafc6198e6ea2b46
    d58413673b99b029d665c357601fb426 a0b2f4bba200ee9f0a43d19b571a9c71
    ef1142e65d5a266fddca832ce59faa7c ac0b9cf1be2bffca300d01ee387619c4
    ae12fd4438f203a0e4e1c47ec314861f 4e9087cb33396a6873e8f9d2539a4b8e""")
PLACES = [4, 2, 5, 7, 9, 1, 7, 2, 13, 2, 11, 10, 10, 15, 13, 2]  # that section 10 looks up


def pattern(r):
    """A block whose pieces all differ."""
    return bytes((5 * k + 3) % 251 for k in range(128 * r))


def hold():
    assert salsa20_8(CORE_IN) == CORE_OUT, "RFC 7914 section 8"
    assert block_mix(BLOCK_IN) == BLOCK_OUT, "RFC 7914 section 9"
    assert plain_romix(BLOCK_IN, 16) == (ROMIX_OUT, PLACES), "RFC 7914 section 10"
    assert romix(BLOCK_IN, 16) == (ROMIX_OUT, PLACES)
    for r, n in (1, 1), (1, 64), (2, 8), (8, 4):
        assert unpacked(packed(pattern(r))) == pattern(r)
        assert romix(pattern(r), n) == plain_romix(pattern(r), n)


# ---- the cases


def cored(block):
    return f"salsa {said(block)}", f"salsa {said(salsa20_8(block))}"


def mixed(r, block):
    return f"blockmix {r} {said(block)}", f"blockmix {said(block_mix(block))}"


def lane_mixed(n, r, k, block):
    """Storing one block in k, a lookup of j makes j mod k mixings before its own."""
    lane, places = plain_romix(block, n)
    mixings = 2 * n + sum(j % k for j in places)
    return f"romix {n} {r} {k} {said(block)}", f"romix mixings {mixings} lane {said(lane)}"


def cases(rng):
    yield "RFC 7914 section 8: Salsa20/8"
    yield cored(CORE_IN)
    yield "Salsa20/8: zeros, the largest words, words that wrap, and others"
    for block in bytes(64), b"\xff" * 64, b"\x80" * 64, b"\x01" + bytes(63), bytes(63) + b"\x80":
        yield cored(block)
    for _ in range(24):
        yield cored(rng.randbytes(64))
    yield "RFC 7914 section 9: BlockMix"
    yield mixed(1, BLOCK_IN)
    yield "BlockMix: a pattern whose pieces all differ, r 2 and 8"
    for r in 2, 8:
        yield mixed(r, pattern(r))
    yield "BlockMix: r 1 to 8, and the most that there is room for"
    for r in range(1, 9):
        for _ in range(2):
            yield mixed(r, rng.randbytes(128 * r))
    yield mixed(32, rng.randbytes(4096))
    yield "RFC 7914 section 10: ROMix, one block in 1, 2, 3, 4 and 16 stored"
    for k in 1, 2, 3, 4, 16:
        yield lane_mixed(16, 1, k, BLOCK_IN)
    yield "ROMix: every spacing from 1 to N, also those that do not divide it"
    for n, r in (1, 1), (2, 1), (4, 1), (8, 1), (16, 1), (8, 2), (16, 2):
        block = rng.randbytes(128 * r)
        for k in range(1, n + 1):
            yield lane_mixed(n, r, k, block)
    yield "ROMix: as many blocks as there is room for, and large blocks"
    yield lane_mixed(512, 1, 2, rng.randbytes(128))
    yield lane_mixed(256, 1, 1, rng.randbytes(128))
    yield lane_mixed(32, 8, 1, rng.randbytes(1024))
    yield lane_mixed(8, 32, 1, rng.randbytes(4096))
