"""CHERI Concentrate for 128-bit capabilities, as z3 terms, from docs/FORMAT.md and include/cheri_cap.h alone.

Nothing here comes from the library's code. tests/hardware compares the reference in SystemVerilog with these terms. A word is two
terms of 64 bits. W is the width in which ends of bounds are computed: wide enough that no sum or shift below loses a bit that counts.
"""
import z3

W = 72
MASK = 0x00001FFFFC018004
CAP_MAX_E = 52
TWO64 = 1 << 64

SEALED, UNSEALED, BOUNDS, INEXACT, UNREPRESENTABLE, PERMISSION, TYPE, MISMATCH, CANONICAL, EXCEEDS = range(7, 17)


def bv(value, bits):
    return z3.BitVecVal(value, bits)


def bits(term, top, bottom):
    return z3.Extract(top, bottom, term)


def ext(term, size=W):
    return z3.ZeroExt(size - term.size(), term)


def one(condition, size=W):
    return z3.If(condition, bv(1, size), bv(0, size))


# ---- the word


class Fields:
    def __init__(self, high, low):
        plain = high ^ MASK
        self.perms = bits(plain, 63, 48)
        self.reserved = bits(plain, 47, 46)
        self.flag = bits(plain, 45, 45)
        self.otype = bits(plain, 44, 27)
        self.ie = bits(plain, 26, 26)
        self.t = bits(plain, 25, 14)
        self.b = bits(plain, 13, 0)
        self.address = low


def word_high(perms, reserved, flag, otype, ie, t, b):
    return z3.Concat(perms, reserved, flag, otype, ie, t, b) ^ MASK


# ---- decoding


def exponent(f):
    """E as a term of W bits."""
    field = z3.Concat(bits(f.t, 2, 0), bits(f.b, 2, 0))
    return z3.If(f.ie == 0, bv(0, W), z3.If(z3.UGT(field, CAP_MAX_E), bv(CAP_MAX_E, W), ext(field)))


def decode(f, address=None):
    """The base, of 64 bits, the top, of 65, and E."""
    a = ext(f.address if address is None else address)
    e = exponent(f)
    ie = f.ie == 1
    t_low = z3.If(ie, f.t & 0xFF8, f.t)
    b = z3.If(ie, f.b & 0x3FF8, f.b)
    carry = one(z3.ULT(t_low, bits(b, 11, 0)), 2)
    t = z3.Concat(bits(b, 13, 12) + carry + z3.ZeroExt(1, f.ie), t_low)
    a3 = bits(z3.LShR(a, e + 11), 2, 0)
    b3, t3 = bits(b, 13, 11), bits(t, 13, 11)
    r3 = b3 - 1
    a_high, b_high, t_high = (one(z3.ULT(x, r3)) for x in (a3, b3, t3))
    upper = z3.LShR(a, e + 14)
    base = ((upper + b_high - a_high) << (e + 14)) + (ext(b) << e)
    top = ((upper + t_high - a_high) << (e + 14)) + (ext(t) << e)
    base, top = bits(base, 63, 0), bits(top, 64, 0)
    over = z3.And(z3.ULT(e, CAP_MAX_E - 1), z3.UGT(bits(top, 64, 63) - z3.ZeroExt(1, bits(base, 63, 63)), 1))
    top = z3.If(over, top ^ bv(1 << 64, 65), top)
    return base, top, e


def distance(f):
    """How far the address is above the window's start, in units of the exponent."""
    b = z3.If(f.ie == 1, f.b & 0x3FF8, f.b)
    return z3.LShR(f.address, bits(exponent(f), 63, 0)) - ext(z3.Concat(bits(b, 13, 11), bv(0, 11)), 64) + 0x800


def decode_short(f):
    """The values of decode(), by the lemma short_decode: the base from the distance, the top from the length."""
    e, ie = exponent(f), f.ie == 1
    t, b = z3.If(ie, f.t & 0xFF8, f.t), z3.If(ie, f.b & 0x3FF8, f.b)
    shift, length = bits(e, 63, 0), ext(z3.Concat(f.ie, t - bits(b, 11, 0)), 65)
    base = z3.Concat(bits(distance(f), 63, 14), b) << shift
    start = z3.If(z3.UGE(e, CAP_MAX_E - 1), ext(b, 65) << ext(shift, 65), ext(base, 65))
    return base, start + (length << ext(shift, 65)), e


# ---- setting bounds


class Granted:
    """What a request of [base, base + length) is granted; base of 64 bits, length of 128. If in_range is false, no other member means anything."""

    def __init__(self, base, length):
        self.in_range = z3.And(z3.ULE(length, bv(TWO64, 128)), z3.ULE(ext(base, 130) + ext(length, 130), bv(TWO64, 130)))
        n = bits(length, W - 1, 0)
        b = ext(base)
        t = b + n
        # 52 minus the number of leading zeros of bits 64..13
        e = bv(0, W)
        for place in range(13, 65):
            e = z3.If(bits(n, place, place) == 1, bv(place - 12, W), e)
        self.leading = e
        self.ie = z3.Or(e != 0, bits(n, 12, 12) == 1)

        def rounded(e):
            unit = bv(1, W) << (e + 3)
            below = z3.LShR(b, e + 3)
            above = z3.LShR(t, e + 3) + one((t & (unit - 1)) != 0)
            return below, above

        below, above = rounded(e)
        self.grows = grows = bits(above - below, 10, 10) == 1
        e = z3.If(z3.And(self.ie, grows), e + 1, e)
        below, above = rounded(e)
        self.e = e
        self.granted_base = bits(z3.If(self.ie, below << (e + 3), b), 63, 0)
        self.granted_top = bits(z3.If(self.ie, above << (e + 3), t), 64, 0)
        self.exact = z3.And(ext(self.granted_base) == b, ext(self.granted_top) == t)
        digits = bits(e, 5, 0)
        self.t = z3.If(self.ie, z3.Concat(bits(above, 8, 0), bits(digits, 5, 3)), bits(t, 11, 0))
        self.b = z3.If(self.ie, z3.Concat(bits(below, 10, 0), bits(digits, 2, 0)), bits(b, 13, 0))
        self.granule = z3.If(self.ie, bv(1, W) << (e + 3), bv(1, W))


def flag_bit(condition):
    return z3.If(condition, bv(1, 1), bv(0, 1))


# ---- canonical words and windows


def judged(f, base, top, is_same):
    """The first reason why a word is not canonical, and whether setting its bounds stores them as it does. is_same is whether that gives the
    same fields, for bounds that can be set."""
    is_ordered, is_inside = z3.UGE(top, ext(base, 65)), z3.ULE(top, bv(TWO64, 65))
    is_reserved = z3.And(z3.UGE(f.otype, 0x3FFF0), f.otype != 0x3FFFF)
    reason = bv(0, 8)
    for fails, number in (z3.Not(is_same), 5), (z3.Not(is_inside), 4), (z3.Not(is_ordered), 3), (is_reserved, 2), (f.reserved != 0, 1):
        reason = z3.If(fails, bv(number, 8), reason)
    return reason, z3.And(is_ordered, is_inside, is_same)


def stored(base, top):
    """What setting the bounds from base to top is granted."""
    return Granted(base, ext(top, 128) - ext(base, 128))


def defect(f):
    """The first reason why a word is not one that a derivation can make, whether setting its bounds stores them as it does, and its bounds."""
    base, top, e = decode(f)
    made = stored(base, top)
    is_same = z3.And(flag_bit(made.ie) == f.ie, made.t == f.t, made.b == f.b)
    return *judged(f, base, top, is_same), base, top, e


def defect_short(f):
    """The values of defect(), without setting bounds."""
    base, top, e = decode_short(f)
    field = z3.Concat(bits(f.t, 2, 0), bits(f.b, 2, 0))
    b = z3.If(f.ie == 1, f.b & 0x3FF8, f.b)
    lost = bits(z3.LShR(ext(b, 128) << ext(e, 128), 64), 13, 0)
    is_same = z3.Or(f.ie == 0, z3.And(z3.ULE(field, CAP_MAX_E), lost == 0))
    return *judged(f, base, top, is_same), base, top, e


def window(base, e):
    """The first address of the window of bounds, to be read modulo 2^64, and how many addresses it has; of W bits. At exponents of at least
    50 it has every address."""
    start = (z3.LShR(ext(base), e + 11) - 1) << (e + 11)
    return start, bv(1, W) << (e + 14)


def in_window(base, e, address):
    """Whether address + j * 2^64 is in the window for some whole j."""
    start, size = window(base, e)
    offset = ext(address - bits(start, 63, 0))
    return z3.Or(z3.UGE(e, 50), z3.ULT(offset, size))
