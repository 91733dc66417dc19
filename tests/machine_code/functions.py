"""The scalar functions of include/cheri_cap.h: the arguments of each, the layout of its result in memory, and the result by model.py."""
import re
from pathlib import Path

import model
import z3
from model import CANONICAL, EXCEEDS, INEXACT, MISMATCH, PERMISSION, SEALED, TYPE, UNREPRESENTABLE, UNSEALED, Fields, Granted, bits, bv, ext

NAMES = "high low other_high other_low number length_high length_low base"
HIGH, LOW, OTHER_HIGH, OTHER_LOW, NUMBER, LENGTH_HIGH, LENGTH_LOW, BASE = (z3.BitVec(name, 64) for name in NAMES.split())
LENGTH = z3.Concat(LENGTH_HIGH, LENGTH_LOW)
WORD, OTHER = Fields(HIGH, LOW), Fields(OTHER_HIGH, OTHER_LOW)
HALVES, PAIR, REQUEST = [HIGH, LOW], [HIGH, LOW, OTHER_HIGH, OTHER_LOW], [LENGTH_HIGH, LENGTH_LOW]


class Buffer:
    """A pointer to bytes: its type in the header, the terms of those that are read, or the number of those that are written."""

    def __init__(self, name, type, held=(), written=0):
        self.name, self.type, self.held, self.written = name, type, [*held], written

    def __repr__(self):
        return f"{self.type}: {self.held} {self.written}"


class Function:
    """inputs: variables of 64 bits, (variable, its lowest bits that count, the bits of its type), or buffers. layout: (field, offset, bytes) of the result, or
    of the buffer that is written. result(): the terms of the fields. split: the cases of prove.py that it is proved by, unless it is in WAYS
    there. struct: the bytes of a struct that it takes. premises: what the inputs are like. types: those of the header, if the inputs do not say them."""

    def __init__(self, inputs, layout, result, *split, struct=(), premises=(), types=()):
        self.inputs, self.layout, self.result, self.split, self.struct = inputs, layout, result, split, [*struct]
        self.premises, self.types = [*premises], types
        self.buffers = [it for it in inputs if isinstance(it, Buffer)]
        self.written = next((it for it in self.buffers if it.written), None)
        size = max(offset + size for _, offset, size in layout)
        # a larger result is in memory, in whole words of 8 bytes
        self.in_memory = (size + 7) // 8 * 8 if size > 16 and not self.written else 0


def layout(text):
    """Returns the fields of a text such as `high 8 low 8`, each next to the one before."""
    words, offset, found = text.split(), 0, []
    for name, size in zip(words[::2], map(int, words[1::2])):
        found.append((name, offset, size))
        offset += size
    return found


def written(count):
    """Bytes, by their places."""
    return [(str(k), k, 1) for k in range(count)]


U128, MADE = layout("high 8 low 8"), layout("high 8 low 8 refusal 1")
FIELDS = layout("address 8 otype 4 perms 2 t 2 b 2 reserved 1 flag 1 ie 1")
PACKED = {name: z3.BitVec(f"field_{name}", 8 * size) for name, _, size in FIELDS}
PADDING = [z3.BitVec(f"padding_{k}", 8) for k in range(3)]


def value(size, inputs, term, *split, **more):
    """A function whose result is one number of so many bytes."""
    return Function(inputs, [("value", 0, size)], lambda: {"value": ext(term(), 8 * size)}, *split, **more)


def byte(condition):
    return model.one(condition, 8)


def bytes_of(*terms):
    return [bits(term, 8 * k + 7, 8 * k) for term in terms for k in range(term.size() // 8)]


def whole(condition, term):
    return z3.If(condition, term, bv(0, term.size()))


def halves(term):
    return {"high": bits(term, 127, 64), "low": bits(term, 63, 0)}


def ends(base, top):
    return {"base": base, "top_high": ext(bits(top, 64, 64), 64), "top_low": bits(top, 63, 0)}


def unpack():
    return {name: ext(getattr(WORD, name), 8 * size) for name, _, size in FIELDS}


def pack():
    widths = {name: getattr(WORD, name).size() for name in PACKED}
    cut = {name: bits(term, widths[name] - 1, 0) for name, term in PACKED.items() if name != "address"}
    return {"high": model.word_high(**cut), "low": PACKED["address"]}


def decode():
    base, top, e = model.decode(WORD)
    return ends(base, top) | {"exponent": bits(e, 7, 0)}


def word_length():
    base, top, _ = model.decode_short(WORD)
    return halves(ext(top, 128) - ext(base, 128))


def word_granule():
    return bits(z3.If(WORD.ie == 1, bv(1, model.W) << (model.exponent(WORD) + 3), bv(1, model.W)), 63, 0)


def set_bounds():
    g = Granted(BASE, LENGTH)
    numbers = {"t": ext(g.t, 16), "b": ext(g.b, 16), "exponent": bits(g.e, 7, 0), "ie": byte(g.ie), "exact": byte(g.exact), "in_range": bv(1, 8)}
    return {name: whole(g.in_range, term) for name, term in (ends(g.granted_base, g.granted_top) | numbers).items()}


def lost():
    g = Granted(BASE, LENGTH)
    after = ext(g.granted_top) - (ext(BASE) + bits(LENGTH, model.W - 1, 0))
    found = {"before": BASE - g.granted_base, "after": bits(after, 63, 0), "in_range": bv(1, 8)}
    return {name: whole(g.in_range, term) for name, term in found.items()}


def of_length():
    return Granted(bv(0, 64), LENGTH)


def granule():
    return whole(of_length().in_range, bits(of_length().granule, 63, 0))


def rounded(g):
    return (bits(LENGTH, model.W - 1, 0) + g.granule - 1) & ~(g.granule - 1)


def round_length():
    g = of_length()
    return halves(z3.If(g.in_range, ext(rounded(g), 128), bv(-1, 128)))


def alignment_mask():
    return whole(of_length().in_range, bits(~(of_length().granule - 1), 63, 0))


def keeps_bounds(f, address):
    """Whether the word decodes to the same bounds with that address: whether that is in the window, by the lemma same_bounds."""
    base, _, e = model.decode_short(f)
    return model.in_window(base, e, address)


def defect(f):
    """By the lemma short."""
    return model.defect_short(f)[0]


def represents():
    return z3.And(model.defect_short(WORD)[1], keeps_bounds(WORD, NUMBER))


def window():
    base, _, e = model.decode_short(WORD)
    start, size = model.window(base, e)
    is_every = z3.UGE(e, 50)
    return {"first": whole(z3.Not(is_every), bits(start, 63, 0)), "last": z3.If(is_every, bv(-1, 64), bits(start + size - 1, 63, 0))}


def subset(f, outer):
    (base, top, _), (outer_base, outer_top, _) = model.decode_short(f), model.decode_short(outer)
    return z3.And(z3.UGE(base, outer_base), z3.ULE(top, outer_top), f.perms & ~outer.perms == 0)


# ---- the rules of derivation


def canonical(f):
    return defect(f) == 0


def in_bounds(f):
    base, top, _ = model.decode_short(f)
    return z3.And(z3.UGE(f.address, base), z3.ULT(ext(f.address, 65), top))


def is_unsealed(f):
    return f.otype == 0x3FFFF


def made(checks, high, low):
    """The word, or the number of the first check that does not hold. A check is (whether it holds, the number)."""
    refusal = bv(0, 8)
    for holds, number in reversed(checks):
        refusal = z3.If(holds, refusal, bv(number, 8))
    return {"high": whole(refusal == 0, high), "low": whole(refusal == 0, low), "refusal": refusal}


def changed(f, **fields):
    """The upper half of the word with other fields."""
    return model.word_high(**{name: fields.get(name, getattr(f, name)) for name in "perms reserved flag otype ie t b".split()})


CHECKS = [(canonical(WORD), CANONICAL), (is_unsealed(WORD), SEALED)]


def moved(address):
    return made([*CHECKS, (keeps_bounds(WORD, address), UNREPRESENTABLE)], HIGH, address)


def narrowed(is_exact):
    _, _, base, top, _ = model.defect_short(WORD)
    g = Granted(LOW, LENGTH)
    is_within = z3.And(z3.UGE(LOW, base), z3.ULE(ext(LOW, 130) + ext(LENGTH, 130), ext(top, 130)))
    checks = [*CHECKS, (is_within, model.BOUNDS)] + [(g.exact, INEXACT)] * is_exact
    return made(checks, changed(WORD, ie=model.flag_bit(g.ie), t=g.t, b=g.b), LOW)


def and_perms():
    return made(CHECKS, changed(WORD, perms=WORD.perms & bits(NUMBER, 15, 0)), LOW)


def set_flag():
    return made(CHECKS, changed(WORD, flag=bits(NUMBER, 0, 0)), LOW)


def sealing(checks, perms, otype):
    return made([(canonical(WORD), CANONICAL), (canonical(OTHER), CANONICAL), *checks], changed(WORD, perms=perms, otype=otype), LOW)


def seal():
    checks = [
        (is_unsealed(WORD), SEALED), (is_unsealed(OTHER), SEALED), (bits(OTHER.perms, 7, 7) == 1, PERMISSION), (in_bounds(OTHER), model.BOUNDS),
        (z3.ULE(OTHER.address, 0x3FFEF), TYPE),
    ]
    return sealing(checks, WORD.perms, bits(OTHER.address, 17, 0))


def unseal():
    checks = [
        (z3.Not(is_unsealed(WORD)), UNSEALED), (is_unsealed(OTHER), SEALED), (bits(OTHER.perms, 9, 9) == 1, PERMISSION),
        (in_bounds(OTHER), model.BOUNDS), (OTHER.address == ext(WORD.otype, 64), MISMATCH),
    ]
    is_global = bits(WORD.perms, 0, 0) & bits(OTHER.perms, 0, 0)
    return sealing(checks, z3.Concat(bits(WORD.perms, 15, 1), is_global), bv(0x3FFFF, 18))


def rebuild():
    """The authority is the first word, and the second one is rebuilt."""
    checks = [*CHECKS, (canonical(OTHER), CANONICAL), (is_unsealed(OTHER), EXCEEDS), (subset(OTHER, WORD), EXCEEDS)]
    return made(checks, OTHER_HIGH, OTHER_LOW)


# ---- words as digits

READ, TEXT = layout("high 8 low 8 found 1"), [z3.BitVec(f"text_{k}", 8) for k in range(32)]


def read_word():
    """Each of 32 digits of either case is four bits, the first one the highest."""
    is_decimal, is_lower, is_upper = ([z3.And(z3.UGE(it, ord(first)), z3.ULE(it, ord(last))) for it in TEXT] for first, last in ("09", "af", "AF"))
    digits = [
        z3.If(decimal, it - ord("0"), z3.If(lower, it - ord("a") + 10, it - ord("A") + 10)) for it, decimal, lower in zip(TEXT, is_decimal, is_lower)
    ]
    found = z3.And(*map(z3.Or, is_decimal, is_lower, is_upper))
    word = z3.Concat(*[bits(it, 3, 0) for it in digits])
    return {name: whole(found, term) for name, term in halves(word).items()} | {"found": byte(found)}


def write_word():
    fours = [ext(bits(half, k + 3, k), 8) for half in HALVES for k in range(60, -1, -4)]
    return {str(n): z3.If(z3.ULT(it, 10), it + ord("0"), it - 10 + ord("a")) for n, it in enumerate(fours)}


# ---- the inline functions, as a compiler makes them

# a file of them as functions, and of two whose place in memory an argument says, for each value of that
INLINE_SOURCE = """#include <stdbool.h>
#include <stdint.h>
#include <string.h>
#define static
#define inline
#include "cheri_cap.h"
cheri_cap_u128 cheri_cap_word_from_bytes_0(const uint8_t *bytes) { return cheri_cap_word_from_bytes(bytes, false); }
cheri_cap_u128 cheri_cap_word_from_bytes_1(const uint8_t *bytes) { return cheri_cap_word_from_bytes(bytes, true); }
void cheri_cap_word_to_bytes_0(cheri_cap_u128 word, uint8_t *bytes) { cheri_cap_word_to_bytes(word, bytes, false); }
void cheri_cap_word_to_bytes_1(cheri_cap_u128 word, uint8_t *bytes) { cheri_cap_word_to_bytes(word, bytes, true); }
"""
BOOL = (NUMBER, 1, 32)  # clang takes it that a bool has 32 bits, as an inlined one has
TOP = z3.Concat(LENGTH_HIGH, OTHER_HIGH)
BOUNDS = Buffer("BOUNDS", "const cheri_cap_bounds *", bytes_of(BASE, bits(TOP, 127, 64), bits(TOP, 63, 0)))
IN_GRANTED = T, B, EXPONENT, IE = [z3.BitVec(f"granted_{name}", size) for name, size in (("t", 16), ("b", 16), ("exponent", 8), ("ie", 1))]
GRANTED = Buffer("GRANTED", "const cheri_cap_granted *", [*BOUNDS.held, *bytes_of(T, B, EXPONENT), ext(IE, 8)])


def root():
    """Every permission over every address, at address 0."""
    fields = {"perms": bv(-1, 16), "reserved": bv(0, 2), "flag": bv(0, 1), "otype": bv(0x3FFFF, 18), "ie": bv(1, 1)}
    g = Granted(bv(0, 64), bv(model.TWO64, 128))
    return {"high": model.word_high(**fields, t=g.t, b=g.b), "low": bv(0, 64)}


def compare():
    one, other = z3.Concat(HIGH, LOW), z3.Concat(OTHER_HIGH, OTHER_LOW)
    return z3.If(z3.ULT(one, other), bv(-1, 32), z3.If(one == other, bv(0, 32), bv(1, 32)))


def holds(address, size):
    """Whether the bounds hold so many bytes, none of them past 2^64 - 1."""
    end = ext(address, 130) + (ext(size, 130) if z3.is_bv(size) else size)
    return z3.And(z3.ULE(BASE, address), z3.ULE(end, ext(TOP, 130)), z3.ULE(end, bv(model.TWO64, 130)))


def word_from_bytes(is_big):
    found = TEXT[:16] if is_big else TEXT[15::-1]
    return Function([Buffer("TEXT", "const uint8_t *", TEXT[:16])], U128, lambda: halves(z3.Concat(*found)))


def word_to_bytes(is_big):
    found = bytes_of(LOW, HIGH)[:: -1 if is_big else 1]
    return Function([*HALVES, Buffer("TEXT", "uint8_t *", written=16)], written(16), lambda: dict(zip(map(str, range(16)), found)))


def with_bounds():
    return {"high": changed(WORD, t=bits(T, 11, 0), b=bits(B, 13, 0), ie=IE), "low": LOW}


FUNCTIONS = {
    "version": value(4, [], lambda: bv(1, 32)),
    "unpack": Function(HALVES, FIELDS, unpack),
    "pack": Function([], U128, pack, struct=bytes_of(*PACKED.values()) + PADDING),
    "perms": value(2, HALVES, lambda: WORD.perms),
    "otype": value(4, HALVES, lambda: WORD.otype),
    "flag": value(1, HALVES, lambda: WORD.flag),
    "exponent": value(1, HALVES, lambda: bits(model.exponent(WORD), 7, 0), "word"),
    "decode": Function(HALVES, layout("base 8 top_high 8 top_low 8 exponent 1"), decode, "word"),
    "word_length": Function(HALVES, U128, word_length, "word"),
    "word_granule": value(8, HALVES, word_granule, "word"),
    "window": Function(HALVES, layout("first 8 last 8"), window, "word"),
    "keeps_bounds": value(1, [*HALVES, NUMBER], lambda: byte(keeps_bounds(WORD, NUMBER)), "word"),
    "represents": value(1, [*HALVES, NUMBER], lambda: byte(represents()), "word"),
    "is_canonical": value(1, HALVES, lambda: byte(canonical(WORD)), "word"),
    "defect": value(1, HALVES, lambda: defect(WORD), "word"),
    "set_bounds": Function([BASE, *REQUEST], layout("base 8 top_high 8 top_low 8 t 2 b 2 exponent 1 ie 1 exact 1 in_range 1"), set_bounds, "length"),
    "lost": Function([BASE, *REQUEST], layout("before 8 after 8 in_range 1"), lost, "length"),
    "granule": value(8, REQUEST, granule, "length"),
    "round_length": Function(REQUEST, U128, round_length, "length"),
    "alignment_mask": value(8, REQUEST, alignment_mask, "length"),
    "is_subset": value(1, PAIR, lambda: byte(subset(WORD, OTHER)), "word", "other"),
    "set_address": Function([*HALVES, NUMBER], MADE, lambda: moved(NUMBER), "word"),
    "increment": Function([*HALVES, NUMBER], MADE, lambda: moved(LOW + NUMBER), "word"),
    "set_bounds_on": Function(HALVES + REQUEST, MADE, lambda: narrowed(False), "word", "length"),
    "set_bounds_exact_on": Function(HALVES + REQUEST, MADE, lambda: narrowed(True), "word", "length"),
    "and_perms": Function([*HALVES, (NUMBER, 16, 16)], MADE, and_perms, "word"),
    "set_flag": Function([*HALVES, (NUMBER, 1, 1)], MADE, set_flag, "word"),
    "seal": Function(PAIR, MADE, seal, "word", "other"),
    "unseal": Function(PAIR, MADE, unseal, "word", "other"),
    "rebuild": Function(PAIR, MADE, rebuild, "word", "other"),
    "read_word": Function([Buffer("TEXT", "const char *", TEXT), bv(32, 64)], READ, read_word, types=["const char *", "size_t"]),
    # nothing is read of a text of another length
    "read_word:other": Function(
        [Buffer("TEXT", "const char *"), NUMBER], READ, lambda: {it: bv(0, 8 * size) for it, _, size in READ}, premises=[NUMBER != 32]
    ),
    "write_word": Function([*HALVES, Buffer("TEXT", "char *", written=32)], written(32), write_word),
}
INLINE = {
    "null": Function([], U128, lambda: {"high": bv(0, 64), "low": bv(0, 64)}),
    "root": Function([], U128, root),
    "perms_of": value(2, [HIGH], lambda: WORD.perms),
    "otype_of": value(4, [HIGH], lambda: WORD.otype),
    "is_sealed": value(1, [HIGH], lambda: byte(z3.Not(is_unsealed(WORD)))),
    "is_sentry": value(1, [HIGH], lambda: byte(WORD.otype == 0x3FFFE)),
    "compare": value(4, PAIR, compare, types=["cheri_cap_u128"] * 2),
    "top": Function([BOUNDS], U128, lambda: halves(TOP)),
    "length": Function([BOUNDS], U128, lambda: halves(TOP - ext(BASE, 128))),
    "offset": value(8, [BOUNDS, NUMBER], lambda: NUMBER - BASE),
    "swapped": value(8, [NUMBER], lambda: z3.Concat(*bytes_of(NUMBER))),
    "is_big_endian": value(1, [], lambda: bv(0, 8)),
    **{f"word_from_bytes_{is_big}": word_from_bytes(is_big) for is_big in (0, 1)},
    **{f"word_to_bytes_{is_big}": word_to_bytes(is_big) for is_big in (0, 1)},
    "bounds_hold": value(1, [BOUNDS, NUMBER], lambda: byte(holds(NUMBER, 1))),
    "bounds_hold_bytes": value(1, [BOUNDS, NUMBER, LOW], lambda: byte(holds(NUMBER, LOW))),
    "set_offset": Function([*HALVES, NUMBER], MADE, lambda: moved(model.decode_short(WORD)[0] + NUMBER), "word"),
    "with_address": Function([*HALVES, NUMBER], U128, lambda: {"high": HIGH, "low": NUMBER}),
    "with_perms": Function([*HALVES, (NUMBER, 16, 16)], U128, lambda: {"high": changed(WORD, perms=bits(NUMBER, 15, 0)), "low": LOW}),
    "with_flag": Function([*HALVES, BOOL], U128, lambda: {"high": changed(WORD, flag=bits(NUMBER, 0, 0)), "low": LOW}),
    "with_type": Function([*HALVES, NUMBER], U128, lambda: {"high": changed(WORD, otype=bits(NUMBER, 17, 0)), "low": LOW}),
    "with_bounds": Function([*HALVES, GRANTED], U128, with_bounds),
}
FUNCTIONS |= INLINE
# not proved here: loops over arrays, and a text of some length
HEADER = Path(__file__).resolve().parents[2] / "include/cheri_cap.h"
OTHERS = [*re.findall(r"^size_t cheri_cap_(\w+_(?:many|memory))\(", HEADER.read_text(encoding="utf-8"), flags=re.MULTILINE), "format"]

# not proved either: a pointer to a name, and, for an argument that the compiler does not know, the two that the file above has for each value of it
OTHER_INLINE = "refusal_name word_from_bytes word_to_bytes".split()


def in_file(symbols):
    """Returns the functions of the table that are in a file with these symbols, the library's or all, or None if it has others or lacks some."""
    library = {*OTHERS, *(it.partition(":")[0] for it in FUNCTIONS if it not in INLINE)}
    more = {*INLINE, *OTHER_INLINE}
    if {*symbols} not in (library, library | more):
        return None
    return [it for it in FUNCTIONS if it.partition(":")[0] in symbols]
