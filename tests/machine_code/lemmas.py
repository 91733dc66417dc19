"""Facts about the model alone, for every input: those that functions.py uses in place of definitions, and the promises of the format."""
import functions
import model
import z3
from functions import BASE, FUNCTIONS, LENGTH, LOW, NUMBER, WORD, of_length, rounded
from model import Fields, Granted, bits, bv, ext
from prove import CASES

END = ext(BASE) + bits(LENGTH, model.W - 1, 0)
TWO64 = bv(model.TWO64, 65)


def leading():
    """The length of a word's bounds that can be set has its highest bit where the exponent says, if that is not the largest."""
    base, top, e = model.decode(WORD)
    can_be_set = z3.And(z3.ULE(ext(base, 65), top), z3.ULE(top, TWO64))
    return z3.Implies(z3.And(can_be_set, z3.ULT(e, model.CAP_MAX_E)), model.stored(base, top).leading == e), "word"


def short():
    """Words are canonical by the short form if and only if setting the bounds that they decode to stores their fields, with the exponent for
    the place of the length's highest bit. By leading(), that is the same for bounds that can be set, and for others no place counts."""
    (reason, is_stored, base, top, e), (short_reason, is_stored_short, *_) = model.defect(WORD), model.defect_short(WORD)
    place = model.stored(base, top).leading
    known = z3.If(z3.ULT(e, model.CAP_MAX_E), e, place)
    reason, is_stored = (z3.substitute(it, (place, known)) for it in (reason, is_stored))
    return z3.And(reason == short_reason, is_stored == is_stored_short), "word"


def short_decode():
    """The short form of decoding gives the base, the top and the exponent."""
    return z3.And(*[one == other for one, other in zip(model.decode(WORD), model.decode_short(WORD))]), "word"


def same_bounds():
    """A word decodes to the same bounds with another address if and only if that is in its window."""
    (base, top, e), (other_base, other_top, _) = model.decode(WORD), model.decode(WORD, NUMBER)
    return z3.And(base == other_base, top == other_top) == model.in_window(base, e, NUMBER), "word"


def first_to_last():
    """An address is in the window if and only if it is one from the first to the last, through 2^64 - 1 and on from 0."""
    (base, _, e), ends = model.decode(WORD), functions.window()
    return z3.ULE(NUMBER - ends["first"], ends["last"] - ends["first"]) == model.in_window(base, e, NUMBER), "word"


def derivable():
    """A canonical word decodes to the same bounds at its base: setting these there gives its fields, by short(), and its address can be set
    then, by same_bounds()."""
    (base, top, e), (base_there, top_there, e_there) = model.decode(WORD), model.decode(WORD, model.decode(WORD)[0])
    return z3.Implies(functions.canonical(WORD), z3.And(base == base_there, top == top_there, e == e_there)), "word"


def covers():
    """The granted bounds cover the request, end at 2^64 or below, and lose less than a granule at each end."""
    g = Granted(BASE, LENGTH)
    covers = z3.And(z3.ULE(g.granted_base, BASE), z3.UGE(ext(g.granted_top), END), z3.ULE(g.granted_top, TWO64))
    lost = z3.And(z3.ULT(ext(BASE), ext(g.granted_base) + g.granule), z3.ULT(ext(g.granted_top), END + g.granule))
    return z3.Implies(g.in_range, z3.And(covers, lost)), "length"


def granted_word(g):
    return Fields(model.word_high(bv(0, 16), bv(0, 2), bv(0, 1), bv(0x3FFFF, 18), model.flag_bit(g.ie), g.t, g.b), BASE)


def decodes():
    """The granted fields decode, at the request's base, to the granted bounds and exponent."""
    g = Granted(BASE, LENGTH)
    base, top, e = model.decode(granted_word(g))
    decodes = z3.And(base == g.granted_base, top == g.granted_top, e == g.e)
    # whether the exponent grows is a constant in each half, so that no shift is by a variable
    halves = [z3.Implies(g.grows == it, z3.substitute(decodes, (g.grows, it))) for it in (z3.BoolVal(True), z3.BoolVal(False))]
    return z3.Implies(g.in_range, z3.And(*halves)), "length"


def sound():
    """The granted fields are canonical at the request's base."""
    g = Granted(BASE, LENGTH)
    return z3.Implies(g.in_range, functions.canonical(granted_word(g))), "length"


def rounds():
    """The representable length is the next multiple of the granule, and granted exactly."""
    g, n = of_length(), bits(LENGTH, model.W - 1, 0)
    again = Granted(bv(0, 64), ext(rounded(g), 128))
    is_next = z3.And(z3.UGE(rounded(g), n), z3.ULE(rounded(g), ext(TWO64)), z3.ULT(rounded(g) - n, g.granule), rounded(g) & (g.granule - 1) == 0)
    return z3.Implies(g.in_range, z3.And(is_next, again.exact)), "length"


def are_multiples(base, top, unit):
    return z3.And(ext(base) & (unit - 1) == 0, ext(top) & (unit - 1) == 0)


def is_stored(base, top, e, ie):
    """Both ends are multiples of the granule, of which there are at most 1,023; or without IE there are fewer than 4,096 bytes."""
    unit, span = bv(1, model.W) << (e + 3), ext(top) - ext(base)
    return z3.If(ie, z3.And(are_multiples(base, top, unit), z3.ULT(span, unit << 10)), z3.And(e == 0, z3.ULT(span, 4096)))


def stores():
    """The bounds of any word, unless its top is below its base or above 2^64, are as is_stored says, by its exponent."""
    base, top, e = model.decode(WORD)
    return z3.Implies(z3.And(z3.ULE(ext(base, 65), top), z3.ULE(top, TWO64)), is_stored(base, top, e, WORD.ie == 1)), "word"


ANY_BASE, ANY_TOP = z3.BitVec("any_base", 64), z3.BitVec("any_top", 65)
IS_STORED = is_stored(ANY_BASE, ANY_TOP, ext(z3.BitVec("any_e", 6)), z3.Bool("any_ie"))


def is_covering(g):
    return z3.And(g.in_range, z3.ULE(ANY_BASE, BASE), z3.UGE(ext(ANY_TOP), END), z3.ULE(ANY_TOP, TWO64))


def coarse():
    """Any bounds that are stored so, cover the request and end at 2^64 or below are multiples of its granule."""
    g = Granted(BASE, LENGTH)
    return z3.Implies(z3.And(is_covering(g), IS_STORED), are_multiples(ANY_BASE, ANY_TOP, g.granule)), "length"


def tightest():
    """Such multiples cover the granted bounds. By stores() and coarse(), that is so of the bounds of every word that cover the request: so
    narrowing bounds gives nothing that the word did not have."""
    g = Granted(BASE, LENGTH)
    covers = z3.And(z3.ULE(ANY_BASE, g.granted_base), z3.UGE(ANY_TOP, g.granted_top))
    return z3.Implies(z3.And(is_covering(g), are_multiples(ANY_BASE, ANY_TOP, g.granule)), covers), "length"


def least():
    """No bounds of at least `length` bytes that are stored so and end at 2^64 or below are shorter than the representable length. By stores(),
    no word's are."""
    g, span = of_length(), ext(ANY_TOP) - ext(ANY_BASE)
    is_ordered = z3.And(z3.ULE(ext(ANY_BASE, 65), ANY_TOP), z3.ULE(ANY_TOP, TWO64))
    given = z3.And(g.in_range, is_ordered, z3.UGE(span, bits(LENGTH, model.W - 1, 0)), IS_STORED)
    return z3.Implies(given, z3.UGE(span, rounded(g))), "length"


def shrinks(name):
    """The word that a rule makes is canonical and a subset of the word. For setting bounds, that follows from tightest, decodes and sound;
    rebuild() checks both."""

    def lemma():
        made = FUNCTIONS[name].result()
        f = Fields(made["high"], made["low"])
        return z3.Implies(made["refusal"] == 0, z3.And(functions.canonical(f), functions.subset(f, WORD))), "word"

    return lemma


def sums():
    """Incrementing makes what setting the address to the sum does, of which shrinks_set_address says the same."""
    made = FUNCTIONS["set_address"].result()
    return z3.And(*[z3.substitute(made[it], (NUMBER, LOW + NUMBER)) == term for it, term in FUNCTIONS["increment"].result().items()]), "word"


PROVED = sums, leading, short, short_decode, same_bounds, first_to_last, derivable, covers, decodes, sound, rounds, stores, coarse, tightest, least
LEMMAS = {it.__name__: it for it in PROVED}
LEMMAS |= {f"shrinks_{name}": shrinks(name) for name in "set_address and_perms set_flag seal unseal".split()}
