"""Proves by z3 that the machine code of a function computes the terms of functions.py, for every input.

All rests on the cases: the exponent's digits, or the place of the length's highest one, are constants in each, so that hardly any
shift is by a variable. every_input() proves that the cases leave no input out.
"""
import functions
import model
import z3
from functions import FUNCTIONS, HIGH, LENGTH, LENGTH_HIGH, LENGTH_LOW, LOW, NUMBER, OTHER_HIGH, PAIR
from lift import Refused, pointer, wide
from model import bits, bv

EFFORT = 400_000_000  # of a query, in z3's own unit: some two minutes
MANY = 60  # a term of more nodes is more than a comparison of fields


class NotProved(Exception):
    """The model of z3 is an input for which the two differ, with these values of variables, or None if z3 did not decide."""

    def __init__(self, where, found, places=()):
        super().__init__(f"{'WRONG' if found is not None else 'not decided'}: {where}")
        self.where, self.found, self.places = where, found, places


def solver():
    made = z3.Then("simplify", "propagate-values", "solve-eqs", "simplify", "bit-blast", "sat").solver()
    made.set("rlimit", EFFORT)
    return made


_answers = {}


def answer(term):
    """Returns what z3 says about a term, and the input that it finds. It is asked once. The term is kept, so that z3 gives its number to no
    other."""
    if term.get_id() not in _answers:
        made = solver()
        made.add(term)
        said = made.check()
        _answers[term.get_id()] = said, made.model() if said == z3.sat else None, term
    return _answers[term.get_id()][:2]


def refute(term, where, places=()):
    """Raises NotProved unless the term is false for every input."""
    if not z3.is_false(term):
        said, found = answer(term)
        if said != z3.unsat:
            raise NotProved(where, found, places)


def never(term, where, cases=(("", (), None),)):
    """Does so in each case: its name, the values of variables in it, and what else holds."""
    for name, places, extra in cases:
        one = term if extra is None else z3.And(extra, term)
        refute(z3.simplify(z3.substitute(one, *places) if places else one), f"{where}{name and f' at {name}'}", places)


def at_once(change, terms):
    """Returns the conditions that a change makes of these. It is made once for all, since they share most of their parts."""
    all_of = z3.Function(f"all_{len(terms)}", *[z3.BoolSort()] * (len(terms) + 1))
    return change(all_of(*terms)).children()


def following(asked, cases, names=()):
    """Returns the third of each triple whose second, a fact, holds wherever all of its first do: of all that are left z3 is asked together, and
    those that are false for the input that it finds are dropped. In place of a term that has a name, a fact holds for every value."""
    left = [(z3.And(*own, z3.Not(fact)), what) for own, fact, what in asked]
    for _, places, extra in cases:
        here = lambda term: z3.simplify(z3.substitute(term, *places))
        named = [(here(term), name) for term, name in names]
        there = at_once(lambda term: z3.substitute(here(term), *named), [fails for fails, _ in left])
        while left:
            said, found = answer(z3.And(z3.BoolVal(True) if extra is None else here(extra), z3.Or(*there)))
            if said == z3.unsat:
                break
            if found is None:
                raise NotProved("what follows", None)
            values = found.eval(z3.Concat(bv(0, 1), *map(model.flag_bit, there)), True).as_long()
            kept = [not values >> n & 1 for n in reversed(range(len(there)))]
            assert not all(kept)
            left, there = ([it for it, is_kept in zip(all_, kept) if is_kept] for all_ in (left, there))
    return [what for _, what in left]


# ---- the cases


def word_cases(high):
    def word(ie, t, b):
        free = {name: z3.BitVec(f"{high}_{name}", size) for name, size in {"upper": 37, "t": 9, "b": 11}.items()}
        plain = z3.Concat(free["upper"], bv(ie, 1), free["t"], t, free["b"], b)
        return [(high, z3.simplify(plain ^ bv(model.MASK, 64)))]

    t, b = z3.BitVec(f"{high}_t_digit", 3), z3.BitVec(f"{high}_b_digit", 3)
    digits = [(f"E={n}", word(1, bv(n >> 3, 3), bv(n & 7, 3)), None) for n in range(56)]
    return [("IE=0", word(0, t, b), None), *digits, ("E>55", word(1, bv(7, 3), b), None)]


def length_cases():
    """Those of a length; and for of_request() three kinds: of rare lengths, of powers of two, and the others, in which length - 1 has a name
    too."""

    def place(n):
        return [(LENGTH_HIGH, bv(0, 64)), (LENGTH_LOW, wide(z3.Concat(bv(1, 1), z3.BitVec("length_rest", n)), 64))]

    def above(n):
        return [*place(n), (z3.simplify(LENGTH_LOW - 1), wide(z3.Concat(bv(1, 1), z3.BitVec("length_less", n)), 64))]

    short = [(LENGTH_HIGH, bv(0, 64)), (LENGTH_LOW, wide(z3.BitVec("length_rest", 12), 64))]
    ends = [("length>2^64", (), z3.UGT(LENGTH, bv(2**64, 128))), ("length=2^64", [(LENGTH_HIGH, bv(1, 64)), (LENGTH_LOW, bv(0, 64))], None)]
    ends.append(("length<2^12", short, None))
    powers = [(f"length=2^{n}", [(LENGTH_HIGH, bv(0, 64)), (LENGTH_LOW, bv(1 << n, 64))], None) for n in PLACES]
    more = [(f"length>2^{n}", above(n), LENGTH_LOW & (LENGTH_LOW - 1) != 0) for n in PLACES]
    return [*ends, *((f"length>=2^{n}", place(n), None) for n in PLACES)], ends, powers, more


PLACES = range(63, 11, -1)
PLAIN, RARE, POWERS, MORE = length_cases()
CASES = {"word": word_cases(HIGH), "other": word_cases(OTHER_HIGH), "length": PLAIN, "request": RARE + POWERS + MORE}


def apart(places):
    """Returns the variables that are constants and fewer bits in a case, and the terms that have a name in it."""
    return ([it for it in places if z3.is_const(it[0]) == is_plain] for is_plain in (True, False))


def every_input():
    """Proves that every input is in a case. In each, a bit of a variable is a constant, or free and no other bit. So is a bit of a term that
    has a name, for every input that is in the case by the others."""

    def held(places, extra):
        said, free = [] if extra is None else [extra], []
        for variable, term in places:
            for k in range(64):
                bit = z3.simplify(bits(term, k, k))
                if z3.is_bv_value(bit):
                    said.append(bits(variable, k, k) == bit)
                else:
                    bit = bit.arg(0) if bit.decl().kind() == z3.Z3_OP_BNOT else bit
                    assert bit.decl().kind() == z3.Z3_OP_EXTRACT and z3.is_const(bit.arg(0)) and str(bit.arg(0)) not in functions.NAMES.split()
                    free.append(bit.sexpr())
        assert len({*free}) == len(free)
        return z3.And(*said)

    for name, cases in CASES.items():
        for where, places, extra in cases:
            plain, named = apart(places)
            if named:
                never(z3.And(held(plain, extra), z3.Not(held(named, None))), f"a name at {where}")
        inputs = [([*apart(places)][0], extra) for _, places, extra in cases]
        never(z3.Not(z3.Or(*[held(*it) for it in inputs])), f"the cases of a {name}")


# ---- a function


def machine_of(image, name):
    """Returns the lifter of a file, and the address of a function in it."""
    if image.machine == "EM_X86_64":
        from x86 import X86 as Machine
    else:
        from a64 import A64 as Machine
    symbol = f"cheri_cap_{name.partition(':')[0]}"
    if symbol not in image.functions:
        raise Refused("the file has no such function")
    return Machine(image), image.functions[symbol]


def ends_of(image, name):
    """Returns the ends of a function: the conditions of the path to it, and the fields of the result."""
    function, arguments, (machine, entry) = FUNCTIONS[name], [], machine_of(image, name)
    for one in function.inputs:
        if isinstance(one, functions.Buffer):
            one = pointer(one.name)
        elif isinstance(one, tuple):
            variable, size, filled = one
            # the ABIs leave the bits above a narrow argument open
            one = z3.Concat(z3.BitVec(f"junk_{64 - filled}", 64 - filled), wide(bits(variable, size - 1, 0), filled))
        arguments.append(one)
    cut = [(field, 8 * (offset + size) - 1, 8 * offset) for field, offset, size in function.layout]
    ends = []
    for end, result in machine.call(entry, arguments, function):
        if function.in_memory or function.written:
            place, size = ("OUT", function.in_memory) if function.in_memory else (function.written.name, function.written.written)
            result = end.memory.load(pointer(place), size)
        ends.append((end.path, {field: z3.simplify(bits(result, high, lowest)) for field, high, lowest in cut}))
    return ends


def have_same_terms(ends, others):
    """Whether two functions have the same ends, term by term."""

    def terms(path, fields):
        return [*path, *(fields[it] for it in sorted(fields))]

    pairs = [(terms(*end), terms(*other)) for end, other in zip(ends, others)]
    return len(ends) == len(others) and all(len(one) == len(other) and all(map(z3.eq, one, other)) for one, other in pairs)


def merged(ends, field, at=0):
    """A field as one term: its value at the end that is reached. The paths are a tree: at each place a condition, or its opposite. One
    that all ends have, or that makes no difference, is left out."""
    first = ends[0][1][field]
    if all(fields[field].eq(first) for _, fields in ends):
        return first
    condition = ends[0][0][at]
    there, other = [it for it in ends if it[0][at].eq(condition)], [it for it in ends if not it[0][at].eq(condition)]
    assert all(path[at].eq(z3.simplify(z3.Not(condition))) for path, _ in other)
    terms = [merged(it, field, at + 1) for it in (there, other) if it]
    return z3.If(condition, *terms) if len(terms) == 2 and not terms[0].eq(terms[1]) else terms[0]


def along(path, term):
    """Returns a term as it is on a path, whose conditions hold."""
    known = [(it.arg(0), z3.BoolVal(False)) if z3.is_not(it) else (it, z3.BoolVal(True)) for it in path]
    return z3.simplify(z3.substitute(term, *known))


def differing(ends, wanted):
    return z3.Or(*[merged(ends, it) != wanted[it] for it in wanted])


def by_cases(term, where, *split):
    never(term, where, *(CASES[it] for it in split))


def direct(name, ends, wanted):
    by_cases(differing(ends, wanted), "the result", *FUNCTIONS[name].split)


def conditions(term):
    """Returns the conditions that parts of a term depend on."""
    seen, waiting = {}, [term]
    while waiting:
        one = waiting.pop()
        if one.get_id() not in seen:
            seen[one.get_id()] = one
            waiting += one.children()
    found = [it.arg(0) for it in seen.values() if z3.is_app_of(it, z3.Z3_OP_ITE)]
    return {it.get_id(): it for it in found}.values()


def given(case, *more):
    """Returns a case in which also each name equals its term, and more holds."""
    name, places, extra = case
    plain, named = apart(places)
    return name, places, z3.And(z3.BoolVal(True) if extra is None else extra, *more, *[z3.substitute(term, *plain) == it for term, it in named])


def of_request(code, wanted, base):
    """Proves the terms of the code equal to the wanted ones, if they depend on a request of bounds at that base.
    In most cases two facts come first: whether the request ends at 2^64 or below, and whether its exponent grows, which that of a power of
    two never does. Each is a constant then, and so is a condition of the code that is proved to be one of them. What is left has hardly a
    shift by a variable. It is proved for every end of the request, with end - length for the base."""
    g, differs = model.Granted(base, LENGTH), z3.Or(*[code[it] != wanted[it] for it in wanted])
    never(differs, "the result", RARE)
    never(z3.And(g.in_range, g.grows), "a power of two that grows", POWERS)
    end, carry = z3.BitVec("request_end", 64), z3.BitVec("request_carry", 1)
    names = [(model.ext(base) + bits(LENGTH, model.W - 1, 0), wide(z3.Concat(carry, end), model.W)), (base, end - LENGTH_LOW)]
    is_carried = (carry == 1) == z3.ULT(end, LENGTH_LOW)

    def facts(found, case, fact, *needed):
        """Returns those conditions that are a fact in a case, or its opposite."""
        return following([([], it == (fact if is_so else z3.Not(fact)), (it, is_so)) for it, is_so in found], [given(case, *needed)])

    about = [it for it in conditions(z3.Concat(*code.values())) if {str(base), "length_low"} <= variables(it)]
    about = [(it, is_so) for it in about for is_so in (True, False)]
    ends_there = facts(about, ("", (), None), g.in_range)
    for cases, is_growing in (POWERS, (False,)), (MORE, (True, False)):
        found = facts(about, cases[len(cases) // 2], g.grows, g.in_range)
        for case in cases:
            here = facts(found, case, g.grows, g.in_range)
            inside = [(it, z3.BoolVal(is_so)) for it, is_so in ends_there] + [(g.in_range, z3.BoolVal(True))]
            combinations = [inside + [(it, z3.BoolVal(grows == is_so)) for it, is_so in here] + [(g.grows, z3.BoolVal(grows))] for grows in is_growing]
            combinations.append([(it, z3.Not(holds)) for it, holds in inside])
            try:
                for constants in combinations:
                    never(z3.simplify(z3.substitute(z3.substitute(differs, *constants), *names)), "the result", [given(case, is_carried)])
            except NotProved:
                never(differs, "the result", [given(case)])


_variables = {}


def variables(term):
    """Returns the names of a term's variables. The term is kept, so that z3 gives its number to no other."""
    if term.get_id() not in _variables:
        is_variable = z3.is_const(term) and term.decl().kind() == z3.Z3_OP_UNINTERPRETED
        found = {str(term)} if is_variable else set().union(*map(variables, term.children()))
        _variables[term.get_id()] = found, term
    return _variables[term.get_id()][0]


def is_small(term, most=MANY):
    seen, waiting = {}, [term]
    while waiting and len(seen) <= most:
        one = waiting.pop()
        if one.get_id() not in seen:
            seen[one.get_id()] = one
            waiting += one.children()
    return len(seen) <= most


def is_light(term):
    """Whether a term is small, or about no word's fields."""
    return not variables(term) & {"high", "other_high"} or is_small(term)


def bounded(name, ends, wanted):
    """set_bounds_on and set_bounds_exact_on. First each refusal but INEXACT, as of functions of two words; then the result, by the length's
    place, from no more than that the request ends at 2^64 or below, and those conditions of all paths to it that are small or not about
    the word."""
    g, inexact = model.Granted(LOW, LENGTH), functions.narrowed(False)["refusal"]
    rough = lambda refusal: z3.simplify(z3.If(refusal == model.INEXACT, bv(0, 8), refusal))
    if not all(z3.is_bv_value(fields["refusal"]) for _, fields in ends):
        raise NotProved("a refusal that is computed", None)
    never(z3.If(wanted["refusal"] == model.INEXACT, bv(0, 8), wanted["refusal"]) != inexact, "the model's refusal without INEXACT")
    never(z3.And(inexact == 0, z3.Not(g.in_range)), "a request beyond 2^64", CASES["word"])
    refused = [(path, {"refusal": rough(fields["refusal"])}) for path, fields in ends]
    try:
        two_words(name, refused, {"refusal": inexact})
    except NotProved:  # a mistake might leave the names without a meaning
        by_cases(merged(refused, "refusal") != inexact, "the refusal", "word")
    made = functions.narrowed(False)["high"].arg(1)  # the word if no check fails
    holds = g.exact if name == "set_bounds_exact_on" else z3.BoolVal(True)
    needed = {"refusal": z3.If(holds, bv(0, 8), bv(model.INEXACT, 8)), "high": functions.whole(holds, made), "low": functions.whole(holds, LOW)}
    never(z3.And(inexact == 0, z3.Or(*[wanted[it] != needed[it] for it in needed])), "the model's word")
    others, ends = ([it for it in ends if (rough(it[1]["refusal"]).as_long() == 0) == is_given] for is_given in (False, True))
    never(z3.Or(*[fields[it] != 0 for _, fields in others for it in ("high", "low")]), "no word")
    shared = [it for it in ends[0][0] if all(any(it.eq(other) for other in path) for path, _ in ends)]
    never(z3.And(g.in_range, *filter(is_light, shared), differing(ends, needed)), "the result", [*RARE, *POWERS, *map(given, MORE)])


class Half:
    """One of two words: its facts and its bounds, with a name for each."""

    def __init__(self, f, name, cases):
        self.name, self.cases, self.names = name, cases, PAIR[:2] if name == "word" else PAIR[2:]
        self.names = {*map(str, self.names)}
        self.base, self.top, _ = model.decode_short(f)
        self.address = wide(f.address, 65)
        self.meaning = {"canonical": functions.canonical(f), "in_bounds": functions.in_bounds(f), "from_base": z3.UGE(f.address, self.base)}
        self.facts = {it: z3.Bool(f"{name}_{it}") for it in self.meaning}
        self.base_is, self.top_is = z3.BitVec(f"{name}_base", 64), z3.BitVec(f"{name}_top", 65)
        self.hidden = [(model.distance(f), z3.BitVec(f"{name}_distance", 64))]

    def owns(self, term):
        return bool(variables(term)) and variables(term) <= self.names

    def abstract(self):
        return [(self.meaning[it], self.facts[it]) for it in self.facts] + [(self.base, self.base_is), (self.top, self.top_is)]

    def parts(self):
        # on some paths a term is several of these: the bytes from the address up to the top say more than the top does
        numbers = [(self.top - self.address, self.top_is - self.address), (self.top, self.top_is)]
        pieces = [tuple(bits(it, *place) for it in number) for place in ((64, 64), (63, 0)) for number in numbers]
        return [(self.base, self.base_is), *numbers, *pieces]


def between(terms, half):
    """Returns the terms of one word that meet something else, where they are more than a few of its bits."""
    found, seen = {}, {}

    def walk(term):
        if term.get_id() not in seen:
            seen[term.get_id()] = term
            for child in term.children():
                if not half.owns(child):
                    walk(child)
                elif z3.is_bv(child) and not is_small(child, 20):
                    found[child.get_id()] = child

    for term in terms:
        if not half.owns(term):
            walk(term)
    return found.values()


def two_words(name, ends, wanted):
    """Functions of two words. The conditions on one word alone prove facts about it, with its exponent known: whether it is canonical,
    whether its address is in its bounds, or above its top, and that a term of the code is its base, its top, or the number of bytes from the
    address up to the top. Then these are names, and the others are bits that are compared, without shifts."""
    halves = [Half(functions.WORD, "word", CASES["word"]), Half(functions.OTHER, "other", CASES["other"])]
    places = [it for half in halves for it in half.abstract()]
    wanted = {field: z3.substitute(term, *places) for field, term in wanted.items()}
    used = set().union(*map(variables, wanted.values()))

    def asked(half, path, fields):
        """Returns what the conditions on one word might prove: what it is about, the fact, and what says it by the names, as a condition or as
        the name of a term."""
        found = []
        for it, fact in half.facts.items():
            if str(fact) in used:
                found += [(fact, half.meaning[it], fact), (fact, z3.Not(half.meaning[it]), z3.Not(fact))]
        if str(half.top_is) in used:
            orders = [(order(half.address, half.top), order(half.address, half.top_is)) for order in (z3.ULE, z3.UGT)]
            found += [(is_named, fact, is_named) for fact, is_named in orders]
        if used & {str(half.base_is), str(half.top_is)}:
            for term in between([*path, *fields.values()], half):
                size = term.size()
                parts = [(wide(meaning, size), wide(is_named, size)) for meaning, is_named in half.parts() if meaning.size() <= size]
                found += [(term, term == meaning, (term, is_named)) for meaning, is_named in parts]
        return found

    def key(own, fact):
        return *(it.get_id() for it in own), fact.get_id()

    most, held, rows = bv(model.TWO64, 65), set(), []
    for half in halves:
        never(z3.And(half.meaning["canonical"], z3.UGT(half.top, most)), "a canonical word that ends above 2^64", half.cases)
        rows.append([([it for it in path if half.owns(it)], asked(half, path, fields)) for path, fields in ends])
        different = {key(own, fact): (own, fact) for own, about in rows[-1] for _, fact, _ in about}
        # the last cases have the shortest terms, and drop most of what does not hold
        held |= {*following([(*it, number) for number, it in different.items()], half.cases[::-1], half.hidden)}
    for (path, fields), *row in zip(ends, *rows):
        facts, places, taken = [z3.Implies(half.facts["canonical"], z3.ULE(half.top_is, most)) for half in halves], [], set()
        for own, about in row:
            # of what is asked about the same, the first that follows is taken
            for subject, fact, what in about:
                if key(own, fact) in held and subject.get_id() not in taken:
                    taken.add(subject.get_id())
                    (places if isinstance(what, tuple) else facts).append(what)
        light = [z3.substitute(it, *places) for it in path]
        differs = z3.Or(*[z3.substitute(fields[it], *places) != wanted[it] for it in wanted])
        never(z3.And(*facts, *filter(is_small, light), differs), "the result")


def bounds(_, ends, wanted):
    of_request({it: merged(ends, it) for it in wanted}, wanted, functions.BASE)


def moved(_, ends, wanted):
    """increment, for every new address, with the difference to the old one for the number."""
    never(NUMBER + LOW - LOW != NUMBER, "a number that is no difference")
    cases = [(case, [*places, (NUMBER, NUMBER - LOW)], extra) for case, places, extra in CASES["word"]]
    never(differing(ends, wanted), "the result", cases)


def offset(_, ends, wanted):
    """set_offset: first that the code adds the number to the word's base, and then, as for increment, for every new address."""
    made = [(path, {"low": along(path, fields["low"])}) for path, fields in ends if not z3.is_bv_value(fields["low"])]
    if not made:
        raise NotProved("no word", None)
    low = merged(made, "low")
    base = z3.simplify(z3.substitute(low, (NUMBER, bv(0, 64))))
    never(low != base + NUMBER, "the new address", CASES["word"])
    never(base != model.decode_short(functions.WORD)[0], "the base", CASES["word"])
    term = differing(ends, functions.moved(base + NUMBER))
    by_cases(z3.simplify(z3.substitute(term, (NUMBER, NUMBER - base))), "the result", "word")


WAYS = {"increment": moved, "set_offset": offset, "set_bounds": bounds, "lost": bounds, "set_bounds_on": bounded, "set_bounds_exact_on": bounded}
WAYS |= {it: two_words for it in "is_subset seal unseal rebuild".split()}


def prove(name, ends):
    """Raises NotProved, unless the ends of a function have the fields of the model."""
    wanted = FUNCTIONS[name].result()
    assert ends and {*wanted} == {field for field, _, _ in FUNCTIONS[name].layout}
    never(z3.And(*FUNCTIONS[name].premises, z3.Not(z3.Or(*[z3.And(*path) for path, _ in ends]))), "an input without a path")
    try:
        WAYS.get(name, direct)(name, ends, wanted)
    except NotProved as error:
        # what bounded() and two_words() leave out of a query might not hold for the input that z3 found
        differs = differing(ends, wanted)
        if error.found is None or z3.is_true(error.found.eval(z3.substitute(differs, *error.places) if error.places else differs, True)):
            raise
        raise NotProved(f"{error.where}, for more than the inputs of the function", None) from error
