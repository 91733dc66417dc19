"""Compares the model with the conformance tables, which conformance/generate.py computed from the format's text alone: on each row, and
on a word for each path through the model's decoder, which z3 finds."""
import functions
import model
import z3
from functions import BASE, HIGH, LENGTH, LOW, NUMBER, WORD
from model import ext
from prove import CASES, conditions
from shared import load, rows
from straight import computed

# no internal exponent, the lowest and the highest one, one between, those next to where a correction ends, and digits too high
KINDS = "IE=0", "E=0", "E=30", "E=48", "E=49", "E=50", "E=51", "E=52", "E=53", "E>55"


def tables():
    """Returns for each table the column and the lowest bit of each variable, and the columns that the model computes."""
    base, top, e = model.decode(WORD)
    word = {it: getattr(WORD, it) for it in "perms reserved flag ie t b address".split()}
    word |= {"type": WORD.otype, "exponent": e, "base": base, "top": top, "canonical": functions.canonical(WORD)}
    g = model.Granted(BASE, LENGTH)
    request = {it: getattr(g, it) for it in "granted_base granted_top ie t b exact".split()}
    request |= {"exponent": g.e, "mask": functions.alignment_mask(), "rounded": functions.rounded(functions.of_length())}
    halves, length = {"high": ("word", 64), "low": ("word", 0)}, {"length_high": ("length", 64), "length_low": ("length", 0)}
    window = {"representable": functions.keeps_bounds(WORD, NUMBER)}
    return {"conformance": (halves, word), "requests": (length | {"base": ("base", 0)}, request), "addresses": (halves | {"number": ("address", 0)}, window)}


def differences():
    """Returns what differs, and prints how much was compared."""
    made, wrong, count = load("generate", "conformance/generate.py"), [], 0
    words = [made.row_of(f"path {n}", word) for n, word in enumerate(paths())]
    for name, (inputs, columns) in tables().items():
        compute, given = computed(columns), rows(name) + words * (name == "conformance")
        count += len(given)
        for row in given:
            found = compute({it: int(row[column], 16) >> lowest & 2**64 - 1 for it, (column, lowest) in inputs.items()})
            wrong += [f"{name} {row['name']} {it}: the model has {found[it]:#x}" for it in columns if found[it] != number(it, row[it])]
    print(f"the model: {count} rows of the conformance tables and of words for {len(words)} paths")
    return wrong


def number(column, text):
    if text in ("yes", "no"):
        return int(text == "yes")
    return int(text, 16 if text.startswith("0x") or column in ("perms", "type", "t", "b") else 10)


def paths():
    """Yields a word for each combination of what the decoder decides that some word has, with each kind of exponent."""
    base, top, _ = model.decode(WORD)
    decided, word = conditions(z3.Concat(base, top)), z3.Concat(HIGH, LOW)
    for _, places, _ in (it for it in CASES["word"] if it[0] in KINDS):
        solver = z3.SolverFor("QF_BV")
        here = [z3.simplify(z3.substitute(it, *places)) for it in decided]
        while solver.check() == z3.sat:
            found = solver.model()
            yield found.eval(z3.substitute(word, *places), True).as_long()
            solver.add(z3.Or(*[it != found.eval(it, True) for it in here]))
