"""Makes mistakes that the check must find, each in a copy: in the model, in the machine code of a file, and in the lifter.

Usage: tests/machine_code/mutate.py FILE [COUNT [SEED [NUMBER..]]]

It makes each mistake of MODEL, and COUNT changed bytes of FILE, a linked file; or of these bytes only those with the numbers. It compares
random inputs first, and leaves to z3 what agrees. It prints for each `wrong` (found, with an input that shows it), `refused` (found: the
code does what no function may), `equal` (every input has the same result) or `not decided`.
"""
import random
import shutil
import subprocess
import sys
import tempfile
from pathlib import Path

HERE = Path(__file__).resolve().parent
INPUTS = 10_000
# the old and the new text in model.py or functions.py, and a function that shows it
MODEL = (
    ("carry = one(z3.ULT(t_low", "carry = one(z3.ULE(t_low", "decode"),
    ("z3.ULT(e, CAP_MAX_E - 1)", "z3.ULT(e, CAP_MAX_E)", "decode"),
    ("CAP_MAX_E), bv(CAP_MAX_E, W)", "CAP_MAX_E), bv(CAP_MAX_E + 1, W)", "decode"),
    ("r3 = b3 - 1", "r3 = b3 - 2", "decode"),
    ("(t & (unit - 1)) != 0)", "(t & (unit - 1)) != 1)", "set_bounds"),
    ("grows = bits(above - below, 10, 10) == 1", "grows = z3.UGE(above - below, 1023)", "set_bounds"),
    ("bits(n, 12, 12) == 1", "bits(n, 11, 11) == 1", "granule"),
    ("z3.UGE(f.otype, 0x3FFF0)", "z3.UGE(f.otype, 0x3FFF1)", "is_canonical"),
    ("z3.ULE(top, bv(TWO64, 65))", "z3.ULT(top, bv(TWO64, 65))", "represents"),
    ("bits(above, 8, 0), bits(digits, 5, 3)", "bits(above, 8, 0), bits(digits, 2, 0)", "set_bounds"),
    ("(g.exact, INEXACT)", "(z3.Not(g.exact), INEXACT)", "set_bounds_exact_on"),
    ('("09", "af", "AF")', '("09", "af", "AG")', "read_word"),
    ("it - 10 + ord", "it - 9 + ord", "write_word"),
    ("bv(-1, 32), z3.If(one", "bv(1, 32), z3.If(one", "compare"),
    ("z3.ULE(end, ext(TOP, 130))", "z3.ULT(end, ext(TOP, 130))", "bounds_hold"),
    ("z3.ULE(end, bv(model.TWO64, 130))", "z3.ULT(end, bv(model.TWO64, 130))", "bounds_hold_bytes"),
    ("model.decode_short(WORD)[0] + NUMBER", "LOW + NUMBER", "set_offset"),
)
# the borrow is left out of the carry of sbb and sbc
LIFTER = {
    "EM_X86_64": ("x86.py", "wide(b, size + 1) + wide(borrow, size + 1)", "wide(b, size + 1)"),
    "EM_AARCH64": ("a64.py", "wide(b, size + 1) + wide(less, size + 1)", "wide(b, size + 1)"),
}
PROVE = """
import sys, lift, prove, whole
image = lift.Image(sys.argv[1])
for name in sys.argv[3:]:
    try:
        ends = prove.ends_of(image, name)
        found = whole.witnessed(name, ends, int(sys.argv[2]))
        if not found:
            prove.prove(name, ends)
        print("wrong: a random input:" if found else "equal", found or "")
    except lift.Refused as error:
        print("refused", error)
    except prove.NotProved as error:
        print("wrong" if error.found is not None else "not decided", error)
"""
STEPS = """
import sys, lift, prove, steps
image, codes = lift.Image(sys.argv[1]), set()
for name in sys.argv[3:]:
    machine, entry = prove.machine_of(image, name)
    codes |= {bytes(it.bytes) for it in machine.code(entry).values()}
print("wrong" if steps.differences(image.machine, codes, 20) else "equal")
"""


def said(program, path, *names, change=None, inputs=0):
    """Returns the output of a program on a copy of these files, in one of which a text is replaced by another. Before it asks z3, it compares
    that many random inputs."""
    with tempfile.TemporaryDirectory() as top:
        directory = Path(top, "tests/machine_code")
        shutil.copytree(HERE, directory, ignore=shutil.ignore_patterns("__pycache__"))
        # functions.py reads the header
        shutil.copytree(HERE.parents[1] / "include", Path(top, "include"))
        if change:
            name, old, new = change
            text = (HERE / name).read_text()
            assert text.count(old) == 1, (name, old)
            Path(directory, name).write_text(text.replace(old, new))
        done = subprocess.run([sys.executable, "-Bc", program, path, str(inputs), *names], cwd=directory, capture_output=True, text=True)
        return done.stdout.strip() or done.stderr.strip()[-300:]


def changed(path, address, byte):
    """Returns a copy of a file in which the byte that is loaded at an address is another."""
    import lift
    from elftools.elf.elffile import ELFFile

    with open(path, "rb") as file:
        offset = next(ELFFile(file).address_offsets(address))
    copy = tempfile.NamedTemporaryFile(suffix=Path(path).name)
    data = bytearray(Path(path).read_bytes())
    data[offset] = byte
    copy.write(data)
    copy.flush()
    assert lift.Image(copy.name).at(address, True)[0] == byte
    return copy


def of_x86(one, chance):
    """Yields changes of an instruction: the place of a byte, its new value, and the kind of change."""
    raw = bytes(one.bytes)
    is_jump, first = one.mnemonic.startswith("j"), 1 if 0x40 <= raw[0] <= 0x4F else 0
    if one.imm_offset and not is_jump:
        yield from ((one.imm_offset, raw[one.imm_offset] + step & 255, "number") for step in (1, -1))
    if one.mnemonic.startswith(("cmov", "set")):
        yield raw.index(0x0F, 0, 3) + 1, raw[raw.index(0x0F, 0, 3) + 1] ^ 1, "condition"
    elif is_jump and one.mnemonic != "jmp":
        k = 0 if 0x70 <= raw[0] <= 0x7F else 1
        yield k, raw[k] ^ 1, "condition"
    elif one.modrm_offset:
        k = one.modrm_offset
        yield from ((k, raw[k] ^ 1 << chance.randrange(low, low + 3), "register") for low in (3, 0))
        if raw[first] in (0x01, 0x29, 0x21, 0x09, 0x31, 0x39, 0x11, 0x19):
            yield first, raw[first] ^ 8, "operation"


def of_a64(one, chance):
    bit = chance.randrange(32)
    yield bit // 8, one.bytes[bit // 8] ^ 1 << bit % 8, "bit"


def missed(path, where):
    """Makes a mistake for each run of CI, and yields what the check says if it does not find it."""
    import lift
    import prove

    machine, found = lift.Image(path).machine, "nothing to change"
    if where == "model":
        found = said(PROVE, path, MODEL[0][2], change=("model.py", *MODEL[0][:2]))
    elif where == "lifter":
        found = said(STEPS, path, "word_length", "is_subset", change=LIFTER[machine])
    else:
        lifter, entry = prove.machine_of(lift.Image(path), "flag")
        address, (k, byte, _) = next((one.address, it) for one in lifter.code(entry).values() for it in of_x86(one, random.Random(1)) if it[2] == "number")
        with changed(path, address + k, byte) as copy:
            found = said(PROVE, copy.name, "flag")
    if not found.startswith(("wrong", "refused")):
        yield f"{where}: {found}"


def main():
    import lift
    import prove

    path, count, seed = str(Path(sys.argv[1]).resolve()), int((sys.argv[2:] or ["0"])[0]), int((sys.argv[3:] or ["1"])[0])
    only = {*map(int, sys.argv[4:])}
    image = lift.Image(path)
    names = [it for it in prove.FUNCTIONS if f"cheri_cap_{it.partition(':')[0]}" in image.functions]
    for old, new, name in (it for it in MODEL if not only and it[2] in names):
        file = next(it for it in ("model.py", "functions.py") if old in (HERE / it).read_text())
        print(f"{file}: {new}: {said(PROVE, path, name, change=(file, old, new), inputs=INPUTS)[:150]}", flush=True)
    chance, places, counted = random.Random(seed), [], {}
    for name in names:
        machine, entry = prove.machine_of(image, name)
        places += [(name, one) for _, one in sorted(machine.code(entry).items())]
    number = 0
    while number < count:
        name, one = chance.choice(places)
        made = [*(of_x86 if image.machine == "EM_X86_64" else of_a64)(one, chance)]
        if made:
            number += 1
            k, byte, kind = chance.choice(made)
            if only and number not in only:
                continue
            with changed(path, one.address + k, byte) as copy:
                found = said(PROVE, copy.name, name, inputs=INPUTS)
            verdict = found.split(":")[0].split()[0]
            counted[verdict] = counted.get(verdict, 0) + 1
            print(f"{number} {name} {one.address:#x} {one.mnemonic} {one.op_str}, {kind} at byte {k}: {' '.join(found.split())[:150]}", flush=True)
    print(counted)


if __name__ == "__main__":
    sys.exit(main())
