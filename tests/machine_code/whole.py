"""Compares whole functions: the processor, the terms of the lifter and the model, on inputs that z3 finds for each path of a function.
The processor is this one for x86-64, and QEMU's by unicorn for aarch64. The terms and the model are compared on random inputs too."""
import ctypes
import random

import model
import z3
from functions import FIELDS, FUNCTIONS, IN_GRANTED, NAMES, PACKED, PADDING, TEXT, WORD, Buffer
from prove import merged, solver
from steps import random_number
from straight import computed

JUNK = [z3.BitVec(f"junk_{size}", size) for size in (32, 48, 63)]
VARIABLES = [*(z3.BitVec(name, 64) for name in NAMES.split()), *PACKED.values(), *PADDING, *TEXT, *IN_GRANTED, *JUNK]


class X86:
    """Calls the functions of a shared library."""

    def __init__(self, path, image):
        self.library = ctypes.CDLL(str(path))

    def call(self, name, arguments, struct, size):
        def words(number):
            return type("Words", (ctypes.Structure,), {"_fields_": [("words", ctypes.c_uint64 * number)]})

        entry = self.library[f"cheri_cap_{name}"]
        entry.restype = words((size or 16) // 8)
        # a pointer leads to the bytes themselves
        given = [(ctypes.c_char * len(it)).from_buffer(it) if isinstance(it, bytearray) else ctypes.c_uint64(it) for it in arguments]
        return bytes(entry(*given, *([words(3).from_buffer_copy(struct)] if struct else [])))


class A64:
    def __init__(self, path, image):
        import unicorn
        from unicorn import arm64_const as u

        self.u, self.image, self.cpu = u, image, unicorn.Uc(unicorn.UC_ARCH_ARM64, unicorn.UC_MODE_ARM)
        self.cpu.mem_map(0, 1 << 20)
        self.cpu.mem_map(1 << 24, 1 << 16)
        self.cpu.reg_write(u.UC_ARM64_REG_CPACR_EL1, 3 << 20)  # vectors are permitted
        for start, data, _ in image.segments:
            self.cpu.mem_write(start, bytes(data))

    def call(self, name, arguments, struct, size):
        u, free = self.u, 1 << 24
        self.cpu.mem_write(free, struct or bytes(24))
        for n, value in enumerate([free] if struct else arguments):
            if isinstance(value, bytearray):
                self.cpu.mem_write(free + 512, bytes(value))
            self.cpu.reg_write(u.UC_ARM64_REG_X0 + n, free + 512 if isinstance(value, bytearray) else value)
        for register, value in (u.UC_ARM64_REG_X8, free + 256), (u.UC_ARM64_REG_SP, free + 0x8000), (u.UC_ARM64_REG_X30, free + 0xF000):
            self.cpu.reg_write(register, value)
        self.cpu.emu_start(self.image.functions[f"cheri_cap_{name}"], free + 0xF000)
        for value in arguments:
            if isinstance(value, bytearray):
                value[:] = self.cpu.mem_read(free + 512, len(value))
        if size:
            return bytes(self.cpu.mem_read(free + 256, size))
        return b"".join(self.cpu.reg_read(it).to_bytes(8, "little") for it in (u.UC_ARM64_REG_X0, u.UC_ARM64_REG_X1))


MACHINES = {"EM_X86_64": X86, "EM_AARCH64": A64}


def witness(path, chance):
    """Returns an input that takes a path: a value for each variable, those that the path leaves open at random."""
    made = solver()
    made.add(*path)
    if made.check() != z3.sat:
        return None
    found, values = made.model(), {}
    for variable in VARIABLES:
        value = found.eval(variable)
        values[variable] = value.as_long() if z3.is_bv_value(value) else chance.getrandbits(variable.size())
    return values


def real(processor, name, values):
    """Returns the fields of the result that the processor computes."""
    function, arguments = FUNCTIONS[name], []

    def value(term):
        return z3.simplify(z3.substitute(term, *[(it, model.bv(number, it.size())) for it, number in values.items()])).as_long()

    for one in function.inputs:
        if isinstance(one, Buffer):
            arguments.append(bytearray(map(value, one.held)).ljust(one.written or 1, b"\0"))
        elif isinstance(one, tuple):
            variable, size, filled = one
            arguments.append(value(variable) & (1 << size) - 1 | (values[z3.BitVec(f"junk_{64 - filled}", 64 - filled)] << filled))
        else:
            arguments.append(value(one))
    given = processor.call(name.partition(":")[0], arguments, bytes(map(value, function.struct)), function.in_memory)
    if function.written:
        given = next(it for one, it in zip(function.inputs, arguments) if one is function.written)
    return {field: int.from_bytes(given[offset : offset + size], "little") for field, offset, size in function.layout}


def both(name, ends):
    """Returns a function of an input: the fields of the lifted function and of the model that differ."""
    wanted = FUNCTIONS[name].result()
    compute = computed({(field, who): term for field in wanted for who, term in (("lifted", merged(ends, field)), ("model", wanted[field]))})

    def values(given):
        found = compute(given)
        return {field: (found[field, "lifted"], found[field, "model"]) for field in wanted}

    return values, compute.variables


def differences(path, image, name, ends):
    """Returns what differs, on an input for each end of a function."""
    processor, (values_of, others), chance, wrong = MACHINES[image.machine](path, image), both(name, ends), random.Random(1), []
    for conditions, _ in ends:
        values = witness(conditions, chance)
        if values is None:
            continue
        given = {it: chance.getrandbits(size) for it, size in others.items()} | {str(variable): value for variable, value in values.items()}
        found = values_of(given)
        for field, number in real(processor, name, values).items():
            lifted, modelled = found[field]
            if not lifted == modelled == number:
                wrong.append(f"{field}: the processor has {number:#x}, the lifter {lifted:#x}, the model {modelled:#x}: {given}")
    return wrong


# ---- random inputs

decoded = computed(dict(zip(("base", "top", "e"), model.decode(WORD))))


def random_word(chance):
    """Returns a word, which is canonical in about half of the cases, and its bounds and exponent. Its address is often in these, or next to
    an end of them."""
    digits, ie = chance.randrange(54), chance.randrange(8) > 0
    t, b = ((chance.getrandbits(size) & chance.choice((-1, -1, 7 << size - 3)) & ~(7 * ie) | ie * digit) for size, digit in ((12, digits >> 3), (14, digits & 7)))
    otype = chance.choice([0x3FFFF] * 4 + [0x3FFF0 + chance.randrange(-1, 16), chance.getrandbits(18), chance.getrandbits(3)])
    perms, reserved = chance.getrandbits(16) | chance.getrandbits(16), chance.randrange(64) % 61 % 4 * (chance.random() < 0.05)
    high = (perms << 48 | reserved << 46 | chance.getrandbits(1) << 45 | otype << 27 | ie << 26 | t << 14 | b) ^ model.MASK
    low = random_number(chance)
    found = decoded({"high": high, "low": low})
    length = max(found["top"] - found["base"], 1)
    if chance.random() < 0.7:
        low = found["base"] + chance.choice((0, length - 1, length, chance.randrange(length), chance.randrange(1 << 12), otype)) & 2**64 - 1
    return high, low, decoded({"high": high, "low": low})


def random_input(chance, others):
    """Returns a value for each variable: a word, a second one, which is often its part, and a request for bounds and an address, which are
    often in the word's or next to an end of them. `others` are the sizes of the other variables."""
    high, low, found = random_word(chance)
    other_high, other_low, _ = random_word(chance)
    if chance.random() < 0.3:
        other_high, other_low = high ^ (chance.getrandbits(16) & chance.getrandbits(16)) << 48 * chance.getrandbits(1), low
    if chance.random() < 0.3:
        other_low = (high ^ model.MASK) >> 27 & 0x3FFFF
    near = chance.choice((-1, 0, 0, 1))
    length = chance.choice((random_number(chance), chance.getrandbits(chance.randrange(66)), chance.randrange(1 << chance.randrange(1, found["e"] + 15)),
                            found["top"] - low + near, (1 << chance.randrange(65)) + near, chance.getrandbits(128))) & 2**128 - 1
    end = found["base"] + (chance.randrange(-16, 17) << found["e"] + 11) + near
    number = chance.choice((random_number(chance), end, end - low)) & 2**64 - 1
    base = chance.choice((random_number(chance), low, 2**64 - length + near)) & 2**64 - 1
    values = dict(zip(NAMES.split(), (high, low, other_high, other_low, number, length >> 64, length & 2**64 - 1, base)))
    return {name: chance.getrandbits(size) for name, size in others.items()} | values


def witnessed(name, ends, count):
    """Returns an input for which the lifted function and the model differ, of that many random ones, or None."""
    (values_of, variables), chance = both(name, ends), random.Random(1)
    for _ in range(count):
        given = random_input(chance, variables)
        found = values_of(given)
        if any(lifted != modelled for lifted, modelled in found.values()):
            return found, {it: hex(given[it]) for it in variables}
    return None
