"""Runs a function of a linked file on z3's bit vectors, one path at a time. x86.py and a64.py have the instructions of the processors; this
file has what is common to them: the file, the memory, the paths, and the promises of the ABI."""
import itertools

import capstone
import z3
from elftools.elf.elffile import ELFFile
from model import bits, bv

PRUNE_EFFORT = 20_000_000  # in z3's own unit, which does not depend on the load of the machine
STACK = 1 << 16


class Refused(Exception):
    """The code does something that has no meaning here, or that the ABI forbids."""


class Image:
    """The functions, the code and the constant data of an ELF file."""

    def __init__(self, path):
        with open(path, "rb") as file:
            elf = ELFFile(file)
            self.machine = elf["e_machine"]
            loaded = [it for it in elf.iter_segments() if it["p_type"] == "PT_LOAD"]
            self.segments = [(it["p_vaddr"], bytearray(it.data()), it["p_flags"]) for it in loaded]
            tables = [it for it in elf.iter_sections() if it["sh_type"] in ("SHT_SYMTAB", "SHT_DYNSYM")]
            found = (it for table in tables for it in table.iter_symbols() if it["st_info"]["type"] == "STT_FUNC" and it["st_shndx"] != "SHN_UNDEF")
            self.functions = {it.name: it["st_value"] for it in found}
            moved = [it for it in elf.iter_sections() if it["sh_type"] in ("SHT_RELA", "SHT_REL")]
            # the loader changes these bytes
            self.relocated = {it["r_offset"] + k for section in moved for it in section.iter_relocations() for k in range(8)}

    def at(self, address, is_code):
        """Returns the bytes of a segment that nobody writes from an address on, or None."""
        for start, data, flags in self.segments:
            if start <= address < start + len(data) and not flags & 2 and (flags & 1 or not is_code):
                return data[address - start :]
        return None

    def constant(self, address):
        found = None if address in self.relocated else self.at(address, False)
        if found is None:
            raise Refused(f"reads {address:#x}, which is not constant data of the file")
        return found[0]

    def patch(self, address, data):
        for start, held, _ in self.segments:
            if start <= address < start + len(held):
                held[address - start : address - start + len(data)] = data


def low(term, size):
    return term if term.size() == size else bits(term, size - 1, 0)


def wide(term, size):
    return term if term.size() == size else z3.ZeroExt(size - term.size(), term)


def signed(term, size):
    return term if term.size() == size else z3.SignExt(size - term.size(), term)


def signed_right(term, count):
    """Returns term >> count: for a constant count as bits, of which z3 knows more."""
    count = z3.simplify(count)
    if z3.is_bv_value(count) and count.as_long() < term.size():
        return signed(bits(term, term.size() - 1, count.as_long()), term.size())
    return term >> count


def top_bit(term):
    return bits(term, term.size() - 1, term.size() - 1) == 1


def bit_of(condition, size=1):
    return z3.If(condition, bv(1, size), bv(0, size))


_fresh = itertools.count()


def unknown(size, why="undefined"):
    """A value of which nothing is known: the manual leaves it undefined, or nobody has set it. A size of 0 is a flag."""
    name = f"{why}!{next(_fresh)}"
    return z3.BitVec(name, size) if size else z3.Bool(name)


def lanes(term, size):
    """Returns the parts of a vector, the lowest first."""
    return [bits(term, k + size - 1, k) for k in range(0, term.size(), size)]


def vector(parts):
    return z3.Concat(*reversed(parts))


def laned(meaning, size, *vectors):
    """Returns the vector of what is done to each lane of the others."""
    return vector([meaning(*it) for it in zip(*(lanes(term, size) for term in vectors))])


# what vectors are used for, lane by lane
LANED = {
    "and": lambda a, b: a & b, "or": lambda a, b: a | b, "xor": lambda a, b: a ^ b, "add": lambda a, b: a + b,
    "max": lambda a, b: z3.If(z3.UGT(a, b), a, b), "min": lambda a, b: z3.If(z3.ULT(a, b), a, b),
    "saturated": lambda a, b: z3.If(z3.ULT(a + b, a), bv(-1, a.size()), a + b),
    "equal": lambda a, b: z3.If(a == b, bv(-1, a.size()), bv(0, a.size())),
    "above": lambda a, b: z3.If(z3.UGT(a, b), bv(-1, a.size()), bv(0, a.size())),
    "signed_above": lambda a, b: z3.If(a > b, bv(-1, a.size()), bv(0, a.size())),
}


def pointer(name):
    return z3.BitVec(name, 64)


class Memory:
    """Bytes of regions that do not overlap, at pointers that are not null. A region is a pointer's name, and what may be read and written
    there: the offsets from the pointer of (the first byte, the end of what may be written, the end of what may be read)."""

    def __init__(self, lifter, regions, held=()):
        self.lifter, self.regions, self.bytes = lifter, regions, dict(held)
        # the offset of the lowest byte of the stack that stays, before the instruction that is run
        self.lowest = -lifter.RED_ZONE

    def copy(self):
        other = Memory(self.lifter, self.regions, self.bytes)
        other.lowest = self.lowest
        return other

    def moved(self, stack):
        """The stack pointer is another: of what is below it, nothing is known any more."""
        region, offset = self.place(stack)
        if region != "SP":
            raise Refused("a stack pointer that is elsewhere")
        self.lowest = offset - self.lifter.RED_ZONE
        self.bytes = {it: byte for it, byte in self.bytes.items() if it[0] != "SP" or it[1] >= self.lowest}

    def place(self, address):
        address = z3.simplify(z3.substitute(address, *[(pointer(it) == 0, z3.BoolVal(False)) for it in self.regions]))
        for name in [*self.regions, *self.lifter.bases]:
            offset = z3.simplify(address - pointer(name))
            if z3.is_bv_value(offset):
                return name, offset.as_signed_long()
        raise Refused(f"an address of no region: {address}")

    def load(self, address, size):
        region, start = self.place(address)
        constant = self.lifter.constants.get(self.lifter.at)
        if constant or region in self.lifter.bases:
            if constant != (region, range(start, start + size)):
                raise Refused(f"reads {region}{start:+#x}, which is not the constant of its text")
            found = [bv(it, 8) for it in self.lifter.held(*constant)]
        else:
            if region == "SP" and start < self.lowest:
                raise Refused("reads below the stack")
            first, _, end = self.regions[region]
            if not first <= start <= start + size <= end:
                raise Refused(f"reads {size} bytes at {region}{start:+d}, which are not its own")
            found = [self.bytes.setdefault((region, it), unknown(8, f"{region}{it:+d}")) for it in range(start, start + size)]
        return z3.simplify(z3.Concat(*reversed(found))) if size > 1 else found[0]

    def store(self, address, term, size, lowest):
        """`lowest` is the lowest address of the stack that may be written: what is below it does not stay."""
        region, start = self.place(address)
        if region == "SP" and start < self.place(lowest)[1]:
            raise Refused("writes below the stack")
        first, end, _ = self.regions.get(region, (0, 0, 0))
        if not first <= start <= start + size <= end:
            raise Refused(f"writes {size} bytes at {region}{start:+d}, which are not its own")
        for k in range(size):
            self.bytes[region, start + k] = z3.simplify(bits(term, 8 * k + 7, 8 * k))


class State:
    def __init__(self, regs, flags, memory, pc):
        self.regs, self.flags, self.memory, self.pc = regs, flags, memory, pc
        self.path, self.visited, self.calls, self.returned = [], set(), (), False
        self.taker = None  # an input that takes the path, as a model of z3, if one is known

    def copy(self):
        other = State(dict(self.regs), dict(self.flags), self.memory.copy(), self.pc)
        other.path, other.visited, other.calls, other.taker = [*self.path], {*self.visited}, self.calls, self.taker
        return other


class Lifter:
    """A subclass has step(state, instruction), which changes the state and returns None, or for a jump its condition and its target."""

    SAVED = STACK_POINTER = disassembler = None  # SAVED are the registers of which a function keeps the low 64 bits
    POPPED = 0  # the bytes that the return itself takes from the stack
    RED_ZONE = 0  # the bytes below the stack pointer that stay

    def __init__(self, image):
        self.image, self.decoded = image, {}
        # The code may be loaded anywhere: a place in it is a variable, the base, and an offset. `bases` has the address of each in the file
        self.bases = {}
        # the constants, as their base and their offsets, by the addresses of the instructions that read them, and of the instruction that is run
        self.constants, self.at = {}, None

    def instruction(self, address):
        if address not in self.decoded:
            code = self.image.at(address, True)
            one = next(self.disassembler.disasm(bytes(code[:16]), address, 1), None) if code else None
            if one is None:
                raise Refused(f"no instruction at {address:#x}")
            self.decoded[address] = one
        return self.decoded[address]

    @staticmethod
    def target(one):
        """Returns where a jump or a call goes to, or None."""
        leaves = one.group(capstone.CS_GRP_JUMP) or one.group(capstone.CS_GRP_CALL) or one.mnemonic == "bl"
        return one.operands[-1].imm & 2**64 - 1 if leaves and one.operands else None

    def code(self, entry):
        """Returns the instructions that can follow an entry, by their addresses, in an order that does not depend on these."""
        found, waiting = {}, [entry]
        while waiting:
            address = waiting.pop()
            while address not in found:
                found[address] = one = self.instruction(address)
                if self.target(one) is not None:
                    waiting.append(self.target(one))
                if one.mnemonic in ("ret", "jmp", "b"):
                    break
                address += one.size
        return found

    def text(self, entry):
        """Returns the code of a function without the places of its parts in the file: the bytes of each instruction without the bits that
        are such a place, the numbers of those that can follow it, and the base and the bytes of a constant. What is left out has no effect,
        since run() refuses a base for anything but the address of a constant."""
        found = self.code(entry)
        number = {address: n for n, address in enumerate(found)}
        lines = []
        for address, one in found.items():
            jump, placed = self.target(one), self.placed(one, found)
            line = [number.get(address + one.size), number.get(jump)]
            if placed:
                base, offsets = placed
                line += base, offsets and (self.bases[base] + offsets[0]) % 16, self.held(base, offsets)
                if offsets:
                    self.constants[address] = placed
            raw = bytes(one.bytes)
            lines.append((*line, raw if jump is None and not placed else self.without_place(one, raw)))
        return lines

    def held(self, base, offsets):
        """Returns the bytes of a constant."""
        return bytes(self.image.constant(self.bases[base] + it) for it in offsets)

    def placed(self, one, found):
        """Returns the base that an instruction has, and the offsets of the constant that it reads there, or None."""
        raise NotImplementedError

    def without_place(self, one, raw):
        """Returns the bytes of an instruction without where it jumps to, or where its constant is."""
        raise NotImplementedError

    @staticmethod
    def after(call):
        """Returns the address to which a call returns."""
        return pointer(f"{call:#x}!code")

    def run(self, state):
        """Returns the states in which the function has returned. Their paths exclude each other, and every input takes one."""
        solver = z3.SolverFor("QF_BV")
        solver.set("rlimit", PRUNE_EFFORT)
        ends, waiting = [], [state]
        while waiting:
            state = waiting.pop()
            while not state.returned:
                if (state.calls, state.pc) in state.visited:
                    raise Refused(f"a loop through {state.pc:#x}")
                state.visited.add((state.calls, state.pc))
                one = self.instruction(state.pc)
                self.at, state.pc, stack = one.address, one.address + one.size, state.regs[self.STACK_POINTER]
                jump = self.step(state, one)
                if not state.regs[self.STACK_POINTER].eq(stack):
                    state.memory.moved(state.regs[self.STACK_POINTER])
                if jump is None:
                    continue
                condition, target = z3.simplify(jump[0]), jump[1]
                if z3.is_true(condition):
                    state.pc = target
                elif not z3.is_false(condition):
                    taken = state.copy()
                    taken.pc = target
                    taken.path.append(condition)
                    state.path.append(z3.simplify(z3.Not(condition)))
                    if self.is_possible(solver, taken):
                        waiting.append(taken)
                    if not self.is_possible(solver, state):
                        break
            if state.returned:
                ends.append(state)
        return ends

    def called(self, entry, regs, flags, regions, held, function):
        """Returns the states in which a function of functions.py has returned, with what its pointers lead to in memory too."""
        regions |= {it.name: (0, it.written, max(it.written, len(it.held))) for it in function.buffers}
        held |= {(it.name, k): byte for it in function.buffers for k, byte in enumerate(it.held)}
        self.text(entry)
        state = State(regs, flags, Memory(self, regions, held), entry)
        state.path += function.premises
        return self.run(state)

    @staticmethod
    def is_possible(solver, state):
        """Whether an input might take the path of a state: the one that is known to take all but its last condition, or another."""
        if state.taker is not None and z3.is_true(state.taker.eval(state.path[-1], True)):
            return True
        solver.push()
        solver.add(*state.path)
        found = solver.check()
        state.taker = solver.model() if found == z3.sat else None
        solver.pop()
        return found != z3.unsat

    def returns(self, state, place, caller):
        """Returns to `place`: after the last call, or to the caller of the function, whose address is `caller`. Then the saved registers and
        the stack pointer must be as they were, which the ABI promises the caller."""
        place = z3.simplify(place)
        if state.calls and place.eq(self.after(state.calls[-1])):
            *calls, back = state.calls
            state.calls = tuple(calls)
            return z3.BoolVal(True), back
        if state.calls or not place.eq(pointer(caller)):
            raise Refused("returns to somewhere else")
        for name in self.SAVED:
            now, entry = (z3.simplify(low(it, 64)) for it in (state.regs[name], z3.BitVec(f"{name}!entry", state.regs[name].size())))
            if not now.eq(entry):
                raise Refused(f"does not restore {name}")
        if not z3.simplify(state.regs[self.STACK_POINTER] - self.POPPED).eq(pointer("SP")):
            raise Refused("does not restore the stack pointer")
        state.returned = True
        return None
