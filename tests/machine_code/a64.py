"""The A64 instructions that the functions have, and the procedure call standard AAPCS64, by Arm's manual, part C6. An instruction that
is not here is refused."""
import re

import capstone
import z3
from capstone import arm64_const as c
from lift import LANED, STACK, Lifter, Refused, bit_of, laned, lanes, low, pointer, signed, signed_right, top_bit, unknown, vector, wide
from model import bits, bv

ALIASES = {"fp": "x29", "lr": "x30"}
SHIFTS = {c.ARM64_SFT_LSL: lambda a, n: a << n, c.ARM64_SFT_LSR: z3.LShR, c.ARM64_SFT_ASR: signed_right}
# a vector of 128 bits, its lowest part, or a lane, and the bits of a lane by its letter
GENERAL = re.compile(r"[xw]([12]?\d|30)")
VIEW = re.compile(r"\{?([vqds])(\d+)(?:\.(16b|2d|d)(?:\[(\d)\])?)?\}?")
BITS = {"b": 8, "s": 32, "d": 64, "q": 128}
PACKED = {"and": "and", "orr": "or", "eor": "xor", "add": "add", "umax": "max", "umin": "min", "uqadd": "saturated", "cmhi": "above", "cmeq": "equal"}
NAMED = {"lsl": c.ARM64_SFT_LSL, "lsr": c.ARM64_SFT_LSR, "asr": c.ARM64_SFT_ASR}


def condition(code, flags):
    n, zero, carry, v = (flags[it] for it in "NZCV")
    found = {
        c.ARM64_CC_EQ: zero, c.ARM64_CC_HS: carry, c.ARM64_CC_MI: n, c.ARM64_CC_VS: v, c.ARM64_CC_HI: z3.And(carry, z3.Not(zero)),
        c.ARM64_CC_GE: n == v, c.ARM64_CC_GT: z3.And(z3.Not(zero), n == v),
    }
    opposite = {
        c.ARM64_CC_NE: c.ARM64_CC_EQ, c.ARM64_CC_LO: c.ARM64_CC_HS, c.ARM64_CC_PL: c.ARM64_CC_MI, c.ARM64_CC_VC: c.ARM64_CC_VS,
        c.ARM64_CC_LS: c.ARM64_CC_HI, c.ARM64_CC_LT: c.ARM64_CC_GE, c.ARM64_CC_LE: c.ARM64_CC_GT,
    }
    if code in opposite:
        return z3.Not(found[opposite[code]])
    if code not in found:
        raise Refused(f"condition {code}")
    return found[code]


class A64(Lifter):
    disassembler = capstone.Cs(capstone.CS_ARCH_ARM64, capstone.CS_MODE_ARM)
    disassembler.detail = True
    SAVED, STACK_POINTER = [f"x{n}" for n in range(19, 30)] + [f"v{n}" for n in range(8, 16)], "sp"
    # the bits of a place in an instruction
    PLACES = {"adrp": 0x60FFFFE0, "ldr": 0x003FFC00, "b": 0x03FFFFFF, "bl": 0x03FFFFFF, "tbz": 0x0007FFE0, "tbnz": 0x0007FFE0}

    # ---- operands

    def read(self, state, name):
        if name in ("xzr", "wzr"):
            return bv(0, 64 if name == "xzr" else 32)
        name = ALIASES.get(name, name)
        if name in ("sp", "wsp"):
            return low(state.regs["sp"], 64 if name == "sp" else 32)
        if not GENERAL.fullmatch(name):
            raise Refused(f"a register {name}")
        return low(state.regs[f"x{name[1:]}"], 32) if name[0] == "w" else state.regs[name]

    def write(self, state, name, term):
        name = ALIASES.get(name, name)
        if name not in ("sp", "xzr", "wzr") and not GENERAL.fullmatch(name):
            raise Refused(f"a register {name} that is written")
        assert term.size() == (32 if name[0] == "w" else 64)
        if name not in ("xzr", "wzr"):
            state.regs[f"x{name[1:]}" if name[0] == "w" else name] = z3.simplify(wide(term, 64))

    def get(self, state, one, k, size):
        operand = one.operands[k]
        if operand.type == c.ARM64_OP_IMM:
            found = bv(operand.imm, size)
        elif operand.type == c.ARM64_OP_REG:
            found = self.read(state, one.reg_name(operand.reg))
        else:
            raise Refused(f"an operand of {one.mnemonic} {one.op_str}")
        if operand.ext:  # UXTB, UXTH, UXTW, UXTX, and then the signed ones
            part = low(found, min((8, 16, 32, 64)[(operand.ext - 1) % 4], found.size()))
            found = (wide if operand.ext <= c.ARM64_EXT_UXTX else signed)(part, size)
        if operand.shift.type:
            if operand.shift.type not in SHIFTS:
                raise Refused(f"a shift of {one.mnemonic} {one.op_str}")
            found = SHIFTS[operand.shift.type](found, bv(operand.shift.value, found.size()))
        return found

    def address(self, state, one, k):
        """Returns the address of operand k. The base may change by an offset before, or after, which then is the next operand."""
        memory, is_after = one.operands[k].mem, len(one.operands) > k + 1
        if one.operands[k].type != c.ARM64_OP_MEM or memory.index:
            raise Refused(f"an address of {one.mnemonic} {one.op_str}")
        name = ALIASES.get(one.reg_name(memory.base), one.reg_name(memory.base))
        base = self.read(state, name)
        if name == "sp" and state.memory.place(base)[1] % 16:
            raise Refused("a stack pointer that is not aligned")
        moved = base + bv(one.operands[k + 1].imm if is_after else memory.disp, 64)
        if one.writeback:
            others = [one.reg_name(it.reg) for it in one.operands[:k]]
            if {f"{size}{name[1:]}" for size in "xw"} & {ALIASES.get(it, it) for it in others}:
                raise Refused(f"the base of {one.mnemonic} {one.op_str} is in it twice")
            self.write(state, name, moved)
        return base if is_after else moved

    def store(self, state, place, term, size):
        state.memory.store(place, term, size, state.regs["sp"])

    # ---- flags

    def flagged(self, state, result, carry, overflow):
        found = {"N": top_bit(result), "Z": result == 0, "C": carry, "V": overflow}
        state.flags = {name: z3.simplify(term) for name, term in found.items()}

    def add(self, state, a, b, has_flags):
        result, size = a + b, a.size()
        if has_flags:
            self.flagged(state, result, top_bit(wide(a, size + 1) + wide(b, size + 1)), top_bit((a ^ result) & (b ^ result)))
        return result

    def subtract(self, state, a, b, has_flags, borrow=None):
        """Returns a - b, or a - b - borrow. The carry says that nothing was borrowed."""
        size = a.size()
        less = bv(0, size) if borrow is None else bit_of(borrow, size)
        result = a - b - less
        if has_flags:
            fits = z3.UGE(a, b) if borrow is None else z3.UGE(wide(a, size + 1), wide(b, size + 1) + wide(less, size + 1))
            self.flagged(state, result, fits, top_bit((a ^ b) & (a ^ result)))
        return result

    # ---- instructions

    def step(self, state, one):
        name, operands = one.mnemonic, one.operands
        views = [VIEW.fullmatch(it) for it in one.op_str.split(", ")]
        if any(views):
            return self.vector(state, one, name, views)
        target = one.reg_name(operands[0].reg) if operands and operands[0].type == c.ARM64_OP_REG else ""
        size = 32 if target.startswith("w") else 64
        get, put = lambda k: self.get(state, one, k, size), lambda term: self.write(state, target, term)

        def number(k):
            if operands[k].type != c.ARM64_OP_IMM:
                raise Refused(f"an operand of {name} {one.op_str}")
            return operands[k].imm

        if name == "adrp":
            put(pointer(next(base for base, address in self.bases.items() if address == number(1))))
        elif name in ("mov", "movz", "movn", "mvn"):
            put(get(1) if name.startswith("mov") and name != "movn" else ~get(1))
        elif name == "movk":
            lowest = operands[1].shift.value if operands[1].shift.type else 0
            put(get(0) & ~bv(0xFFFF << lowest, size) | bv(number(1) << lowest, size))
        elif name in ("add", "adds", "cmn", "sub", "subs", "cmp", "neg", "negs"):
            first = 0 if name in ("cmn", "cmp") else 1
            a, b = (bv(0, size), get(1)) if name.startswith("neg") else (get(first), get(first + 1))
            result = (self.add if name[:2] in ("ad", "cm") and name != "cmp" else self.subtract)(state, a, b, name not in ("add", "sub", "neg"))
            if first:
                put(result)
        elif name in ("sbc", "sbcs", "ngc", "ngcs"):
            a, b = (bv(0, size), get(1)) if name.startswith("ngc") else (get(1), get(2))
            put(self.subtract(state, a, b, name.endswith("s"), z3.Not(state.flags["C"])))
        elif name in ("and", "ands", "tst", "orr", "eor", "bic", "orn"):
            first = 0 if name == "tst" else 1
            a, b = get(first), get(first + 1)
            result = {"orr": a | b, "eor": a ^ b, "bic": a & ~b, "orn": a | ~b}.get(name, a & b)
            if name in ("ands", "tst"):
                self.flagged(state, result, z3.BoolVal(False), z3.BoolVal(False))
            if first:
                put(result)
        elif name in NAMED:
            put(SHIFTS[NAMED[name]](get(1), get(2) & (size - 1)))
        elif name in ("ubfx", "ubfiz", "bfi", "bfxil"):
            a, lowest, mask = get(1), number(2), bv((1 << number(3)) - 1, size)
            part = z3.LShR(a, lowest) & mask if name in ("ubfx", "bfxil") else (a & mask) << lowest
            kept = {"bfi": ~(mask << lowest), "bfxil": ~mask}.get(name, bv(0, size))
            put(get(0) & kept | part)
        elif name == "sbfx":
            put(z3.SignExt(size - number(3), bits(get(1), number(2) + number(3) - 1, number(2))))
        elif name in ("uxtb", "uxth", "uxtw"):
            put(wide(low(self.read(state, one.reg_name(operands[1].reg)), {"b": 8, "h": 16, "w": 32}[name[3]]), size))
        elif name == "clz":
            a, result = get(1), bv(size, size)
            for k in range(size):
                result = z3.If(bits(a, k, k) == 1, bv(size - 1 - k, size), result)
            put(result)
        elif name == "rev":
            put(z3.Concat(*[bits(get(1), 8 * k + 7, 8 * k) for k in range(size // 8)]))
        elif name in ("csel", "csinc", "csinv", "csneg", "cinc", "cinv", "cneg", "cset", "csetm"):
            holds = condition(one.cc, state.flags)
            if name.startswith("cs") and name[2:] in ("el", "inc", "inv", "neg"):
                one_way, b = get(1), get(2)
                put(z3.If(holds, one_way, {"csel": b, "csinc": b + 1, "csinv": ~b, "csneg": -b}[name]))
            elif name.startswith("cset"):
                put(z3.If(holds, bv(1 if name == "cset" else -1, size), bv(0, size)))
            else:
                a = get(1)
                put(z3.If(holds, {"cinc": a + 1, "cinv": ~a, "cneg": -a}[name], a))
        elif name == "ccmp":
            holds = condition(one.cc, state.flags)
            self.subtract(state, get(0), get(1), True)
            for k, flag in enumerate("VCZN"):
                state.flags[flag] = z3.simplify(z3.If(holds, state.flags[flag], z3.BoolVal(bool(number(2) >> k & 1))))
        elif name in ("ldr", "ldur", "ldrb", "ldurb", "ldrh", "ldurh"):
            put(wide(state.memory.load(self.address(state, one, 1), {"b": 1, "h": 2}.get(name[-1], size // 8)), size))
        elif name in ("str", "stur", "strb", "sturb", "strh", "sturh"):
            count = {"b": 1, "h": 2}.get(name[-1], size // 8)
            self.store(state, self.address(state, one, 1), low(get(0), 8 * count), count)
        elif name in ("stp", "ldp"):
            place = self.address(state, one, 2)
            for k in range(2):
                if name == "stp":
                    self.store(state, place + k * size // 8, get(k), size // 8)
                else:
                    self.write(state, one.reg_name(operands[k].reg), state.memory.load(place + k * size // 8, size // 8))
        elif name in ("b", "bl") or name.startswith("b."):
            if name == "bl":
                state.calls += (state.pc,)
                self.write(state, "x30", self.after(state.pc))
            return z3.BoolVal(True) if name in ("b", "bl") else condition(one.cc, state.flags), number(0)
        elif name in ("cbz", "cbnz"):
            return get(0) == 0 if name == "cbz" else get(0) != 0, number(1)
        elif name in ("tbz", "tbnz"):
            return bits(get(0), number(1), number(1)) == int(name == "tbnz"), number(2)
        elif name == "ret":
            return self.returns(state, self.read(state, target or "x30"), "x30!entry")
        elif name not in ("nop", "bti"):
            raise Refused(f"instruction {name} {one.op_str}")
        return None

    def vector(self, state, one, name, views):
        """An instruction of vectors, of which the last views may be others or none."""
        first, sizes = views[0], [it and BITS[(it[3] or it[1])[-1]] for it in views]

        def get(k):
            if views[k] is None:
                if one.operands[k].type != c.ARM64_OP_REG:
                    raise Refused(f"an operand of {name} {one.op_str}")
                return self.read(state, one.reg_name(one.operands[k].reg))
            held = state.regs[f"v{views[k][2]}"]
            return lanes(held, sizes[k])[int(views[k][4] or 0)] if views[k][4] or not views[k][3] else held

        def put(term, k=0):
            state.regs[f"v{views[k][2]}"] = z3.simplify(wide(term, 128))

        if name in ("ldr", "ldur", "ldp"):
            place = self.address(state, one, 1 + (name == "ldp"))
            for k in range(1 + (name == "ldp")):
                put(state.memory.load(place + k * sizes[k] // 8, sizes[k] // 8), k)
        elif name in ("str", "stur", "stp"):
            place = self.address(state, one, 1 + (name == "stp"))
            for k in range(1 + (name == "stp")):
                self.store(state, place + k * sizes[k] // 8, get(k), sizes[k] // 8)
        elif name in ("fmov", "mov", "umov") and not first:
            self.write(state, one.reg_name(one.operands[0].reg), get(1))
        elif name in ("fmov", "ins") and first[4] and not views[1]:
            parts = lanes(state.regs[f"v{first[2]}"], sizes[0])
            parts[int(first[4])] = get(1)
            put(vector(parts))
        elif name == "fmov" and not views[1]:
            put(get(1))
        elif not first or first[4] or any(it and not it[3] for it in views):
            raise Refused(f"instruction {name} {one.op_str}")
        elif name == "movi":
            put(vector([bv(one.operands[1].imm, sizes[0])] * (128 // sizes[0])))
        elif name in ("ushr", "shl"):
            count = one.operands[2].imm
            put(laned(lambda a: z3.LShR(a, count) if name == "ushr" else a << count, sizes[0], get(1)))
        elif name in PACKED:
            put(laned(LANED[PACKED[name]], sizes[0], get(1), get(2)))
        elif name in ("addp", "uzp1", "uzp2"):
            parts = lanes(get(1), sizes[0]) + lanes(get(2), sizes[0])
            even, odd = parts[::2], parts[1::2]
            put(vector({"addp": [a + b for a, b in zip(even, odd)], "uzp1": even, "uzp2": odd}[name]))
        elif name == "ext" and sizes[0] == 8:
            count = one.operands[3].imm
            put(vector([*lanes(get(1), 8), *lanes(get(2), 8)][count : count + 16]))
        elif name == "rev64":
            put(vector([it for half in lanes(get(1), 64) for it in reversed(lanes(half, sizes[0]))]))
        elif name == "tbl":
            table = [part for k in range(1, len(views) - 1) for part in lanes(get(k), 8)]
            put(vector([self.entry(table, z3.simplify(it)) for it in lanes(get(len(views) - 1), 8)]))
        else:
            raise Refused(f"instruction {name} {one.op_str}")
        return None

    @staticmethod
    def entry(table, index):
        found = bv(0, 8)
        for k, part in enumerate(table):
            found = z3.If(index == k, part, found)
        return found

    def placed(self, one, found):
        """A constant is at a page, which a register got before, and an offset. Each different page is a base."""
        if one.mnemonic == "adrp":
            base = next((it for it, address in self.bases.items() if address == one.operands[1].imm), f"PAGE{len(self.bases)}")
            self.bases[base] = one.operands[1].imm
            return base, range(0)
        # a load with an offset of 12 bits, which changes no register but its own
        if one.mnemonic != "ldr" or one.bytes[3] & 0x3B != 0x39:
            return None
        memory, address = one.operands[-1].mem, one.address - 4
        while address in found and found[address].operands and found[address].operands[0].reg != memory.base:
            address -= 4
        if address not in found or found[address].mnemonic != "adrp":
            return None
        size = BITS.get(one.op_str[0], 64 if one.op_str[0] == "x" else 32) // 8
        return self.placed(found[address], found)[0], range(memory.disp, memory.disp + size)

    def without_place(self, one, raw):
        place = self.PLACES.get(one.mnemonic, 0x00FFFFE0)
        return (int.from_bytes(raw, "little") & ~place).to_bytes(4, "little")

    # ---- the ABI

    def call(self, entry, arguments, function):
        """Returns the ends of a call, as x86.py does. A struct of more than 16 bytes is given by a pointer to it."""
        stacked, size = function.struct, function.in_memory
        regions = {"SP": (-STACK, 0, 0), "OUT": (0, size, size), "STRUCT": (0, 0, len(stacked))}
        held = {("STRUCT", k): byte for k, byte in enumerate(stacked)}
        regs = {f"x{n}": pointer(f"x{n}!entry") for n in range(31)} | {"sp": pointer("SP")} | {f"v{n}": z3.BitVec(f"v{n}!entry", 128) for n in range(32)}
        given = [pointer("STRUCT")] * bool(stacked) + arguments
        regs |= {f"x{n}": term for n, term in enumerate(given)} | ({"x8": pointer("OUT")} if size else {})
        ends = self.called(entry, regs, {name: unknown(0, name) for name in "NZCV"}, regions, held, function)
        return [(end, z3.Concat(end.regs["x1"], end.regs["x0"])) for end in ends]
