"""The x86-64 instructions that the functions have, and the System V ABI, by Intel's manual, volume 2. A flag that it leaves undefined
becomes an unknown, and an instruction that is not here is refused."""
import itertools

import capstone
import z3
from capstone import x86_const as c
from lift import LANED, STACK, Lifter, Refused, bit_of, laned, lanes, low, pointer, signed, signed_right, top_bit, unknown, vector, wide
from model import bits, bv

FULL = "rax rbx rcx rdx rsi rdi rbp rsp".split() + [f"r{n}" for n in range(8, 16)]
# the full register, the size and the lowest bit of each name
PARTS = {name: (name, 64, 0) for name in FULL}
for name in FULL[:8]:
    PARTS |= {f"e{name[1:]}": (name, 32, 0), name[1:]: (name, 16, 0), f"{name[1:].removesuffix('x')}l": (name, 8, 0)}
    if name.endswith("x"):
        PARTS[f"{name[1]}h"] = name, 8, 8
for name in FULL[8:]:
    PARTS |= {f"{name}d": (name, 32, 0), f"{name}w": (name, 16, 0), f"{name}b": (name, 8, 0)}
ARGUMENTS = "rdi rsi rdx rcx r8 r9".split()
FLAGS = "CF ZF SF OF".split()
PREFIXES = bytes.fromhex("f0 f2 f3 66 67 26 2e 36 3e 64 65")
OWN = {"movdqu": 0xF3, "movq": 0xF3, "pshuflw": 0xF2, "pshufhw": 0xF3, "endbr64": 0xF3}
# the other names of conditions, and the conditions that are the opposite of another
SAME = {"c": "b", "nae": "b", "z": "e", "na": "be", "nge": "l", "ng": "le"}
OPPOSITE = {"ae": "b", "nb": "b", "nc": "b", "ne": "e", "nz": "e", "a": "be", "nbe": "be", "ns": "s", "no": "o", "ge": "l", "nl": "l", "g": "le", "nle": "le"}


# the bits of a lane, by the letter of its size
LANES = {"b": 8, "w": 16, "d": 32, "q": 64}
# what is done to each lane, and the bits of one
PACKED = {it: (name, 64) for name in ("and", "or", "xor") for it in (f"p{name}", f"{name}ps")}
PACKED |= {f"padd{it}": ("add", size) for it, size in LANES.items()} | {f"pcmpeq{it}": ("equal", LANES[it]) for it in "bwd"}
PACKED |= {f"pcmpgt{it}": ("signed_above", LANES[it]) for it in "bwd"}
PACKED |= {"pmaxub": ("max", 8), "pminub": ("min", 8), "paddusb": ("saturated", 8), "paddusw": ("saturated", 16)}


def condition(name, flags):
    if name in OPPOSITE:
        return z3.Not(condition(OPPOSITE[name], flags))
    cf, zf, sf, of = (flags[it] for it in FLAGS)
    found = {"b": cf, "e": zf, "be": z3.Or(cf, zf), "s": sf, "o": of, "l": sf != of, "le": z3.Or(zf, sf != of)}.get(SAME.get(name, name))
    if found is None:
        raise Refused(f"condition {name}")
    return found


class X86(Lifter):
    disassembler = capstone.Cs(capstone.CS_ARCH_X86, capstone.CS_MODE_64)
    disassembler.detail = True
    SAVED, STACK_POINTER, POPPED, RED_ZONE = "rbx rbp r12 r13 r14 r15".split(), "rsp", 8, 128

    def __init__(self, image):
        super().__init__(image)
        self.bases = {"CODE": 0}

    # ---- operands

    def read(self, state, name):
        if name.startswith("xmm"):
            return state.regs[name]
        full, size, lowest = PARTS[name]
        return bits(state.regs[full], lowest + size - 1, lowest) if size < 64 else state.regs[full]

    def write(self, state, name, term):
        if not name.startswith("xmm"):
            name, size, lowest = PARTS[name]
            assert term.size() == size
            if size == 32:
                term = wide(term, 64)
            elif size < 32:
                old = state.regs[name]
                term = z3.Concat(bits(old, 63, lowest + size), term, *([bits(old, lowest - 1, 0)] if lowest else []))
        state.regs[name] = z3.simplify(term)

    def address(self, state, one, operand):
        memory = operand.mem
        names = [one.reg_name(it) for it in (memory.base, memory.index) if it]
        if memory.segment or any(PARTS.get(it, (it, 64 * (it == "rip")))[1] != 64 for it in names):
            raise Refused(f"an address of {one.mnemonic} {one.op_str}")
        total = bv(memory.disp, 64)
        if memory.base:
            name = one.reg_name(memory.base)
            total += pointer("CODE") + (one.address + one.size) if name == "rip" else self.read(state, name)
        return total + self.read(state, one.reg_name(memory.index)) * memory.scale if memory.index else total

    def get(self, state, one, k, size=None):
        operand = one.operands[k]
        if operand.type == c.X86_OP_REG:
            return self.read(state, one.reg_name(operand.reg))
        if operand.type == c.X86_OP_IMM:
            return bv(operand.imm, size or 8 * operand.size)
        return state.memory.load(self.aligned(state, one, operand), operand.size)

    def put(self, state, one, k, term):
        operand = one.operands[k]
        if operand.type == c.X86_OP_REG:
            return self.write(state, one.reg_name(operand.reg), term)
        state.memory.store(self.aligned(state, one, operand), term, operand.size, state.regs["rsp"] - self.RED_ZONE)

    def aligned(self, state, one, operand):
        """Returns an address. One of 16 bytes must be aligned, except in the moves that say otherwise."""
        place = self.address(state, one, operand)
        if operand.size == 16 and one.mnemonic not in ("movups", "movdqu", "movupd"):
            region, offset = state.memory.place(place)
            # at a call the stack pointer is 8 below a multiple of 16; nothing is known of the other pointers
            if region not in ("CODE", "SP") or (offset + 8 * (region == "SP")) % 16:
                raise Refused("an access of 16 bytes that is not aligned")
        return place

    def placed(self, one, found):
        constant = next((it for it in one.operands if it.type == c.X86_OP_MEM and it.mem.base == c.X86_REG_RIP), None)
        if constant is None or one.mnemonic == "lea":
            return None
        place = one.address + one.size + constant.mem.disp
        return "CODE", range(place, place + constant.size)

    def without_place(self, one, raw):
        k, size = (one.imm_offset, one.imm_size) if self.target(one) is not None else (one.disp_offset, 4)
        return raw[:k] + raw[k + size :]

    # ---- flags

    def sized(self, state, result):
        state.flags["ZF"], state.flags["SF"] = z3.simplify(result == 0), z3.simplify(top_bit(result))
        return result

    def added(self, state, a, b, carry):
        size = a.size()
        result = a + b + wide(carry, size)
        state.flags["CF"] = z3.simplify(top_bit(wide(a, size + 1) + wide(b, size + 1) + wide(carry, size + 1)))
        state.flags["OF"] = z3.simplify(top_bit((a ^ result) & (b ^ result)))
        return self.sized(state, result)

    def subtracted(self, state, a, b, borrow):
        size = a.size()
        result = a - b - wide(borrow, size)
        is_plain = z3.is_bv_value(borrow) and not borrow.as_long()
        state.flags["CF"] = z3.simplify(z3.ULT(a, b) if is_plain else z3.ULT(wide(a, size + 1), wide(b, size + 1) + wide(borrow, size + 1)))
        state.flags["OF"] = z3.simplify(top_bit((a ^ b) & (a ^ result)))
        return self.sized(state, result)

    def shifted(self, state, count, result, out, overflow):
        """Sets the flags after a shift: they stay if the count is 0."""
        old = dict(state.flags)
        self.sized(state, result)
        state.flags |= {"CF": out, "OF": overflow}
        for name in FLAGS:
            state.flags[name] = z3.simplify(z3.If(count == 0, old[name], state.flags[name]))

    def shift(self, state, name, a, count):
        size = a.size()
        n = wide(count, size) if size > 16 else low(count, size)
        if name in ("shl", "sal"):
            result = a << n
            out, single = bits(wide(a, 2 * size) << wide(n, 2 * size), size, size) == 1, top_bit(result) != top_bit(a)
        else:
            by = z3.LShR if name == "shr" else signed_right
            result = by(a, n)
            out = bits(by(z3.Concat(a, bv(0, 1)), wide(n, size + 1)), 0, 0) == 1
            single = top_bit(a) if name == "shr" else z3.BoolVal(False)
        if size < 32:  # past the size the carry is undefined
            out = z3.If(z3.UGE(count, size), unknown(0), out)
        self.shifted(state, count, result, out, z3.If(count == 1, single, unknown(0)))
        return result

    def double_shift(self, state, name, a, b, count):
        size = a.size()
        if size < 32:
            raise Refused("a short double shift")
        n = wide(count, 2 * size)
        if name == "shld":
            result, out = bits(z3.Concat(a, b) << n, 2 * size - 1, size), bits(wide(a, 2 * size) << n, size, size)
        else:
            result, out = low(z3.LShR(z3.Concat(b, a), n), size), bits(z3.LShR(z3.Concat(a, bv(0, 1)), wide(count, size + 1)), 0, 0)
        self.shifted(state, count, result, out == 1, unknown(0))
        return result

    # ---- instructions

    def step(self, state, one):
        name, operands = one.mnemonic, one.operands
        # an operand size of 16 bits is in the operands, but for jumps it depends on the maker of the processor; the others are a lock or a
        # repetition, except where they are of the instruction. capstone leaves some out of one.prefix
        prefixes = {*itertools.takewhile(PREFIXES.__contains__, one.bytes)}
        if prefixes & {0xF0, 0xF2, 0xF3} - {OWN.get(name)} or 0x66 in prefixes and name.startswith(("j", "call", "ret")):
            raise Refused(f"a prefix of {name}")
        size = 8 * operands[0].size if operands else 0
        get, put = lambda k, size=None: self.get(state, one, k, size), lambda term: self.put(state, one, 0, term)
        is_vector = any(it.type == c.X86_OP_REG and one.reg_name(it.reg).startswith("xmm") for it in operands)
        if name.startswith("j") or name == "call":
            if operands[0].type != c.X86_OP_IMM:
                raise Refused("a computed jump")
            if name == "call":
                state.calls += (state.pc,)
                self.push(state, self.after(state.pc))
            return z3.BoolVal(True) if name in ("jmp", "call") else condition(name[1:], state.flags), self.target(one)
        if is_vector:
            self.vector(one, name, get, put, size)
        elif name in ("mov", "movabs"):
            put(get(1, size))
        elif name == "movzx":
            put(wide(get(1), size))
        elif name == "movsx":  # and not movsxd: of one without REX.W, capstone says that it fills 64 bits
            put(signed(get(1), size))
        elif name == "lea" and operands[1].mem.base != c.X86_REG_RIP:  # where the code is loaded is no data
            put(low(self.address(state, one, operands[1]), size))
        elif name in ("add", "adc", "sub", "sbb", "cmp"):
            carry = bit_of(state.flags["CF"]) if name in ("adc", "sbb") else bv(0, 1)
            result = (self.added if name.startswith("ad") else self.subtracted)(state, get(0), get(1, size), carry)
            if name != "cmp":
                put(result)
        elif name == "neg":
            put(self.subtracted(state, bv(0, size), get(0), bv(0, 1)))
        elif name in ("inc", "dec"):
            kept = state.flags["CF"]
            put((self.added if name == "inc" else self.subtracted)(state, get(0), bv(1, size), bv(0, 1)))
            state.flags["CF"] = kept
        elif name in ("and", "or", "xor", "test"):
            a, b = get(0), get(1, size)
            result = self.sized(state, a | b if name == "or" else a ^ b if name == "xor" else a & b)
            state.flags["CF"] = state.flags["OF"] = z3.BoolVal(False)
            if name != "test":
                put(result)
        elif name == "not":
            put(~get(0))
        elif name in ("shl", "shr", "sar", "sal", "shld", "shrd"):
            is_double, a = len(name) == 4, get(0)
            count = get(1 + is_double, 8) if len(operands) > 1 + is_double else bv(1, 8)
            count = wide(count, 16) & (63 if size == 64 else 31)
            put(self.double_shift(state, name, a, get(1), count) if is_double else self.shift(state, name, a, count))
        elif name in ("bsr", "bsf"):
            a, result = get(1), unknown(size)
            for k in range(size) if name == "bsr" else reversed(range(size)):
                result = z3.If(bits(a, k, k) == 1, bv(k, size), result)
            state.flags = {"CF": unknown(0), "OF": unknown(0), "SF": unknown(0), "ZF": z3.simplify(a == 0)}
            put(result)
        elif name in ("bt", "btr"):
            if operands[0].type != c.X86_OP_REG and operands[1].type != c.X86_OP_IMM:
                raise Refused("bt of memory by a register")
            a, place = get(0), get(1, size) & (size - 1)
            state.flags["CF"] = z3.simplify(bits(z3.LShR(a, place), 0, 0) == 1)
            state.flags["OF"], state.flags["SF"] = unknown(0), unknown(0)
            if name == "btr":
                put(a & ~(bv(1, size) << place))
        elif name == "bswap" and size > 16:
            put(z3.Concat(*[bits(get(0), 8 * k + 7, 8 * k) for k in range(size // 8)]))
        elif name.startswith("cmov"):
            put(z3.If(condition(name[4:], state.flags), get(1), get(0)))
        elif name.startswith("set"):
            put(bit_of(condition(name[3:], state.flags), 8))
        elif name in ("push", "pop") and size == 64:
            if name == "push":
                self.push(state, get(0, 64))
            else:
                put(self.pop(state))
        elif name == "ret" and not operands:
            return self.returns(state, self.pop(state), "RETURN")
        elif name not in ("nop", "endbr64"):
            raise Refused(f"instruction {name} {one.op_str}")
        return None

    def vector(self, one, name, get, put, size):
        """An instruction of vectors. Those of two vectors change the first, lane by lane."""
        if name in ("movups", "movupd", "movdqu", "movaps", "movapd", "movdqa"):
            put(get(1))
        elif name in ("movq", "movd"):
            put(wide(low(get(1), 64 if name == "movq" else 32), size))
        elif name in PACKED:
            meaning, lane = PACKED[name]
            put(laned(LANED[meaning], lane, get(0), get(1)))
        elif name[:4] in ("psrl", "psll") and name[4:] in LANES and one.operands[1].type == c.X86_OP_IMM:
            count, lane = one.operands[1].imm, LANES[name[4:]]
            by = z3.LShR if name[2] == "r" else lambda term, number: term << number
            put(laned(lambda a: by(a, count) if count < lane else bv(0, lane), lane, get(0)))
        elif name.startswith("punpckl"):
            lane = LANES[name[7]]
            put(vector([it for pair in zip(*(lanes(low(get(k), 64), lane) for k in (0, 1))) for it in pair]))
        elif name in ("pshufd", "pshuflw", "pshufhw"):
            lane, first, last = {"d": (32, 0, 4), "lw": (16, 0, 4), "hw": (16, 4, 8)}[name[5:]]
            old, order = lanes(get(1), lane), one.operands[2].imm
            put(vector([old[first + (order >> 2 * (k - first) & 3)] if first <= k < last else it for k, it in enumerate(old)]))
        elif name == "shufpd":
            put(vector([lanes(get(k), 64)[one.operands[2].imm >> k & 1] for k in (0, 1)]))
        elif name == "packuswb":
            put(vector([z3.If(it < 0, bv(0, 8), z3.If(it > 255, bv(255, 8), low(it, 8))) for k in (0, 1) for it in lanes(get(k), 16)]))
        elif name == "pmovmskb":
            put(wide(vector([bits(it, 7, 7) for it in lanes(get(1), 8)]), size))
        else:
            raise Refused(f"instruction {name} {one.op_str}")

    def push(self, state, term):
        state.regs["rsp"] = z3.simplify(state.regs["rsp"] - 8)
        state.memory.store(state.regs["rsp"], term, 8, state.regs["rsp"])

    def pop(self, state):
        found = state.memory.load(state.regs["rsp"], 8)
        state.regs["rsp"] = z3.simplify(state.regs["rsp"] + 8)
        return found

    # ---- the ABI

    def call(self, entry, arguments, function):
        """Returns the ends of a call of a function of functions.py. The arguments have 64 bits; a large struct is on the stack."""
        stacked, size = function.struct, function.in_memory
        held = {("SP", k): bits(pointer("RETURN"), 8 * k + 7, 8 * k) for k in range(8)} | {("SP", 8 + k): byte for k, byte in enumerate(stacked)}
        regs = {name: pointer(f"{name}!entry") for name in FULL} | {f"xmm{n}": unknown(128, "xmm") for n in range(16)}
        given = [pointer("OUT")] * bool(size) + arguments
        regs |= dict(zip(ARGUMENTS, given, strict=False)) | {"rsp": pointer("SP")}
        assert len(given) <= len(ARGUMENTS)
        regions = {"SP": (-STACK, 0, 8 + len(stacked)), "OUT": (0, size, size)}
        ends = self.called(entry, regs, {name: unknown(0, name) for name in FLAGS}, regions, held, function)
        if size and not all(z3.simplify(end.regs["rax"]).eq(pointer("OUT")) for end in ends):
            raise Refused("does not return the pointer to its result")
        return [(end, z3.Concat(end.regs["rdx"], end.regs["rax"])) for end in ends]
