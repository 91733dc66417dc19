"""Compares the meaning of each instruction, alone, with what the processor does to random registers and flags: this processor for
x86-64, and QEMU's by unicorn for aarch64. Instructions of memory and of the stack, and jumps, are left to whole.py."""
import ctypes
import mmap
import random
import re
import struct

import a64
import x86
import z3
from lift import State
from model import bv


class X86:
    Lifter = x86.X86
    NAMES = [name for name in x86.FULL if name not in ("rsp", "rdi")] + ["rdi"]
    CODES = {"rax": 0, "rcx": 1, "rdx": 2, "rbx": 3, "rbp": 5, "rsi": 6, "rdi": 7} | {f"r{n}": n for n in range(8, 16)}
    VECTORS = [f"xmm{n}" for n in range(16)]
    FLAGS = {"CF": 0, "ZF": 6, "SF": 7, "OF": 11}

    def __init__(self):
        self.code = mmap.mmap(-1, 4096, prot=mmap.PROT_READ | mmap.PROT_WRITE | mmap.PROT_EXEC)
        self.enter = ctypes.CFUNCTYPE(None, ctypes.c_void_p)(ctypes.addressof(ctypes.c_char.from_buffer(self.code)))

    @staticmethod
    def is_alone(one):
        is_other = one.mnemonic.startswith(("j", "call", "push", "pop", "ret", "endbr")) or "sp" in one.op_str or "rip" in one.op_str
        return not is_other and ("[" not in one.op_str or one.mnemonic == "lea")

    def move(self, name, offset, is_store):
        """A move between a register and [rdi + offset]."""
        code = self.CODES[name]
        return bytes([0x48 | code >> 3 << 2, 0x89 if is_store else 0x8B, 0x87 | (code & 7) << 3]) + struct.pack("<i", offset)

    @staticmethod
    def move_vector(n, offset, is_store):
        """A move between a vector register and [rdi + offset]."""
        return bytes([0xF3, *[0x44] * (n > 7), 0x0F, 0x7F if is_store else 0x6F, 0x87 | (n & 7) << 3]) + struct.pack("<i", offset)

    def run(self, raw, values, vectors, flags):
        """Runs an instruction on registers and flags, within a function of a pointer to them. Returns them."""
        loads, stores = (
            [self.move_vector(n, 128 + 16 * n, is_store) for n in range(len(vectors))] + [self.move(name, 8 * k, is_store) for k, name in enumerate(self.NAMES)]
            for is_store in (False, True)
        )
        saved = bytes.fromhex("53 55 4154 4155 4156 4157 57 ffb7 78000000 9d")  # push rbx rbp r12 r13 r14 r15 rdi [rdi + 120]; popfq
        kept = bytes.fromhex("9c 57 488b7c2410")  # pushfq; push rdi; mov rdi, [rsp + 16]
        ended = bytes.fromhex("58") + self.move("rax", 8 * 14, True) + bytes.fromhex("58") + self.move("rax", 120, True)  # pop rax, twice
        text = saved + b"".join(loads) + raw + kept + b"".join(stores[:-1]) + ended + bytes.fromhex("5f 415f 415e 415d 415c 5d 5b c3")
        self.code[: len(text)] = text
        halves = [half for it in vectors for half in (it & 2**64 - 1, it >> 64)]
        block = (ctypes.c_uint64 * 48)(*values, 0x202 | sum(flags[name] << bit for name, bit in self.FLAGS.items()), *halves)
        self.enter(ctypes.addressof(block))
        found = [block[16 + 2 * k] | block[17 + 2 * k] << 64 for k in range(len(vectors))]
        return list(block[:15]), found, {name: block[15] >> bit & 1 for name, bit in self.FLAGS.items()}


class A64:
    Lifter = a64.A64
    NAMES, VECTORS = [f"x{n}" for n in range(31)], [f"v{n}" for n in range(32)]
    FLAGS = {"N": 31, "Z": 30, "C": 29, "V": 28}

    def __init__(self):
        import unicorn
        from unicorn import arm64_const as u

        self.cpu = unicorn.Uc(unicorn.UC_ARCH_ARM64, unicorn.UC_MODE_ARM)
        self.cpu.mem_map(0, 4096)
        self.regs = [u.UC_ARM64_REG_X0 + n if n < 29 else (u.UC_ARM64_REG_X29, u.UC_ARM64_REG_X30)[n - 29] for n in range(31)]
        self.vectors = [u.UC_ARM64_REG_Q0 + n for n in range(32)]
        self.nzcv = u.UC_ARM64_REG_NZCV
        self.cpu.reg_write(u.UC_ARM64_REG_CPACR_EL1, 3 << 20)  # vectors are permitted

    @staticmethod
    def is_alone(one):
        is_jump = one.mnemonic.startswith(("b", "cb", "tb", "ret")) and one.mnemonic not in ("bfi", "bfxil", "bic")
        return not is_jump and not one.mnemonic.startswith(("ld", "st", "adrp")) and "sp" not in one.op_str

    def run(self, raw, values, vectors, flags):
        self.cpu.mem_write(0, raw)
        for code, number in zip([*self.regs, *self.vectors], values + vectors):
            self.cpu.reg_write(code, number)
        self.cpu.reg_write(self.nzcv, sum(flags[name] << bit for name, bit in self.FLAGS.items()))
        self.cpu.emu_start(0, 4)
        nzcv = self.cpu.reg_read(self.nzcv)
        found = [[self.cpu.reg_read(code) for code in codes] for codes in (self.regs, self.vectors[: len(vectors)])]
        return *found, {name: nzcv >> bit & 1 for name, bit in self.FLAGS.items()}


MACHINES = {"EM_X86_64": X86, "EM_AARCH64": A64}


def random_number(chance):
    kinds = chance.getrandbits(64), chance.getrandbits(chance.randrange(1, 65)), 0, 1, 2**64 - 1, chance.randrange(70), 1 << chance.randrange(64)
    return chance.choice(kinds)


def random_vector(chance):
    """A number of 128 bits, in half of the cases of bytes that are next to a limit or to a digit's ends."""
    if chance.random() < 0.5:
        return random_number(chance) << 64 | random_number(chance)
    limits = 0, 9, 0x0F, 0x10, 0x30, 0x3A, 0x41, 0x47, 0x7F, 0x80, 0xFF
    return int.from_bytes(bytes(chance.choice(limits) + chance.choice((-1, 0, 0, 1)) & 255 for _ in range(16)), "little")


VECTOR = re.compile(r"\b(xmm|[vqds])\d")


def differences(machine, codes, count):
    """Returns what differs, of instructions by their bytes, each on that many random states."""
    machine, chance, wrong = MACHINES[machine](), random.Random(1), []
    lifter = machine.Lifter(None)
    for raw in sorted(codes):
        one = next(lifter.disassembler.disasm(raw, 0, 1))
        if not machine.is_alone(one):
            continue
        for _ in range(count):
            values = [random_number(chance) for _ in machine.NAMES]
            if chance.random() < 0.2:
                values = [values[0]] * len(values)
            flags = {name: chance.getrandbits(1) for name in machine.FLAGS}
            names = machine.VECTORS if VECTOR.search(one.op_str) else []
            vectors = [random_vector(chance) for _ in names]
            regs, vector_regs, state_flags = machine.run(raw, values, vectors, flags)
            held = {name: bv(it, 64) for name, it in zip(machine.NAMES, values)} | {name: bv(it, 128) for name, it in zip(names, vectors)}
            state = State(held, {name: z3.BoolVal(bool(it)) for name, it in flags.items()}, None, 4)
            lifter.step(state, one)
            found = [(name, z3.simplify(state.regs[name]), bv(it, 64)) for name, it in zip(machine.NAMES, regs)]
            found += [(name, z3.simplify(state.regs[name]), bv(it, 128)) for name, it in zip(names, vector_regs)]
            found += [(name, z3.simplify(state.flags[name]), z3.BoolVal(bool(it))) for name, it in state_flags.items()]
            for name, term, real in found:
                is_known = z3.is_bv_value(term) or z3.is_true(term) or z3.is_false(term)
                if is_known and not term.eq(real):
                    wrong.append(f"{one.mnemonic} {one.op_str}: {name} is {real}, and not {term}: {dict(zip(machine.NAMES, map(hex, values)))} {flags}")
    return wrong
