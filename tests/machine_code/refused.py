"""Code that the lifters or the proof must refuse, code of the same kind that must be proved, and pairs of code of which the texts, by which
proofs are kept, must be equal or different. The code is at 0x1000, and `page 7`, the seventh page after it, is at 0x8000."""
import lift
import prove

# it sets the fields t, b and ie of a word to those of granted bounds
BOUNDS = (
    "0fb7421825ff0f000048c1e00e0fb74a1a81e1ff3f00004809c80fb64a1d48c1e11a4809c8483504"
    "8001044881e7000000f84809f8"
)
# what it does, the function that it is, and the code
RIGHT = {
    "EM_X86_64": [
        # mov rax, rdi; bswap rax; ret
        ("right code", "swapped", "4889f8480fc8c3"),
        # mov [rsp-128], rdi; mov rax, [rsp-128]; bswap rax; ret
        ("the red zone", "swapped", "48897c2480488b442480480fc8c3"),
        # call 1f; ret; 1: mov rax, rdi; bswap rax; ret
        ("a call", "swapped", "e801000000c34889f8480fc8c3"),
        # mov rax, rdi; xor rax, [rip+0x6ff6]; bswap rax; ret
        ("a constant", "swapped", "4889f8483305f66f0000480fc8c3"),
        # ...; mov rdx, rsi; ret
        ("right bounds", "with_bounds", f"{BOUNDS}4889f2c3"),
    ],
    "EM_AARCH64": [
        # rev x0, x0; ret
        ("right code", "swapped", "000cc0dac0035fd6"),
        # str d8, [sp, #-16]!; fmov d8, x0; fmov x0, d8; ldr d8, [sp], #16; rev x0, x0; ret
        ("a saved vector", "swapped", "e80f1ffc0800679e0001669ee80741fc000cc0dac0035fd6"),
        # mov x9, x30; bl 1f; mov x30, x9; ret; 1: rev x0, x0; ret
        ("a call", "swapped", "e9031eaa03000094fe0309aac0035fd6000cc0dac0035fd6"),
        # adrp x1, page 7; ldr x2, [x1, #8]; eor x0, x0, x2; rev x0, x0; ret
        ("a constant", "swapped", "210000f0220440f9000002ca000cc0dac0035fd6"),
    ],
}
# and what must be said of it
WRONG = {
    "EM_X86_64": [
        # ...; movzx ecx, byte ptr [rdx+28]; shl rcx, 48; or rax, rcx; mov rdx, rsi; ret
        ("a member that is ignored", "with_bounds", f"{BOUNDS}0fb64a1c48c1e1304809c84889f2c3", "WRONG: the result"),
        # mov rax, rdi; bswap rax; lea rcx, [rip+0x6ff6]; shr rcx, 32; xor rax, rcx; ret
        ("a place as data", "swapped", "4889f8480fc8488d0df66f000048c1e9204831c8c3", "instruction lea"),
        # call 1f; bswap rdi; shr rcx, 32; xor rdi, rcx; mov rax, rdi; ret; 1: mov rcx, [rsp]; ret
        ("a return address as data", "swapped", "e80e000000480fcf48c1e9204831cf4889f8c3488b0c24c3", "WRONG: the result"),
        # mov rax, rdi; xor rax, [0x8000]; bswap rax; ret
        ("a load at an address of the file", "swapped", "4889f84833042500800000480fc8c3", "an address of no region"),
        # sub rsp, 256; mov [rsp], rdi; add rsp, 256; mov rax, [rsp-256]; bswap rax; ret
        ("a load below the red zone", "swapped", "4881ec0001000048893c244881c400010000488b842400ffffff480fc8c3", "reads below the stack"),
        # sub rsp, 256; mov [rsp], rdi; add rsp, 256; sub rsp, 256; mov rax, [rsp]; add rsp, 256; bswap rax; ret
        ("what the stack has lost", "swapped", "4881ec0001000048893c244881c4000100004881ec00010000488b04244881c400010000480fc8c3", "WRONG: the result"),
        # .byte 0x66, 0xe9, 0, 0; mov rax, rdi; bswap rax; ret
        ("a jump of another size", "swapped", "66e900004889f8480fc8c3", "a prefix of jmp"),
        # .byte 0xf3, 0x0f, 0x57, 0xc9; mov rax, rdi; bswap rax; ret
        ("a prefix that no processor takes", "swapped", "f30f57c94889f8480fc8c3", "a prefix of xorps"),
        # mov ecx, edi; .byte 0x66, 0x0f, 0xc9; mov rax, rdi; bswap rax; ret
        ("a swap of 16 bits", "swapped", "89f9660fc94889f8480fc8c3", "instruction bswap"),
        # mov [rsp-8], rdi; .byte 0x63, 0x44, 0x24, 0xf8; mov rax, rdi; bswap rax; ret
        ("a move of 32 bits that is taken for one of 64", "swapped", "48897c24f8634424f84889f8480fc8c3", "instruction movsxd"),
    ],
    "EM_AARCH64": [
        # stp x1, x0, [sp, #-16]!; ldr h0, [sp]; str h0, [x2]; ldr h1, [sp, #8]; str h1, [x2, #8]; add sp, sp, #16; ret
        ("loads and stores of 16 bits of a vector", "word_to_bytes_0", "e103bfa9e003407d4000007de113407d4110007dff430091c0035fd6", "a register h0 that is written"),
        # stp x1, x0, [sp, #-16]!; ldr b0, [sp]; str b0, [x2]; ldr b1, [sp, #8]; str b1, [x2, #8]; add sp, sp, #16; ret
        ("loads and stores of 8 bits of a vector", "word_to_bytes_0", "e103bfa9e003403d4000003de123403d4120003dff430091c0035fd6", "a register b0 that is written"),
        # stp x1, x0, [x2]; mov v0.d[0], x1; str b0, [x2]; ret
        ("a store of 8 bits of a vector", "word_to_bytes_0", "410000a9201c084e4000003dc0035fd6", "a register b0"),
        # fmov d1, x0; clz v0.8b, v1.8b; rev x0, x0; ret
        ("lanes of 8 bits", "swapped", "0100679e2048202e000cc0dac0035fd6", "a register v1"),
        # movi v8.16b, #1; rev x0, x0; ret
        ("a vector that is not saved", "swapped", "28e4004f000cc0dac0035fd6", "does not restore v8"),
        # add wsp, w0, #16; rev x0, x0; ret
        ("half of the stack pointer", "swapped", "1f400011000cc0dac0035fd6", "a register wsp that is written"),
        # adrp x1, page 7; rev x0, x0; lsr x1, x1, #32; eor x0, x0, x1; ret
        ("a page as data", "swapped", "210000f0000cc0da21fc60d3000001cac0035fd6", "WRONG: the result"),
        # adrp x1, page 7; adrp x2, page 8; sub x1, x2, x1; sub x1, x1, #1, lsl #12; eor x0, x0, x1; rev x0, x0; ret
        ("the distance of pages", "swapped", "210000f042000090410001cb210440d1000001ca000cc0dac0035fd6", "WRONG: the result"),
        # mov x9, x30; bl 1f; mov x30, x9; rev x0, x0; eor x0, x0, x1; ret; 1: lsr x1, x30, #32; ret
        ("a return address as data", "swapped", "e9031eaa05000094fe0309aa000cc0da000001cac0035fd6c1ff60d3c0035fd6", "WRONG: the result"),
        # mov x9, sp; sub sp, sp, #16; str w9, [x9, #-16]!; add sp, sp, #16; rev x0, x0; ret
        ("a base that is loaded or stored too", "swapped", "e9030091ff4300d1290d1fb8ff430091000cc0dac0035fd6", "the base of str"),
        # ldr x1,.+0x7000; eor x0, x0, x1; rev x0, x0; ret
        ("a load of a literal", "swapped", "01800358000001ca000cc0dac0035fd6", "an address of ldr"),
        # adrp x1, page 8; cbz x0, 1f; adrp x1, page 7; 1: ldr x2, [x1, #8]; eor x0, x0, x2; rev x0, x0; ret
        ("a page of another path", "swapped", "41000090400000b4210000f0220440f9000002ca000cc0dac0035fd6", "reads PAGE0"),
        # sub sp, sp, #32; str x0, [sp]; add sp, sp, #32; ldr x0, [sp, #-32]; rev x0, x0; ret
        ("a load below the stack", "swapped", "ff8300d1e00300f9ff830091e0035ef8000cc0dac0035fd6", "reads below the stack"),
        # str x0, [sp, #-16]!; add sp, sp, #16; ldr x0, [sp, #-16]!; add sp, sp, #16; rev x0, x0; ret
        ("what the stack has lost", "swapped", "e00f1ff8ff430091e00f5ff8ff430091000cc0dac0035fd6", "reads below the stack"),
        # str x0, [sp, #-8]!; ldr x0, [sp], #8; rev x0, x0; ret
        ("a stack pointer that is not aligned", "swapped", "e08f1ff8e08740f8000cc0dac0035fd6", "a stack pointer that is not aligned"),
    ],
}
# how the second code differs from the first, and whether they have equal texts
TEXTS = {
    "EM_X86_64": [
        # xor rdi, [rip+0x6ff9]; mov rax, rdi; bswap rax; ret
        # xor rdi, [rip+0x7ff9]; mov rax, rdi; bswap rax; ret
        ("a constant elsewhere", True, "48333df96f00004889f8480fc8c3", "48333df97f00004889f8480fc8c3"),
        # xor rdi, [rip+0x6ff9]; mov rax, rdi; bswap rax; ret
        # xor rdi, [rip+0x7009]; mov rax, rdi; bswap rax; ret
        ("another constant", False, "48333df96f00004889f8480fc8c3", "48333d097000004889f8480fc8c3"),
        # lea rax, [rip+0x6ff9]; ret
        # lea rax, [rip+0x7ff9]; ret
        ("another place as data", False, "488d05f96f0000c3", "488d05f97f0000c3"),
    ],
    "EM_AARCH64": [
        # adrp x1, page 7; ldr x2, [x1, #8]; eor x0, x0, x2; rev x0, x0; ret
        # adrp x1, page 8; ldr x2, [x1, #24]; eor x0, x0, x2; rev x0, x0; ret
        ("a constant elsewhere", True, "210000f0220440f9000002ca000cc0dac0035fd6", "41000090220c40f9000002ca000cc0dac0035fd6"),
        # adrp x1, page 7; ldr x2, [x1, #8]; eor x0, x0, x2; rev x0, x0; ret
        # adrp x1, page 7; ldr x2, [x1, #24]; eor x0, x0, x2; rev x0, x0; ret
        ("another constant", False, "210000f0220440f9000002ca000cc0dac0035fd6", "210000f0220c40f9000002ca000cc0dac0035fd6"),
        # adrp x1, page 7; cbz x0, 1f; adrp x1, page 7; 1: ldr x2, [x1, #8]; eor x0, x0, x2; rev x0, x0; ret
        # adrp x1, page 8; cbz x0, 1f; adrp x1, page 7; 1: ldr x2, [x1, #8]; eor x0, x0, x2; rev x0, x0; ret
        ("another page on a path", False, "210000f0400000b4210000f0220440f9000002ca000cc0dac0035fd6", "41000090400000b4210000f0220440f9000002ca000cc0dac0035fd6"),
        # adrp x1, page 7; ldr x2, [x1, #8]; eor x0, x0, x2; rev x0, x0; ret
        # adrp x1, page 7; ldr x2, [x1, #8]!; eor x0, x0, x2; rev x0, x0; ret
        ("a load that moves its base", False, "210000f0220440f9000002ca000cc0dac0035fd6", "210000f0228c40f8000002ca000cc0dac0035fd6"),
        # adrp x1, page 7; ldr x2, [x1, #8]!; eor x0, x0, x2; rev x0, x0; ret
        # adrp x1, page 8; ldr x2, [x1, #24]!; eor x0, x0, x2; rev x0, x0; ret
        ("a load that moves its base by another number", False, "210000f0228c40f8000002ca000cc0dac0035fd6", "41000090228c41f8000002ca000cc0dac0035fd6"),
    ],
}


class Code(lift.Image):
    """A file with one function, and with constants of 8 bytes at 0x8000: 0, 0, all ones and all ones, and then 0."""

    def __init__(self, machine, name, code):
        self.machine, self.functions, self.relocated = machine, {f"cheri_cap_{name}": 0x1000}, set()
        constants = bytes(16) + b"\xff" * 16 + bytes(0x2000)
        self.segments = [(0x1000, bytearray.fromhex(code), 5), (0x8000, bytearray(constants), 4)]


def said(machine, name, code):
    """Returns why the code of a function is not proved, or nothing."""
    try:
        prove.prove(name, prove.ends_of(Code(machine, name, code), name))
    except (lift.Refused, prove.NotProved) as error:
        return str(error)
    return ""


def text(machine, code):
    try:
        lifter, entry = prove.machine_of(Code(machine, "swapped", code), "swapped")
        return lifter.text(entry)
    except lift.Refused as error:
        return str(error)


def differences():
    """Returns what is proved and must not be, or is refused in another way than it must be."""
    wrong = []
    for machine in RIGHT:
        found = [(what, said(machine, name, code), "") for what, name, code in RIGHT[machine]]
        found += [(what, said(machine, name, code), why) for what, name, code, why in WRONG[machine]]
        wrong += [f"{machine}, {what}: {got or 'proved'}" for what, got, why in found if not got.startswith(why) or bool(got) != bool(why)]
        for what, is_same, *codes in TEXTS[machine]:
            one, other = (text(machine, it) for it in codes)
            if (one == other) != is_same:
                wrong.append(f"{machine}, {what}: {'other texts' if is_same else 'equal texts'}")
    return wrong
