#!/usr/bin/env python3
"""Makes the imports of SystemVerilog, cheri_cap_dpi.sv, and their wrappers, cheri_cap_dpi.c, from the functions of include/cheri_cap.h.

    dpi.py            compares the two files with those that it makes; status 1 if they differ
    dpi.py --write    writes them
"""
import re
import sys
from pathlib import Path

HERE = Path(__file__).resolve().parent
HEADER = HERE.parent / "include/cheri_cap.h"

# The types of SystemVerilog, and those of the parameters in C. The wide ones are arrays of 32 bits there.
WIDE = {"word": 128, "top": 65, "length": 65}
SV = {"u64": "longint unsigned", "u32": "int unsigned", "u16": "shortint unsigned", "u8": "byte unsigned", "flag": "bit",
      "string": "string", **{name: f"bit [{bits - 1}:0]" for name, bits in WIDE.items()}}
C = {"u64": "unsigned long long", "u32": "unsigned int", "u16": "unsigned short", "u8": "unsigned char", "flag": "unsigned char",
     "string": "const char *", **{name: "svBitVecVal" for name in WIDE}}
# the types of numbers in the header
NUMBERS = {"uint64_t": "u64", "uint32_t": "u32", "uint16_t": "u16", "uint8_t": "u8", "bool": "flag"}

# The functions that are not as `regular` makes them. Each has its name, its result or void, and its inputs; its outputs, with their values
# if these are not members of `r` with their names; the statements, of which the last is the result. A wide input in them is replaced with
# its two halves.
FUNCTIONS = """
version               u32     -                                   | - | cheri_cap_version()
unpack                void    word:word                           | perms:u16 reserved:u8 flag:flag otype:u32 ie:flag t:u16 b:u16 address:u64 | cheri_cap_fields r = cheri_cap_unpack(word)
pack                  void    perms:u16 reserved:u8 flag:flag otype:u32 ie:flag t:u16 b:u16 address:u64 | word:word=r.high,r.low | cheri_cap_fields f; f.perms = perms; f.reserved = reserved; f.flag = flag != 0; f.otype = otype; f.ie = ie != 0; f.t = t; f.b = b; f.address = address; cheri_cap_u128 r = cheri_cap_pack(f)
decode                void    word:word                           | exponent:u8 base:u64 top:top=r.top_high,r.top_low | cheri_cap_bounds r = cheri_cap_decode(word)
word_length           void    word:word                           | length:word=r.high,r.low | cheri_cap_u128 r = cheri_cap_word_length(word)
set_bounds            void    base:u64 length:length              | in_range:flag exact:flag ie:flag t:u16 b:u16 exponent:u8 granted_base:u64=r.base granted_top:top=r.top_high,r.top_low | cheri_cap_granted r = cheri_cap_set_bounds(base, length)
lost                  void    base:u64 length:length              | in_range:flag lost_before:u64=r.before lost_after:u64=r.after | cheri_cap_excess r = cheri_cap_lost(base, length)
window                void    word:word                           | first:u64 last:u64 | cheri_cap_ends r = cheri_cap_window(word)
round_length          void    length:length                       | rounded:top=r.high,r.low | cheri_cap_u128 r = cheri_cap_round_length(length)
read_word             flag    text:string                         | word:word=r.high,r.low | cheri_cap_read r = cheri_cap_read_word(text, strlen(text)); RESULT r.found
write_word            string  word:word                           | - | static char text[33]; cheri_cap_write_word(word, text); RESULT text
format                string  word:word tag:flag                  | - | static char text[CHERI_CAP_LINE_SIZE]; cheri_cap_format(word, tag != 0, text); RESULT text
refusal_name          string  refusal:u8                          | - | cheri_cap_refusal_name(refusal)
with_bounds           void    word:word ie:flag t:u16 b:u16       | result:word=r.high,r.low | cheri_cap_granted g; memset(&g, 0, sizeof g); g.ie = ie != 0; g.t = t; g.b = b; cheri_cap_u128 r = cheri_cap_with_bounds(word, &g)
"""

# The functions of the header that SystemVerilog does not need, and what to use there. Nor does it need those on arrays.
OMITTED = {
    "null": "128'd0", "root": "{16'hffff, 112'd0}", "perms_of": "perms", "otype_of": "otype", "is_sealed": "otype", "is_sentry": "otype",
    "compare": "<", "top": "an output of decode", "length": "top - base", "offset": "address - base", "swapped": "{<<8{half}}",
    "is_big_endian": "a word has no byte order", "word_from_bytes": "a concatenation", "word_to_bytes": "a concatenation",
    "bounds_hold": "comparisons", "bounds_hold_bytes": "comparisons",
}

HEAD_SV = """// The functions of include/cheri_cap.h for SystemVerilog, by DPI-C: the header's comments are their description.
// Made by dpi.py. A rule returns its refusal, which is 0 if it has a result.
package cheri_cap_dpi;
"""
HEAD_C = """// The wrappers that cheri_cap_dpi.sv imports: a word of SystemVerilog is an array of 32-bit parts, the lowest first. Made by dpi.py.
#include <stdint.h>
#include <string.h>
#include <svdpi.h>
#include <cheri_cap.h>

#define HALF(vector, n) ((uint64_t)(vector)[2 * (n) + 1] << 32 | (vector)[2 * (n)])
#define HALVES(vector) HALF(vector, 1), HALF(vector, 0)
#define TOP_HALVES(vector) ((uint64_t)(vector)[2] & 1), HALF(vector, 0)

static inline void store_word(svBitVecVal *to, uint64_t high, uint64_t low)
{
    to[0] = (svBitVecVal)low;
    to[1] = (svBitVecVal)(low >> 32);
    to[2] = (svBitVecVal)high;
    to[3] = (svBitVecVal)(high >> 32);
}

static inline void store_top(svBitVecVal *to, uint64_t high, uint64_t low)
{
    to[0] = (svBitVecVal)low;
    to[1] = (svBitVecVal)(low >> 32);
    to[2] = (svBitVecVal)(high & 1);
}

#ifdef __cplusplus
extern "C" {
#endif
"""


def parameters(text):
    """Returns the name, the type and the expression of each parameter."""
    for it in text.split() if text.strip() != "-" else []:
        name, kind = it.split(":")
        kind, _, expression = kind.partition("=")
        yield name, kind, expression


def declared():
    """Yields the result, the name and the parameters of each function of the header, but for those on arrays."""
    header = re.sub(r"/\*.*?\*/|^\s*#.*?$", "", HEADER.read_text(), flags=re.S | re.M)
    for result, name, inputs in re.findall(r"(\w+ \*?)cheri_cap_(\w*[a-z0-9])\(([^()]*)\) CHERI_CAP_NOEXCEPT", header):
        if not name.endswith(("_many", "_memory")):
            yield result.strip(), name, [" ".join(it.split()) for it in inputs.split(",")]


def regular(result, name, inputs):
    """Returns the line of a function of words, lengths and numbers that returns a number, a word, or a word or a refusal. A length of a
    rule may be any number of 128 bits."""
    given, call = [], []
    for it in inputs:
        kind, _, parameter = it.rpartition(" ")
        if wide := re.fullmatch(r"(?:(\w+)_)?high", parameter):
            given.append(f"{wide[1] or 'word'}:{'length' if wide[1] == 'length' and result != 'cheri_cap_made' else 'word'}")
            call.append(wide[1] or "word")
        elif not re.fullmatch(r"(?:\w+_)?low", parameter):
            given.append(f"{parameter}:{NUMBERS[kind]}")
            call.append(f"{parameter} != 0" if kind == "bool" else parameter)
    call = f"cheri_cap_{name}({', '.join(call)})"
    if result in NUMBERS:
        return f"{name} {NUMBERS[result]} {' '.join(given)} | - | {call}"
    returns, more = {"cheri_cap_made": ("u8", "; RESULT r.refusal"), "cheri_cap_u128": ("void", "")}[result]
    return f"{name} {returns} {' '.join(given)} | result:word=r.high,r.low | {result} r = {call}{more}"


def functions():
    listed = {it.split()[0]: it for it in FUNCTIONS.strip().splitlines()}
    found = [it for it in declared() if it[1] not in OMITTED]
    if missing := {*listed, *OMITTED} - {name for _, name, _ in declared()}:
        sys.exit(f"the header does not have {sorted(missing)}")
    for result, name, inputs in found:
        try:
            line = listed.get(name) or regular(result, name, inputs)
        except KeyError:
            sys.exit(f"{name} needs a line of FUNCTIONS, or one of OMITTED")
        head, outputs, body = line.split("|")
        name, result, inputs = head.split(None, 2)
        yield name, result, [*parameters(inputs)], [*parameters(outputs)], body.strip()


def declaration(name, result, inputs, outputs):
    given = [f"input {SV[kind]} {it}" for it, kind, _ in inputs] + [f"output {SV[kind]} {it}" for it, kind, _ in outputs]
    text = f'    import "DPI-C" pure function {SV.get(result, result)} cheri_cap_dpi_{name}({", ".join(given)});'
    if result == "string":
        text = text.replace(" pure", "")
    if len(text) > 120:
        text = text.replace("(", "(\n        ", 1).replace(", ", ",\n        ").replace(");", "\n    );")
    return text


def definition(name, result, inputs, outputs, body):
    given = [f"const svBitVecVal *{it}" if kind in WIDE else f"{C[kind]} {it}".replace("* ", "*") for it, kind, _ in inputs]
    given += [f"svBitVecVal *{it}" if kind in WIDE else f"{C[kind]} *{it}" for it, kind, _ in outputs]
    returns = "const char *" if result == "string" else f"{C[result]} " if result != "void" else "void "
    head = f"{returns}cheri_cap_dpi_{name}({', '.join(given) or 'void'})"
    calls = re.split(r"(cheri_cap_\w+\()", body)
    for wide, kind, _ in inputs:
        if kind in WIDE:
            halves = "HALVES" if kind == "word" else "TOP_HALVES"
            calls = [re.sub(rf"(?<![.\w]){wide}(?![\w(])", f"{halves}({wide})", it) for it in calls]
    body, _, result_text = "".join(calls).partition("; RESULT ")
    lines = body.split("; ")
    if result != "void" and not result_text:
        *lines, result_text = lines
    lines = [f"    {it};" for it in lines]
    for it, kind, expression in outputs:
        value = expression or f"r.{it}"
        if kind in WIDE:
            high, low = value.split(",")
            lines.append(f"    store_{'word' if kind == 'word' else 'top'}({it}, {high}, {low});")
        else:
            lines.append(f"    *{it} = {value};")
    if result_text:
        lines.append(f"    return {result_text};")
    return f"{head};\n{head}\n{{\n" + "\n".join(lines) + "\n}\n"


def files():
    listed = [*functions()]
    sv = HEAD_SV + "\n".join(declaration(*it[:4]) for it in listed) + "\nendpackage\n"
    c = HEAD_C + "\n" + "\n".join(definition(*it) for it in listed) + "\n#ifdef __cplusplus\n}\n#endif\n"
    return {"cheri_cap_dpi.sv": sv, "cheri_cap_dpi.c": c}


def main(arguments):
    if arguments not in ([], ["--write"]):
        sys.exit(__doc__)
    for name, text in files().items():
        if arguments:
            (HERE / name).write_text(text)
        if (HERE / name).read_text() != text:
            sys.exit(f"{name} is not what dpi.py makes")


if __name__ == "__main__":
    main(sys.argv[1:])
