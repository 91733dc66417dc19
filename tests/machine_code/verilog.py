#!/usr/bin/env python3
"""Prints the terms of the model as modules of Verilog with the ports of the parts of hardware/reference.sv. Needs python3-z3."""
import sys

sys.dont_write_bytecode = True

import model
import z3
from straight import BINARY, Code


class Verilog(Code):
    """Terms as wires of a module."""

    BINARY = BINARY | {z3.Z3_OP_BADD: "+", z3.Z3_OP_BSUB: "-", z3.Z3_OP_BSHL: "<<", z3.Z3_OP_BLSHR: ">>", z3.Z3_OP_AND: "&&", z3.Z3_OP_OR: "||"}

    variable = staticmethod(str)
    number = staticmethod(lambda term: f"{term.size()}'h{term.as_long():x}")
    line = staticmethod(lambda name, term, text: f"  wire [{size_of(term) - 1}:0] {name} = {text};")

    @staticmethod
    def text(term, kind, parts):
        high, low = term.params() if kind == z3.Z3_OP_EXTRACT else (0, 0)
        return {
            z3.Z3_OP_BNOT: lambda: f"~{parts[0]}",
            z3.Z3_OP_NOT: lambda: f"!{parts[0]}",
            z3.Z3_OP_ITE: lambda: f"{parts[0]} ? {parts[1]} : {parts[2]}",
            z3.Z3_OP_CONCAT: lambda: f"{{{', '.join(parts)}}}",
            z3.Z3_OP_ZERO_EXT: lambda: parts[0],  # an assignment extends by zeros
            z3.Z3_OP_EXTRACT: lambda: f"{parts[0]}[{high}:{low}]" if term.arg(0).size() > 1 else parts[0],
        }[kind]()


def size_of(term):
    return term.size() if z3.is_bv(term) else 1


def module(name, inputs, outputs):
    """Returns the module of terms over its inputs. An output that is a condition has one bit."""
    verilog = Verilog()
    ends = {output: (verilog.name(term), size_of(term)) for output, term in outputs.items()}
    ports = [f"input [{it.size() - 1}:0] {it}" for it in inputs] + [f"output [{size - 1}:0] {output}" for output, (_, size) in ends.items()]
    lines = verilog.lines + [f"  assign {output} = {wire};" for output, (wire, _) in ends.items()]
    return "\n".join([f"module {name}({', '.join(ports)});", *lines, "endmodule\n"])


def modules():
    """Returns the texts of the modules. That addresses in the window keep the bounds is the lemma same_bounds."""
    word, address, base, length = (z3.BitVec(*it) for it in (("word", 128), ("address", 64), ("base", 64), ("length", 65)))
    fields = model.Fields(model.bits(word, 127, 64), model.bits(word, 63, 0))
    reason, stored, low, high, exponent = model.defect(fields)
    decoder = {name: getattr(fields, name) for name in "perms reserved flag otype ie t b address".split()}
    decoder |= dict(exponent=model.bits(exponent, 5, 0), base=low, top=high, stored=stored, canonical=reason == 0)

    def or_zero(granted, term):
        return z3.If(granted.in_range, term, z3.BitVecVal(0, term.size())) if z3.is_bv(term) else z3.And(granted.in_range, term)

    granted = model.Granted(base, model.ext(length, 128))
    encoder = {name: or_zero(granted, getattr(granted, name)) for name in "exact ie t b granted_base granted_top".split()}
    encoder |= dict(in_range=granted.in_range, exponent=or_zero(granted, model.bits(granted.e, 5, 0)))
    granted = model.Granted(z3.BitVecVal(0, 64), model.ext(length, 128))
    rounded = (model.ext(length) + granted.granule - 1) & ~(granted.granule - 1)
    lengths = dict(in_range=granted.in_range, mask=or_zero(granted, model.bits(~(granted.granule - 1), 63, 0)))
    lengths |= dict(rounded=z3.If(granted.in_range, model.bits(rounded, 64, 0), z3.BitVecVal(-1, 65)))
    return [
        module("model_decoder", [word], decoder),
        module("model_encoder", [base, length], encoder),
        module("model_length", [length], lengths),
        module("model_window", [word, address], dict(keeps_bounds=model.in_window(low, exponent, address))),
    ]


if __name__ == "__main__":
    print("".join(modules()), end="")
