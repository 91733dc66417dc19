"""Terms of z3 as straight-line code, with a line for each operation: here of Python, which computes their values, and in verilog.py."""
import z3

BINARY = {
    z3.Z3_OP_BAND: "&", z3.Z3_OP_BOR: "|", z3.Z3_OP_BXOR: "^", z3.Z3_OP_EQ: "==", z3.Z3_OP_DISTINCT: "!=", z3.Z3_OP_XOR: "!=", z3.Z3_OP_IFF: "==",
    z3.Z3_OP_ULT: "<", z3.Z3_OP_ULEQ: "<=", z3.Z3_OP_UGT: ">", z3.Z3_OP_UGEQ: ">=",
}


class Code:
    """The lines, and the names of the values that they compute. A subclass has text(), line() and BINARY."""

    def __init__(self):
        self.lines, self.names = [], {}

    def name(self, term):
        """Returns the name of the value of a term."""
        if z3.is_const(term) and term.decl().kind() == z3.Z3_OP_UNINTERPRETED:
            return self.variable(term)
        # the term is kept, so that z3 gives its number to no other
        if term.get_id() not in self.names:
            parts, kind = [self.name(it) for it in term.children()], term.decl().kind()
            if z3.is_bv_value(term):
                text = self.number(term)
            elif z3.is_true(term) or z3.is_false(term):
                text = str(int(z3.is_true(term)))
            else:
                text = f" {self.BINARY[kind]} ".join(parts) if kind in self.BINARY else self.text(term, kind, parts)
            self.names[term.get_id()] = f"w{len(self.names)}", term
            self.lines.append(self.line(self.names[term.get_id()][0], term, text))
        return self.names[term.get_id()][0]


class Python(Code):
    BINARY = BINARY | {z3.Z3_OP_AND: "and", z3.Z3_OP_OR: "or"}

    def __init__(self):
        super().__init__()
        self.variables = {}

    def variable(self, term):
        self.variables[str(term)] = term.size() if z3.is_bv(term) else 1
        return f"given[{str(term)!r}]"

    number = staticmethod(lambda term: str(term.as_long()))
    line = staticmethod(lambda name, term, text: f"    {name} = {text}")

    @staticmethod
    def text(term, kind, parts):
        if kind == z3.Z3_OP_NOT:
            return f"not {parts[0]}"
        if kind == z3.Z3_OP_ITE:
            return f"{parts[1]} if {parts[0]} else {parts[2]}"
        size = term.arg(0).size()
        all_ones, signed = (1 << size) - 1, [f"({it} - ({it} >> {size - 1} << {size}))" for it in parts]
        if kind == z3.Z3_OP_EXTRACT:
            high, low = term.params()
            return f"{parts[0]} >> {low} & {(1 << high - low + 1) - 1}"
        if kind == z3.Z3_OP_CONCAT:
            text = parts[0]
            for part, one in zip(term.children()[1:], parts[1:]):
                text = f"({text} << {part.size()} | {one})"
            return text
        return {
            z3.Z3_OP_BADD: lambda: f"{' + '.join(parts)} & {all_ones}",
            z3.Z3_OP_BSUB: lambda: f"{' - '.join(parts)} & {all_ones}",
            z3.Z3_OP_BMUL: lambda: f"{' * '.join(parts)} & {all_ones}",
            z3.Z3_OP_BNOT: lambda: f"{parts[0]} ^ {all_ones}",
            z3.Z3_OP_BNEG: lambda: f"-{parts[0]} & {all_ones}",
            z3.Z3_OP_BSHL: lambda: f"{parts[0]} << min({parts[1]}, {size}) & {all_ones}",
            z3.Z3_OP_BLSHR: lambda: f"{parts[0]} >> min({parts[1]}, {size})",
            z3.Z3_OP_BASHR: lambda: f"{signed[0]} >> min({parts[1]}, {size}) & {all_ones}",
            z3.Z3_OP_ZERO_EXT: lambda: parts[0],
            z3.Z3_OP_SIGN_EXT: lambda: f"{signed[0]} & {(1 << term.size()) - 1}",
            z3.Z3_OP_SLT: lambda: f"{signed[0]} < {signed[1]}",
            z3.Z3_OP_SLEQ: lambda: f"{signed[0]} <= {signed[1]}",
            z3.Z3_OP_SGT: lambda: f"{signed[0]} > {signed[1]}",
            z3.Z3_OP_SGEQ: lambda: f"{signed[0]} >= {signed[1]}",
        }[kind]()


def computed(terms):
    """Returns a function of the values of variables, by their names, that returns those of the terms. It has the sizes of the variables."""
    code = Python()
    named = {name: code.name(term) for name, term in terms.items()}
    lines = ["def compute(given):", *code.lines, f"    return {{{', '.join(f'{name!r}: int({it})' for name, it in named.items())}}}"]
    scope = {}
    exec("\n".join(lines), scope)
    scope["compute"].variables = code.variables
    return scope["compute"]
