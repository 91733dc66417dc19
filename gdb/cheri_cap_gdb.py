"""gdb commands for words of CHERI Concentrate in the memory of the program that is debugged.

    (gdb) source .../cheri_cap_gdb.py
    (gdb) capdump ADDRESS [COUNT]       the words from an address, 16 bytes each [default: a whole array, or 1]
    (gdb) capfind [--unsealed] ADDRESS [START END] [PERMS]
                                        the words in memory that could be capabilities to an address
    (gdb) capinfo EXPRESSION            the fields and bounds of a value of 16 bytes, or of a struct with one word
    (gdb) capinfo WORD                  the fields and bounds of a word in hexadecimal digits
    (gdb) capprint TYPE                 print values of this type as capabilities, as those of cheri::word are

A struct with the members `high` and then `low`, such as cheri_cap_u128, is read by these. Any other value of 16 bytes
is read as memory. Any other struct has the word of its one member that has a word, and its tag from a member `tag`.

Bytes are read in the byte order of the target (`show endian`). The modules cheri_cap.py and cheri_cap_memory.py must be
in the directory of this file, as ./install puts them, or in the directory python/ of a checkout.
"""

import os
import re
import sys

import gdb
import gdb.printing

HERE = os.path.dirname(os.path.realpath(__file__))
sys.path[1:1] = [HERE, os.path.join(os.path.dirname(HERE), "python")]
from cheri_cap import Capability  # noqa: E402
from cheri_cap_memory import (  # noqa: E402
    ADDRESSES,
    BYTES,
    KNOWN,
    UNREADABLE,
    Refused,
    Unreadable,
    disjoint,
    dumped,
    found,
    mask_in,
    path_to_word,
    refused_for,
    text_of,
    without_unsealed,
    word_in,
)

REFERENCES = gdb.TYPE_CODE_REF, getattr(gdb, "TYPE_CODE_RVALUE_REF", gdb.TYPE_CODE_REF)


def byte_order():
    """Returns the byte order of the target, as Python names it."""
    return "big" if "big endian" in gdb.execute("show endian", to_string=True) else "little"


def evaluate(text):
    try:
        return gdb.parse_and_eval(text)
    except gdb.error as error:
        raise gdb.GdbError(str(error))


def address_of(value):
    """Returns the value as an address, or the address of an array."""
    try:
        return int(value.address if value.type.strip_typedefs().code == gdb.TYPE_CODE_ARRAY else value) % ADDRESSES
    except gdb.error:
        raise gdb.GdbError("ADDRESS must be a number, a pointer or an array; & before a value gives its address")


def count_of(value):
    """Returns the value as a number of words."""
    try:
        count = int(value)
    except gdb.error:
        count = -1
    if count < 0:
        raise gdb.GdbError("COUNT must be a number of words, at least 0")
    return count


def words_in(value):
    """Returns the number of words of an array, or 1."""
    return max(value.type.sizeof // BYTES, 1) if value.type.strip_typedefs().code == gdb.TYPE_CODE_ARRAY else 1


def read(address, size):
    """Returns bytes of the inferior's memory."""
    try:
        return bytes(gdb.selected_inferior().read_memory(address, size))
    except (gdb.error, OverflowError) as error:
        raise Unreadable(str(error))


def show(lines):
    """Prints lines as they come, and the reason if there are no more."""
    try:
        for line in lines:
            gdb.write(f"{line}\n")
    except Refused as error:
        raise gdb.GdbError(str(error))


def from_memory(address):
    """Returns the capability at an address of the inferior."""
    try:
        return Capability.from_bytes(read(address, BYTES), byte_order())
    except Unreadable as error:
        raise gdb.GdbError(str(error))


def plain(kind):
    """Returns a type without references, names and qualifiers."""
    kind = kind.strip_typedefs()
    return (kind.target().strip_typedefs() if kind.code in REFERENCES else kind).unqualified()


def members_of(kind):
    """Returns the names and the types of the members of a struct, without static ones and those of bases."""
    kind = plain(kind)
    if kind.code != gdb.TYPE_CODE_STRUCT:
        return []
    return [(it.name, it.type) for it in kind.fields() if it.name and hasattr(it, "bitpos") and not it.is_base_class]


def path_in(kind):
    return path_to_word(kind, members_of, lambda it: plain(it).sizeof)


def number_in(value):
    return int(value.format_string(format="x", symbols=False), 16)


def of_value(value):
    """Returns a value as a capability, and whether it has its tag.

    The value has 16 bytes, in memory or, if it is a number, in a register; or it is a struct with one word. The result
    of a rule that refused is an error."""
    if value.type.strip_typedefs().code in REFERENCES:
        value = value.referenced_value()
    path = path_in(value.type)
    if path is None:
        raise gdb.GdbError(f"a capability has {BYTES} bytes, and this value has {value.type.sizeof}")
    names, by_members = path
    tagged = True
    for name in [*names, None]:
        members = dict(members_of(value.type))
        if "tag" in members:
            tagged = bool(number_in(value["tag"]))
        for it in "refusal", "refusal_":
            if it in members and number_in(value[it]):
                raise gdb.GdbError(refused_for(number_in(value[it])))
        value = value[name] if name else value
    if by_members:
        return Capability(number_in(value["high"]) % ADDRESSES << 64 | number_in(value["low"]) % ADDRESSES), tagged
    if value.address is not None:
        return from_memory(int(value.address)), tagged
    if value.type.strip_typedefs().code == gdb.TYPE_CODE_INT:
        return Capability(number_in(value) % 2**128), tagged
    raise gdb.GdbError("this value is not in memory, and is not a number")


def mapped():
    """Returns the ranges of memory that can be read, or None if they are not known.

    They are the readable mappings of a process, and otherwise the parts of the core file and of the program's file."""
    files, ranges = lines_of("info files"), []
    if gdb.selected_inferior().pid > 0 and not any("core file" in line.lower() for line in files):
        for line in lines_of("info proc mappings"):
            it = re.match(r"\s*(0x[0-9a-f]+)\s+(0x[0-9a-f]+)\s+0x[0-9a-f]+\s+0x[0-9a-f]+\s*([-r][-w][-x][-sp])?", line)
            if it and not (it[3] or "r").startswith("-") and not line.rstrip().endswith(UNREADABLE):
                ranges.append((int(it[1], 16), int(it[2], 16)))
    else:
        for line in files:
            it = re.match(r"\s*(0x[0-9a-f]+) - (0x[0-9a-f]+) is ", line)
            if it:
                ranges.append((int(it[1], 16), int(it[2], 16)))
    return disjoint(ranges) or None


def lines_of(command):
    try:
        return gdb.execute(command, to_string=True).splitlines()
    except gdb.error:
        return []


class CapDump(gdb.Command):
    """Show the capabilities from an address: capdump ADDRESS [COUNT]

ADDRESS is a number, a pointer or an array. Quote it if it contains spaces. COUNT is the number of words, of 16 bytes
each, in the byte order of the target [default: those of an array, otherwise 1]. Each line has the address, the word and
its one-line form, and "(not canonical)" if the word is not that of a capability. Only the tag of memory says whether it
holds a capability, and the tag is not read."""

    def __init__(self):
        super().__init__("capdump", gdb.COMMAND_DATA, gdb.COMPLETE_EXPRESSION)

    def invoke(self, argument, from_tty):
        words = gdb.string_to_argv(argument)
        if len(words) not in (1, 2):
            raise gdb.GdbError("usage: capdump ADDRESS [COUNT]")
        value = evaluate(words[0])
        count = count_of(evaluate(words[1])) if len(words) == 2 else words_in(value)
        show(dumped(read, byte_order(), address_of(value), count))


class CapFind(gdb.Command):
    """Find the words that could be capabilities to an address: capfind [--unsealed] ADDRESS [START END] [PERMS]

The addresses are numbers, pointers or arrays; quote one that contains spaces. The words from START to below END are
read, at multiples of 16; without these, those of all mapped memory of the process, of the core file, or of the
program's file. A word is shown if it is canonical, or a sentry that is canonical once it is unsealed, its bounds
contain ADDRESS, and it has permissions, among them PERMS: names joined by +, as in LOAD+STORE. So null and integers
are omitted. (sentry) or (sealed) follows a word that is; --unsealed omits both. The tag of memory is not read."""

    def __init__(self):
        super().__init__("capfind", gdb.COMMAND_DATA, gdb.COMPLETE_EXPRESSION)

    def invoke(self, argument, from_tty):
        words, unsealed = without_unsealed(gdb.string_to_argv(argument))
        if len(words) not in (1, 2, 3, 4):
            raise gdb.GdbError("usage: capfind [--unsealed] ADDRESS [START END] [PERMS]")
        places = [address_of(evaluate(it)) for it in (words[:1] if len(words) < 3 else words[:3])]
        try:
            perms = mask_in(words[-1]) if len(words) in (2, 4) else 0
            show(found(read, byte_order(), mapped(), *places, perms=perms, unsealed=unsealed))
        except Refused as error:
            raise gdb.GdbError(str(error))


class CapInfo(gdb.Command):
    """Show the fields and the bounds of a capability: capinfo EXPRESSION, or capinfo WORD

EXPRESSION is a value of 16 bytes, or a struct with one word. WORD is 32 hexadecimal digits, with or without 0x, or two
halves of 16 digits joined by _ or :, the high one first. The lines equal those of `cheri-cap show`."""

    def __init__(self):
        super().__init__("capinfo", gdb.COMMAND_DATA, gdb.COMPLETE_EXPRESSION)

    def invoke(self, argument, from_tty):
        text = argument.strip()
        if not text:
            raise gdb.GdbError("usage: capinfo EXPRESSION, or capinfo WORD")
        cap = word_in(text)
        cap = of_value(evaluate(text))[0] if cap is None else cap
        print(cap.listing(), end="")


class Printer:
    """The form in which `print` shows a value of a type that capprint named."""

    def __init__(self, value):
        self.value = value

    def to_string(self):
        try:
            return text_of(*of_value(self.value))
        except gdb.GdbError as error:
            return f"<{error}>"


class Printers(gdb.printing.PrettyPrinter):
    """The types that capprint named, and those that are known."""

    def __init__(self):
        super().__init__("cheri_cap")
        self.types = set(KNOWN)

    def __call__(self, value):
        kind = value.type.unqualified()
        names = {kind.name, str(kind), str(kind.strip_typedefs())}
        return Printer(value) if names & self.types else None


class CapPrint(gdb.Command):
    """Print the values of a type as capabilities: capprint TYPE

TYPE has 16 bytes, such as `capability` or `struct capability`, or is a struct with one word. The setting lasts until
gdb ends. The types of the library that are words are printed so without it."""

    def __init__(self, printers):
        super().__init__("capprint", gdb.COMMAND_DATA, gdb.COMPLETE_SYMBOL)
        self.printers = printers

    def invoke(self, argument, from_tty):
        name = argument.strip()
        if not name:
            raise gdb.GdbError("usage: capprint TYPE")
        size = evaluate(f"sizeof({name})")
        if path_in(evaluate(f"*({name} *)0").type) is None:
            raise gdb.GdbError(f"a capability has {BYTES} bytes, and the type {name} has {int(size)}")
        self.printers.types.add(name)


def register():
    printers = Printers()
    gdb.printing.register_pretty_printer(None, printers, replace=True)
    CapDump()
    CapFind()
    CapInfo()
    CapPrint(printers)


register()
