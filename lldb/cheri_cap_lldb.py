"""LLDB commands for words of CHERI Concentrate in the memory of the program that is debugged.

    (lldb) command script import .../cheri_cap_lldb.py
    (lldb) capdump ADDRESS [COUNT]       the words from an address, 16 bytes each [default: a whole array, or 1]
    (lldb) capfind [--unsealed] ADDRESS [START END] [PERMS]
                                         the words in memory that could be capabilities to an address
    (lldb) capinfo EXPRESSION            the fields and bounds of a value of 16 bytes, or of a struct with one word
    (lldb) capinfo WORD                  the fields and bounds of a word in hexadecimal digits
    (lldb) capprint TYPE                 show values of this type as capabilities, as those of cheri::word are

A struct with the members `high` and then `low`, such as cheri_cap_u128, is read by these. Any other value of 16 bytes
is read as memory. Any other struct has the word of its one member that has a word, and its tag from a member `tag`.

Bytes are read in the byte order of the target. The modules cheri_cap.py and cheri_cap_memory.py must be in the
directory of this file, as ./install puts them, or in the directory python/ of a checkout.
"""

import os
import shlex
import sys

import lldb

HERE = os.path.dirname(os.path.realpath(__file__))
sys.path[1:1] = [HERE, os.path.join(os.path.dirname(HERE), "python")]
from cheri_cap import Capability  # noqa: E402
from cheri_cap_memory import (  # noqa: E402
    ADDRESSES,
    BYTES,
    KNOWN,
    UNREADABLE,
    Refused,
    Unreadable,
    disjoint,
    dumped,
    found,
    mask_in,
    path_to_word,
    refused_for,
    text_of,
    without_unsealed,
    word_in,
)


def evaluate(context, text):
    frame, target = context.GetFrame(), context.GetTarget()
    value = frame.EvaluateExpression(text) if frame.IsValid() else target.EvaluateExpression(text)
    if not value.IsValid() or value.GetError().Fail():
        # the first line says only that the expression was not read
        lines = [line.split("error: ")[-1] for line in str(value.GetError()).splitlines() if "error: " in line]
        raise Refused(lines[-1] if lines else "the expression has no value")
    return value


def order_of(target):
    """Returns the byte order of the target, as Python names it."""
    return "big" if target.GetByteOrder() == lldb.eByteOrderBig else "little"


def reader_of(context):
    """Returns the function that reads memory of the process or, if there is none, of the program's file."""
    target, is_running = context.GetTarget(), context.GetProcess().IsValid()

    def read(address, size):
        error = lldb.SBError()
        place = target.ResolveLoadAddress(address) if is_running else target.ResolveFileAddress(address)
        data = target.ReadMemory(place, size, error)
        if error.Fail() or data is None or len(data) != size:
            raise Unreadable(str(error))
        return bytes(data)

    return read


def address_of(context, text):
    """Returns the expression as an address, or the address of an array, and the number of words of the array, or 1."""
    value, count = evaluate(context, text), 1
    if value.GetType().GetCanonicalType().IsArrayType():
        count = max(value.GetByteSize() // BYTES, 1)
        value = evaluate(context, f"&({text})")
    error = lldb.SBError()
    is_signed = value.GetType().GetCanonicalType().GetTypeFlags() & lldb.eTypeIsSigned
    address = value.GetValueAsSigned(error, 0) % ADDRESSES if is_signed else value.GetValueAsUnsigned(error, 0)
    if error.Fail():
        raise Refused("ADDRESS must be a number, a pointer or an array; & before a value gives its address")
    return address, count


def count_of(context, text):
    """Returns the expression as a number of words."""
    error = lldb.SBError()
    count = evaluate(context, text).GetValueAsSigned(error, -1)
    if error.Fail() or count < 0:
        raise Refused("COUNT must be a number of words, at least 0")
    return count


def members_of(kind):
    """Returns the names and the types of the members of a struct."""
    kind = kind.GetCanonicalType().GetDereferencedType() if kind.IsReferenceType() else kind.GetCanonicalType()
    if kind.IsArrayType() or kind.IsPointerType():
        return []
    fields = [kind.GetFieldAtIndex(i) for i in range(kind.GetNumberOfFields())]
    return [(it.GetName(), it.GetType()) for it in fields if it.GetName()]


def path_in(kind):
    return path_to_word(kind, members_of, lambda it: it.GetByteSize())


def of_value(value):
    """Returns a value as a capability and whether it has its tag. It has 16 bytes, or is a struct with one word."""
    if value.GetType().IsReferenceType():
        value = value.Dereference()
    value, tagged = value.GetNonSyntheticValue(), True
    path = path_in(value.GetType())
    if path is None:
        raise Refused(f"a capability has {BYTES} bytes, and this value has {value.GetByteSize()}")
    names, by_members = path
    for name in [*names, None]:
        member = value.GetChildMemberWithName("tag")
        tagged = tagged and (not member.IsValid() or member.GetValueAsUnsigned() != 0)
        for it in "refusal", "refusal_":
            code = value.GetChildMemberWithName(it).GetValueAsUnsigned(0)
            if code:
                raise Refused(refused_for(code))
        value = value.GetChildMemberWithName(name).GetNonSyntheticValue() if name else value
    if by_members:
        high, low = (value.GetChildMemberWithName(it).GetValueAsUnsigned() for it in ("high", "low"))
        return Capability(high << 64 | low), tagged
    error = lldb.SBError()
    data = value.GetData().ReadRawData(error, 0, BYTES)
    if error.Fail():
        raise Refused(str(error))
    return Capability.from_bytes(bytes(data), order_of(value.GetTarget())), tagged


def mapped(context):
    """Returns the ranges of memory that can be read, or None if they are not known.

    They belong to a process or to a core file, and otherwise are the sections of the program's file."""
    target, process, ranges = context.GetTarget(), context.GetProcess(), []
    if process.IsValid():
        regions, region = process.GetMemoryRegions(), lldb.SBMemoryRegionInfo()
        for i in range(regions.GetSize()):
            is_there = regions.GetMemoryRegionAtIndex(i, region) and region.IsMapped() and region.IsReadable()
            if is_there and region.GetName() not in UNREADABLE:
                ranges.append((region.GetRegionBase(), region.GetRegionEnd()))
    else:
        sections = list(target.GetModuleAtIndex(0).section_iter())
        while sections:
            it = sections.pop()
            parts = [it.GetSubSectionAtIndex(i) for i in range(it.GetNumSubSections())]
            sections += parts
            if not parts and it.GetFileAddress() not in (0, lldb.LLDB_INVALID_ADDRESS):
                ranges.append((it.GetFileAddress(), it.GetFileAddress() + it.GetByteSize()))
        return sorted(ranges) or None  # LLDB reads one section at a time
    return disjoint(ranges) or None


def capdump(debugger, command, context, result, _):
    """Show the capabilities from an address: capdump ADDRESS [COUNT]. COUNT is the number of words, of 16 bytes each,
    in the byte order of the target [default: those of an array, otherwise 1]. "(not canonical)" follows a word that is
    not that of a capability."""
    try:
        words = shlex.split(command)
        if len(words) not in (1, 2):
            raise Refused("usage: capdump ADDRESS [COUNT]")
        start, count = address_of(context, words[0])
        if len(words) == 2:
            count = count_of(context, words[1])
        for line in dumped(reader_of(context), order_of(context.GetTarget()), start, count):
            result.AppendMessage(line)
    except Refused as why:
        result.SetError(str(why))


def capfind(debugger, command, context, result, _):
    """Find the words that could be capabilities to an address: capfind [--unsealed] ADDRESS [START END] [PERMS]. The words from
    START to below END are read, at multiples of 16; without these, those of all mapped memory of the process, of the
    core file, or of the program's file. A word is shown if it is canonical, or a sentry that is canonical once it is
    unsealed, its bounds contain ADDRESS, and it has permissions, among them PERMS: names joined by +, as in
    LOAD+STORE. So null and integers are omitted. (sentry) or (sealed) follows a word that is; --unsealed omits both."""
    try:
        words, unsealed = without_unsealed(shlex.split(command))
        if len(words) not in (1, 2, 3, 4):
            raise Refused("usage: capfind [--unsealed] ADDRESS [START END] [PERMS]")
        places = [address_of(context, it)[0] for it in (words[:1] if len(words) < 3 else words[:3])]
        perms = mask_in(words[-1]) if len(words) in (2, 4) else 0
        read, order = reader_of(context), order_of(context.GetTarget())
        for line in found(read, order, mapped(context), *places, perms=perms, unsealed=unsealed):
            result.AppendMessage(line)
    except Refused as why:
        result.SetError(str(why))


def capinfo(debugger, command, context, result, _):
    """Show the fields and the bounds of a capability: capinfo EXPRESSION, a value of 16 bytes or a struct with one
    word, or capinfo WORD, 32 hexadecimal digits, with or without 0x, or two halves of 16 digits joined by _ or :, the
    high one first. The lines equal those of `cheri-cap show`."""
    try:
        text = command.strip()
        if not text:
            raise Refused("usage: capinfo EXPRESSION, or capinfo WORD")
        cap = word_in(text)
        cap = of_value(evaluate(context, text))[0] if cap is None else cap
        result.AppendMessage(cap.listing().rstrip("\n"))
    except Refused as why:
        result.SetError(str(why))


def summary_of(value, _):
    """Returns the summary of a value of a type that is known, or that capprint named."""
    try:
        return text_of(*of_value(value))
    except Refused as why:
        return f"<{why}>"


def add_summary(debugger, name):
    debugger.HandleCommand(f"type summary add --no-value --python-function {__name__}.summary_of '{name}'")


def capprint(debugger, command, context, result, _):
    """Show the values of a type as capabilities: capprint TYPE. TYPE has 16 bytes, such as `capability` or `struct
    capability`, or is a struct with one word. The types of the library that are words are shown so without it. This
    adds a type summary, which `type summary delete TYPE` removes."""
    try:
        # LLDB's names of types are without this word
        name = command.strip().partition("struct ")[2] or command.strip()
        if not name:
            raise Refused("usage: capprint TYPE")
        size = evaluate(context, f"sizeof({command.strip()})").GetValueAsUnsigned()
        if path_in(evaluate(context, f"({command.strip()} *)0").GetType().GetPointeeType()) is None:
            raise Refused(f"a capability has {BYTES} bytes, and the type {name} has {size}")
        add_summary(debugger, name)
    except Refused as why:
        result.SetError(str(why))


def __lldb_init_module(debugger, _):
    for name in "capdump", "capfind", "capinfo", "capprint":
        debugger.HandleCommand(f"command script add -f {__name__}.{name} {name}")
    for name in KNOWN:
        add_summary(debugger, name)
