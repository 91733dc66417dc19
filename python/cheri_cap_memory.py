"""Words in the memory of a program that is debugged: the parts of the commands that gdb and LLDB share.

A `read` function takes an address and a size in bytes, and returns that many bytes, or raises `Unreadable`. Memory is
read in blocks. If a block cannot be read, its pages are read one by one.
"""

from typing import Any, Callable, Iterator, List, Optional, Sequence, Tuple

from cheri_cap import REFUSALS, UNSEALED, ByteOrder, Capability, find_capabilities, mask_of

BYTES = 16
PAGE = 1 << 12
BLOCK = 1 << 20
ADDRESSES = 1 << 64
# the most bytes that are read if it is not known what is mapped: some seconds
LARGEST = 1 << 32

# mappings of Linux that a debugger cannot read, although some have the permission
UNREADABLE = "[vvar]", "[vvar_vclock]", "[vsyscall]"
# the types of cheri_cap.h, cheri_cap.hpp and cheri_cap_isa9.h that are words; cheri_cap_u128 may be a length
KNOWN = "cheri::word", "cheri::result", "cheri_cap_made", "cheri_cap_read", "cheri_isa9_cap"

Read = Callable[[int, int], bytes]
Ranges = Sequence[Tuple[int, int]]


class Refused(Exception):
    """An error with a message for the user."""


class Unreadable(Exception):
    """Memory that cannot be read."""


def word_in(text: str) -> Optional[Capability]:
    """Returns the word that a text is, as `Capability.parse` takes it, or None."""
    try:
        return Capability.parse(text.strip())
    except ValueError:
        return None


def without_unsealed(words: Sequence[str]) -> Tuple[List[str], bool]:
    """Returns the words of a command except the option --unsealed, and whether this was one."""
    return [it for it in words if it != "--unsealed"], "--unsealed" in words


def mask_in(names: str) -> int:
    """Returns the mask of permissions by their names, joined by "+", of either case."""
    try:
        return mask_of(names.upper())
    except ValueError as error:
        raise Refused(f"PERMS must be names joined by +: {error}")


def could_be(cap: Capability) -> bool:
    """Returns whether a word can be that of a capability: it is canonical, or a sentry of one that is."""
    return (cap.with_type(UNSEALED) if cap.is_sentry else cap).is_canonical


def refused_for(code: int) -> str:
    """Returns the text of a rule that refused, by the code of the reason."""
    return f"refused: {REFUSALS.get(code, code)}"


def text_of(cap: Capability, tagged: bool = True) -> str:
    """Returns the one-line form of a word, marked if it cannot be that of a capability."""
    return cap.line(tagged) + ("" if could_be(cap) else " (not canonical)")


def line_of(address: int, cap: Capability) -> str:
    """Returns the line of a word at an address."""
    return f"{address:#x}: {cap:032x} {text_of(cap)}"


def path_to_word(
    kind: Any, members_of: Callable[[Any], List[Tuple[str, Any]]], size_of: Callable[[Any], int]
) -> Optional[Tuple[List[str], bool]]:
    """Returns the names of the members that lead from a type to its word, and whether the word is read by its members
    `high` and `low`; or None if the type has no word, or several.

    `members_of` returns the names and the types of a type's members, in the order of memory, and none for other types
    than structs. A struct with the members `high` and then `low`, of 8 bytes each, as cheri_cap_u128 has them, is read
    by these. A type of 16 bytes without such a member is read as 16 bytes of memory. Any other struct has the word of
    its one member that has a word."""
    members = members_of(kind)
    names = [name for name, _ in members]
    if [size_of(it) for name, it in members if name in ("high", "low")] == [BYTES // 2, BYTES // 2]:
        return [], size_of(kind) != BYTES or names.index("high") < names.index("low")
    inner = [(name, path_to_word(it, members_of, size_of)) for name, it in members if members_of(it)]
    found = [(name, path) for name, path in inner if path]
    if len(found) == 1:
        name, (rest, by_members) = found[0]
        return [name, *rest], by_members
    return ([], False) if size_of(kind) == BYTES and not found else None


def dumped(read: Read, order: ByteOrder, start: int, count: int) -> Iterator[str]:
    """Yields the line of each of `count` words from an address on.

    Errors: Refused at the first word that cannot be read, after the lines before it."""
    end = start + BYTES * count
    while start < end:
        data = _readable(read, start, min(end - start, BLOCK))
        for at in range(0, len(data), BYTES):
            yield line_of(start, Capability.from_bytes(data[at : at + BYTES], order))
            start += BYTES


def _readable(read: Read, start: int, size: int) -> bytes:
    """Returns the memory from an address on: `size` bytes, or the words of it before one that cannot be read.

    Errors: Refused if there are no such words."""
    for piece in size, PAGE - start % PAGE, BYTES:
        piece = min(piece - piece % BYTES, size)
        try:
            if piece:
                return read(start, piece)
        except Unreadable:
            pass
    raise Refused(f"cannot read {BYTES} bytes at {start:#x}")


def found(
    read: Read,
    order: ByteOrder,
    mapped: Optional[Ranges],
    address: int,
    start: Optional[int] = None,
    end: int = 0,
    *,
    perms: int = 0,
    unsealed: bool = False,
) -> Iterator[str]:
    """Yields the lines of the words from `start` to below `end` that could be capabilities to an address, and a summary.

    Without `start`, the words of all ranges of `mapped` are searched. A word begins at a multiple of 16. Words without
    permissions, such as null, are omitted, and sealed words if `unsealed`. The last line has the number of the words, and
    that of the bytes that could not be read. If `mapped` has ranges, no other memory is read."""
    if start is not None:
        if not 0 <= start <= end <= ADDRESSES:
            raise Refused("START must not be above END")
        first, last = _whole_words(start, end)
        if mapped is None and last - first > LARGEST:
            raise Refused(f"the ranges of memory are not known: END - START must be at most {LARGEST:#x}")
        ranges = [(first, last)] if mapped is None else [(max(low, first), min(high, last)) for low, high in mapped]
        unread = _size([(first, last)])
    elif mapped:
        ranges = [_whole_words(*it) for it in mapped]
        unread = _size(ranges)
    else:
        raise Refused("the ranges of memory are not known: give START and END")
    if not 0 <= address < ADDRESSES:
        raise Refused("ADDRESS must be from 0 to 2^64 - 1")
    count = 0
    for low, high in ranges:
        for at, size, data in _blocks(read, *_whole_words(low, high)):
            if data is None:
                continue
            unread -= size
            for position, cap in find_capabilities(data, holds=address, perms=perms, unsealed=unsealed, byteorder=order):
                yield line_of(at + position * BYTES, cap)
                count += 1
    yield f"{count} found" + (f"; {unread:,} bytes could not be read" if unread else "")


def disjoint(ranges: Ranges) -> Ranges:
    """Returns ranges in order, with those that touch or overlap as one."""
    merged: List[Tuple[int, int]] = []
    for start, end in sorted(ranges):
        if merged and start <= merged[-1][1]:
            merged[-1] = merged[-1][0], max(merged[-1][1], end)
        else:
            merged.append((start, end))
    return merged


def _whole_words(start: int, end: int) -> Tuple[int, int]:
    return -(-start // BYTES) * BYTES, end // BYTES * BYTES


def _size(ranges: Ranges) -> int:
    return sum(max(end - start, 0) for start, end in ranges)


def _blocks(read: Read, start: int, end: int) -> Iterator[Tuple[int, int, Optional[bytes]]]:
    """Yields the address, the size and the bytes of each block or page, or None for a page that cannot be read."""
    while start < end:
        stop = min(end, (start // BLOCK + 1) * BLOCK)
        try:
            yield start, stop - start, read(start, stop - start)
        except Unreadable:
            while start < stop:
                size = min(stop, (start // PAGE + 1) * PAGE) - start
                try:
                    data = read(start, size)
                except Unreadable:
                    yield start, size, None
                else:
                    yield start, size, data
                start += size
        start = stop
