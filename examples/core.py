#!/usr/bin/env python3
"""Lists the words of an ELF64 core file that could be capabilities, in all segments, each with its address.

    examples/core.py [--holds ADDRESS] [--perms NAMES] [--unsealed] [--mapped] CORE

    --holds ADDRESS   only words whose bounds contain the address
    --perms NAMES     only words with all these permissions, joined by +
    --unsealed        neither sealed words nor sentries
    --mapped          only words whose bounds lie in mapped memory, which leaves few random ones

A line has the address of the word, the word, its one-line form, and, after ->, the segment that its bounds begin in: the
file that is mapped there, or the first address of the segment. The status is 1 if CORE is cut short: then the words up to its
end are listed.
"""
import argparse
import mmap
import signal
import struct
import sys
from pathlib import Path
from typing import Dict, Iterator, List, NamedTuple, Tuple, Union

sys.path.append(str(Path(__file__).resolve().parent.parent / "python"))
from cheri_cap import ByteOrder, Capability, Region, find_capabilities

LOAD, NOTE, NT_FILE, PN_XNUM = 1, 4, 0x46494C45, 0xFFFF
# the size of the entry of a segment
ENTRY = 56


class Segment(NamedTuple):
    address: int
    #: the size in memory, and the bytes of it that the file has
    size: int
    memory: memoryview
    #: the mapped file, or the address
    name: str


class Core(NamedTuple):
    byteorder: ByteOrder
    segments: List[Segment]
    is_cut: bool


def core_of(data: Union[bytes, mmap.mmap]) -> Core:
    """Returns the segments of an ELF64 file.

    Errors: ValueError for another file."""
    if data[:5] != b"\x7fELF\2" or len(data) < 64 or data[5] not in (1, 2):
        raise ValueError("not an ELF64 file")
    mark = "<" if data[5] == 1 else ">"
    table, sections = struct.unpack_from(f"{mark}2Q", data, 32)
    entry, count = struct.unpack_from(f"{mark}2H", data, 54)
    try:
        if count == PN_XNUM:
            # the number of a large core is in its first section
            count = struct.unpack_from(f"{mark}I", data, sections + 44)[0]
        if entry < ENTRY or table + entry * count > len(data):
            raise ValueError
        headers = [struct.unpack_from(f"{mark}2I6Q", data, table + entry * it) for it in range(count)]
    except (struct.error, OverflowError, ValueError):
        raise ValueError("the table of segments is cut short") from None
    view, names, is_cut = memoryview(data), {}, False
    for kind, _, offset, _, _, size, _, _ in headers:
        if kind == NOTE:
            names.update(files_of(bytes(view[offset : offset + size]), mark))
    segments = []
    for kind, _, offset, address, _, size, total, _ in headers:
        if kind == LOAD:
            memory = view[offset : offset + size]
            is_cut |= len(memory) < size
            segments.append(Segment(address, max(size, total), memory, names.get(address, f"{address:#x}")))
    return Core("little" if mark == "<" else "big", segments, is_cut)


def files_of(notes: bytes, mark: str) -> Dict[int, str]:
    """Returns the names of the mapped files by their first addresses, of the notes that Linux and gdb write."""
    names: Dict[int, str] = {}
    at = 0
    while at + 12 <= len(notes):
        owner, size, kind = struct.unpack_from(f"{mark}3I", notes, at)
        at += 12 + (owner + 3) // 4 * 4
        if kind == NT_FILE and at + size <= len(notes) and size >= 16:
            count = struct.unpack_from(f"{mark}Q", notes, at)[0]
            paths = notes[at + 16 + 24 * count : at + size].split(b"\0")
            for it, path in zip(range(min(count, (size - 16) // 24)), paths):
                names[struct.unpack_from(f"{mark}Q", notes, at + 16 + 24 * it)[0]] = path.decode("utf-8", "replace")
        at += (size + 3) // 4 * 4
    return names


def regions_of(core: Core) -> List[Region]:
    """Returns the regions of segments that follow one another."""
    regions: List[Tuple[int, int]] = []
    for start, size in sorted((it.address, it.size) for it in core.segments):
        if regions and sum(regions[-1]) >= start:
            regions[-1] = regions[-1][0], max(sum(regions[-1]), start + size) - regions[-1][0]
        else:
            regions.append((start, size))
    return [*regions]


def found_in(core: Core, **how: object) -> Iterator[Tuple[int, Capability]]:
    """Yields the address and the word of each that `find_capabilities` finds, in the segments one after the other."""
    for segment in core.segments:
        # words lie at multiples of 16, and a segment of a core file may begin anywhere in it
        skip = -segment.address % 16
        memory = segment.memory[skip : skip + (len(segment.memory) - skip) // 16 * 16]
        for position, cap in find_capabilities(memory, byteorder=core.byteorder, **how):  # type: ignore[arg-type]
            yield segment.address + skip + 16 * position, cap


def main() -> int:
    parser = argparse.ArgumentParser(usage=(__doc__ or "").split("\n\n")[1].strip())
    parser.add_argument("core")
    parser.add_argument("--holds", type=lambda it: int(it, 0))
    parser.add_argument("--perms", default=0)
    parser.add_argument("--unsealed", action="store_true")
    parser.add_argument("--mapped", action="store_true")
    given = parser.parse_args()
    # a reader that has read enough, such as head, ends this program
    signal.signal(signal.SIGPIPE, signal.SIG_DFL)
    try:
        with open(given.core, "rb") as file:
            core = core_of(mmap.mmap(file.fileno(), 0, access=mmap.ACCESS_READ))
        within = regions_of(core) if given.mapped else None
        for address, cap in found_in(core, holds=given.holds, perms=given.perms, unsealed=given.unsealed, within=within):
            to = [it.name for it in core.segments if it.address <= cap.base < it.address + it.size]
            print(f"{address:#x}: {cap:032x} {cap}" + (f" -> {to[0]}" if to else ""))
    except (OSError, ValueError) as error:
        print(f"core.py: {given.core}: {error}", file=sys.stderr)
        return 2
    if core.is_cut:
        print(f"core.py: {given.core}: cut short", file=sys.stderr)
    return int(core.is_cut)


if __name__ == "__main__":
    sys.exit(main())
