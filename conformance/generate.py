#!/usr/bin/env python3
"""The conformance set: words, requests for bounds, and addresses, with the values of each.

It does not use the library: the rules of decoding are written here from the public standard (UCAM-CL-TR-987;
Woodruff et al. 2019), and canonical words from the definition of a sound span. docs/CONFORMANCE.md describes the tables.
The inputs of the last rows of each table are in chosen.txt: tests/mistakes chose them, by the mistakes that they find.

    generate.py            compares the three tables with those that it computes; status 1 if they differ
    generate.py --write    writes the tables
"""

import sys
from pathlib import Path

HERE = Path(__file__).resolve().parent
CHOSEN = HERE / "chosen.txt"

COLUMNS = "name word perms reserved flag type ie t b address exponent base top canonical rebuild".split()
REQUEST_COLUMNS = "name base length granted_base granted_top exponent ie t b exact mask rounded".split()
ADDRESS_COLUMNS = "name word address representable".split()

ADDRESS_SPACE = 1 << 64
NULL_MASK = 0x00001FFFFC018004 << 64
UNSEALED = 0x3FFFF
LAST_SEALING_TYPE = 0x3FFEF
MOST_EXPONENT = 52

# Words with their values, written by hand: name, word, type, ie, t, b, exponent, base, top, canonical.
WORKED = """
null                         00000000000000000000000000000000 3ffff 1 006 0004 52 0x0                0x10000000000000000 yes
root                         ffff0000000000000000000000000000 3ffff 1 006 0004 52 0x0                0x10000000000000000 yes
small_exact                  ffff0000048190040000000000001000 3ffff 0 200 1000 0  0x1000             0x1200              yes
longest_byte_granule         ffff000007fe40040000000000000000 3ffff 0 fff 0000 0  0x0                0xfff               yes
shortest_coarse_granule      ffff0000000180040000000000000000 3ffff 1 000 0000 0  0x0                0x1000              yes
exponent_one                 ffff0000000180050000000000000000 3ffff 1 000 0001 1  0x0                0x2000              yes
equal_mantissas_no_carry     ffff0000027f89fd00000000000113f0 3ffff 1 9f8 09f9 1  0x113f0            0x133f0             yes
pool_of_64_kibibytes         ffff0000000190000000000000010000 3ffff 1 000 1004 4  0x10000            0x20000             yes
mantissa_carry               ffff00000401bf04ffffffffffffff00 3ffff 0 000 3f00 0  0xffffffffffffff00 0x10000000000000000 yes
inverted_top_bit             ffff000004818004fffffffffffff800 3ffff 0 200 0000 0  0x0                0x200               yes
upper_half                   ffff0000000010078000000000000000 3ffff 1 006 1003 51 0x8000000000000000 0x10000000000000000 yes
upper_half_at_zero           ffff0000000010070000000000000000 3ffff 1 006 1003 51 0x8000000000000000 0x10000000000000000 yes
sealed_type_zero             ffff1ffff80000000000000000000000 00000 1 006 0004 52 0x0                0x10000000000000000 yes
last_sealing_type            ffff0000800000000000000000000000 3ffef 1 006 0004 52 0x0                0x10000000000000000 yes
first_reserved_type          ffff0000780000000000000000000000 3fff0 1 006 0004 52 0x0                0x10000000000000000 no
sentry                       ffff0000080000000000000000000000 3fffe 1 006 0004 52 0x0                0x10000000000000000 no
exponent_53                  ffff0000000000010000000000000000 3ffff 1 006 0005 52 0x0                0x10000000000000000 no
exponent_63                  ffff0000000040030000000000000000 3ffff 1 007 0007 52 0x0                0x10000000000000000 no
other_word_of_root_bounds    ffff0000000020000000000000000000 3ffff 1 006 2004 52 0x0                0x10000000000000000 no
top_below_base               ffff0000000030070000000000000000 3ffff 1 006 3003 51 0x8000000000000000 0x0                 no
top_past_end                 ffff00000441bf04ffffffffffffff00 3ffff 0 100 3f00 0  0xffffffffffffff00 0x10000000000000100 no
reserved_bit                 ffff4000000000000000000000000000 3ffff 1 006 0004 52 0x0                0x10000000000000000 no
flag_set                     ffff2000000000000000000000000000 3ffff 1 006 0004 52 0x0                0x10000000000000000 yes
all_ones                     ffffffffffffffffffffffffffffffff 00000 0 ff9 3ffb 0  0xfffffffffffffffb 0x10000000000000ff9 no
carry_with_ie                ffff00000001bf050000000000020010 3ffff 1 000 3f01 1  0x1fe00            0x22000             yes
"""

# One pair of bounds fields at four addresses: name, address, base, top.
WINDOW = """
window_last_address          0x37ff             0x0                0x200
window_next_lap              0x3800             0x4000             0x4200
window_first_address         0xfffffffffffff800 0x0                0x200
window_lap_before            0xfffffffffffff7ff 0xffffffffffffc000 0xffffffffffffc200
"""
WINDOW_UPPER = 0xFFFF000004818004


def fields_of(word):
    """Returns the fields as stored, beginning with bit 0, without the exclusive-or of the null capability."""
    fields, bits = {}, word ^ NULL_MASK
    widths = dict(address=64, b=14, t=12, ie=1, otype=18, flag=1, reserved=2, perms=16)
    for name, width in widths.items():
        fields[name], bits = bits & ((1 << width) - 1), bits >> width
    return fields


def exponent_of(fields):
    digits = (fields["t"] & 7) << 3 | fields["b"] & 7
    return min(digits, MOST_EXPONENT) if fields["ie"] else 0


def decode(fields):
    """Returns the base and the top, by the standard's rules: mantissas, corrections, bit 64 of the top."""
    exponent, ie, address = exponent_of(fields), fields["ie"], fields["address"]
    base_mantissa, low = fields["b"], fields["t"]
    if ie:
        base_mantissa, low = base_mantissa & ~7, low & ~7
    carry = low < (base_mantissa & 0xFFF)
    top_mantissa = ((base_mantissa >> 12) + carry + ie & 3) << 12 | low

    section = (address >> (exponent + 11)) & 7
    first = ((base_mantissa >> 11) - 1) & 7

    def end(mantissa, width):
        correction = ((mantissa >> 11) < first) - (section < first)
        upper = (address >> (exponent + 14)) + correction
        return (upper << 14 | mantissa) << exponent & ((1 << width) - 1)

    base, top = end(base_mantissa, 64), end(top_mantissa, 65)
    if exponent < 51 and ((top >> 63) - (base >> 63)) % 4 > 1:
        top ^= 1 << 64
    return base, top


def granted(base, top):
    """Returns the exponent and the span that setting bounds to [base, top) grants. Tries one granule after another."""
    if top - base < 4096:
        return 0, base, top
    granule = 8
    while -(-top // granule) - base // granule > 1023:
        granule *= 2
    return granule.bit_length() - 4, base // granule * granule, -(-top // granule) * granule


def is_representable(base, exponent, address):
    """Returns whether the address, plus some multiple of 2^64, is in the window of the base."""
    section = 1 << (exponent + 11)
    start = (base // section - 1) * section
    return (address - start) % ADDRESS_SPACE < 8 * section


def stored(base, top):
    """Returns IE, the B field and the T field that setting bounds to a sound span stores."""
    exponent, ie = granted(base, top)[0], int(top - base >= 4096)
    b, t = base >> exponent & 0x3FFF, top >> exponent & 0xFFF
    return (ie, b | exponent % 8, t | exponent // 8) if ie else (ie, b, t)


def is_canonical(fields):
    """Returns whether a capability can have the fields: a sound span as it is stored, and an address in its window."""
    base, top = decode(fields)
    if fields["reserved"] or LAST_SEALING_TYPE < fields["otype"] < UNSEALED:
        return False
    if not base <= top <= ADDRESS_SPACE or granted(base, top)[1:] != (base, top):
        return False
    is_stored = (fields["ie"], fields["b"], fields["t"]) == stored(base, top)
    return is_stored and is_representable(base, granted(base, top)[0], fields["address"])


def word_of(base, top, address, perms=0xFFFF, otype=UNSEALED):
    """Returns the word of a capability, without its flag."""
    ie, b, t = stored(base, top)
    fields = perms << 112 | otype << 91 | ie << 90 | t << 78 | b << 64 | address % ADDRESS_SPACE
    return fields ^ NULL_MASK


def row_of(name, word):
    """Returns the row of a word, as printed strings."""
    fields, (base, top) = fields_of(word), decode(fields_of(word))
    canonical, is_sealed = is_canonical(fields), fields["otype"] != UNSEALED
    refusal = "16" if canonical else "15"
    return {
        "name": name,
        "word": f"{word:032x}",
        "perms": f"{fields['perms']:04x}",
        "reserved": str(fields["reserved"]),
        "flag": str(fields["flag"]),
        "type": f"{fields['otype']:05x}",
        "ie": str(fields["ie"]),
        "t": f"{fields['t']:03x}",
        "b": f"{fields['b']:04x}",
        "address": f"{fields['address']:#x}",
        "exponent": str(exponent_of(fields)),
        "base": f"{base:#x}",
        "top": f"{top:#x}",
        "canonical": "yes" if canonical else "no",
        "rebuild": "made" if canonical and not is_sealed else refusal,
    }


def expect(row, **values):
    """Stops if a computed value is not the one that was written by hand."""
    for column, value in values.items():
        if row[column] != value:
            sys.exit(f"{row['name']}: {column} is {row[column]}, and not {value}")
    return row


def worked_rows():
    for line in WORKED.strip().splitlines():
        name, word, otype, ie, t, b, exponent, base, top, canonical = line.split()
        values = dict(ie=ie, t=t, b=b, exponent=exponent, base=base, top=top, canonical=canonical)
        yield expect(row_of(name, int(word, 16)), type=otype, **values)


def exponent_rows():
    """Returns a row for each exponent field, with mantissas of zero, so that the bounds are the smallest of their exponent."""
    for field in range(64):
        upper = 0xFFFF000000000000 + (field // 8 ^ 6) * 0x4000 + (field % 8 ^ 4)
        exponent = min(field, MOST_EXPONENT)
        values = dict(ie="1", exponent=str(exponent), base="0x0", top=hex(1 << (exponent + 12)))
        row = row_of(f"exponent_field_{field}", upper << 64)
        yield expect(row, canonical="yes" if field <= MOST_EXPONENT else "no", **values)


def reserved_rows():
    for reserved in (1, 2, 3):
        row = row_of(f"root_reserved_{reserved}", (0xFFFF << 112) | reserved << 110)
        yield expect(row, reserved=str(reserved), base="0x0", top=hex(ADDRESS_SPACE), canonical="no")


def window_rows():
    for line in WINDOW.strip().splitlines():
        name, address, base, top = line.split()
        row = row_of(name, WINDOW_UPPER << 64 | int(address, 16))
        yield expect(row, address=address, base=base, top=top, canonical="yes")


# The corrections of the base and of the top: the mantissa of the base, and the address, both from the start of B's section 0. Each
# exponent has two of the five in turn: one length without a carry of the mantissas, and one with it.
CORRECTIONS = """
none          0x1480 0x1900
both_up       0x0300 -0x200
top_up        0x3a40 0x3b00
base_down     0x3a40 0x4100
both_down     0x1d80 0x4600
"""


def correction_rows():
    lines = [line.split() for line in CORRECTIONS.strip().splitlines()]
    for exponent in range(-1, 50):
        pair = lines[exponent % 5], lines[(exponent + 3) % 5]
        for number, (name, base, address) in enumerate(pair):
            unit = 1 << max(exponent, 0)
            start = 0x5A5A5A5A5A5A5A5A >> (max(exponent, 0) + 14) << (max(exponent, 0) + 14)
            length = ((0x1158, 0x1D58) if exponent >= 0 else (0x8BD, 0xABD))[number]
            base, address = start + int(base, 16) * unit, start + int(address, 16) * unit + unit // 3
            mixed = 2 * exponent + number + 3
            perms, is_sealed = 0x9E37 * mixed % 0x10000, mixed % 4 == 0
            word = word_of(base, base + length * unit, address, perms, 0x2A5B7 * mixed % LAST_SEALING_TYPE if is_sealed else UNSEALED)
            label = f"e{exponent}" if exponent >= 0 else "ie_0"
            yield expect(row_of(f"{label}_{name}", word), base=f"{base:#x}", top=f"{base + length * unit:#x}", canonical="yes")


def chosen(kind):
    """Yields the name and the numbers of each line of a kind."""
    for line in CHOSEN.read_text().splitlines():
        first, name, *numbers = line.split()
        if first == kind:
            yield name, *(int(it, 16) for it in numbers)


def word_rows():
    yield from (*worked_rows(), *exponent_rows(), *reserved_rows(), *window_rows(), *correction_rows())
    for name, word in chosen("word"):
        yield row_of(name, word)


# ---- Requests


def request_row(name, base, length):
    """Returns the row of a request, as printed strings."""
    exponent, granted_base, granted_top = granted(base, base + length)
    ie, b, t = stored(granted_base, granted_top)
    granule = 8 << granted(0, length)[0] if length >= 4096 else 1
    return {
        "name": name,
        "base": f"{base:#x}",
        "length": f"{length:#x}",
        "granted_base": f"{granted_base:#x}",
        "granted_top": f"{granted_top:#x}",
        "exponent": str(exponent),
        "ie": str(ie),
        "t": f"{t:03x}",
        "b": f"{b:04x}",
        "exact": "yes" if (granted_base, granted_top) == (base, base + length) else "no",
        "mask": f"{ADDRESS_SPACE - granule:#x}",
        "rounded": f"{-(-length // granule) * granule:#x}",
    }


# Requests with their values, written by hand: name, base, length, granted base and top, exponent, ie, t, b, exact, rounded length.
WORKED_REQUESTS = """
small_exact          0x1000             0x200               0x1000             0x1200              0  0 200 1000 yes 0x200
longest_byte_granule 0x0                0xfff               0x0                0xfff               0  0 fff 0000 yes 0xfff
shortest_with_ie     0x0                0x1000              0x0                0x1000              0  1 000 0000 yes 0x1000
from_an_odd_address  0x1                0x1000              0x0                0x1008              0  1 008 0000 no  0x1000
rounded_to_two_pages 0x0                0x1fff              0x0                0x2000              1  1 000 0001 no  0x2000
grows_from_one       0x1                0x1ff8              0x0                0x2000              1  1 000 0001 no  0x1ff8
grows_not_yet        0x1                0x1ff7              0x0                0x1ff8              0  1 ff8 0000 no  0x1ff8
buffer_of_8191       0x10068            0x1fff              0x10060            0x12070             1  1 038 0031 no  0x2000
upper_half           0x8000000000000000 0x8000000000000000  0x8000000000000000 0x10000000000000000 51 1 006 1003 yes 0x8000000000000000
last_exponent_51     0x0                0xffc0000000000000  0x0                0xffc0000000000000  51 1 ffe 0003 yes 0xffc0000000000000
all_but_one_byte     0x0                0xffffffffffffffff  0x0                0x10000000000000000 52 1 006 0004 no  0x10000000000000000
whole_address_space  0x0                0x10000000000000000 0x0                0x10000000000000000 52 1 006 0004 yes 0x10000000000000000
nothing              0x0                0x0                 0x0                0x0                 0  0 000 0000 yes 0x0
nothing_at_the_end   0xffffffffffffffff 0x0                 0xffffffffffffffff 0xffffffffffffffff  0  0 fff 3fff yes 0x0
last_byte            0xffffffffffffffff 0x1                 0xffffffffffffffff 0x10000000000000000 0  0 000 3fff yes 0x1
"""


def request_rows():
    """Yields the worked requests, four for each exponent at the limit of 1,023 granules, and the chosen ones."""
    for line in WORKED_REQUESTS.strip().splitlines():
        name, base, length, granted_base, granted_top, exponent, ie, t, b, exact, rounded = line.split()
        values = dict(exponent=exponent, ie=ie, t=t, b=b, exact=exact, rounded=rounded, granted_base=granted_base, granted_top=granted_top)
        yield expect(request_row(name, int(base, 16), int(length, 16)), **values)
    for exponent in range(52):
        granule = 8 << exponent
        far = (ADDRESS_SPACE // 3) >> (exponent + 13) << (exponent + 13)
        longest = 1023 * granule
        yield expect(request_row(f"e{exponent}_longest", 0, longest), exponent=str(exponent), exact="yes")
        yield expect(request_row(f"e{exponent}_byte_too_long", 0, longest + 1), exponent=str(exponent + 1), exact="no")
        if far + longest <= ADDRESS_SPACE:
            row = request_row(f"e{exponent}_both_rounded", far + granule // 2, 700 * granule + 1)
            yield expect(row, exponent=str(exponent), granted_base=f"{far:#x}", granted_top=f"{far + 701 * granule:#x}")
            row = request_row(f"e{exponent}_too_many_touched", far + granule - 1, 1022 * granule + 2)
            yield expect(row, exponent=str(exponent + 1), granted_base=f"{far:#x}", granted_top=f"{far + 1024 * granule:#x}")
    for name, base, length in chosen("request"):
        yield request_row(name, base, length)


# ---- Addresses


def address_row(name, word, address):
    """Returns the row of an address: it is representable if the word decodes to the same bounds with it, which the window has to say too."""
    fields = fields_of(word)
    same = decode(fields) == decode({**fields, "address": address})
    base, top = decode(fields)
    if not is_canonical(fields) or same != is_representable(base, granted(base, top)[0], address):
        sys.exit(f"{name}: the word is not canonical, or the window is not where the bounds are the same")
    return {"name": name, "word": f"{word:032x}", "address": f"{address:#x}", "representable": "yes" if same else "no"}


def address_rows():
    """Yields the ends of the window for each exponent, and the addresses next to it, and then the chosen ones."""
    for exponent in range(-1, 50):
        unit, label = 1 << max(exponent, 0), f"e{exponent}" if exponent >= 0 else "ie_0"
        section = unit << 11
        mark = (5 * exponent + 13) * 0x640 % 0x4000 & ~7
        base = ((ADDRESS_SPACE // 7 * 5) >> (max(exponent, 0) + 14) << 14) * unit + mark * unit
        top = base + (0x9A1 if exponent < 0 else 0x1208) * unit
        first = (base // section - 1) * section
        word = word_of(base, top, base if exponent % 2 else first + 8 * section - 1)
        ends = dict(first=(first, "yes"), last=(first + 8 * section - 1, "yes"), before=(first - 1, "no"), after=(first + 8 * section, "no"))
        for name, (address, representable) in ends.items():
            yield expect(address_row(f"{label}_{name}", word, address % ADDRESS_SPACE), representable=representable)
    for name, word, address in chosen("address"):
        yield address_row(name, word, address)


TABLES = {
    "conformance.tsv": (COLUMNS, word_rows),
    "requests.tsv": (REQUEST_COLUMNS, request_rows),
    "addresses.tsv": (ADDRESS_COLUMNS, address_rows),
}


def text_of(columns, rows):
    """Returns the text of a table: the names of the columns, and then the rows."""
    names = [row["name"] for row in rows]
    if len({*names}) < len(names):
        sys.exit(f"two rows have the name {[name for name in names if names.count(name) > 1][0]}")
    return "".join("\t".join(cells) + "\n" for cells in [columns, *([row[column] for column in columns] for row in rows)])


def main(arguments):
    if arguments not in ([], ["--write"]):
        sys.exit(__doc__)
    for name, (columns, rows) in TABLES.items():
        text = text_of(columns, [*rows()])
        if arguments:
            (HERE / name).write_text(text)
        if (HERE / name).read_text() != text:
            sys.exit(f"{HERE / name} is not the table that the generator computes")


if __name__ == "__main__":
    main(sys.argv[1:])
