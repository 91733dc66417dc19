"""Capabilities of CHERI Concentrate, 128 bits for 64-bit addresses, over the shared library libcheri_cap.

    >>> from cheri_cap import Capability
    >>> cap = Capability.parse("ffff0000048190040000000000001000")
    >>> hex(cap.base), hex(cap.top), cap.permissions[:2]
    ('0x1000', '0x1200', ('GLOBAL', 'EXECUTE'))
    >>> print(cap)
    0x1000 [rwxRW,0x1000-0x1200]
    >>> Capability.from_bytes(cap.to_bytes("little"), "little") == cap
    True
    >>> 0x1100 in cap, hex(cap), f"{cap:>30}"
    (True, '0xffff0000048190040000000000001000', '  0x1000 [rwxRW,0x1000-0x1200]')

A word has 128 bits, and every word has fields and bounds. A word is in its memory form: null is all zeros. Addresses,
bases, tops, lengths and granules are numbers of bytes. Bounds are [base, top): the top is the address after the last
byte, and may be 2**64. A word carries no tag: the caller must know whether memory holds a capability.

An integer may be of any type that has `__index__`, such as numpy's. `decode_many`, `is_canonical_many`,
`represents_many`, `find_capabilities` and `find_holding` take the words of a buffer, such as bytes, an array or an array
of numpy, and numpy reads their results without a copy. Their results can be pickled.

The results of the library are proved. This module, which calls it, is tested and not proved. It needs Python 3.8 or
later with no other modules than Python's own, and x86-64 Linux. It searches for the library in this order:

- the file that the environment's CHERI_CAP_LIBRARY names
- the file in the directory of this module, where a wheel has it
- the file that ./install installed together with this module
- the file that `examples/run shared` puts into examples/out of a checkout
- the loader's search path
"""

import ctypes
import os
import re
import sys
from array import array
from bisect import bisect_right
from ctypes import POINTER, c_bool, c_char, c_char_p, c_size_t, c_uint8, c_uint16, c_uint32, c_uint64, c_void_p
from importlib import import_module
from itertools import accumulate, compress
from operator import index
from pathlib import Path
from typing import (
    TYPE_CHECKING,
    Any,
    Callable,
    Dict,
    Iterable,
    Iterator,
    List,
    Literal,
    NamedTuple,
    Optional,
    Protocol,
    Sequence,
    SupportsIndex,
    Tuple,
    Type,
    TypeVar,
    Union,
    overload,
)

if TYPE_CHECKING:
    from _typeshed import ReadableBuffer

    Uint64s = array[int]

    class NumpyArray(Protocol):
        """An array of numpy. The annotations of buffers omit it before Python 3.12."""

        @property
        def __array_interface__(self) -> Dict[str, Any]: ...

__all__ = [
    "DEFECTS",
    "LAST_SEALING",
    "PERMISSIONS",
    "REFUSALS",
    "SENTRY",
    "UNSEALED",
    "VERSION",
    "Bounds",
    "Capability",
    "Column",
    "Derived",
    "Excess",
    "Fields",
    "Found",
    "Granted",
    "ManyBounds",
    "Refusal",
    "Window",
    "alignment_mask",
    "alignment_mask_many",
    "and_perms_many",
    "decode_many",
    "find_capabilities",
    "find_holding",
    "grant",
    "grant_many",
    "granule",
    "is_canonical_many",
    "lost",
    "mask_of",
    "represents_many",
    "round_length",
    "round_length_many",
    "set_bounds_many",
]

_Item = TypeVar("_Item", int, bool)

#: The words of a buffer, or capabilities.
Words = Union["ReadableBuffer", "NumpyArray", Sequence["Capability"]]

#: One number, or many.
Numbers = Union[SupportsIndex, Sequence[SupportsIndex], "ReadableBuffer", "NumpyArray"]

#: Permissions: 16 bits, or names that `mask_of` takes.
Mask = Union[SupportsIndex, str, List[str], Tuple[str, ...]]

#: A base and a length.
Region = Tuple[SupportsIndex, SupportsIndex]

#: The byte order of memory.
ByteOrder = Literal["little", "big"]

__version__ = "0.4.0"

#: The version of the library that this module calls. `__version__` is the release of the module.
VERSION = 1

#: The names of the permissions, beginning with bit 0.
PERMISSIONS = (
    "GLOBAL",
    "EXECUTE",
    "LOAD",
    "STORE",
    "LOAD_CAP",
    "STORE_CAP",
    "STORE_LOCAL_CAP",
    "SEAL",
    "CINVOKE",
    "UNSEAL",
    "SYSTEM_REGS",
    "SET_CID",
    "USER0",
    "USER1",
    "USER2",
    "USER3",
)

#: The codes and names of the refusals of derivations.
REFUSALS = {
    7: "sealed",
    8: "unsealed",
    9: "bounds",
    10: "inexact",
    11: "unrepresentable",
    12: "permission",
    13: "type",
    14: "mismatch",
    15: "canonical",
    16: "exceeds",
}

#: The reasons why a word is not canonical: their codes and names. The header says what each means.
DEFECTS = {1: "reserved_bits", 2: "type", 3: "order", 4: "top", 5: "fields"}

#: The object type of a capability that is not sealed.
UNSEALED = 0x3FFFF
#: The object type of a sealed entry, such as each return address of CheriBSD. It is reserved.
SENTRY = 0x3FFFE
#: The highest type that sealing gives, from 0. The types between it and UNSEALED are reserved.
LAST_SEALING = 0x3FFEF

_HALF = 2**64 - 1
_HALF_TEXT = "(?:0[xX])?([0-9a-fA-F]{16})"
_WORD_TEXT = re.compile(f"(?:0[xX])?([0-9a-fA-F]{{32}})|0[xX]([0-9a-fA-F]{{17,32}})|{_HALF_TEXT}[_:]{_HALF_TEXT}")
_HINT = "set CHERI_CAP_LIBRARY to its file; `examples/run shared` of a checkout builds it"
_LINE_SIZE = 96
_WORD_SIZE = 16
# The number of words that one call on many words gets: their bytes and bounds stay in a processor's cache.
_PIECE = 1 << 13


class _Halves(ctypes.Structure):
    _fields_ = [("high", c_uint64), ("low", c_uint64)]


class _Fields(ctypes.Structure):
    _fields_ = [
        ("address", c_uint64),
        ("otype", c_uint32),
        ("perms", c_uint16),
        ("t", c_uint16),
        ("b", c_uint16),
        ("reserved", c_uint8),
        ("flag", c_bool),
        ("ie", c_bool),
    ]


class _Bounds(ctypes.Structure):
    _fields_ = [("base", c_uint64), ("top_high", c_uint64), ("top_low", c_uint64), ("exponent", c_uint8)]


class _Granted(ctypes.Structure):
    _fields_ = [
        ("base", c_uint64),
        ("top_high", c_uint64),
        ("top_low", c_uint64),
        ("t", c_uint16),
        ("b", c_uint16),
        ("exponent", c_uint8),
        ("ie", c_bool),
        ("exact", c_bool),
        ("in_range", c_bool),
    ]


class _Ends(ctypes.Structure):
    _fields_ = [("first", c_uint64), ("last", c_uint64)]


class _Excess(ctypes.Structure):
    _fields_ = [("before", c_uint64), ("after", c_uint64), ("in_range", c_bool)]


class _Read(ctypes.Structure):
    _fields_ = [("high", c_uint64), ("low", c_uint64), ("found", c_bool)]


class _Made(ctypes.Structure):
    _fields_ = [("high", c_uint64), ("low", c_uint64), ("refusal", c_uint8)]


class _Query(ctypes.Structure):
    _fields_ = [
        ("address", c_uint64),
        ("perms", c_uint16),
        ("needs_permission", c_bool),
        ("needs_address", c_bool),
        ("needs_tag", c_bool),
        ("sealed", c_bool),
        ("sentries", c_bool),
    ]


_WORD: List[Any] = [c_uint64, c_uint64]
_MEMORY: List[Any] = [c_void_p, c_size_t, c_bool]
_ANSWERS: List[Any] = [POINTER(c_uint8), c_size_t]
_NUMBERS: List[Any] = [POINTER(c_uint64), c_size_t]
_PAIRS: List[Any] = [POINTER(_Halves), c_size_t]

# the functions of the header: the result and the parameters of each
_CALLS: Dict[str, Tuple[Any, List[Any]]] = {
    "version": (c_uint32, []),
    "unpack": (_Fields, _WORD),
    "pack": (_Halves, [_Fields]),
    "is_canonical": (c_bool, _WORD),
    "defect": (c_uint8, _WORD),
    "decode": (_Bounds, _WORD),
    "word_length": (_Halves, _WORD),
    "word_granule": (c_uint64, _WORD),
    "window": (_Ends, _WORD),
    "set_bounds": (_Granted, [c_uint64, *_WORD]),
    "lost": (_Excess, [c_uint64, *_WORD]),
    "represents": (c_bool, [*_WORD, c_uint64]),
    "keeps_bounds": (c_bool, [*_WORD, c_uint64]),
    "granule": (c_uint64, _WORD),
    "round_length": (_Halves, _WORD),
    "alignment_mask": (c_uint64, _WORD),
    "read_word": (_Read, [c_char_p, c_size_t]),
    "write_word": (None, [*_WORD, POINTER(c_char)]),
    "set_address": (_Made, [*_WORD, c_uint64]),
    "increment": (_Made, [*_WORD, c_uint64]),
    "set_bounds_on": (_Made, [*_WORD, *_WORD]),
    "set_bounds_exact_on": (_Made, [*_WORD, *_WORD]),
    "and_perms": (_Made, [*_WORD, c_uint16]),
    "set_flag": (_Made, [*_WORD, c_bool]),
    "seal": (_Made, [*_WORD, *_WORD]),
    "unseal": (_Made, [*_WORD, *_WORD]),
    "rebuild": (_Made, [*_WORD, *_WORD]),
    "is_subset": (c_bool, [*_WORD, *_WORD]),
    "format": (c_size_t, [*_WORD, c_bool, POINTER(c_char)]),
    "decode_memory": (c_size_t, [*_MEMORY, POINTER(_Bounds), c_size_t]),
    "is_canonical_memory": (c_size_t, [*_MEMORY, *_ANSWERS]),
    "represents_memory": (c_size_t, [*_MEMORY, *_NUMBERS, *_ANSWERS]),
    "set_bounds_memory": (c_size_t, [*_MEMORY, c_bool, *_PAIRS, c_void_p, c_size_t, *_ANSWERS]),
    "search_memory": (c_size_t, [*_MEMORY, *_ANSWERS, POINTER(_Query), *_NUMBERS, POINTER(c_size_t)]),
    "set_bounds_many": (c_size_t, [*_NUMBERS, *_PAIRS, POINTER(_Granted), c_size_t]),
    "round_length_many": (c_size_t, [*_PAIRS, *_PAIRS]),
    "alignment_mask_many": (c_size_t, [*_PAIRS, *_NUMBERS]),
}


def _place() -> str:
    """Returns the library's file, or its name, for which the loader searches."""
    name = f"libcheri_cap.so.{VERSION}"
    here = Path(__file__).resolve().parent
    installed = here.parent.parent / "lib"
    # the directory below lib/ in which Debian has the libraries of this interpreter's machine
    triplet = getattr(sys.implementation, "_multiarch", ".")
    for place in here / name, installed / name, installed / triplet / name, here.parent / "examples" / "out" / name:
        if place.exists():
            return str(place)
    return name


def _load() -> Dict[str, Callable[..., Any]]:
    place = os.environ.get("CHERI_CAP_LIBRARY") or _place()
    try:
        library = ctypes.CDLL(place)
        calls: Dict[str, Callable[..., Any]] = {}
        for name, (answer, parameters) in _CALLS.items():
            call = library[f"cheri_cap_{name}"]
            call.restype, call.argtypes = answer, parameters
            calls[name] = call
    except (OSError, AttributeError) as error:
        raise ImportError(f"cheri_cap: the shared library cannot be used: {error}; {_HINT}") from error
    if calls["version"]() != VERSION:
        raise ImportError(f"cheri_cap: {place} has version {calls['version']()}, but this module needs version {VERSION}")
    return calls


_calls = _load()

# the upper half of a word whose fields are all zero: its bits are inverted in memory
_NULL_HIGH = int(_calls["pack"](_Fields()).high)
# the fields of structured arrays
_ENDS = [("base", "u8"), ("top", "u8"), ("length", "u8")]
_ROW = [("address", "u8"), *_ENDS, ("perms", "u2"), ("type", "u4"), ("flag", "?"), ("exponent", "u1")]
_GRANTS = [*_ENDS, ("exponent", "u1"), ("exact", "?"), ("in_range", "?")]


def _integer(number: SupportsIndex, what: str) -> int:
    try:
        return index(number)
    except TypeError:
        raise TypeError(f"{what} must be an integer, not {type(number).__name__}") from None


def _at_most(number: SupportsIndex, most: int, what: str) -> int:
    """Returns a number from 0 to `most`."""
    number = _integer(number, what)
    if not 0 <= number <= most:
        raise ValueError(f"{what} must be from 0 to {most:#x}, not {number:#x}")
    return number


def _halves(number: SupportsIndex, most: int, what: str) -> Tuple[int, int]:
    """Returns the two halves of a number from 0 to `most`."""
    return divmod(_at_most(number, most, what), 2**64)


def _address(number: SupportsIndex) -> int:
    return _at_most(number, _HALF, "an address")


def _mask(perms: Mask) -> int:
    return mask_of(perms) if isinstance(perms, (str, list, tuple)) else _at_most(perms, 0xFFFF, "a mask")


def _length(number: SupportsIndex) -> Tuple[int, int]:
    return _halves(number, 2**64, "a length")


def _above(base: SupportsIndex, length: SupportsIndex) -> ValueError:
    """Returns the error of a request that ends above 2**64."""
    return ValueError(f"{index(length):#x} bytes from {index(base):#x} end above 2**64")


class Refusal(Exception):
    """The refusal of a derivation: `code`, a number, and `name`, one of `REFUSALS`."""

    def __init__(self, code: int):
        if code not in REFUSALS:
            raise ValueError(f"a refusal must have one of the codes of REFUSALS, not {code!r}")
        super().__init__(code)
        self.code = code
        self.name = REFUSALS[code]

    def __str__(self) -> str:
        return f"{self.code} {self.name}"

    def __repr__(self) -> str:
        return f"<Refusal {self}>"


class Fields(NamedTuple):
    """The fields of a word as stored, except that the exclusive-or of the null capability is removed."""

    #: the permissions, 16 bits; `PERMISSIONS` names them
    perms: int
    #: 2 bits, zero in every capability
    reserved: int
    #: whether code runs in capability mode
    flag: bool
    #: the object type, 18 bits; `UNSEALED` if it is not sealed
    otype: int
    #: the internal exponent: whether the low three bits of t and of b hold the exponent
    ie: bool
    #: the T field, 12 bits
    t: int
    #: the B field, 14 bits
    b: int
    #: the address, 64 bits
    address: int


class Bounds(NamedTuple):
    """The bounds of a word."""

    #: the first address, in bytes
    base: int
    #: the address after the last byte: for a canonical word at most 2**64, otherwise below 2**65
    top: int
    #: 0 to 52
    exponent: int


class Granted(NamedTuple):
    """The bounds that a request is granted."""

    #: the first address, in bytes
    base: int
    #: the address after the last byte, at most 2**64
    top: int
    #: 0 to 52
    exponent: int
    #: whether the request is granted without rounding
    exact: bool
    #: the fields that store the bounds
    ie: bool
    t: int
    b: int


class Window(NamedTuple):
    """The window of a word: the addresses from the first up to the last, through 2**64 - 1 to 0 if the last is below."""

    #: the first address
    first: int
    #: the last address
    last: int


class Excess(NamedTuple):
    """The numbers of bytes that a request is granted before and after its own."""

    #: the granted bytes below the base of the request
    before: int
    #: the granted bytes from its top on
    after: int


class Capability:
    """A word of 128 bits, read as a capability. It cannot be changed. Two are equal if their words are."""

    __slots__ = ("_word", "_fields", "_bounds")
    _word: int
    _fields: Optional[Fields]
    _bounds: Optional[Bounds]

    def __init__(self, word: SupportsIndex = 0):
        """Creates the capability of a word from 0 to 2**128 - 1 [default: null].

        Every such word has fields and bounds."""
        high, low = _halves(word, 2**128 - 1, "a word")
        self._word = high << 64 | low
        self._fields = None
        self._bounds = None

    # ---- From and to other forms

    @classmethod
    def root(cls) -> "Capability":
        """Returns the capability with every permission over every address, at address 0."""
        return cls(0xFFFF << 112)

    @classmethod
    def parse(cls, text: str) -> "Capability":
        """Returns the word of a text: 32 hexadecimal digits of either case, with or without 0x.

        It may also be two halves of 16 digits joined by "_" or ":", high first, or 0x and 17 to 31 digits of a word whose
        leading zeros are omitted.

        Errors: ValueError for any other text."""
        if not isinstance(text, str):
            raise TypeError(f"a text must be a str, not {type(text).__name__}")
        found = _WORD_TEXT.fullmatch(text)
        given = "".join(it for it in found.groups() if it).zfill(32).encode("ascii") if found else b""
        read = _calls["read_word"](given, len(given))
        if not read.found:
            raise ValueError(f"a word must be 32 hexadecimal digits, or two halves joined by _ or :, not {text!r}")
        return cls(read.high << 64 | read.low)

    @classmethod
    def from_bytes(cls, data: Union["ReadableBuffer", "NumpyArray"], byteorder: ByteOrder = "little") -> "Capability":
        """Returns the word of a buffer of 16 bytes, in the byte order of the memory: "little" or "big".

        Errors: ValueError for a buffer of another size, or whose items are neither bytes nor integers in that order."""
        raw = _memory_of(data, byteorder).tobytes()
        if len(raw) != _WORD_SIZE:
            raise ValueError(f"a word must be {_WORD_SIZE} bytes, not {len(raw)}")
        return cls(int.from_bytes(raw, byteorder))

    @classmethod
    def from_fields(cls, fields: Fields) -> "Capability":
        """Returns the word of fields.

        Errors: ValueError for a number that is wider than its field."""
        numbers = {name: _integer(value, f"the field {name}") for name, value in fields._asdict().items()}
        given = _Fields(**numbers)
        halves = _calls["pack"](given)
        made = cls(halves.high << 64 | halves.low)
        for name, value in numbers.items():
            if not value == getattr(given, name) == getattr(made.fields, name):
                raise ValueError(f"{value:#x} does not fit the field {name}")
        return made

    def to_bytes(self, byteorder: ByteOrder = "little") -> bytes:
        """Returns the 16 bytes of the word in memory of this byte order, "little" or "big"."""
        return self._word.to_bytes(_WORD_SIZE, byteorder)

    @property
    def word(self) -> int:
        """The word, 128 bits."""
        return self._word

    @property
    def digits(self) -> str:
        """The word as 32 hexadecimal digits in lower case."""
        text = (c_char * 32)()
        _calls["write_word"](*self._halves(), text)
        return text.raw.decode("ascii")

    # ---- Fields

    @property
    def fields(self) -> Fields:
        """All fields of the word."""
        if self._fields is None:
            found = _calls["unpack"](*self._halves())
            self._fields = Fields(*(getattr(found, name) for name in Fields._fields))
        return self._fields

    @property
    def perms(self) -> int:
        """The permissions as 16 bits."""
        return self.fields.perms

    @property
    def permissions(self) -> Tuple[str, ...]:
        """The names of the permissions that it has, beginning with bit 0."""
        return tuple(name for bit, name in enumerate(PERMISSIONS) if self.perms >> bit & 1)

    @property
    def flag(self) -> bool:
        """Whether code runs in capability mode."""
        return self.fields.flag

    @property
    def otype(self) -> int:
        """The object type, 18 bits: `UNSEALED` if it is not sealed."""
        return self.fields.otype

    @property
    def is_sealed(self) -> bool:
        """Whether its type is not `UNSEALED` (CGetSealed)."""
        return self.otype != UNSEALED

    @property
    def is_sentry(self) -> bool:
        """Whether its type is `SENTRY`."""
        return self.otype == SENTRY

    @property
    def address(self) -> int:
        """The address, 64 bits."""
        return self.fields.address

    @property
    def offset(self) -> int:
        """The bytes from the base to the address, modulo 2**64 (CGetOffset)."""
        return (self.address - self.base) & _HALF

    # ---- Bounds

    @property
    def base(self) -> int:
        """The first address of the bounds."""
        return self._decoded().base

    @property
    def top(self) -> int:
        """The address after the last byte of the bounds: for a canonical word at most 2**64, otherwise below 2**65."""
        return self._decoded().top

    @property
    def exponent(self) -> int:
        """The exponent of the bounds, 0 to 52: they are stored in units of 2**exponent bytes, or 2**(exponent + 3)."""
        return self._decoded().exponent

    @property
    def length(self) -> int:
        """The number of bytes in the bounds, 0 to 2**64.

        It is 0 if the top is below the base, which no canonical word has."""
        if self.top < self.base:
            return 0
        length = _calls["word_length"](*self._halves())
        return int(length.high << 64 | length.low)

    @property
    def granule(self) -> int:
        """The unit in bytes in which the word stores the ends of its bounds: 1, or 2**(exponent + 3) with the bit IE."""
        return int(_calls["word_granule"](*self._halves()))

    @property
    def window(self) -> Window:
        """The addresses at which the word decodes to the same bounds, those for which `keeps_bounds` returns True.

        It is from 0 to 2**64 - 1 if that is every address."""
        ends = _calls["window"](*self._halves())
        return Window(ends.first, ends.last)

    @property
    def is_canonical(self) -> bool:
        """Whether a derivation can return the word, sealed or not."""
        return bool(_calls["is_canonical"](*self._halves()))

    @property
    def defect(self) -> Optional[str]:
        """The first reason why the word is not canonical, one of the names of `DEFECTS`, or None if it is."""
        return DEFECTS.get(_calls["defect"](*self._halves()))

    def holds(self, address: SupportsIndex) -> bool:
        """Returns whether the bounds contain the byte at the address. `ADDRESS in CAPABILITY` says the same."""
        return self.base <= _address(address) < self.top

    def __contains__(self, part: Union[SupportsIndex, "Capability"]) -> bool:
        """Returns whether its bounds contain the byte at an address, or whether a capability is a subset of it."""
        return part.is_subset(self) if isinstance(part, Capability) else self.holds(part)

    def representable(self, address: SupportsIndex) -> bool:
        """Returns whether the word with that address decodes to the same bounds.

        It is False for a word that does not store its bounds as setting bounds stores them. `keeps_bounds` is for every
        word."""
        return bool(_calls["represents"](*self._halves(), _address(address)))

    def keeps_bounds(self, address: SupportsIndex) -> bool:
        """Returns whether the word with that address decodes to the same bounds, for every word, canonical or not."""
        return bool(_calls["keeps_bounds"](*self._halves(), _address(address)))

    # ---- Derivation: each returns another capability, or raises the first `Refusal` of those listed, in this order

    def set_address(self, address: SupportsIndex) -> "Capability":
        """CSetAddr: returns the capability with another address and the same bounds.

        Refusals: canonical; sealed; unrepresentable."""
        return self._derived("set_address", _address(address))

    def increment(self, amount: SupportsIndex) -> "Capability":
        """CIncOffset: returns the capability with `amount` added to its address, modulo 2**64, and the same bounds.

        Refusals: canonical; sealed; unrepresentable."""
        return self._derived("increment", _integer(amount, "an amount") & _HALF)

    def set_offset(self, offset: SupportsIndex) -> "Capability":
        """CSetOffset: returns the capability with its base plus `offset`, modulo 2**64, as its address.

        Refusals: canonical; sealed; unrepresentable."""
        return self._derived("set_address", self.base + _integer(offset, "an offset") & _HALF)

    def set_bounds(self, length: SupportsIndex) -> "Capability":
        """CSetBounds: returns the capability with the bounds of `length` bytes from its address.

        Bounds that cannot be stored exactly are rounded outward.

        Refusals: canonical; sealed; bounds."""
        return self._derived("set_bounds_on", *_halves(length, 2**128 - 1, "a length"))

    def set_bounds_exact(self, length: SupportsIndex) -> "Capability":
        """CSetBoundsExact: returns the capability with the bounds of `length` bytes from its address, never rounded.

        Refusals: canonical; sealed; bounds; inexact."""
        return self._derived("set_bounds_exact_on", *_halves(length, 2**128 - 1, "a length"))

    def and_perms(self, mask: Mask) -> "Capability":
        """CAndPerm: returns the capability with only those of its permissions that are also in the mask.

        The mask is 16 bits, or names joined by "+" as `mask_of` takes them.

        Refusals: canonical; sealed."""
        return self._derived("and_perms", _mask(mask))

    def set_flag(self, flag: bool) -> "Capability":
        """CSetFlags: returns the capability with this flag.

        Refusals: canonical; sealed."""
        return self._derived("set_flag", _flag(flag))

    def seal(self, authority: "Capability") -> "Capability":
        """CSeal: returns the capability sealed, with the authority's address as its type.

        Refusals: canonical and sealed, of either; permission, bounds and type, of the authority."""
        return self._derived("seal", *_capability(authority, "an authority")._halves())

    def unseal(self, authority: "Capability") -> "Capability":
        """CUnseal: returns the capability unsealed. GLOBAL stays only if both have it.

        Refusals: canonical, of either; unsealed; sealed, permission and bounds, of the authority; mismatch."""
        return self._derived("unseal", *_capability(authority, "an authority")._halves())

    def rebuild(self, other: "Capability") -> "Capability":
        """CBuildCap: returns the other word again, if it grants no more than this authority.

        Refusals: canonical and sealed, of the authority; canonical and exceeds, of the other."""
        return self._derived("rebuild", *_capability(other, "the other")._halves())

    def is_subset(self, outer: "Capability") -> bool:
        """CTestSubset: returns whether all its bytes and permissions are within those of `outer`, for any two words."""
        return bool(_calls["is_subset"](*self._halves(), *_capability(outer, "the outer")._halves()))

    # ---- One field changed, and nothing checked: the word may grant more than before, so it has no tag

    def with_address(self, address: SupportsIndex) -> "Capability":
        """Returns the word with this address. It may decode to other bounds."""
        return Capability(self._word >> 64 << 64 | _address(address))

    def with_perms(self, perms: Mask) -> "Capability":
        """Returns the word with these permissions."""
        return Capability.from_fields(self.fields._replace(perms=_mask(perms)))

    def with_flag(self, flag: bool) -> "Capability":
        """Returns the word with this flag."""
        return Capability.from_fields(self.fields._replace(flag=_flag(flag)))

    def with_type(self, otype: SupportsIndex) -> "Capability":
        """Returns the word with this type, such as `UNSEALED` or `SENTRY`."""
        return Capability.from_fields(self.fields._replace(otype=_at_most(otype, UNSEALED, "a type")))

    # ---- Strings

    def line(self, tagged: bool = True) -> str:
        """Returns the one-line form of the word, as CheriBSD's `%#p` shows it: 0x10070 [rwxRW,0x10070-0x12070].

        (sentry), (sealed) or, without its tag, (invalid) follows. LOAD is r, STORE w, EXECUTE x, LOAD_CAP R,
        STORE_CAP W."""
        text = (c_char * _LINE_SIZE)()
        length = _calls["format"](*self._halves(), tagged, text)
        return text.raw[:length].decode("ascii")

    def __str__(self) -> str:
        """Returns `line()` as if it were tagged."""
        return self.line()

    def __format__(self, spec: str) -> str:
        """Returns the word by a format for integers, such as "032x", or otherwise `line()` by one for strings."""
        return format(self._word if spec[-1:] in tuple("bcdoxXn") else self.line(), spec)

    def listing(self) -> str:
        """Returns the fields and bounds, one on each line, as `cheri-cap show` prints them."""
        field = self.fields
        lines = {
            "word": self.digits,
            "perms": f"{field.perms:04x} {'+'.join(self.permissions) or '-'}",
            "reserved": f"{field.reserved}",
            "flag": f"{field.flag:d}",
            "type": f"{field.otype:05x}",
            "ie": f"{field.ie:d}",
            "t": f"{field.t:03x}",
            "b": f"{field.b:04x}",
            "address": f"{field.address:#x}",
            "exponent": f"{self.exponent}",
            "base": f"{self.base:#x}",
            "top": f"{self.top:#x}",
            "canonical": "yes" if self.is_canonical else "no",
        }
        return "".join(f"{name} {value}\n" for name, value in lines.items())

    def __repr__(self) -> str:
        return f"Capability({self._word:#034x})"

    # ---- The object

    def __index__(self) -> int:
        """Returns the word, as `int` and `hex` use it."""
        return self._word

    def __eq__(self, other: object) -> bool:
        if not isinstance(other, Capability):
            return NotImplemented
        return self._word == other._word

    def __hash__(self) -> int:
        return hash((Capability, self._word))

    def __reduce__(self) -> Tuple[Type["Capability"], Tuple[int]]:
        return Capability, (self._word,)

    def _derived(self, call: str, *values: int) -> "Capability":
        made = _calls[call](*self._halves(), *values)
        if made.refusal:
            raise Refusal(made.refusal)
        return Capability(made.high << 64 | made.low)

    def _halves(self) -> Tuple[int, int]:
        return self._word >> 64, self._word & _HALF

    def _decoded(self) -> Bounds:
        if self._bounds is None:
            found = _calls["decode"](*self._halves())
            self._bounds = Bounds(found.base, found.top_high << 64 | found.top_low, found.exponent)
        return self._bounds


def _capability(value: Capability, what: str) -> Capability:
    if not isinstance(value, Capability):
        raise TypeError(f"{what} must be a Capability, not {type(value).__name__}")
    return value


def _flag(flag: bool) -> bool:
    if flag not in (False, True):
        raise TypeError(f"a flag must be a bool, not {flag!r}")
    return bool(flag)


def mask_of(names: Union[str, Iterable[str]]) -> int:
    """Returns the mask of permissions by their names, joined by "+", as in a script. "-" names no permission.

    The names may also be a list.

    Errors: ValueError for another name."""
    if not isinstance(names, (str, Iterable)):
        raise TypeError(f"names must be a str or a list of str, not {type(names).__name__}")
    mask = 0
    for name in () if names == "-" else names.split("+") if isinstance(names, str) else names:
        if name not in PERMISSIONS:
            raise ValueError(f"{name!r} is not a permission: the names are {', '.join(PERMISSIONS)}")
        mask |= 1 << PERMISSIONS.index(name)
    return mask


def grant(base: SupportsIndex, length: SupportsIndex) -> Granted:
    """Returns the tightest bounds that a word can store and that cover `length` bytes from `base`.

    Errors: ValueError if these end above 2**64."""
    found = _calls["set_bounds"](_address(base), *_length(length))
    if not found.in_range:
        raise _above(base, length)
    top = found.top_high << 64 | found.top_low
    return Granted(found.base, top, found.exponent, found.exact, found.ie, found.t, found.b)


def lost(base: SupportsIndex, length: SupportsIndex) -> Excess:
    """Returns the numbers of bytes that a request for `length` bytes from `base` is granted before and after these.

    Errors: ValueError if the request ends above 2**64."""
    found = _calls["lost"](_address(base), *_length(length))
    if not found.in_range:
        raise _above(base, length)
    return Excess(found.before, found.after)


def granule(length: SupportsIndex) -> int:
    """Returns the unit in which the bounds of `length` bytes, 0 to 2**64, from address 0 are stored."""
    return int(_calls["granule"](*_length(length)))


def round_length(length: SupportsIndex) -> int:
    """CRRL: returns the representable length: the length, 0 to 2**64, rounded up to a multiple of its granule.

    No exact bounds of at least `length` bytes are shorter."""
    halves = _calls["round_length"](*_length(length))
    return int(halves.high << 64 | halves.low)


def alignment_mask(length: SupportsIndex) -> int:
    """CRAM: returns the representable alignment mask. An address "and" the mask is a multiple of the granule."""
    return int(_calls["alignment_mask"](*_length(length)))


# ---- Many words

# A buffer of words has 16 bytes for each, one after the other, in the byte order of the memory that it was read from.
# Its items are bytes, or integers in that byte order: bytes, bytearray, memoryview, array.array, mmap, or an array of numpy
# whose last axis is a multiple of 16 bytes. Lists and other collections of capabilities are taken too.


def _numpy() -> Any:
    return import_module("numpy")


class Column(Sequence[_Item]):
    """Numbers or bools, one for each word. numpy.asarray(COLUMN) is an array over the same memory.

    It can be pickled, which copies it, and compared with ==."""

    __slots__ = ("view",)

    #: the memoryview, of the format "Q", "B" or "?"
    view: memoryview

    def __init__(self, view: memoryview):
        self.view = view

    def __len__(self) -> int:
        return len(self.view)

    @overload
    def __getitem__(self, position: int) -> _Item: ...

    @overload
    def __getitem__(self, position: slice) -> "Column[_Item]": ...

    def __getitem__(self, position: Union[int, slice]) -> Union[_Item, "Column[_Item]"]:
        if isinstance(position, slice):
            return Column(self.view[position])
        item: Any = self.view[position]
        return item  # type: ignore[no-any-return]

    def __iter__(self) -> Iterator[_Item]:
        items: Iterator[Any] = iter(self.view)
        return items

    def __eq__(self, other: object) -> bool:
        return isinstance(other, Column) and bool(self.view == other.view)

    def tolist(self) -> List[_Item]:
        """Returns the numbers as a list."""
        items: List[Any] = self.view.tolist()
        return items

    def __array__(self, *how: object, **named: object) -> Any:
        return _numpy().asarray(self.view, *how, **named)

    def __reduce__(self) -> Tuple[Any, Tuple[bytes, str]]:
        return _column_of, (self.view.tobytes(), self.view.format)

    def __repr__(self) -> str:
        return f"<Column of {len(self):,}: {', '.join(map(str, self.view[:3].tolist()))}{', ..' if len(self) > 3 else ''}>"


def _column_of(data: Any, kind: str) -> "Column[Any]":
    return Column(memoryview(data).cast("B").cast(kind))


class ManyBounds:
    """The bounds of many words: a sequence of `Bounds`, in the order of the words.

    `array()` is a structured array of numpy of the words and their bounds. The last address of a word is top_low - 1 modulo
    2**64, and a top of 2**64 has top_high 1 and top_low 0."""

    # not a Sequence: of one, pandas reads the bounds of one word after the other, which takes seconds for a million

    __slots__ = ("base", "top_high", "top_low", "exponent", "_results", "_words", "_byteorder")

    #: the bases, 64 bits each
    base: Column[int]
    #: the tops divided by 2**64: 0 or 1, 64 bits each
    top_high: Column[int]
    #: the tops modulo 2**64, 64 bits each
    top_low: Column[int]
    #: the exponents, a byte each
    exponent: Column[int]

    def __init__(self, results: "Uint64s", words: bytes, byteorder: ByteOrder):
        self._results, self._words, self._byteorder = results, words, byteorder
        numbers = memoryview(results)
        self.base, self.top_high, self.top_low = Column(numbers[0::4]), Column(numbers[1::4]), Column(numbers[2::4])
        # the struct's byte after its numbers
        self.exponent = Column(numbers.cast("B")[24::32])

    def __len__(self) -> int:
        return len(self.base)

    @overload
    def __getitem__(self, position: int) -> Bounds: ...

    @overload
    def __getitem__(self, position: slice) -> List[Bounds]: ...

    def __getitem__(self, position: Union[int, slice]) -> Union[Bounds, List[Bounds]]:
        if isinstance(position, slice):
            return [self[it] for it in range(*position.indices(len(self)))]
        top = self.top_high[position] << 64 | self.top_low[position]
        return Bounds(self.base[position], top, self.exponent[position])

    def __iter__(self) -> Iterator[Bounds]:
        return (self[it] for it in range(len(self)))

    def array(self) -> Any:
        """Returns a structured array of numpy, with a row for each word, which pandas.DataFrame takes.

        Its fields are address, base, top, length, perms, type, flag and exponent. A top of 2**64 is 0, and a length of
        2**64 is 2**64 - 1, which no canonical word has. The length is 0 if the top is below the base."""
        return self._filled(_numpy().empty(len(self), _ROW))

    def _filled(self, rows: Any) -> Any:
        """Returns a structured array, with the fields of `array` filled in."""
        uint64 = _numpy().uint64
        for start, count, piece in _pieces(memoryview(self._words)):
            part, here = rows[start : start + count], slice(start, start + count)
            part["address"], high = _halves_in(piece, self._byteorder)
            layout = high ^ uint64(_NULL_HIGH)
            part["perms"], part["flag"] = high >> uint64(48), layout >> uint64(45) & uint64(1)
            part["type"] = layout >> uint64(27) & uint64(UNSEALED)
            _fill_ends(part, self.base[here], self.top_high[here], self.top_low[here])
            part["exponent"] = self.exponent[here]
        return rows

    def __array__(self, *_how: object, **_named: object) -> Any:
        """Raises TypeError: numpy and pandas would read the bounds of one word after the other."""
        raise TypeError("BOUNDS.array() is an array of the bounds, and pandas.DataFrame(BOUNDS.array()) a frame")

    def __reduce__(self) -> Tuple[Type["ManyBounds"], Tuple["Uint64s", bytes, ByteOrder]]:
        return ManyBounds, (self._results, self._words, self._byteorder)

    def __repr__(self) -> str:
        return f"<ManyBounds of {len(self):,} words>"


class Found(Sequence[Tuple[int, Capability]]):
    """The words that `find_capabilities` found: a sequence of their positions, each with its word."""

    __slots__ = ("positions", "words", "byteorder")

    #: the positions, in increasing order. The word at position N begins at byte 16 * N
    positions: Column[int]
    #: their words, 16 bytes each, in the byte order of the memory
    words: bytes
    byteorder: ByteOrder

    def __init__(self, positions: Column[int], words: bytes, byteorder: ByteOrder):
        self.positions, self.words, self.byteorder = positions, words, byteorder

    def __len__(self) -> int:
        return len(self.positions)

    @overload
    def __getitem__(self, position: int) -> Tuple[int, Capability]: ...

    @overload
    def __getitem__(self, position: slice) -> List[Tuple[int, Capability]]: ...

    def __getitem__(self, position: Union[int, slice]) -> Union[Tuple[int, Capability], List[Tuple[int, Capability]]]:
        if isinstance(position, slice):
            return [self[it] for it in range(*position.indices(len(self)))]
        at = range(len(self))[position] * _WORD_SIZE
        return self.positions[position], Capability.from_bytes(self.words[at : at + _WORD_SIZE], self.byteorder)

    def bounds(self) -> ManyBounds:
        """Returns the bounds of the words found."""
        return decode_many(self.words, self.byteorder)

    def array(self) -> Any:
        """Returns the structured array of the bounds, after a field `position`."""
        rows = _numpy().zeros(len(self), [("position", "u8"), *_ROW])
        rows["position"] = self.positions
        return self.bounds()._filled(rows)

    def __eq__(self, other: object) -> bool:
        return isinstance(other, Found) and self.__reduce__() == other.__reduce__()

    def __reduce__(self) -> Tuple[Type["Found"], Tuple[Column[int], bytes, ByteOrder]]:
        return Found, (self.positions, self.words, self.byteorder)

    def __repr__(self) -> str:
        return f"<Found: {len(self):,} words>"


class Derived(NamedTuple):
    """The words that a rule derives from many, and its refusals."""

    #: the words, 16 bytes each, in the byte order of the memory; null if it refused
    words: bytes
    #: 0, or a code of `REFUSALS`, for each word
    refusals: Column[int]


# The marks of a byte order in a buffer's format.
_ORDERS = {"<": "little", ">": "big", "!": "big", "=": sys.byteorder, "@": sys.byteorder, "^": sys.byteorder}


def _is_memory(kind: str, byteorder: str) -> bool:
    """Returns whether the items of a buffer of this format are bytes, or integers in a byte order."""
    order: str = sys.byteorder
    # without the names in a struct, its brackets, and the numbers of items
    for letter in re.sub(r":[^:]*:|T\{|[\d\s(,)}]", "", kind):
        if letter in _ORDERS:
            order = _ORDERS[letter]
        elif letter not in "?bBcsxp" and (letter not in "hHiIlLqQnN" or order != byteorder):
            return False
    return True


def _buffer(data: Any, what: str) -> memoryview:
    """Returns the memory of a buffer, a column, or a series of pandas."""
    if isinstance(data, Column):
        return data.view
    try:
        return memoryview(data)
    except TypeError:
        pass
    try:
        return memoryview(data.__array__())
    except (AttributeError, TypeError):
        raise TypeError(f"{what}, not {type(data).__name__}") from None


def _view_of(data: Words, byteorder: ByteOrder) -> memoryview:
    """Returns the buffer of words, or the bytes of a collection of capabilities."""
    words: Any = data
    is_list = isinstance(data, (list, tuple))
    if (is_list or hasattr(data, "dtype") and data.dtype == object) and all(isinstance(it, Capability) for it in words):
        return memoryview(b"".join(it.to_bytes(byteorder) for it in words))
    return _buffer(data, "words must be a buffer, such as bytes or an array of numpy, or a list of Capability")


def _memory_of(data: Words, byteorder: ByteOrder) -> memoryview:
    """Returns the bytes of a buffer of words, copied if they are not contiguous or if its items are structs."""
    if byteorder not in ("little", "big"):
        raise ValueError(f"byteorder must be 'little' or 'big', not {byteorder!r}")
    view = _view_of(data, byteorder)
    if not _is_memory(view.format, byteorder):
        what = f"bytes, or integers in the byte order {byteorder!r}"
        raise ValueError(f"words must be {what}, not of format {view.format!r}; bytes(WORDS) has their bytes")
    if view.ndim == 1 and 1 < view.itemsize < _WORD_SIZE and not view.contiguous:
        raise ValueError("words must be 16 bytes that follow one another; one column of an array skips the others")
    if view.shape and view.ndim > 1 and view.itemsize * view.shape[-1] % _WORD_SIZE:
        raise ValueError(f"the last axis of words must have a multiple of 16 bytes; their shape is {view.shape}")
    try:
        return view.cast("B")
    except TypeError:
        return memoryview(view.tobytes())


def _words_of(data: Words, byteorder: ByteOrder) -> memoryview:
    """Returns the bytes of a buffer of words, 16 for each."""
    memory = _memory_of(data, byteorder)
    if memory.nbytes % _WORD_SIZE:
        raise ValueError(f"words must be {_WORD_SIZE} bytes each, and {memory.nbytes} is not a multiple of that")
    return memory


def _pieces(memory: memoryview) -> Iterator[Tuple[int, int, bytes]]:
    """Yields words in pieces: the position of the first, their number, and their bytes."""
    for start in range(0, memory.nbytes // _WORD_SIZE, _PIECE):
        piece = memory[start * _WORD_SIZE : (start + _PIECE) * _WORD_SIZE].tobytes()
        yield start, len(piece) // _WORD_SIZE, piece


def decode_many(words: Words, byteorder: ByteOrder = "little") -> ManyBounds:
    """Returns the bounds of each word of a buffer, canonical or not.

    Errors: ValueError for a buffer whose size is not a multiple of 16 bytes, or whose items are neither bytes nor
    integers in that byte order."""
    memory = _words_of(words, byteorder)
    results = array("Q", bytes(ctypes.sizeof(_Bounds))) * (memory.nbytes // _WORD_SIZE)
    for start, count, piece in _pieces(memory):
        bounds = (_Bounds * count).from_buffer(results, start * ctypes.sizeof(_Bounds))
        _calls["decode_memory"](piece, count, byteorder == "big", bounds, count)
    return ManyBounds(results, words if isinstance(words, bytes) else memory.tobytes(), byteorder)


def is_canonical_many(words: Words, byteorder: ByteOrder = "little") -> Column[bool]:
    """Returns whether each word of a buffer is canonical: a column of bools, which numpy takes as a mask.

    Errors: ValueError for a buffer whose size is not a multiple of 16 bytes, or whose items are neither bytes nor
    integers in that byte order."""
    memory = _words_of(words, byteorder)
    results = bytearray(memory.nbytes // _WORD_SIZE)
    for start, count, piece in _pieces(memory):
        answers = (c_uint8 * count).from_buffer(results, start)
        _calls["is_canonical_memory"](piece, count, byteorder == "big", answers, count)
    return _column_of(results, "?")


def represents_many(words: Words, addresses: Numbers, byteorder: ByteOrder = "little") -> Column[bool]:
    """Returns whether each word of a buffer is representable with its address: a column of bools.

    `addresses` is one address for all words, or an array or a list with one for each.

    Errors: ValueError for a buffer whose size is not a multiple of 16 bytes, or whose items are neither bytes nor
    integers in that byte order, and for another number of addresses."""
    memory = _words_of(words, byteorder)
    results = bytearray(memory.nbytes // _WORD_SIZE)
    given = _repeated(_numbers(addresses, _HALF, "an address"), len(results), "an address")
    for start, count, piece in _pieces(memory):
        at = (c_uint64 * count).from_buffer(given, start * ctypes.sizeof(c_uint64))
        answers = (c_uint8 * count).from_buffer(results, start)
        _calls["represents_memory"](piece, count, byteorder == "big", at, count, answers, count)
    return _column_of(results, "?")


def set_bounds_many(words: Words, lengths: Numbers, byteorder: ByteOrder = "little", *, exact: bool = False) -> Derived:
    """CSetBounds or, if `exact`, CSetBoundsExact: derives from each word of a buffer the bounds of a length from its address.

    `lengths` is one length for all words, or an array or a list with one for each."""
    memory = _words_of(words, byteorder)
    made, refusals = bytearray(memory.nbytes), bytearray(memory.nbytes // _WORD_SIZE)
    pairs = _pairs(_numbers(lengths, 2**128 - 1, "a length"), len(refusals), "a length")
    for start, count, piece in _pieces(memory):
        sizes = (_Halves * count).from_buffer(pairs, start * _WORD_SIZE)
        into = (c_uint8 * len(piece)).from_buffer(made, start * _WORD_SIZE)
        answers = (c_uint8 * count).from_buffer(refusals, start)
        given = piece, count, byteorder == "big", exact, sizes, count
        _calls["set_bounds_memory"](*given, into, count, answers, count)
    return Derived(bytes(made), _column_of(refusals, "B"))


def and_perms_many(words: Words, masks: Union[Numbers, str], byteorder: ByteOrder = "little") -> Derived:
    """CAndPerm: derives from each word of a buffer one with those of its permissions that are also in a mask.

    `masks` is one mask for all words, also as names, or an array or a list with one for each. It needs numpy."""
    numpy = _numpy()
    memory = _words_of(words, byteorder)
    refusals = numpy.zeros(memory.nbytes // _WORD_SIZE, "u1")
    wanted = _numbers(mask_of(masks) if isinstance(masks, str) else masks, 0xFFFF, "a mask")
    kept = numpy.array(_repeated(wanted, len(refusals), "a mask"), "u8") << numpy.uint64(48)
    made = bytearray(memory.nbytes)
    for start, count, piece in _pieces(memory):
        low, high = _halves_in(piece, byteorder)
        here = slice(start, start + count)
        is_sealed = high >> numpy.uint64(27) & numpy.uint64(UNSEALED) != 0
        refusals[here] = numpy.where(is_canonical_many(piece, byteorder), numpy.where(is_sealed, 7, 0), 15)
        is_made = refusals[here] == 0
        new_low, new_high = _halves_in(memoryview(made)[start * _WORD_SIZE :][: len(piece)], byteorder)
        new_low[:] = numpy.where(is_made, low, 0)
        new_high[:] = numpy.where(is_made, high & (kept[here] | numpy.uint64(2**48 - 1)), 0)
    return Derived(bytes(made), _column_of(refusals.tobytes(), "B"))


def _halves_in(memory: Any, byteorder: ByteOrder) -> Tuple[Any, Any]:
    """Returns the low and the high halves of words, arrays of numpy."""
    halves = _numpy().frombuffer(memory, "<u8" if byteorder == "little" else ">u8").reshape(-1, 2)
    return (halves[:, 0], halves[:, 1]) if byteorder == "little" else (halves[:, 1], halves[:, 0])


def _fill_ends(rows: Any, base: Any, top_high: Any, top_low: Any) -> None:
    """Writes the fields base, top and length of a structured array."""
    numpy = _numpy()
    base, low, is_above = numpy.asarray(base), numpy.asarray(top_low), numpy.asarray(top_high) != 0
    length, is_below = low - base, low < base
    length[is_above & ~is_below] = _HALF
    length[is_below & ~is_above] = 0
    rows["base"], rows["top"], rows["length"] = base, low, length


# ---- Searches


def find_capabilities(
    words: Words,
    *,
    tags: Union["ReadableBuffer", "NumpyArray", Sequence[bool], None] = None,
    sentries: bool = True,
    unsealed: bool = False,
    within: Union[Region, Sequence[Region], None] = None,
    holds: Optional[SupportsIndex] = None,
    perms: Mask = 0,
    byteorder: ByteOrder = "little",
) -> Found:
    """Returns the words of a buffer that could be capabilities: those that are canonical, and sentries.

    A sentry could be a capability if it is canonical with the type `UNSEALED` in place of its own. Without tags, a word
    must also have a permission: null, and every integer below 2**64, is a canonical word whose bounds contain each
    address, but it has none. Other bytes can be canonical by chance: of random words, 22 in 100 are.

    `tags` has a byte of 0 or 1 for each word, or a bit, the lowest of a byte first. Only tagged words are found.
    `sentries` says whether sentries are found. If `unsealed`, no sealed words are, and no sentries.
    `within` is a region (BASE, LENGTH), or a list of them: the bounds must lie in one of them.
    `holds` is an address that the bounds must contain.
    `perms` is a mask, or names joined by "+": a word must have all of these permissions.

    Errors: ValueError for a buffer whose size is not a multiple of 16 bytes, or whose items are neither bytes nor
    integers in that byte order, and for another number of tags."""
    memory = _words_of(words, byteorder)
    is_tagged, bits = tags is not None, _tag_bits(tags, memory.nbytes // _WORD_SIZE)
    address = 0 if holds is None else _address(holds)
    kinds = not unsealed, sentries and not unsealed
    query = _Query(address, _mask(perms), not is_tagged, holds is not None, is_tagged, *kinds)
    regions = None if within is None else _Regions(within)
    positions, found = array("Q"), []
    room, after = (c_uint64 * _PIECE)(), c_size_t()
    for start, count, piece in _pieces(memory):
        size = (count + 7) // 8 if is_tagged else 0
        tagged = (c_uint8 * (size or 1)).from_buffer(bits, start // 8 if is_tagged else 0)
        given = piece, count, byteorder == "big", tagged, size, query
        chosen = room[: _calls["search_memory"](*given, room, _PIECE, after)]
        here = _words_at(piece, chosen)
        if here and regions:
            kept = regions.hold(decode_many(here, byteorder))
            here = _words_at(here, list(compress(range(len(kept)), kept)))
            chosen = list(compress(chosen, kept))
        positions.extend([start + it for it in chosen])
        found.append(here)
    return Found(Column(memoryview(positions)), b"".join(found), byteorder)


def _words_at(words: bytes, positions: List[int]) -> bytes:
    """Returns the words at positions, by numpy if the program has imported it."""
    if positions and "numpy" in sys.modules:
        taken: bytes = _numpy().frombuffer(words, f"V{_WORD_SIZE}")[positions].tobytes()
        return taken
    return b"".join([words[_WORD_SIZE * it : _WORD_SIZE * it + _WORD_SIZE] for it in positions])


def find_holding(
    words: Words,
    address: SupportsIndex,
    perms: Mask = 0,
    byteorder: ByteOrder = "little",
    sentries: bool = True,
    unsealed: bool = False,
) -> List[int]:
    """Returns the positions of the words of a buffer that could be capabilities to the byte at an address.

    They are those that `find_capabilities` finds with `holds=address`."""
    how: Any = {"holds": address, "perms": perms, "byteorder": byteorder, "sentries": sentries, "unsealed": unsealed}
    return find_capabilities(words, **how).positions.tolist()


class _Regions:
    """Regions, in the order of their bases."""

    def __init__(self, within: Any):
        try:
            pairs = [within] if len(within) == 2 and not hasattr(within[0], "__len__") else within
            regions = [(base, length) for base, length in pairs]
        except (TypeError, ValueError):
            raise TypeError(f"within must be a region (BASE, LENGTH), or a list of them, not {within!r}") from None
        ends = sorted((_address(base), index(base) + _at_most(length, 2**64, "a length")) for base, length in regions)
        self.bases = [base for base, _ in ends]
        # the highest end of the first regions: bounds from a base on lie in one of these if they end there or below
        highest: Iterator[int] = accumulate((end for _, end in ends), max)
        self.highest = [-1, *highest]

    def hold(self, bounds: ManyBounds) -> List[bool]:
        """Returns whether each of the bounds lies in a region."""
        tops = zip(bounds.base, bounds.top_high, bounds.top_low)
        return [high << 64 | low <= self.highest[bisect_right(self.bases, base)] for base, high, low in tops]


# the digits of bytes of 0 and 1
_DIGITS = bytes.maketrans(b"\0\1", b"01")


def _tag_bits(tags: Any, count: int) -> bytearray:
    """Returns a bit for each of `count` words, the lowest of a byte first, and a byte more."""
    if tags is None:
        return bytearray(1)
    view = _buffer(bytes(map(_flag, tags)) if isinstance(tags, (list, tuple)) else tags, "tags must be a buffer or a list of bools")
    data, size = view.tobytes(), (count + 7) // 8
    if view.itemsize == 1 and len(data) == count and not data.translate(None, b"\0\1"):
        # binary digits, the last word first
        return bytearray(int(b"0" + data[::-1].translate(_DIGITS), 2).to_bytes(size + 1, "little"))
    if view.itemsize == 1 and len(data) == size:
        return bytearray(data + b"\0")
    raise ValueError(f"tags must be a byte of 0 or 1, or a bit, for each of {count} words, not {len(data)} bytes")


# ---- Many numbers


def grant_many(bases: Numbers, lengths: Numbers) -> Any:
    """Returns the bounds that each request is granted, as `grant` does: a structured array of numpy, which it needs.

    Its fields are base, top, length, exponent, exact and in_range. A top of 2**64 is 0, and a length of 2**64 is
    2**64 - 1. All fields are 0 for a request that ends above 2**64."""
    numpy = _numpy()
    base, length = _numbers(bases, _HALF, "a base"), _numbers(lengths, 2**64, "a length")
    count = _size(length if isinstance(base, int) else base)
    at, pairs = _repeated(base, count, "a base"), _pairs(length, count, "a length")
    rows = numpy.zeros(count, _GRANTS)
    if count:
        results, sizes = (_Granted * count)(), (_Halves * count).from_buffer(pairs)
        _calls["set_bounds_many"]((c_uint64 * count).from_buffer(at), count, sizes, count, results, count)
        granted = numpy.ctypeslib.as_array(results)
        _fill_ends(rows, granted["base"], granted["top_high"], granted["top_low"])
        for name in "exponent", "exact", "in_range":
            rows[name] = granted[name]
    return rows


def round_length_many(lengths: Numbers) -> Column[int]:
    """CRRL: returns the representable length of each length, 2**64 - 1 for 2**64, which a column cannot have."""
    rounded = _of_lengths("round_length_many", lengths, 2)
    low = rounded[1::2]
    for position in compress(range(len(low)), rounded[0::2]):
        low[position] = _HALF
    return Column(memoryview(low))


def alignment_mask_many(lengths: Numbers) -> Column[int]:
    """CRAM: returns the representable alignment mask of each length."""
    return Column(memoryview(_of_lengths("alignment_mask_many", lengths, 1)))


def _of_lengths(call: str, lengths: Numbers, halves: int) -> "Uint64s":
    """Returns the results of a call for lengths: so many halves for each."""
    numbers = _numbers(lengths, 2**64, "a length")
    count = _size(numbers)
    pairs, results = _pairs(numbers, count, "a length"), array("Q", bytes(8 * halves)) * count
    if count:
        kind: Any = c_uint64 if halves == 1 else _Halves
        _calls[call]((_Halves * count).from_buffer(pairs), count, (kind * count).from_buffer(results), count)
    return results


def _numbers(given: Numbers, most: int, what: str) -> Union[int, Sequence[int]]:
    """Returns the number given, or the numbers, each from 0 to `most`."""
    try:
        # first, since a number of numpy is a buffer too
        number = index(given)  # type: ignore[arg-type]
    except TypeError:
        pass
    else:
        return _at_most(number, most, what)
    numbers: Any = given
    if not isinstance(given, (list, tuple, range)):
        view = _buffer(given, f"{what} must be an integer, or be one of many in a list or an array")
        if view.ndim != 1:
            raise ValueError(f"{what} must be one of many in one row; their shape is {view.shape}")
        kind, order = view.format[-1:], _ORDERS.get(view.format[:-1] or "@")
        if kind in tuple("QLN") and view.itemsize == 8:
            numbers = array("Q", view.tobytes())
            if order != sys.byteorder:
                numbers.byteswap()
        elif view.format in tuple("?bBhHiIlLqQnN"):
            numbers = view.tolist()
        else:
            raise TypeError(f"{what} must be an integer, not of format {view.format!r}")
    try:
        many = array("Q", numbers)
    except (OverflowError, TypeError):
        return [_at_most(it, most, what) for it in numbers]
    if many and most < _HALF:
        _at_most(max(many), most, what)
    return many


def _size(numbers: Union[int, Sequence[int]]) -> int:
    return 1 if isinstance(numbers, int) else len(numbers)


def _repeated(numbers: Union[int, Sequence[int]], count: int, what: str) -> "Uint64s":
    """Returns `count` numbers of 64 bits: those given, or the one given."""
    many = array("Q", [numbers]) * count if isinstance(numbers, int) else numbers
    if len(many) != count:
        raise ValueError(f"each of {count} must have {what}, not {len(many)} of them")
    return many if isinstance(many, array) else array("Q", many)


def _pairs(numbers: Union[int, Sequence[int]], count: int, what: str) -> "Uint64s":
    """Returns the two halves of `count` numbers, the high one first."""
    if isinstance(numbers, array):
        high, low = array("Q", bytes(8)) * count, _repeated(numbers, count, what)
    elif isinstance(numbers, int):
        high, low = (_repeated(it, count, what) for it in divmod(numbers, 2**64))
    else:
        low = _repeated([it & _HALF for it in numbers], count, what)
        high = array("Q", [it >> 64 for it in numbers])
    pairs = array("Q", bytes(_WORD_SIZE)) * count
    pairs[0::2], pairs[1::2] = high, low
    return pairs
