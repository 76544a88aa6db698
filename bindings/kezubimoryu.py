r"""Kezubimoryu from Python: the C entries of kezubimoryu.h under their own names, by ctypes, in this one file.

Input is bytes, or what shows itself as such: a bytearray, a memoryview, a mmap. It is copied unless it is bytes, so
that nobody changes it during the call. Anything else, a str or a number too, is a TypeError. Numbers of tags, elements
and slots go from 0 to 2^64 - 1; others are an OverflowError, and a bool or a float is a TypeError. A table of current
records is a Table, and a hash in progress a Sha256; each owns its bytes.

A packed event is bare, or versioned: then it is the byte 01 and behind it the bare bytes. With each one the caller says
which it is, by bare=True or bare=False. There is no default, because nothing can see a wrong word: 01 and a bare event,
said to be bare, may read well as another event. So keep with each record in which form it is. Places count the 01.

A refusal is raised as Refused, with its number and place; the exception's text is a sentence:

>>> import kezubimoryu as kez
>>> event = bytes(128) + bytes.fromhex("8094ebdc03 01 02 6869 01 02 0264 03ab")
>>> kez.kez_canonical_write(event, bare=True)[-33:]
b'",1000000000,1,[["d","ab"]],"hi"]'
>>> kez.kez_canonical_write(event[:-1], bare=True)
Traceback (most recent call last):
    ...
kezubimoryu.Refused: refused 2 at 141: The packed event is cut short, or a length in it goes beyond its end.

Each description ends with the rules of docs/RULES.md that bind the entry, and kezubimoryu.h says more. Parts 1, 10, 11
and 12.1 of the rules bind all entries; rule 10.N is refusal N.

The shared library is the file that the environment variable KEZUBIMORYU_LIBRARY names (KEZ_LIBRARY, its older name,
does the same). If neither is set, it is libkezubimoryu.so.1 or libkezubimoryu.so where the system's loader finds it,
or beside this file. It has to be of this file's major and minor version, since entries change from one to the next.
Without one the import fails, with an ImportError that says what to do.
"""
import ctypes
import ctypes.util
import enum
import operator
import os
import struct
from typing import Any, Dict, Iterator, List, NamedTuple, Optional, Tuple, Union

__version__ = "0.12.0"

__all__ = [
    "KEZ_MOST", "KEZ_CANONICAL_MOST", "KEZ_NOTEPACK_STRING_MOST", "KEZ_ELEMENT_BYTES", "KEZ_ELEMENTS_MOST",
    "KEZ_SLOTS", "KEZ_SLOT_BYTES", "KEZ_CELL_BYTES", "KEZ_SLOTS_BYTES", "KEZ_CELLS_BYTES", "KEZ_SHA256_STATE",
    "KEZ_SHA256_DIGEST", "KEZ_POINTER_PUBKEY_AT", "KEZ_POINTER_ID_FROM_END", "KEZ_POINTER_SIG_FROM_END",
    "KEZ_POINTER_LEAST", "KEZ_POINTER_MOST", "SENTENCES", "Bytes", "Numbers", "Payload", "Element", "PointerNumbers",
    "Piece", "Both", "Outcome", "Kept", "Table", "Sha256", "Refused", "kez_refusal_text",
    "kez_notepack_read", "kez_notepack_is_strict", "kez_notepack_write", "kez_versioned_from_bare",
    "kez_bare_from_versioned", "kez_notepack_tag_len", "kez_notepack_element", "kez_notepack_elements",
    "kez_notepack_string_write", "kez_notepack_string_read", "kez_notepack_string_read_versioned",
    "kez_pointer_read", "kez_pointer_tag_len", "kez_pointer_element", "kez_pointer_convert", "kez_pointer_write",
    "kez_canonical_write", "kez_nson_write", "kez_nson_read", "kez_json_read",
    "kez_read_both", "kez_rivals", "kez_table_empty", "kez_table_offer", "kez_table_slot", "kez_sha256_start",
    "kez_sha256_add", "kez_sha256_finish", "kez_id_belongs", "kez_version",
]

#: No accepted input is longer, but for a string form, of which the bytes that it holds are counted, and a piece of a
#: message that is hashed; nor is an event in strict form, nor NSON, nor a pointer form. The 01 counts. Rules 1.9, 14.3,
#: 16.8, 17.3 and 18.3.
KEZ_MOST: int = 65536
#: No canonical text is longer. Rule 5.8.
KEZ_CANONICAL_MOST: int = 3 * KEZ_MOST
#: No string form is longer that is written or accepted: that of a versioned event; of a bare one it is one less.
#: Rules 14.1 to 14.3 and 17.13 to 17.15.
KEZ_NOTEPACK_STRING_MOST: int = 10 + (4 * KEZ_MOST + 2) // 3
#: So many bytes are needed for each element that kez_notepack_elements of the header lists.
KEZ_ELEMENT_BYTES: int = 16
#: So many have room for the elements of any record.
KEZ_ELEMENTS_MOST: int = KEZ_ELEMENT_BYTES * KEZ_MOST

#: So many slots a table has, and as many cells; the bytes of each, and of all of them. Rules 15.1 and 15.2.
KEZ_SLOTS: int = 64
KEZ_SLOT_BYTES: int = 16
KEZ_CELL_BYTES: int = 1024
KEZ_SLOTS_BYTES: int = KEZ_SLOTS * KEZ_SLOT_BYTES
KEZ_CELLS_BYTES: int = KEZ_SLOTS * KEZ_CELL_BYTES

#: So many bytes the state of a hash has, and a digest. Rules 16.1 and 16.3.
KEZ_SHA256_STATE: int = 104
KEZ_SHA256_DIGEST: int = 32

#: Where a pointer form has the pubkey (32 bytes) from its start on, and the id (32) and the sig (64) before its end.
#: Rule 18.1.
KEZ_POINTER_PUBKEY_AT: int = 8
KEZ_POINTER_ID_FROM_END: int = 96
KEZ_POINTER_SIG_FROM_END: int = 64
#: No pointer form is shorter, and no one that is written or accepted is longer. Rules 18.2, 18.3 and 18.15.
KEZ_POINTER_LEAST: int = 168
KEZ_POINTER_MOST: int = KEZ_MOST

#: What is taken as input; so is anything else that shows contiguous bytes.
Bytes = Union[bytes, bytearray, memoryview]


class Numbers(NamedTuple):
    """Five numbers of a packed event. The content is packed[content_at:content_at + content_len].

    >>> kez_notepack_read(bytes(132), bare=True).content_at
    131
    """

    created_at: int
    kind: int
    content_at: int
    content_len: int
    tag_count: int


class Payload(NamedTuple):
    """Where the text of an element stands: payload = packed[at:at + len]. The text is payload.decode(), or
    payload.hex() where is_bytes.

    >>> kez_notepack_element(bytes(131) + bytes.fromhex("01 02 0264 03ab"), 0, 0, bare=True)
    Payload(at=134, len=1, is_bytes=False)
    """

    at: int
    len: int
    is_bytes: bool


class Element(NamedTuple):
    """The number of an element's tag, and its payload as in Payload.

    >>> list(kez_notepack_elements(bytes(131) + bytes.fromhex("01 01 0264"), bare=True))
    [Element(tag=0, at=134, len=1, is_bytes=False)]
    """

    tag: int
    at: int
    len: int
    is_bytes: bool


class PointerNumbers(NamedTuple):
    """Six numbers of a pointer form. The time is in milliseconds, signed, and not in seconds as in Numbers. The content
    is form[content_at:content_at + content_len].

    >>> kez_pointer_read(kez_pointer_write(bytes(132), bare=True)).content_at
    72
    """

    version: int
    kind: int
    milliseconds: int
    content_at: int
    content_len: int
    tag_count: int


class Piece(NamedTuple):
    """Where a text of a pointer form stands: form[at:at + len]. Of version 1 it may be any bytes.

    >>> form = kez_pointer_write(bytes(131) + bytes.fromhex("01 01 0264"), bare=True)
    >>> kez_pointer_element(form, 0, 0)
    Piece(at=88, len=1)
    """

    at: int
    len: int


class Both(NamedTuple):
    """The answer of kez_read_both: its value, and the strict form by each of the two readers.

    >>> event = bytes(128) + bytes.fromhex("8094ebdc03 01 02 6869 00")
    >>> kez_read_both(kez_nson_write(event, bare=True)).value
    2
    """

    value: int
    nson: Optional[bytes]
    json: bytes


class Outcome(enum.IntEnum):
    """What came of an event that was offered to a table.

    >>> Table().offer(bytes(132), bare=True) is Outcome.NEW
    True
    """

    #: It is kept, in the lowest free slot.
    NEW = 0
    #: It is kept in the slot of an earlier version, which is gone.
    REPLACED = 1
    #: The version that is kept is the current one.
    LOSES = 2
    #: The same event is kept; or, if it has no key, one of the same id.
    HELD = 3
    #: Kinds 20000 to 29999 never are.
    NOT_KEPT = 4


class Kept(NamedTuple):
    """A slot of a table, and the event that is kept in it, in strict form and bare.

    >>> table = Table()
    >>> outcome = table.offer(bytes(132), bare=True)
    >>> [(kept.slot, len(kept.packed)) for kept in table]
    [(0, 132)]
    """

    slot: int
    packed: bytes


#: A sentence for each refusal, by its number.
SENTENCES: Tuple[str, ...] = (
    "Nothing is refused.",
    "The input is longer than 65,536 bytes, a string form holds more, or the versioned form would be longer.",
    "The packed event is cut short, or a length in it goes beyond its end.",
    "A varint's tenth byte is neither 00 nor 01.",
    "The packed event ends inside a varint.",
    "A text is not well-formed UTF-8.",
    "The kind is above 65,535.",
    "The time is above 9,223,372,036,854,775 seconds.",
    "There are more than 1,000 tags, or more than 255 texts in a tag.",
    "A tag is empty.",
    "Something follows after the end.",
    "The lent buffer is shorter than needed.",
    "A fixed piece, hex or time is not as it must be, or the id, pubkey or sig is not lowercase hex of its length.",
    "A count in the nson field disagrees with the text.",
    "The text is not allowed: wrong JSON syntax, type, escape, or a raw control byte.",
    "A field is missing.",
    "A field stands there twice.",
    "NSON can't carry this event.",
    "Arrays and objects are nested more than 16 deep.",
    "There is no such tag or element, or nothing is kept in this slot.",
    "The text does not start with notepack_ (bare) or notepack1_ (versioned), whichever is asked for.",
    "What follows notepack_ or notepack1_ is not base64: a character outside its alphabet, a lone last one, "
    "or leftover bits that are not zero.",
    "The event's strict form is longer than 1,024 bytes, which is a cell of a table.",
    "The table has no free slot for another event.",
    "A varint is longer than its number needs.",
    "The packed event is said to be versioned, and does not start with 01.",
    "The header of the pointer form, or the length that it names, is not as it must be, "
    "or version 1 is to be converted.",
    "A pointer's offset is no multiple of 8, it leads out of the data, "
    "or it names a table whose length is not divisible by 8.",
    "The time of a pointer form is negative, or is no whole second.",
    "What is to be written would be longer than 65,536 bytes.",
    *4 * ("There is no refusal with this number.",),
    "The table is not as it must be: not of 64 slots and cells, "
    "or a used slot without a strict event to be kept, or with the name of another.",
    "The message has 2^61 bytes or more, or would have with this piece.",
)


class Refused(Exception):
    """A refusal: its number, the place in the input where the fault was found, and as text a sentence. Where
    a reader of string forms tells one from 2 to 10, or 24, the place is in the bytes that its text holds. With 34 it is
    the number of a slot.

    It may be pickled, so it comes whole out of a process pool.

    >>> try:
    ...     kez_notepack_read(b"", bare=True)
    ... except Refused as refused:
    ...     print(refused.number, refused.place)
    2 0
    """

    number: int
    place: int

    def __init__(self, number: int, place: int) -> None:
        super().__init__(number, place)  # what pickle makes it from again
        self.number = number
        self.place = place

    def __str__(self) -> str:
        return "refused %d at %d: %s" % (self.number, self.place, kez_refusal_text(self.number))


# The library


class _Answer(ctypes.Structure):
    _fields_ = [("refusal", ctypes.c_uint64), ("value", ctypes.c_uint64)]


_bytes = (ctypes.c_char_p, ctypes.c_size_t)
_room = (ctypes.POINTER(ctypes.c_char), ctypes.c_size_t)
_index = (ctypes.c_uint64,)
_number = (ctypes.POINTER(ctypes.c_uint64),)
_packed = _bytes + (ctypes.c_uint64,)

#: What each entry takes.
_types: Dict[str, Tuple[Any, ...]] = {
    "kez_notepack_read": _packed + _number * 5,
    "kez_notepack_is_strict": _packed,
    "kez_notepack_write": _packed + _room,
    "kez_versioned_from_bare": _bytes + _room,
    "kez_bare_from_versioned": _bytes + _room,
    "kez_notepack_tag_len": _packed + _index,
    "kez_notepack_element": _packed + _index * 2 + _number * 3,
    "kez_notepack_elements": _packed + _index + _room,
    "kez_notepack_string_write": _packed + _room,
    "kez_notepack_string_read": _bytes + _room,
    "kez_notepack_string_read_versioned": _bytes + _room,
    "kez_pointer_read": _bytes + _number * 6,
    "kez_pointer_tag_len": _bytes + _index,
    "kez_pointer_element": _bytes + _index * 2 + _number * 2,
    "kez_pointer_convert": _bytes + _room,
    "kez_pointer_write": _packed + _room,
    "kez_rivals": _packed + _packed,
    "kez_table_empty": _room + _room,
    "kez_table_offer": _room + _room + _packed,
    "kez_table_slot": _room + _room + _index + _number * 2,
    "kez_sha256_start": _room,
    "kez_sha256_add": _room + _bytes,
    "kez_sha256_finish": _room + _room,
    "kez_id_belongs": _packed,
    "kez_canonical_write": _packed + _room,
    "kez_nson_write": _packed + _room,
    "kez_nson_read": _bytes + _room,
    "kez_json_read": _bytes + _room,
    "kez_read_both": _bytes + _room + _room + _number,
}

_variables = ("KEZUBIMORYU_LIBRARY", "KEZ_LIBRARY")
_names = ("libkezubimoryu.so.1", "libkezubimoryu.so")


def _places() -> Iterator[str]:
    """Where the library may be: by the loader, beside this file, and by what else ctypes knows of the system."""
    yield from _names
    for name in _names:
        beside = os.path.join(os.path.dirname(os.path.abspath(__file__)), name)
        if os.path.exists(beside):
            yield beside
    found = ctypes.util.find_library("kezubimoryu")
    if found:
        yield found


def _version_of(library: ctypes.CDLL) -> int:
    """As kez_version tells it; 0 if the library is older than that entry."""
    entry = getattr(library, "kez_version", None)
    if entry is None:
        return 0
    entry.restype, entry.argtypes = ctypes.c_uint64, ()
    return entry()


def _load(name: str) -> ctypes.CDLL:
    """The library of this name; an OSError if there is none, or one of another version, whose entries take other
    arguments."""
    library = ctypes.CDLL(name)
    major, minor = map(int, __version__.split(".")[:2])
    found = _version_of(library)
    if found // 100 != 100 * major + minor:
        said = "%d.%d.%d" % (found // 10000, found // 100 % 100, found % 100) if found else "older than 0.5"
        raise OSError("%s: this library is %s, and kezubimoryu.py is for %d.%d" % (name, said, major, minor))
    return library


def _open() -> ctypes.CDLL:
    for variable in _variables:
        name = os.environ.get(variable)
        if name:
            try:
                return _load(name)
            except OSError as error:
                raise ImportError("%s is %r, which can't be loaded: %s" % (variable, name, error)) from None
    tried: List[str] = []
    for name in _places():
        try:
            return _load(name)
        except OSError as error:
            tried.append(str(error))
    raise ImportError(
        "The Kezubimoryu library, version %s, was not found. Set the environment variable KEZUBIMORYU_LIBRARY to the "
        "path of libkezubimoryu.so; or install the library and let the loader know (ldconfig, or LD_LIBRARY_PATH); or "
        "put libkezubimoryu.so into %s. Tried: %s"
        % (__version__, os.path.dirname(os.path.abspath(__file__)), "; ".join(tried)))


def _declared(library: ctypes.CDLL) -> Dict[str, Any]:
    """The library's entries by their names, those that it has."""
    entries = {name: getattr(library, name, None) for name in _types}
    for name, entry in entries.items():
        if entry is not None:
            entry.restype = _Answer
            entry.argtypes = _types[name]
    return entries


_library = _open()
_entries = _declared(_library)


def _ask(name: str, *words: Any) -> _Answer:
    entry = _entries[name]
    if entry is None:
        raise NotImplementedError("this library has no " + name)
    return entry(*words)


def _call(name: str, *words: Any) -> int:
    """The answer's value; a refusal is raised."""
    answer = _ask(name, *words)
    if answer.refusal:
        raise Refused(answer.refusal, answer.value)
    return answer.value


def _lend(data: Bytes) -> Tuple[bytes, int]:
    """The bytes and their length. Only bytes themselves are lent as they are: nobody can change them, and their length
    is what they say."""
    if type(data) is not bytes:
        view = memoryview(data)
        if view.ndim != 1 or not view.contiguous or view.format.lstrip("@=<>!") not in ("B", "b", "c"):
            raise TypeError("contiguous bytes are wanted, not %s of format %r" % (type(data).__name__, view.format))
        data = view.tobytes()
    return data, len(data)


def _said(data: Bytes, bare: bool) -> Tuple[bytes, int, int]:
    """The same of a packed event, and what is said of it. A number or a text is no yes or no here: most of them would
    be taken as yes."""
    if type(bare) is not bool:
        raise TypeError("bare is True or False, not %r" % (bare,))
    return (*_lend(data), int(bare))


def _checked(number: int) -> int:
    """An index as the library takes it."""
    if isinstance(number, bool):
        raise TypeError("a number of a tag, an element or a slot is wanted, not a bool")
    number = operator.index(number)
    if not 0 <= number < 1 << 64:
        raise OverflowError("%d is not in the range from 0 to 2^64 - 1" % number)
    return number


def _needed(name: str, *words: Any) -> int:
    """The length that is needed, asked for by lending nothing: it is told with refusal 11."""
    answer = _ask(name, *words)
    if answer.refusal != 11:
        raise Refused(answer.refusal, answer.value)
    return answer.value


def _write(name: str, *lent: Any) -> bytes:
    room = _needed(name, *lent, None, 0)
    out = ctypes.create_string_buffer(room)
    length = _call(name, *lent, out, room)
    return out.raw[:length]


def _numbers(count: int) -> List[ctypes.c_uint64]:
    return [ctypes.c_uint64() for _ in range(count)]


# The entries


def kez_refusal_text(number: int) -> str:
    """A sentence for a refusal: rule 10.N says when refusal N is given.

    >>> kez_refusal_text(9)
    'A tag is empty.'
    """
    return SENTENCES[number] if 0 <= number < len(SENTENCES) else "There is no refusal with this number."


def kez_notepack_read(packed: Bytes, *, bare: bool) -> Numbers:
    """Five numbers of a packed event: created_at, kind, the content's place and length, the number of tags.

    >>> event = bytes(128) + bytes.fromhex("8094ebdc03 01 02 6869 00")
    >>> numbers = kez_notepack_read(event, bare=True)
    >>> numbers
    Numbers(created_at=1000000000, kind=1, content_at=135, content_len=2, tag_count=0)
    >>> event[numbers.content_at:numbers.content_at + numbers.content_len].decode()
    'hi'

    Rules 2.1 to 2.18, 4.1, 4.8, 4.9, 12.2.1 to 12.2.3, 17.1 to 17.6."""
    numbers = _numbers(5)
    _call("kez_notepack_read", *_said(packed, bare), *numbers)
    return Numbers(*(n.value for n in numbers))


def kez_notepack_is_strict(packed: Bytes, *, bare: bool) -> bool:
    """Are these bytes in strict form?

    >>> kez_notepack_is_strict(bytes(132), bare=True)
    True
    >>> kez_notepack_is_strict(bytes(131) + bytes.fromhex("01 01 01"), bare=True)
    False
    >>> try:
    ...     kez_notepack_is_strict(bytes(128) + bytes.fromhex("8000 00 00 00"), bare=True)
    ... except Refused as refused:
    ...     print(refused.number, refused.place)
    24 128

    Rules 3.1 to 3.5, 12.2.7."""
    return bool(_call("kez_notepack_is_strict", *_said(packed, bare)))


def kez_notepack_write(packed: Bytes, *, bare: bool) -> bytes:
    """The strict form of a packed event. It is bare, also of a versioned one.

    >>> loose, strict = (bytes(131) + bytes.fromhex(tags) for tags in ("01 01 04 6162", "01 01 03 ab"))
    >>> kez_notepack_write(loose, bare=True) == strict
    True
    >>> kez_notepack_write(bytes([1]) + loose, bare=False) == strict
    True

    Rules 3.1 to 3.3, 3.6, 3.7, 12.2.4 to 12.2.6, 17.7."""
    return _write("kez_notepack_write", *_said(packed, bare))


def kez_versioned_from_bare(packed: Bytes) -> bytes:
    """A bare packed event in the versioned form: 01, and behind it the same bytes, strict or not. One of 65,536 bytes
    can't be moved: it is refused with 1.

    >>> kez_versioned_from_bare(bytes(132)) == bytes([1]) + bytes(132)
    True

    Rules 17.1, 17.9, 17.10, 12.8.1 to 12.8.3."""
    return _write("kez_versioned_from_bare", *_lend(packed))


def kez_bare_from_versioned(packed: Bytes) -> bytes:
    """A versioned packed event in the bare form: the bytes behind its 01, strict or not.

    >>> kez_bare_from_versioned(bytes([1]) + bytes(132)) == bytes(132)
    True
    >>> try:
    ...     kez_bare_from_versioned(bytes(132))
    ... except Refused as refused:
    ...     print(refused.number, refused.place)
    25 0

    Rules 17.1, 17.9, 17.11, 12.8.1 to 12.8.3."""
    return _write("kez_bare_from_versioned", *_lend(packed))


def kez_notepack_tag_len(packed: Bytes, tag: int, *, bare: bool) -> int:
    """The number of texts in this tag.

    >>> event = bytes(131) + bytes.fromhex("01 02 0264 03ab")
    >>> kez_notepack_tag_len(event, 0, bare=True)
    2

    Rules 4.4 to 4.6, 4.9, 12.2.3."""
    return _call("kez_notepack_tag_len", *_said(packed, bare), _checked(tag))


def kez_notepack_element(packed: Bytes, tag: int, element: int, *, bare: bool) -> Payload:
    """The place and length of this element's payload, and is_bytes: False, the payload is the text; True, the text is
    the payload in lowercase hex.

    >>> event = bytes(131) + bytes.fromhex("01 02 0264 03ab")
    >>> kez_notepack_element(event, 0, 1, bare=True)
    Payload(at=136, len=1, is_bytes=True)
    >>> event[136:137].hex()
    'ab'
    >>> kez_notepack_element(bytes([1]) + event, 0, 1, bare=False)
    Payload(at=137, len=1, is_bytes=True)

    Rules 2.10 to 2.12, 4.2, 4.3, 4.5, 4.6, 4.8, 4.9, 12.2.3."""
    numbers = _numbers(3)
    _call("kez_notepack_element", *_said(packed, bare), _checked(tag), _checked(element), *numbers)
    at, length, is_bytes = (n.value for n in numbers)
    return Payload(at, length, bool(is_bytes))


def kez_notepack_elements(packed: Bytes, *, bare: bool) -> Iterator[Element]:
    """All elements of all tags in their order. A refusal is raised by the call itself, not later by the iterator.

    >>> event = bytes(131) + bytes.fromhex("02 02 0264 03ab 01 0470 71")
    >>> for tag, at, length, is_bytes in kez_notepack_elements(event, bare=True):
    ...     payload = event[at:at + length]
    ...     print(tag, payload.hex() if is_bytes else payload.decode())
    0 d
    0 ab
    1 pq

    Rules 4.12 to 4.15."""
    lent = _said(packed, bare)
    # an element takes a byte of the record or more, so a short record needs one block
    block = ctypes.create_string_buffer(KEZ_ELEMENT_BYTES * max(1, min(lent[1], 1024)))
    return _blocks(lent, block, _listed(lent, 0, block))


def _listed(lent: Tuple[bytes, int, int], first: int, block: Any) -> int:
    """How many elements from number first on are now in the block."""
    return _call("kez_notepack_elements", *lent, first, block, len(block))


def _blocks(lent: Tuple[bytes, int, int], block: Any, listed: int) -> Iterator[Element]:
    """The elements of this block, and of those after it."""
    first = 0
    while True:
        for tag, at, length, is_bytes in struct.iter_unpack("<4I", block.raw[:KEZ_ELEMENT_BYTES * listed]):
            yield Element(tag, at, length, bool(is_bytes))
        if KEZ_ELEMENT_BYTES * listed < len(block):
            return
        first += listed
        listed = _listed(lent, first, block)


def kez_notepack_string_write(packed: Bytes, *, bare: bool) -> bytes:
    """The string form of a packed event: notepack_ and its strict form in base64 without padding, as ASCII. Of a
    versioned one it is notepack1_, and 01 and the strict form in base64.

    >>> kez_notepack_string_write(bytes(132), bare=True)[:20]
    b'notepack_AAAAAAAAAAA'
    >>> len(kez_notepack_string_write(bytes(132), bare=True))
    185
    >>> kez_notepack_string_write(bytes([1]) + bytes(132), bare=False)[:20]
    b'notepack1_AQAAAAAAAA'

    Rules 3.1 to 3.3, 14.1, 14.2, 14.8, 14.9, 17.12, 17.13."""
    return _write("kez_notepack_string_write", *_said(packed, bare))


def kez_notepack_string_read(text: Bytes) -> bytes:
    """The packed event that a string form holds, byte for byte; it need not be strict. It is bare. White space, padding
    and a line end that was pasted along are refused: strip() takes a line end off. A text that starts with notepack1_
    is refused with 20: kez_notepack_string_read_versioned reads these.

    >>> text = b"notepack_" + b"A" * 176
    >>> kez_notepack_string_read(text) == bytes(132)
    True
    >>> try:
    ...     kez_notepack_string_read(text + b" ")
    ... except Refused as refused:
    ...     print(refused.number, refused.place)
    21 185

    Rules 14.1, 14.3 to 14.7."""
    return _write("kez_notepack_string_read", *_lend(text))


def kez_notepack_string_read_versioned(text: Bytes) -> bytes:
    """The versioned packed event that a string form holds which starts with notepack1_, with its 01. One that starts
    with notepack_ is refused with 20.

    >>> text = kez_notepack_string_write(bytes([1]) + bytes(132), bare=False)
    >>> kez_notepack_string_read_versioned(text) == bytes([1]) + bytes(132)
    True

    Rules 14.1, 14.4, 14.7, 17.12, 17.14 to 17.16."""
    return _write("kez_notepack_string_read_versioned", *_lend(text))


def kez_pointer_read(form: Bytes) -> PointerNumbers:
    """Six numbers of a pointer form, of version 0 or 1: the version, the kind, the time in milliseconds, the content's
    place and length, the number of tags. Of version 1 the time may be negative, and kind, tags and texts have no limit of their own.

    >>> event = bytes(128) + bytes.fromhex("8094ebdc03 01 02 6869 00")
    >>> form = kez_pointer_write(event, bare=True)
    >>> numbers = kez_pointer_read(form)
    >>> numbers
    PointerNumbers(version=0, kind=1, milliseconds=1000000000000, content_at=72, content_len=2, tag_count=0)
    >>> form[numbers.content_at:numbers.content_at + numbers.content_len]
    b'hi'

    Rules 18.1 to 18.11, 12.9.1."""
    numbers = _numbers(6)
    _call("kez_pointer_read", *_lend(form), *numbers)
    version, kind, milliseconds, *rest = (n.value for n in numbers)
    return PointerNumbers(version, kind, ctypes.c_int64(milliseconds).value, *rest)


def kez_pointer_tag_len(form: Bytes, tag: int) -> int:
    """The number of texts in this tag of a pointer form. Of version 1 it may be 0.

    >>> form = kez_pointer_write(bytes(131) + bytes.fromhex("01 02 0264 03ab"), bare=True)
    >>> kez_pointer_tag_len(form, 0)
    2

    Rules 18.1 to 18.11."""
    return _call("kez_pointer_tag_len", *_lend(form), _checked(tag))


def kez_pointer_element(form: Bytes, tag: int, element: int) -> Piece:
    """The place and length of this text of a tag of a pointer form. Each call reads the whole form; tags may share
    texts, so they can name far more bytes than there are.

    >>> form = kez_pointer_write(bytes(131) + bytes.fromhex("01 02 0264 03ab"), bare=True)
    >>> at, length = kez_pointer_element(form, 0, 1)
    >>> form[at:at + length]
    b'ab'

    Rules 18.1 to 18.11."""
    numbers = _numbers(2)
    _call("kez_pointer_element", *_lend(form), _checked(tag), _checked(element), *numbers)
    return Piece(*(n.value for n in numbers))


def kez_pointer_convert(form: Bytes) -> bytes:
    """The event of a pointer form of version 0 as a packed event, bare and in strict form. Version 1 is refused with
    26, since its id is taken of other bytes; kez_pointer_read and the two above show what it says.

    >>> event = bytes(131) + bytes.fromhex("01 02 0264 03ab")
    >>> form = kez_pointer_write(event, bare=True)
    >>> kez_pointer_convert(form) == event
    True
    >>> try:
    ...     kez_pointer_convert(form[:4] + bytes([1]) + form[5:])
    ... except Refused as refused:
    ...     print(refused.number, refused.place)
    26 0

    Rules 18.1 to 18.9, 18.12, 18.13, 12.9.1, 12.9.4, 12.9.5."""
    return _write("kez_pointer_convert", *_lend(form))


def kez_pointer_write(packed: Bytes, *, bare: bool) -> bytes:
    """A packed event as a pointer form of version 0. Of an event always the same one is written.

    >>> kez_pointer_write(bytes(132), bare=True) == bytes([72]) + bytes(167)
    True

    Rules 18.1, 18.12, 18.14, 18.15, 12.9.2, 12.9.3, 12.9.5."""
    return _write("kez_pointer_write", *_said(packed, bare))


def kez_canonical_write(packed: Bytes, *, bare: bool) -> bytes:
    """The canonical text of NIP-01, at most three times as long as packed. Its SHA-256 is the event's id, if that
    belongs to it: kez_id_belongs.

    >>> kez_canonical_write(bytes(132), bare=True)[-16:]
    b'0000",0,0,[],""]'

    Rules 5.1 to 5.9, 12.2.8."""
    return _write("kez_canonical_write", *_said(packed, bare))


def kez_nson_write(packed: Bytes, *, bare: bool) -> bytes:
    """A packed event as NSON, at most KEZ_MOST bytes.

    >>> event = bytes(128) + bytes.fromhex("8094ebdc03 01 02 6869 00")
    >>> kez_nson_write(event, bare=True)[-54:]
    b'"nson":"0801000200","kind":1,"content":"hi","tags":[]}'

    Rules 6.1 to 6.16, 12.3.10 to 12.3.12."""
    return _write("kez_nson_write", *_said(packed, bare))


def kez_nson_read(text: Bytes) -> bytes:
    """NSON as a packed event in strict form.

    >>> event = bytes(128) + bytes.fromhex("8094ebdc03 01 02 6869 00")
    >>> kez_nson_read(kez_nson_write(event, bare=True)) == event
    True

    Rules 6.1 to 6.12, 6.17 to 6.30, 12.3.1 to 12.3.3, 12.3.5 to 12.3.9."""
    return _write("kez_nson_read", *_lend(text))


def kez_json_read(text: Bytes) -> bytes:
    """An event in plain JSON as a packed event in strict form.

    >>> text = '{"id":"%064d","pubkey":"%064d","sig":"%0128d","created_at":0,"kind":0,"tags":[],"content":""}'
    >>> kez_json_read((text % (0, 0, 0)).encode()) == bytes(132)
    True

    Rules 7.1 to 7.27, 12.1.9, 12.2.9, 12.2.10, 12.3.1 to 12.3.6."""
    return _write("kez_json_read", *_lend(text))


def kez_read_both(text: Bytes) -> Both:
    """Reads one text as kez_json_read and as kez_nson_read do. Value 2: both accept it, as the same event; 1:
    kez_json_read alone, and nson is None. What kez_json_read refuses is raised as its refusal.

    >>> event = bytes(128) + bytes.fromhex("8094ebdc03 01 02 6869 00")
    >>> kez_read_both(kez_nson_write(event, bare=True)) == Both(2, event, event)
    True
    >>> kez_read_both(kez_nson_write(event, bare=True) + b" ") == Both(1, None, event)
    True

    Rules 9.1 to 9.7, 12.3.1 to 12.3.3, 12.3.6."""
    lent, written = _lend(text), ctypes.c_uint64()
    room = _needed("kez_read_both", *lent, None, 0, None, 0, written)
    nson, json = ctypes.create_string_buffer(room), ctypes.create_string_buffer(room)
    value = _call("kez_read_both", *lent, nson, room, json, room, written)
    return Both(value, nson.raw[:written.value] if value == 2 else None, json.raw[:written.value])


def kez_rivals(first: Bytes, second: Bytes, *, first_bare: bool, second_bare: bool) -> int:
    """Which of two packed events is kept: 0 not rivals, 1 the first, 2 the second. One may be bare and the other
    versioned.

    >>> early, late = bytes(132), bytes(128) + bytes([1, 0, 0, 0])
    >>> kez_rivals(early, late, first_bare=True, second_bare=True)
    2
    >>> kez_rivals(early, bytes([1]) + late, first_bare=True, second_bare=False)
    2

    Rules 8.1 to 8.11, 17.8."""
    return _call("kez_rivals", *_said(first, first_bare), *_said(second, second_bare))


class Table:
    """A table of current records: of the events with a key one for each key, the current one, and of those without a
    key one for each id. It owns its bytes, KEZ_SLOTS_BYTES of slots and KEZ_CELLS_BYTES of cells.

    >>> early, late = bytes(132), bytes(128) + bytes([1, 0, 0, 0])
    >>> table = Table()
    >>> [table.offer(packed, bare=True).name for packed in (early, late, early)]
    ['NEW', 'REPLACED', 'LOSES']
    >>> table.slot(0) == late
    True
    >>> [kept.slot for kept in table]
    [0]

    bytes(table) has the slots, then the cells, and Table(those) is the table again: so it may be put into a file and
    taken from there. A table that is no table any more is refused with 34 as soon as it is asked for something:

    >>> again = Table(bytes(table))
    >>> again.slot(0) == late
    True
    >>> Table(b"\x01" + bytes(KEZ_SLOTS_BYTES + KEZ_CELLS_BYTES - 1)).offer(late, bare=True)
    Traceback (most recent call last):
        ...
    kezubimoryu.Refused: refused 34 at 0: The table is not as it must be: not of 64 slots and cells, \
or a used slot without a strict event to be kept, or with the name of another.

    Two threads must not use one table at once. Rules 15.1 to 15.24.

    A table that a version before 0.10.0 filled may be refused with 34, since two events of one author and one kind,
    30000 to 39999, whose labels are missing or empty, are one record now. List it with that version, and offer what it
    had to a new table: none is refused. What that version refused with 23 is offered too."""

    _slots: Any
    _cells: Any

    def __init__(self, data: Optional[Bytes] = None) -> None:
        """A new table is emptied. With data, the bytes of a table, it is that one. Bytes of another length are a
        ValueError."""
        lent, length = _lend(bytes(KEZ_SLOTS_BYTES + KEZ_CELLS_BYTES) if data is None else data)
        if length != KEZ_SLOTS_BYTES + KEZ_CELLS_BYTES:
            raise ValueError("a table has %d bytes, not %d" % (KEZ_SLOTS_BYTES + KEZ_CELLS_BYTES, length))
        self._slots = (ctypes.c_char * KEZ_SLOTS_BYTES).from_buffer_copy(lent)
        self._cells = (ctypes.c_char * KEZ_CELLS_BYTES).from_buffer_copy(lent, KEZ_SLOTS_BYTES)

    def _lent(self) -> Tuple[Any, int, Any, int]:
        return self._slots, KEZ_SLOTS_BYTES, self._cells, KEZ_CELLS_BYTES

    def empty(self) -> None:
        """Frees and zeroes every slot and cell, whatever they hold."""
        kez_table_empty(self)

    def offer(self, packed: Bytes, *, bare: bool) -> Outcome:
        """Offers a packed event; it is kept in bare strict form if it is to be kept."""
        return kez_table_offer(self, packed, bare=bare)

    def slot(self, n: int) -> bytes:
        """The event that is kept in slot n. A free slot, or a number above 63, is refused with 19."""
        return kez_table_slot(self, n)

    def __iter__(self) -> Iterator[Kept]:
        """What is kept, from the lowest slot on."""
        for n in range(KEZ_SLOTS):
            try:
                yield Kept(n, self.slot(n))
            except Refused as refused:
                if refused.number != 19:
                    raise

    def __bytes__(self) -> bytes:
        """The slots, then the cells."""
        return self._slots.raw + self._cells.raw


def _owned(table: Table) -> Table:
    if not isinstance(table, Table):
        raise TypeError("a Table is wanted, not %s" % type(table).__name__)
    return table


def kez_table_empty(table: Table) -> None:
    """Frees and zeroes every slot and cell of a table, whatever they hold.

    >>> table = Table(b"x" * (KEZ_SLOTS_BYTES + KEZ_CELLS_BYTES))
    >>> kez_table_empty(table)
    >>> bytes(table) == bytes(KEZ_SLOTS_BYTES + KEZ_CELLS_BYTES)
    True

    Rules 15.20 and 15.21."""
    _call("kez_table_empty", *_owned(table)._lent())


def kez_table_offer(table: Table, packed: Bytes, *, bare: bool) -> Outcome:
    """Offers a packed event to a table, which keeps bare ones, and says what came of it. A refusal changes nothing.

    >>> table, event = Table(), bytes(129) + bytes([1, 0, 0])
    >>> kez_table_offer(table, event, bare=True) is Outcome.NEW
    True
    >>> kez_table_offer(table, bytes([1]) + event, bare=False) is Outcome.HELD
    True

    Rules 15.1 to 15.19, 17.7."""
    return Outcome(_call("kez_table_offer", *_owned(table)._lent(), *_said(packed, bare)))


def kez_table_slot(table: Table, n: int) -> bytes:
    """The event that is kept in slot n of a table, in strict form and bare.

    >>> table = Table()
    >>> outcome = kez_table_offer(table, bytes(132), bare=True)
    >>> kez_table_slot(table, 0) == bytes(132)
    True
    >>> try:
    ...     kez_table_slot(table, 1)
    ... except Refused as refused:
    ...     print(refused.number, refused.place)
    19 0

    Rules 15.22 to 15.24."""
    numbers = _numbers(2)
    _call("kez_table_slot", *_owned(table)._lent(), _checked(n), *numbers)
    at, length = (n.value for n in numbers)
    return bytes(table._cells[at:at + length])


class Sha256:
    """SHA-256 of a message that comes in pieces. Where it is cut makes no difference. It owns its state, which is
    KEZ_SHA256_STATE bytes.

    >>> hash = Sha256()
    >>> for piece in (b"a", b"", b"bc"):
    ...     hash.add(piece)
    >>> hash.finish().hex()
    'ba7816bf8f01cfea414140de5dae2223b00361a396177a9cb410ff61f20015ad'

    Finishing leaves the state as it is, so more may be added. bytes(hash) is the state, and Sha256(those) is the hash
    again:

    >>> again = Sha256(bytes(hash))
    >>> again.add(b"d")
    >>> again.finish() == hash.finish()
    False

    A message has fewer than 2^61 bytes. Any bytes are a state, so a wrong length in them is seen only here:

    >>> Sha256(bytes([255]) * KEZ_SHA256_STATE).finish()
    Traceback (most recent call last):
        ...
    kezubimoryu.Refused: refused 35 at 0: The message has 2^61 bytes or more, or would have with this piece.

    Two threads must not use one hash at once. Rules 16.1 to 16.11."""

    _state: Any

    def __init__(self, state: Optional[Bytes] = None) -> None:
        """A new one has no message yet. With the bytes of a state it goes on from there. Bytes of another length are a
        ValueError."""
        if state is None:
            self._state = ctypes.create_string_buffer(KEZ_SHA256_STATE)
            kez_sha256_start(self)
            return
        lent, length = _lend(state)
        if length != KEZ_SHA256_STATE:
            raise ValueError("a state has %d bytes, not %d" % (KEZ_SHA256_STATE, length))
        self._state = (ctypes.c_char * KEZ_SHA256_STATE).from_buffer_copy(lent)

    def add(self, piece: Bytes) -> None:
        """Adds the bytes that come next. A refusal changes nothing."""
        kez_sha256_add(self, piece)

    def finish(self) -> bytes:
        """The digest of the message so far."""
        return kez_sha256_finish(self)

    def __bytes__(self) -> bytes:
        """The state."""
        return self._state.raw


def _hashing(hash: Sha256) -> Tuple[Any, int]:
    if not isinstance(hash, Sha256):
        raise TypeError("a Sha256 is wanted, not %s" % type(hash).__name__)
    return hash._state, KEZ_SHA256_STATE


def kez_sha256_start(hash: Sha256) -> None:
    """Starts a hash anew: its message has no bytes, whatever it had before.

    >>> hash = Sha256()
    >>> hash.add(b"something")
    >>> kez_sha256_start(hash)
    >>> bytes(hash) == bytes(Sha256())
    True

    Rules 16.1 to 16.6."""
    _call("kez_sha256_start", *_hashing(hash))


def kez_sha256_add(hash: Sha256, piece: Bytes) -> None:
    """Adds the bytes that come next to the message of a hash; they may be none. A refusal changes nothing.

    >>> one, two = Sha256(), Sha256()
    >>> kez_sha256_add(one, b"hello")
    >>> kez_sha256_add(two, b"hel")
    >>> kez_sha256_add(two, b"lo")
    >>> bytes(one) == bytes(two)
    True

    Rules 16.1 to 16.5, 16.7 to 16.9, 12.7.1 to 12.7.3."""
    _call("kez_sha256_add", *_hashing(hash), *_lend(piece))


def kez_sha256_finish(hash: Sha256) -> bytes:
    """The digest of the message so far, KEZ_SHA256_DIGEST bytes. More may be added.

    >>> kez_sha256_finish(Sha256()).hex()
    'e3b0c44298fc1c149afbf4c8996fb92427ae41e4649b934ca495991b7852b855'

    Rules 16.1 to 16.5, 16.10, 16.11, 12.7.1 to 12.7.3."""
    out = ctypes.create_string_buffer(KEZ_SHA256_DIGEST)
    _call("kez_sha256_finish", *_hashing(hash), out, KEZ_SHA256_DIGEST)
    return out.raw


def kez_id_belongs(packed: Bytes, *, bare: bool) -> bool:
    """Does the id belong to the packed event: is it the SHA-256 of its canonical text? The signature plays no part. A
    thread that calls this needs some 200 KB of stack.

    >>> event = bytes(128) + bytes.fromhex("8094ebdc03 01 02 6869 00")
    >>> kez_id_belongs(event, bare=True)
    False
    >>> hash = Sha256()
    >>> hash.add(kez_canonical_write(event, bare=True))
    >>> kez_id_belongs(hash.finish() + event[32:], bare=True)
    True

    Rules 16.12 to 16.14, 12.7.4."""
    return bool(_call("kez_id_belongs", *_said(packed, bare)))


def kez_version() -> int:
    """The version of the library that is loaded: 10,000 for a major one, 100 for a minor one, 1 for a patch.

    >>> major, minor, patch = map(int, __version__.split("."))
    >>> kez_version() == major * 10000 + minor * 100 + patch
    True

    Rule 12.1.12."""
    return _version_of(_library)
