"""The NSON draft's event through the Python binding; then what the binding takes as input, its exceptions, its buffers,
its descriptions, and how it finds the library. The last line is 'N passed, M failed'."""
import array
import base64
import concurrent.futures
import copy
import ctypes
import doctest
import enum
import functools
import hashlib
import inspect
import json
import mmap
import multiprocessing
import os
import pickle
import shutil
import struct
import subprocess
import sys
import tempfile
import types
import typing

import kezubimoryu as kez

passed = failed = 0

# Which entries ask of a packed event whether it is bare; here they are told that it is
PACKED = ("kez_notepack_read", "kez_notepack_is_strict", "kez_notepack_write", "kez_notepack_tag_len",
          "kez_notepack_element", "kez_notepack_elements", "kez_notepack_string_write", "kez_canonical_write",
          "kez_nson_write", "kez_table_offer", "kez_id_belongs", "kez_pointer_write")
bare = types.SimpleNamespace(**{name: functools.partial(getattr(kez, name), bare=True) for name in PACKED})
bare.kez_rivals = functools.partial(kez.kez_rivals, first_bare=True, second_bare=True)
offer = bare.kez_table_offer


def check(name, got, wanted):
    global passed, failed
    if got == wanted:
        passed += 1
    else:
        failed += 1
        print("%s: %r, not %r" % (name, got, wanted))


def refusal(call, *words):
    try:
        return call(*words)
    except kez.Refused as r:
        return r.number, r.place


def raised(call, *words):
    """The name of the exception, or what the call returned."""
    try:
        return call(*words)
    except Exception as error:
        return type(error).__name__


def varint(n):
    return bytes([n]) if n < 128 else bytes([n % 128 + 128]) + varint(n // 128)


def is_hex(text):
    return text and len(text) % 2 == 0 and all(c in "0123456789abcdef" for c in text)


def element(text):
    raw = bytes.fromhex(text) if is_hex(text) else text.encode()
    return varint(2 * len(raw) + bool(is_hex(text))) + raw


def packed(event):
    """The strict form, by this file's own means."""
    tags = b"".join(varint(len(tag)) + b"".join(map(element, tag)) for tag in event["tags"])
    content = event["content"].encode()
    return (bytes.fromhex(event["id"] + event["pubkey"] + event["sig"]) + varint(event["created_at"]) + varint(event["kind"])
            + varint(len(content)) + content + varint(len(event["tags"])) + tags)


with open("samples/document-003.nson", "rb") as file:
    text = file.read()
event = json.loads(text)
form = packed(event)
numbers = bare.kez_notepack_read(form)
check("created_at", numbers.created_at, event["created_at"])
check("kind", numbers.kind, event["kind"])
check("content", form[numbers.content_at:numbers.content_at + numbers.content_len].decode(), event["content"])
check("tags", numbers.tag_count, len(event["tags"]))
for i, tag in enumerate(event["tags"]):
    check("length of tag %d" % i, bare.kez_notepack_tag_len(form, i), len(tag))
    for j, wanted in enumerate(tag):
        e = bare.kez_notepack_element(form, i, j)
        payload = form[e.at:e.at + e.len]
        check("text %d of tag %d" % (j, i), payload.hex() if e.is_bytes else payload.decode(), wanted)
check("strict", bare.kez_notepack_is_strict(form), True)
check("written", bare.kez_notepack_write(form), form)
check("no such tag", refusal(bare.kez_notepack_tag_len, form, 2), (19, 0))
check("cut", refusal(bare.kez_notepack_read, form[:-1]), (2, form.index(b"wss:") - 1))
check("empty", refusal(bare.kez_notepack_write, b""), (2, 0))
check("too long", refusal(bare.kez_notepack_is_strict, bytes(65537)), (1, 0))
check("not strict", bare.kez_notepack_is_strict(bytes(131) + b"\1\1\1"), False)
padded = bytes(128) + bytes.fromhex("8000 00 00 00")
for call in (bare.kez_notepack_read, bare.kez_notepack_is_strict, bare.kez_notepack_write, bare.kez_canonical_write):
    check("a padded number", refusal(call, padded), (24, 128))
check("too long to be written", refusal(bare.kez_notepack_write, bytes(65537)), (1, 0))
canonical = bare.kez_canonical_write(form)
wanted = [0, event["pubkey"], event["created_at"], event["kind"], event["tags"], event["content"]]
check("canonical", canonical.decode(), json.dumps(wanted, separators=(",", ":"), ensure_ascii=False))
check("its SHA-256 is the id", hashlib.sha256(canonical).hexdigest(), event["id"])
check("the id belongs", bare.kez_id_belongs(form), True)
# the most that a text can grow: a content of nothing but line ends
lines = b"\n" * 65000
longest = bytes(128) + varint(0) + varint(0) + varint(len(lines)) + lines + varint(0)
check("two for one", len(bare.kez_canonical_write(longest)), 2 * len(lines) + len('[0,"') + 64 + len('",0,0,[],""]'))
check("empty canonical", refusal(bare.kez_canonical_write, b""), (2, 0))
check("not rivals", bare.kez_rivals(form, form), 0)
check("NSON", bare.kez_nson_write(form), text)
check("read as NSON", kez.kez_nson_read(text), form)
check("a line end behind it", refusal(kez.kez_nson_read, text + b"\n"), (10, len(text)))
check("empty NSON", refusal(kez.kez_nson_read, b""), (12, 0))
check("NSON too long", refusal(kez.kez_nson_read, bytes(65537)), (1, 0))
check("read as JSON", kez.kez_json_read(json.dumps(event, indent=2).encode()), form)
check("a missing field", refusal(kez.kez_json_read, b"{}"), (15, 1))
check("empty JSON", refusal(kez.kez_json_read, b""), (14, 0))
check("JSON too long", refusal(kez.kez_json_read, bytes(65537)), (1, 0))
# the longest texts that are read: the strict form has room in as many bytes
shortest = json.dumps(dict(event, tags=[], content=""), separators=(",", ":")).encode()
full = shortest.replace(b'"content":""', b'"content":"' + b"x" * (65536 - len(shortest)) + b'"')
check("the longest JSON", (len(full), kez.kez_json_read(full)), (65536, packed(json.loads(full))))
many = json.dumps(dict(event, tags=[[""]] * 1000), separators=(",", ":")).encode()
check("a thousand tags", kez.kez_json_read(many), packed(json.loads(many)))
check("both", kez.kez_read_both(text), (2, form, form))
check("JSON alone", kez.kez_read_both(text + b"\n"), (1, None, form))
check("a count that lies", kez.kez_read_both(text.replace(b"2801000b", b"2801000a")), (1, None, form))
check("cut", refusal(kez.kez_read_both, text[:-1]), (14, len(text) - 1))
check("a blank", refusal(kez.kez_read_both, b'{"kind":1}'), (15, 9))
check("empty", refusal(kez.kez_read_both, b""), (14, 0))
check("too long for both", refusal(kez.kez_read_both, bytes(65537)), (1, 0))

# The string form, by Python's own base64
def string_form(data):
    return b"notepack_" + base64.b64encode(data).rstrip(b"=")


string = string_form(form)
check("string form", bare.kez_notepack_string_write(form), string)
check("read as a string form", kez.kez_notepack_string_read(string), form)
with open("samples/record.string", "rb") as file:
    sample = file.read()
with open("samples/record.notepack", "rb") as file:
    check("the draft's string form", kez.kez_notepack_string_read(sample), file.read())
check("the draft's string form, written", bare.kez_notepack_string_write(kez.kez_notepack_string_read(sample)), sample)
loose = bytes(131) + bytes.fromhex("01 01 01")
check("written strict", bare.kez_notepack_string_write(loose), string_form(bytes(131) + b"\1\1\0"))
check("read as it is", kez.kez_notepack_string_read(string_form(loose)), loose)
for n in range(6):
    some = bytes(130) + varint(n) + b"\xc3\xbf" * (n // 2) + b"?" * (n % 2) + varint(0)
    check("string form of %d bytes" % len(some), bare.kez_notepack_string_write(some), string_form(some))
    check("string form of %d bytes, read" % len(some), kez.kez_notepack_string_read(string_form(some)), some)
most = bytes(130) + varint(65402) + bytes(65403)
check("the longest string form", (len(most), len(string_form(most))), (kez.KEZ_MOST, kez.KEZ_NOTEPACK_STRING_MOST - 1))
check("the longest string form, written", bare.kez_notepack_string_write(most), string_form(most))
check("the longest string form, read", kez.kez_notepack_string_read(string_form(most)), most)
for what, data, wanted in (
        ("nothing", b"", (20, 0)), ("another prefix", b"Notepack_" + string[9:], (20, 0)),
        ("the prefix", b"notepack_", (2, 0)),
        ("a line end", string + b"\n", (21, len(string))), ("padding", string + b"=", (21, len(string))),
        ("a blank", string[:20] + b" " + string[20:], (21, 20)), ("the URL-safe alphabet", b"notepack_AA-A", (21, 11)),
        ("a lone last character", b"notepack_AAAAA", (21, 14)), ("leftover bits", b"notepack_AB", (21, 11)),
        ("a fault before an odd length", b"notepack_AAAA-", (21, 13)), ("too much", string_form(bytes(65537)), (1, 0)),
        ("a fault behind too much", string_form(bytes(66000)) + b"-", (21, 88009)),
        ("a damaged record", string_form(form[:-1]), (2, form.index(b"wss:") - 1)),
        ("a padded number", string_form(padded), (24, 128)),
        ("more than a record", string_form(form + b"\0"), (10, len(form)))):
    check("a string form: %s" % what, refusal(kez.kez_notepack_string_read, data), wanted)
check("no event, as a string form", refusal(bare.kez_notepack_string_write, form[:-1]), (2, form.index(b"wss:") - 1))
check("too long for a string form", refusal(bare.kez_notepack_string_write, bytes(65537)), (1, 0))

# The versioned form: 01, then the bare bytes. There and back; every entry; places; what is said and is not so
def string_form1(data):
    return b"notepack1_" + base64.b64encode(data).rstrip(b"=")


def said(name, data, *words):
    """The entry, told that its packed event is versioned."""
    got = getattr(kez, name)(data, *words, bare=False)
    return list(got) if name == "kez_notepack_elements" else got


versioned, string1 = b"\1" + form, string_form1(b"\1" + form)
for data in (form, loose, most[:130] + varint(65401) + bytes(65402)):
    check("moved", kez.kez_versioned_from_bare(data), b"\1" + data)
    check("moved back", kez.kez_bare_from_versioned(b"\1" + data), data)
check("65,536 bytes moved", refusal(kez.kez_versioned_from_bare, most), (1, 0))
check("65,536 bad bytes moved", refusal(kez.kez_versioned_from_bare, bytes(65536)), (1, 0))
check("a cut one moved", refusal(kez.kez_versioned_from_bare, form[:-1]), (2, form.index(b"wss:") - 1))
check("a cut one moved back", refusal(kez.kez_bare_from_versioned, versioned[:-1]), (2, form.index(b"wss:")))
for name in ("kez_notepack_is_strict", "kez_notepack_write", "kez_canonical_write", "kez_nson_write", "kez_id_belongs",
             "kez_pointer_write"):
    check("%s, versioned" % name, said(name, versioned), getattr(bare, name)(form))
check("numbers, versioned", said("kez_notepack_read", versioned), numbers._replace(content_at=numbers.content_at + 1))
check("a tag's length, versioned", said("kez_notepack_tag_len", versioned, 1), 4)
check("no such tag, versioned", refusal(said, "kez_notepack_tag_len", versioned, 2), (19, 0))
e = bare.kez_notepack_element(form, 0, 1)
check("an element, versioned", said("kez_notepack_element", versioned, 0, 1), e._replace(at=e.at + 1))
check("elements, versioned", said("kez_notepack_elements", versioned),
      [e._replace(at=e.at + 1) for e in bare.kez_notepack_elements(form)])
check("string form, versioned", said("kez_notepack_string_write", versioned), string1)
check("string form, versioned, read", kez.kez_notepack_string_read_versioned(string1), versioned)
check("made strict", said("kez_notepack_string_write", b"\1" + loose), string_form1(b"\1" + bytes(131) + b"\1\1\0"))
check("read as it is", kez.kez_notepack_string_read_versioned(string_form1(b"\1" + loose)), b"\1" + loose)
check("the other reader", refusal(kez.kez_notepack_string_read, string1), (20, 0))
check("the other text", refusal(kez.kez_notepack_string_read_versioned, string), (20, 0))
for what, data, wanted in (("nothing", b"", (2, 0)), ("01", b"\1", (2, 1)), ("02", b"\2", (25, 0)),
                           ("a bare one", form, (25, 0)), ("too long", b"\2" + bytes(65536), (1, 0)),
                           ("padded", b"\1" + padded, (24, 129)), ("more", versioned + b"\0", (10, len(versioned)))):
    for name in (n for n in PACKED if n not in ("kez_table_offer", "kez_notepack_tag_len", "kez_notepack_element")):
        check("%s of %s" % (name, what), refusal(said, name, data), wanted)
    check("to bare, of %s" % what, refusal(kez.kez_bare_from_versioned, data), wanted)
    check("a string form of %s" % what, refusal(kez.kez_notepack_string_read_versioned, string_form1(data)), wanted)
    check("an offer of %s" % what, refusal(functools.partial(kez.Table().offer, bare=False), data), wanted)
for first, second in ((True, False), (False, True), (False, False)):
    words = dict(first_bare=first, second_bare=second)
    check("rivals %r" % words, kez.kez_rivals(bytes(132) if first else b"\1" + bytes(132),
                                              bytes(132) if second else b"\1" + bytes(132), **words), 1)
    check("rivals %r, refused" % words, refusal(functools.partial(kez.kez_rivals, **words), bytes(132), bytes(132)),
          (25, 0))
one_table, other_table = kez.Table(), kez.Table()
check("offered, versioned", one_table.offer(versioned, bare=False), kez.Outcome.NEW)
offer(other_table, form)
check("the bare one is kept", bytes(one_table), bytes(other_table))
twofold = b"\1" + bytes(129) + b"\1\0\0"
check("01 and an event of kind 1", said("kez_notepack_read", twofold).kind, 1)
check("the same, said to be bare", bare.kez_notepack_read(twofold).kind, 0)
# it has to be said, and by a yes or no
for name in PACKED:
    first = (kez.Table(),) if name == "kez_table_offer" else ()
    words = {"kez_notepack_tag_len": (0,), "kez_notepack_element": (0, 0)}.get(name, ())
    check("%s, nothing said" % name, raised(getattr(kez, name), *first, form, *words), "TypeError")
    for wrong in (1, 0, None, "no", b"", 1.0):
        call = functools.partial(getattr(kez, name), bare=wrong)
        check("%s, said %r" % (name, wrong), raised(call, *first, form, *words), "TypeError")
check("kez_rivals, nothing said", raised(kez.kez_rivals, form, form), "TypeError")
check("offer, nothing said", raised(kez.Table().offer, form), "TypeError")

# The pointer form, laid out by this file's own means
def pointer_form(event, version=0, milliseconds=None):
    """The data is the content, the table of the tags, then for each tag its table and its texts, each filled with
    zeros to a multiple of 8."""
    data = bytearray()

    def add(piece):
        at = len(data)
        data.extend(piece + bytes(-len(piece) % 8))
        return at << 32 | len(piece)

    def point(at, pointer):
        data[at:at + 8] = struct.pack("<Q", pointer)

    content, tags = add(event["content"].encode()), add(bytes(8 * len(event["tags"])))
    for i, tag in enumerate(event["tags"]):
        texts = add(bytes(8 * len(tag)))
        point((tags >> 32) + 8 * i, texts)
        for j, text in enumerate(tag):
            point((texts >> 32) + 8 * j, add(text.encode()))
    if milliseconds is None:
        milliseconds = 1000 * event["created_at"]
    return (struct.pack("<Q", version << 32 | 72 + len(data)) + bytes.fromhex(event["pubkey"])
            + struct.pack("<QqQQ", event["kind"], milliseconds, content, tags) + bytes(data)
            + bytes.fromhex(event["id"] + event["sig"]))


v0, v1 = pointer_form(event), pointer_form(event, 1)
check("a v0", bare.kez_pointer_write(form), v0)
check("a v0, converted", kez.kez_pointer_convert(v0), form)
check("a v0 of loose bytes", bare.kez_pointer_write(loose), bare.kez_pointer_write(bytes(131) + b"\1\1\0"))
check("the shortest v0", len(bare.kez_pointer_write(bytes(132))), kez.KEZ_POINTER_LEAST)
for version, shown in ((0, v0), (1, v1)):
    told = kez.kez_pointer_read(shown)
    check("v%d, numbers" % version, (told.version, told.kind, told.milliseconds, told.tag_count),
          (version, event["kind"], 1000 * event["created_at"], len(event["tags"])))
    check("v%d, content" % version, shown[told.content_at:told.content_at + told.content_len].decode(),
          event["content"])
    for i, tag in enumerate(event["tags"]):
        check("v%d, length of tag %d" % (version, i), kez.kez_pointer_tag_len(shown, i), len(tag))
        for j, wanted in enumerate(tag):
            at, length = kez.kez_pointer_element(shown, i, j)
            check("v%d, text %d of tag %d" % (version, j, i), shown[at:at + length].decode(), wanted)
    check("v%d, no such tag" % version, refusal(kez.kez_pointer_tag_len, shown, 2), (19, 0))
    check("v%d, no such text" % version, refusal(kez.kez_pointer_element, shown, 1, (1 << 64) - 1), (19, 0))
    check("v%d, the fixed fields" % version, tuple(part.hex() for part in (
        shown[kez.KEZ_POINTER_PUBKEY_AT:][:32], shown[-kez.KEZ_POINTER_ID_FROM_END:][:32],
        shown[-kez.KEZ_POINTER_SIG_FROM_END:])), (event["pubkey"], event["id"], event["sig"]))
check("a v1, converted", refusal(kez.kez_pointer_convert, v1), (26, 0))
for milliseconds in (-1, -1000, 999, -(1 << 63), (1 << 63) - 1):
    check("v1, %d milliseconds" % milliseconds,
          kez.kez_pointer_read(pointer_form(event, 1, milliseconds)).milliseconds, milliseconds)
    check("v0, %d milliseconds" % milliseconds, refusal(kez.kez_pointer_read, pointer_form(event, 0, milliseconds)),
          (28, 48))
latest = dict(event, created_at=9223372036854775)
check("the last second", kez.kez_pointer_convert(pointer_form(latest)), packed(latest))


def changed(place, data):
    return v0[:place] + data + v0[place + len(data):]


for what, data, wanted in (("nothing", b"", (26, 0)), ("too short", v0[:167], (26, 0)), ("cut", v0[:-1], (26, 0)),
                           ("too long", bytes(65537), (1, 0)), ("version 2", changed(4, b"\2"), (26, 0)),
                           ("a reserved bit", changed(6, b"\1"), (26, 0)), ("a kind", changed(42, b"\1"), (6, 40)),
                           ("a content elsewhere", changed(60, b"\4"), (27, 56)),
                           ("tags that are no table", changed(64, b"\11"), (27, 64)),
                           ("a content that is no UTF-8", changed(72, b"\xff"), (5, 72)),
                           ("a tag without texts", changed(88, b"\0"), (9, 88))):
    for call in (kez.kez_pointer_read, kez.kez_pointer_convert, functools.partial(kez.kez_pointer_tag_len, tag=9),
                 functools.partial(kez.kez_pointer_element, tag=9, element=9)):
        check("a pointer form: %s" % what, refusal(call, data), wanted)
# texts that are shared: 29 by converting alone, however many bytes they name
shared = struct.pack("<1000Q", *1000 * (8000 << 32 | 2040,)) + struct.pack("<255Q", *255 * (10040 << 32 | 55000,))
shared = (struct.pack("<Q", 72 + 65040) + bytes(56) + struct.pack("<Q", 8000) + shared + b"x" * 55000 + bytes(96))
check("10^10 bytes, shown", kez.kez_pointer_read(shared), (0, 0, 0, 72, 0, 1000))
check("10^10 bytes, the last text", kez.kez_pointer_element(shared, 999, 254), (10112, 55000))
check("10^10 bytes, converted", refusal(kez.kez_pointer_convert, shared), (29, 0))
largest = bytes(130) + varint(65368) + bytes(65369)
check("the longest v0", len(bare.kez_pointer_write(largest)), kez.KEZ_POINTER_MOST)
check("the longest v0, converted", kez.kez_pointer_convert(bare.kez_pointer_write(largest)), largest)
check("one longer", refusal(bare.kez_pointer_write, bytes(130) + varint(65369) + bytes(65370)), (29, 0))

# A table of current records: the five outcomes, what is kept and where, refusals that change nothing
def offered(number, time, kind, rest=b"\0\0"):
    return bytes([number]) + bytes(127) + varint(time) + varint(kind) + rest


table = kez.Table()
check("an emptied table", (bytes(table), list(table)), (bytes(66560), []))
for data, outcome in ((form, "NEW"), (offered(1, 5, 0), "NEW"), (offered(2, 6, 0), "REPLACED"),
                      (offered(1, 6, 0), "REPLACED"), (offered(2, 6, 0), "LOSES"), (offered(9, 5, 0), "LOSES"),
                      (offered(1, 6, 0), "HELD"), (offered(7, 6, 1), "NEW"), (offered(7, 9, 2), "HELD"),
                      (offered(1, 5, 20000), "NOT_KEPT"), (offered(1, 5, 29999), "NOT_KEPT"),
                      (offered(8, 5, 30000), "NEW"), (offered(7, 4, 30000), "LOSES"),
                      (offered(9, 6, 30000, b"\0\1\1\2d"), "REPLACED"),
                      (offered(9, 7, 30000, b"\0\1\2\2d\0"), "REPLACED"), (offered(8, 8, 30000), "REPLACED")):
    check("offered, to be %s" % outcome, offer(table, data), kez.Outcome[outcome])
kept = [(0, form), (1, offered(1, 6, 0)), (2, offered(7, 6, 1)), (3, offered(8, 8, 30000))]
check("what is kept", list(table), kept)
check("slot by slot", [kez.kez_table_slot(table, n) for n in range(4)], [data for _, data in kept])
before = bytes(table)
check("a slot's 16 bytes", before[16:32], b"\1" + bytes(7) + struct.pack("<Q", 132))
big = offered(9, 5, 0, varint(1024) + bytes(1025))
for what, data, wanted in (("over a cell", big, (22, 0)), ("nothing", b"", (2, 0)), ("too long", bytes(65537), (1, 0)),
                           ("over a cell, of a kind that is not kept", offered(9, 5, 20000, big[130:]), (22, 0))):
    check("offered %s" % what, refusal(offer, table, data), wanted)
    check("offered %s: the table" % what, bytes(table), before)
for n in (4, 63, 64, 1 << 32, (1 << 64) - 1):
    check("slot %d" % n, refusal(table.slot, n), (19, 0))
for wrong, wanted in ((-1, "OverflowError"), (1 << 64, "OverflowError"), (True, "TypeError"), (0.0, "TypeError")):
    check("slot %r" % (wrong,), raised(table.slot, wrong), wanted)
for number in range(10, 70):
    offer(table, offered(number, 5, 1))
check("a full table", (len(list(table)), refusal(offer, table, offered(70, 5, 1))), (64, (23, 0)))
check("a full table replaces", offer(table, offered(1, 7, 0)), kez.Outcome.REPLACED)
again = kez.Table(bytes(table))
check("a table of its bytes", (bytes(again), list(again)), (bytes(table), list(table)))
check("one changes, the other does not", (again.empty(), bytes(again), len(list(table))), (None, bytes(66560), 64))
bad = bytearray(bytes(table))
bad[5 * 16 + 9] = 5
bad = kez.Table(bad)
for call, words in ((offer, (bad, form)), (offer, (bad, b"")), (bad.slot, (0,)), (bad.slot, (64,)), (list, (bad,))):
    check("a bad table", refusal(call, *words), (34, 5))
kez.kez_table_empty(bad)
check("a bad table, emptied", bytes(bad), bytes(66560))
for wrong in (b"", bytes(66559), bytes(66561), bytes(1024)):
    check("a table of %d bytes" % len(wrong), raised(kez.Table, wrong), "ValueError")
for wrong in (5, "text", [0] * 66560):
    check("a table of %.9r" % (wrong,), raised(kez.Table, wrong), "TypeError")
for wrong in (None, bytes(66560), bytearray(66560)):
    check("an offer to %.9r" % (wrong,), raised(bare.kez_table_offer, wrong, form), "TypeError")
check("there are five outcomes", [o.value for o in kez.Outcome], [0, 1, 2, 3, 4])

# Hashes, beside Python's own: every length up to 300, cut anywhere; states there and back; the limit; ids
message = bytes(7 * i % 251 for i in range(300))
for length in range(301):
    hash, wanted = kez.Sha256(), hashlib.sha256(message[:length]).digest()
    cuts = sorted({0, length} | {length * i // 7 for i in range(length % 7)})
    for start, end in zip(cuts, cuts[1:]):
        hash.add(message[start:end])
    check("the digest of %d bytes" % length, (hash.finish(), hash.finish()), (wanted, wanted))
    again = kez.Sha256(bytes(hash))
    again.add(b"more")
    check("%d bytes and more" % length, again.finish(), hashlib.sha256(message[:length] + b"more").digest())
    check("%d bytes, left as they are" % length, hash.finish(), wanted)
started = kez.Sha256()
check("a state", (len(bytes(started)), bytes(started)[:4].hex(), bytes(started)[32:]), (104, "6a09e667", bytes(72)))
started.add(b"abc")
check("a state of abc", bytes(started)[32:], struct.pack("<Q", 3) + b"abc" + bytes(61))
kez.kez_sha256_start(started)
check("started anew", bytes(started), bytes(kez.Sha256()))
long = kez.Sha256()
for _ in range(100):
    long.add(b"a" * 10000)
check("a million", long.finish(), hashlib.sha256(b"a" * 1000000).digest())


def claiming(length):
    """A hash whose message is said to have so many bytes."""
    return kez.Sha256(bytes(kez.Sha256())[:32] + struct.pack("<Q", length) + bytes(64))


for length, piece, wanted in (((1 << 61) - 2, b"a", None), ((1 << 61) - 1, b"", None), ((1 << 61) - 1, b"a", (35, 0)),
                              (1 << 61, b"", (35, 0)), ((1 << 64) - 1, b"aa", (35, 0))):
    hash = claiming(length)
    before = bytes(hash)
    check("%d bytes and %d" % (length, len(piece)), refusal(hash.add, piece), wanted)
    check("%d bytes and %d, left" % (length, len(piece)), bytes(hash) == before, wanted is not None or not piece)
    check("%d bytes, finished" % length, type(refusal(hash.finish)), tuple if length >> 61 else bytes)
for wrong in (b"", bytes(103), bytes(105), bytes(66560)):
    check("a state of %d bytes" % len(wrong), raised(kez.Sha256, wrong), "ValueError")
for wrong in (5, "text", [0] * 104):
    check("a state of %.9r" % (wrong,), raised(kez.Sha256, wrong), "TypeError")
for wrong in (None, bytes(104), bytearray(104), kez.Table()):
    for call, words in ((kez.kez_sha256_start, ()), (kez.kez_sha256_add, (b"",)), (kez.kez_sha256_finish, ())):
        check("%s of %.9r" % (call.__name__, wrong), raised(call, wrong, *words), "TypeError")
for place, wanted in ((0, False), (31, False), (32, False), (63, False), (64, True), (127, True), (129, False)):
    other = bytearray(form)
    other[place] ^= 1
    check("the id, byte %d changed" % place, bare.kez_id_belongs(other), wanted)
lower = bytes(131) + bytes.fromhex("01 02 0264 04 6162")
lower = hashlib.sha256(bare.kez_canonical_write(lower)).digest() + lower[32:]
check("the id, spelled otherwise", (bare.kez_id_belongs(lower), bare.kez_id_belongs(bare.kez_notepack_write(lower))),
      (True, True))
identified = hashlib.sha256(bare.kez_canonical_write(longest)).digest() + longest[32:]
check("the id of much", (bare.kez_id_belongs(longest), bare.kez_id_belongs(identified)), (False, True))
for what, data, wanted in (("nothing", b"", (2, 0)), ("too much", bytes(65537), (1, 0)), ("padded", padded, (24, 128))):
    check("the id of %s" % what, refusal(bare.kez_id_belongs, data), wanted)

# Input: bytes, and what shows itself as bytes. All entries take it by the same way; a table, or a hash, is put first.
apart = ("kez_refusal_text", "kez_version", "kez_table_empty", "kez_table_slot", "kez_sha256_start",
         "kez_sha256_finish")
inputs = [name for name in dir(kez) if name.startswith("kez_") and name not in apart]
check("there are twenty-five entries", len(inputs), 25)
indices = {"kez_notepack_tag_len": (0,), "kez_notepack_element": (0, 0), "kez_pointer_tag_len": (0,),
           "kez_pointer_element": (0, 0)}


class Lying(bytes):
    """Bytes that say they are more."""

    def __len__(self):
        return 1 << 20


def ask(name, data):
    """The entry's answer; an iterator's is all that it has, and two inputs are the same one. A table is a new one, and
    so is a hash, of which the digest is told."""
    if name == "kez_table_offer":
        return offer(kez.Table(), data)
    if name == "kez_sha256_add":
        hash = kez.Sha256()
        hash.add(data)
        return hash.finish()
    words = (data,) if name == "kez_rivals" else indices.get(name, ())
    got = getattr(bare, name, getattr(kez, name))(data, *words)
    return list(got) if name == "kez_notepack_elements" else got


def mapped(data):
    """The same bytes as a map of memory that may be written."""
    memory = mmap.mmap(-1, len(data))
    memory.write(data)
    return memory


wide = bytes(b for byte in form for b in (byte, 0))
for name in inputs:
    texts = {"kez_nson_read": text, "kez_json_read": text, "kez_read_both": text, "kez_notepack_string_read": string,
             "kez_notepack_string_read_versioned": string1, "kez_bare_from_versioned": b"\1" + form,
             "kez_pointer_read": v0, "kez_pointer_tag_len": v0, "kez_pointer_element": v0, "kez_pointer_convert": v0}
    data = texts.get(name, form)
    wanted = ask(name, data)
    for same in (bytearray(data), memoryview(data), mapped(data), array.array("B", data), Lying(data),
                 (ctypes.c_char * len(data))(*data), memoryview(b"x" + data + b"x")[1:-1]):
        check("%s of a %s" % (name, type(same).__name__), ask(name, same), wanted)
    for wrong in (132, 0, -1, True, 1.5, None, "text", "", [0] * 132, (0,) * 132, iter(data), object(),
                  array.array("I", [0] * 33), memoryview(wide)[::2], memoryview(bytes(132)).cast("B", (12, 11)),
                  memoryview(bytes(132)).cast("?")):
        check("%s of %.20r" % (name, wrong), raised(ask, name, wrong), "TypeError")
check("kez_rivals of a number as second", raised(bare.kez_rivals, form, 132), "TypeError")

# Indices: 0 to 2^64 - 1, and nothing wraps
for number, wanted in ((0, 3), (1, 4), (2, (19, 0)), (1 << 32, (19, 0)), ((1 << 64) - 1, (19, 0))):
    check("tag %d" % number, refusal(bare.kez_notepack_tag_len, form, number), wanted)
    check("element of tag %d" % number, type(refusal(bare.kez_notepack_element, form, number, 0)),
          tuple if number > 1 else kez.Payload)
    check("element %d" % number, type(refusal(bare.kez_notepack_element, form, 1, number)),
          tuple if number > 3 else kez.Payload)
for wrong, wanted in ((-1, "OverflowError"), (-(1 << 64), "OverflowError"), (1 << 64, "OverflowError"),
                      ((1 << 64) + 1, "OverflowError"), (True, "TypeError"), (False, "TypeError"), (0.0, "TypeError"),
                      ("0", "TypeError"), (None, "TypeError"), (b"0", "TypeError")):
    check("tag %r" % (wrong,), raised(bare.kez_notepack_tag_len, form, wrong), wanted)
    check("element of tag %r" % (wrong,), raised(bare.kez_notepack_element, form, wrong, 0), wanted)
    check("element %r" % (wrong,), raised(bare.kez_notepack_element, form, 0, wrong), wanted)
    check("tag %r of a pointer form" % (wrong,), raised(kez.kez_pointer_tag_len, v0, wrong), wanted)
    check("text %r of a pointer form" % (wrong,), raised(kez.kez_pointer_element, v0, 0, wrong), wanted)
    check("text of tag %r of a pointer form" % (wrong,), raised(kez.kez_pointer_element, v0, wrong, 0), wanted)


# Refusals, out of a pickle and out of another process
def told(call, *words):
    """Everything of a refusal that a host may look at."""
    try:
        return call(*words)
    except kez.Refused as r:
        return type(r), r.number, r.place, str(r), r.args


here = told(bare.kez_notepack_read, form[:-1])
check("a refusal's text", here[3], "refused 2 at %d: %s" % (form.index(b"wss:") - 1, kez.kez_refusal_text(2)))
one = kez.Refused(2, 7)
for protocol in range(pickle.HIGHEST_PROTOCOL + 1):
    again = raised(pickle.loads, pickle.dumps(one, protocol))
    check("by pickle, protocol %d" % protocol, (type(again), vars(again) if again != "TypeError" else None, str(again)),
          (kez.Refused, {"number": 2, "place": 7}, str(one)))
check("copied", raised(lambda: str(copy.copy(one))), str(one))
with concurrent.futures.ProcessPoolExecutor(1, multiprocessing.get_context("fork")) as pool:
    check("out of a process pool", raised(told, pool.submit(bare.kez_notepack_read, form[:-1]).result), here)

# Output buffers are as long as what is written, and no longer
made = []
make = ctypes.create_string_buffer
ctypes.create_string_buffer = lambda *words: made.append(words[0]) or make(*words)
for name, data, rooms in (("kez_notepack_write", form, [len(form)]), ("kez_canonical_write", form, [len(canonical)]),
                          ("kez_nson_write", form, [len(text)]), ("kez_nson_read", text, [len(form)]),
                          ("kez_json_read", text, [len(form)]), ("kez_read_both", text, [len(form)] * 2),
                          ("kez_notepack_string_write", form, [len(string)]),
                          ("kez_notepack_string_read", string, [len(form)]), ("kez_notepack_string_read", form, []),
                          ("kez_versioned_from_bare", form, [len(form) + 1]),
                          ("kez_bare_from_versioned", b"\1" + form, [len(form)]),
                          ("kez_notepack_string_read_versioned", string1, [len(form) + 1]),
                          ("kez_pointer_write", form, [len(v0)]), ("kez_pointer_convert", v0, [len(form)]),
                          ("kez_pointer_convert", v1, []), ("kez_pointer_convert", shared, []),
                          ("kez_nson_write", bytes(132), []), ("kez_canonical_write", b"", [])):
    made.clear()
    raised(getattr(bare, name, getattr(kez, name)), data)
    check("room of %s" % name, made, rooms)
ctypes.create_string_buffer = make

# All elements, as kez_notepack_element has them
elements = [kez.Element(i, *bare.kez_notepack_element(form, i, j)) for i, tag in enumerate(event["tags"])
            for j in range(len(tag))]
check("elements", list(bare.kez_notepack_elements(form)), elements)
check("no elements", list(bare.kez_notepack_elements(bytes(132))), [])
check("a refusal by the call", refusal(bare.kez_notepack_elements, form[:-1]), (2, form.index(b"wss:") - 1))
for tags, texts in ((1, 255), (4, 255), (1000, 1), (253, 255)):
    # so many empty texts: blocks that end just with the record, and many of them
    record = bytes(131) + varint(tags) + tags * (varint(texts) + bytes(texts))
    before = len(varint(tags)) + 131
    wanted = [(i, before + i * (len(varint(texts)) + texts) + len(varint(texts)) + j + 1, 0, False)
              for i in range(tags) for j in range(texts)]
    check("elements of %d tags" % tags, list(bare.kez_notepack_elements(record)), wanted)
exact = bytes(131) + varint(16) + 16 * (varint(64) + bytes(64))
check("elements of a full block", len(list(bare.kez_notepack_elements(exact))), 1024)
changing = bytearray(exact)
iterator = bare.kez_notepack_elements(changing)
changing[:] = b""
check("elements of bytes that change meanwhile", len(list(iterator)), 1024)

# Descriptions: every public name has one with an example that holds, and hints
outcome = doctest.testmod(kez)
check("examples", (outcome.failed, outcome.attempted > 30), (0, True))
for name in kez.__all__:
    thing = getattr(kez, name)
    if inspect.isfunction(thing):
        check("%s has an example" % name, ">>> " in (inspect.getdoc(thing) or ""), True)
        wanted = list(inspect.signature(thing).parameters) + ["return"]
        check("%s has hints" % name, list(typing.get_type_hints(thing)), wanted)
    elif inspect.isclass(thing):
        check("%s has an example" % name, ">>> " in thing.__dict__["__doc__"], True)
        check("%s has hints" % name, bool(typing.get_type_hints(thing)) or issubclass(thing, enum.Enum), True)
    else:
        check("%s has a hint" % name, name in typing.get_type_hints(kez) or name == "Bytes", True)
public = [name for name, thing in vars(kez).items() if not name.startswith("_") and not inspect.ismodule(thing)
          and getattr(thing, "__module__", "kezubimoryu") == "kezubimoryu"]
check("all public names are told", sorted(set(public) - set(kez.__all__)), [])

# How the library is found, in processes of their own
library = os.path.abspath(os.environ["KEZUBIMORYU_LIBRARY"])
# only these names are found by the loader
ONLY = """
import ctypes, ctypes.util
real = ctypes.CDLL
def only(name, *words):
    if "/" not in name and name not in %r:
        raise OSError(name + ": not found by this test's loader")
    return real(%r if "/" not in name else name, *words)
ctypes.CDLL = only
ctypes.util.find_library = lambda name: None
"""
SAYS = "import kezubimoryu as k; print(k.kez_notepack_read(bytes(132), bare=True).tag_count)"


def imported(folder, names=(), **environment):
    """What a process says that imports the binding from this folder: its last line. With LD_LIBRARY_PATH the loader is
    left as it is."""
    clean = {k: v for k, v in os.environ.items() if k not in ("KEZ_LIBRARY", "KEZUBIMORYU_LIBRARY", "PYTHONPATH")}
    loader = "" if "LD_LIBRARY_PATH" in environment else ONLY % (tuple(names), library)
    clean.update(environment, PYTHONPATH=folder)
    said = subprocess.run([sys.executable, "-c", loader + SAYS], cwd=folder, env=clean, stdout=subprocess.PIPE,
                          stderr=subprocess.STDOUT)
    return said.stdout.decode().strip().split("\n")[-1]


with tempfile.TemporaryDirectory() as alone, tempfile.TemporaryDirectory() as beside:
    for folder in (alone, beside):
        shutil.copy(kez.__file__, folder)
    shutil.copy(library, os.path.join(beside, "libkezubimoryu.so"))
    check("by the variable", imported(alone, KEZUBIMORYU_LIBRARY=library), "0")
    check("by its older name", imported(alone, KEZ_LIBRARY=library), "0")
    said = imported(beside, KEZUBIMORYU_LIBRARY="/no/such.so")
    check("by a variable that is wrong", said.startswith("ImportError: KEZUBIMORYU_LIBRARY is '/no/such.so'"), True)
    check("by libkezubimoryu.so.1", imported(alone, ["libkezubimoryu.so.1"]), "0")
    check("not by libkezubimoryu.so.0", imported(alone, ["libkezubimoryu.so.0"]).startswith("ImportError: "), True)
    check("by libkezubimoryu.so", imported(alone, ["libkezubimoryu.so"]), "0")
    check("beside the file", imported(beside), "0")
    os.mkdir(os.path.join(alone, "lib"))
    shutil.copy(library, os.path.join(alone, "lib", "libkezubimoryu.so.1"))
    check("by LD_LIBRARY_PATH", imported(alone, LD_LIBRARY_PATH=os.path.join(alone, "lib")), "0")
    # a library of another version is not taken: its entries have other arguments
    for number, told in ((1000, "0.10.0"), (1100, "0.11.0"), (1300, "0.13.0"), (10000, "1.0.0"),
                         (None, "older than 0.5"), (1207, "")):
        other = os.path.join(alone, "other-%s.so" % number)
        source = "unsigned long kez_version(void) { return %s; }" % number if number else "int nothing;"
        subprocess.run(["gcc", "-shared", "-x", "c", "-o", other, "-"], input=source.encode(), check=True)
        said = imported(alone, KEZUBIMORYU_LIBRARY=other)
        wanted = "this library is %s, and kezubimoryu.py is for 0.12" % told if told else "NotImplementedError"
        check("version %s" % number, wanted in said, True)
    os.mkdir(os.path.join(alone, "old"))
    shutil.copy(os.path.join(alone, "other-1000.so"), os.path.join(alone, "old", "libkezubimoryu.so"))
    said = imported(alone, LD_LIBRARY_PATH=os.path.join(alone, "old"))
    check("an older one where the loader looks", "this library is 0.10.0" in said, True)
    said = imported(beside, LD_LIBRARY_PATH=os.path.join(alone, "old"))
    check("the right one beside the file then", said, "0")
    said = imported(alone)
    for word in ("ImportError: ", "KEZUBIMORYU_LIBRARY", "ldconfig", "LD_LIBRARY_PATH", os.path.realpath(alone)):
        check("nowhere: %s" % word, word in said, True)
print("%d passed, %d failed" % (passed, failed))
sys.exit(failed != 0)
