"""A proved JSON Patch (RFC 6902): bytes in, bytes out.

How it differs from the package ``jsonpatch``:

* Numbers are exact. ``jsonpatch`` works on what ``json.loads`` makes of a text:
  1.10 is written back as 1.1, and a test takes 9007199254740993.0 for
  9007199254740992.0, and 1 for true. Here digits stay as they are written, and a
  test compares exact values.
* There are limits: texts of 32,768 bytes, 32 nested containers, 2,048 values,
  256 operations, numbers of 128 bytes. What is over one of them is refused, and
  so are a repeated member name, NaN and all else that RFC 8259 does not have.
* A refusal is an exception with the number of the refusal, the operation, the
  place, and how far a pointer got that leads nowhere: `Refusal`.
* It applies patches, makes the one that takes a patch back, and tells which
  operation put each value there. ``jsonpatch`` also makes them from two documents.

The work is done by a shared library in which every function is proved to meet
its contract; this module calls it by ctypes and is not part of the proof. It
needs Python 3.7 or later and no other package.

>>> document = b'{"mAh": 3000, "cut": [4.2, 3.0]}'
>>> patch = b'[{"op": "add", "path": "/cut/-", "value": 2.80}]'
>>> apply(document, patch)
b'{"mAh":3000,"cut":[4.2,3.0,2.80]}'

>>> try:
...     apply(document, b'[{"op": "test", "path": "/mAh", "value": 3001}]')
... except Refusal as refusal:
...     print(refusal)
...     print(refusal.number.name, int(refusal.number), refusal.op)
patch: operation 1, test "/mAh": the test found a difference
TEST_DIFFERS 15 1

>>> try:
...     apply(document, b'[{"op": "remove", "path": "/cut/2/max"}]')
... except Refusal as refusal:
...     print(refusal)
...     print(refusal.pointer.name, refusal.place)
patch: operation 1, remove "/cut/2/max": the location does not exist: path: "/cut" has no "2"
PATH 1

`apply_with_undo` also returns the patch that takes the result back:

>>> patched, undo = apply_with_undo(document, b'[{"op": "remove", "path": "/cut/0"}]')
>>> undo
b'[{"op":"add","path":"/cut/0","value":4.2}]'
>>> apply(patched, undo)
b'{"mAh":3000,"cut":[4.2,3.0]}'

`merge` applies a merge patch (RFC 7396, application/merge-patch+json) instead:

>>> merge(document, b'{"mAh": null, "maker": "acme"}')
b'{"cut":[4.2,3.0],"maker":"acme"}'

`apply_with_origins` also tells which operation put each value there:

>>> patch = b'[{"op": "test", "path": "/mAh", "value": 3e3}, {"op": "add", "path": "/b", "value": []}]'
>>> for origin in apply_with_origins(document, patch).origins:
...     print(origin.op, repr(origin.pointer))
0 ''
0 '/mAh'
0 '/cut'
0 '/cut/0'
0 '/cut/1'
2 '/b'

The library is looked for at $JSON_PATCH_LIBRARY, beside this package as
``make`` and ``make install`` lay it down, and where the system's loader looks.
"""

from __future__ import annotations

import ctypes
import enum
import json
import os
import threading
from pathlib import Path
from typing import Any, Iterator, List, NamedTuple, Tuple, Union

__all__ = [
    "Compared", "Counts", "Kind", "Listed", "Origin", "Patched", "PatchedListed", "Pointer",
    "Refusal", "UndoRefusal", "apply", "apply_with_origins", "apply_with_undo",
    "apply_with_undo_and_origins", "compare", "inspect", "merge", "merge_with_origins",
    "MAX_BYTES", "MAX_NODES", "OUTPUT", "__version__",
]
__version__ = "0.2.0"

Bytes = Union[bytes, bytearray, memoryview]

MAX_BYTES = 32_768
"""The longest document, and the longest patch, in bytes."""

MAX_NODES = 2_048
"""The most values that a document, or a result, may have."""

OUTPUT = 65_536
"""The room for a result, in bytes, where none is given."""

_SONAME = "libjson_patch.so.0"

# All that this module knows of the work area.
_NODES = 6_144
_ENTRIES = 8_192
_UNDO_BYTES = 32_768


class _Node(ctypes.Structure):
    """A record of the work area, as in json_patch.h."""

    _fields_ = [
        (name, ctypes.c_uint16)
        for name in ("name_start", "name_length", "start", "length", "span", "hash", "tags", "origin")
    ]


class _Work(ctypes.Structure):
    """The work area: it is all zero between calls."""

    _fields_ = [("nodes", _Node * _NODES), ("index", ctypes.c_uint16 * _ENTRIES)]

    types = [
        ctypes.POINTER(_Node), ctypes.c_size_t,
        ctypes.POINTER(ctypes.c_uint16), ctypes.c_size_t,
    ]

    def lent(self) -> Tuple[Any, ...]:
        """What is passed to the library, in the order of `types`."""
        return (self.nodes, _NODES, self.index, _ENTRIES)


class _UndoWork(ctypes.Structure):
    """The work area of a call with an undo: it is all zero between calls."""

    _fields_ = [("work", _Work), ("text", ctypes.c_uint8 * _UNDO_BYTES)]

    types = [*_Work.types, ctypes.POINTER(ctypes.c_uint8), ctypes.c_size_t]

    def lent(self) -> Tuple[Any, ...]:
        """What is passed to the library, in the order of `types`."""
        return (*self.work.lent(), self.text, _UNDO_BYTES)


class _Answer(ctypes.Structure):
    """The answer, as in json_patch.h."""

    _fields_ = [
        (name, ctypes.c_uint64) for name in ("number", "text", "op", "place", "pointer", "length")
    ]


class _UndoAnswer(ctypes.Structure):
    """The answer of a call with an undo, as in json_patch.h."""

    _fields_ = [("answer", _Answer), ("undo", ctypes.c_uint64)]


class _Inspection(ctypes.Structure):
    """What a patch comes to, as in json_patch_inspect.h."""

    _fields_ = [
        (name, ctypes.c_uint64)
        for name in (
            "number", "text", "op", "place",
            "adds", "removes", "replaces", "moves", "copies", "tests",
        )
    ]


class _Comparison(ctypes.Structure):
    """What two texts come to, as in json_patch_compare.h."""

    _fields_ = [
        (name, ctypes.c_uint64) for name in ("number", "text", "place", "equal", "names")
    ]


class Compared(NamedTuple):
    """What two values come to."""

    equal: bool
    """Whether they are equal."""
    names: int
    """How many names were compared to tell it."""


class Counts(NamedTuple):
    """How many there are of each operation."""

    adds: int
    removes: int
    replaces: int
    moves: int
    copies: int
    tests: int


class Kind(enum.IntEnum):
    """The numbers of the refusals, under their names in json_patch.h."""

    WORK_TOO_SHORT = 1
    INPUT_TOO_LONG = 2
    NOT_JSON = 3
    REPEATED_NAME = 4
    TOO_DEEP = 5
    TOO_MANY_NODES = 6
    NUMBER_OVER_LIMIT = 7
    WRONG_SHAPE = 8
    TOO_MANY_OPERATIONS = 9
    MALFORMED_POINTER = 10
    LOCATION_MISSING = 11
    NO_INDEX = 12
    REMOVE_OF_ROOT = 13
    MOVE_INTO_CHILD = 14
    TEST_DIFFERS = 15
    OUTPUT_TOO_SHORT = 16
    NOT_PERMITTED = 17

    @property
    def meaning(self) -> str:
        """When it is given, in a few words."""
        return _MEANINGS[self]


_MEANINGS = {
    Kind.WORK_TOO_SHORT: "the work area is shorter than stated",
    Kind.INPUT_TOO_LONG: "the text is longer than 32,768 bytes",
    Kind.NOT_JSON: "not JSON text",
    Kind.REPEATED_NAME: "a member name is repeated in one object",
    Kind.TOO_DEEP: "more than 32 nested containers",
    Kind.TOO_MANY_NODES: "more than 2,048 values",
    Kind.NUMBER_OVER_LIMIT: "a number is over its limit",
    Kind.WRONG_SHAPE: "the patch is malformed",
    Kind.TOO_MANY_OPERATIONS: "more than 256 operations",
    Kind.MALFORMED_POINTER: "a pointer is malformed",
    Kind.LOCATION_MISSING: "the location does not exist",
    Kind.NO_INDEX: "a token is not an array index",
    Kind.REMOVE_OF_ROOT: "the root cannot be removed",
    Kind.MOVE_INTO_CHILD: "a value cannot be moved into its own child",
    Kind.TEST_DIFFERS: "the test found a difference",
    Kind.OUTPUT_TOO_SHORT: "the result is longer than the lent output",
    Kind.NOT_PERMITTED: "not permitted in the region",
}


class Pointer(enum.IntEnum):
    """The pointer that a refusal speaks of, under its name in json_patch.h."""

    NONE = 0
    PATH = 1
    FROM = 2


class Refusal(ValueError):
    """Why a patch was not applied, and where.

    It prints in words. `line` is what the patch tool prints.
    """

    number: Kind
    """The number of the refusal."""
    text: int
    """1 for the document, 2 for the patch, else 0."""
    op: int
    """The operation, counted from 1, else 0."""
    place: int
    """The offset of a byte in that text; with 11 and 12 the count of tokens that
    were walked before the one that failed; else 0."""
    pointer: Pointer
    """With 11 and 12 the pointer that leads nowhere, else NONE."""
    message: str
    """The refusal in words."""

    def __init__(
        self, number: int, text: int, op: int, place: int, pointer: int, message: str
    ) -> None:
        super().__init__(number, text, op, place, pointer, message)
        self.number = Kind(number)
        self.text = text
        self.op = op
        self.place = place
        self.pointer = Pointer(pointer)
        self.message = message

    def __str__(self) -> str:
        return self.message

    @property
    def line(self) -> str:
        """The line that the patch tool prints."""
        where = f"text {self.text} op {self.op} place {self.place} pointer {int(self.pointer)}"
        return f"refused {int(self.number)} {where}"


class UndoRefusal(Refusal):
    """The patch applies, but its undo could not be read back as a patch.

    The number is 9, 5, 6 or 2, with text 2 and all else 0.
    """


class Patched(NamedTuple):
    """What a call with an undo returns."""

    document: bytes
    """The patched document, compact."""
    undo: bytes
    """The patch that takes it back, compact."""


class Origin(NamedTuple):
    """Where a value comes from."""

    op: int
    """The operation that put it there, counted from 1; 0 for the document."""
    pointer: str
    """Where it stands in the result: a JSON Pointer, empty for the root."""


class Listed(NamedTuple):
    """What a call that lists origins returns."""

    document: bytes
    """The patched document, compact."""
    origins: Tuple[Origin, ...]
    """The origin of each of its values, in the order in which they are written."""


class PatchedListed(NamedTuple):
    """What a call with an undo that lists origins returns."""

    document: bytes
    """The patched document, compact."""
    undo: bytes
    """The patch that takes it back, compact."""
    origins: Tuple[Origin, ...]
    """The origin of each value of the document, in the order in which they are written."""


def apply(
    document: Bytes, patch: Bytes, *, region: Union[str, Bytes, None] = None, room: int = OUTPUT
) -> bytes:
    """Applies the patch to the document and returns the result, compact.

    Raises `Refusal` where the patch cannot be applied. `room` is the length that
    a result may have; one that is longer is refused with 16.

    Where a region is given, which is a JSON Pointer, the patch must be one that a
    pack maker may send: only test, replace and add, a test first, and every path
    inside the region. Else it is refused with 17.

    >>> patch = b'[{"op": "test", "path": "/a/b", "value": 1}]'
    >>> apply(b'{"a": {"b": 1}}', patch, region="/a")
    b'{"a":{"b":1}}'
    >>> apply(b'{"a": {"b": 1}}', patch, region="/a/b")
    Traceback (most recent call last):
    ...
    json_patch.Refusal: patch: operation 1, test "/a/b": not permitted in the region

    >>> apply(b'[1, 2, 3]', b'[{"op": "move", "from": "/0", "path": "/2"}]')
    b'[2,3,1]'
    >>> apply(b'[1,]', b'[]')
    Traceback (most recent call last):
    ...
    json_patch.Refusal: document:1:4: not JSON text
    """
    texts = _octets(document, "document"), _octets(patch, "patch")
    if room < 0:
        raise ValueError("room is less than 0")
    answer = _Answer()
    output = ctypes.create_string_buffer(max(room, 1))
    lent = [texts[0], len(texts[0]), texts[1], len(texts[1])]
    if region is None:
        _apply(*lent, output, room, *_work().lent(), answer)
    else:
        within = region.encode() if isinstance(region, str) else _octets(region, "region")
        _apply_within(*lent, within, len(within), output, room, *_work().lent(), answer)
    if answer.number == 0:
        return ctypes.string_at(output, answer.length)
    fields = (answer.number, answer.text, answer.op, answer.place, answer.pointer)
    raise Refusal(*fields, _words(*fields, *texts))


def apply_with_undo(
    document: Bytes, patch: Bytes, *, room: int = OUTPUT, undo_room: int = MAX_BYTES
) -> Patched:
    """Applies the patch to the document; returns the result and its undo.

    The undo is a patch. If the result is at most 32,768 bytes long, the undo
    applies to it and gives a document equal to the one before; the two differ in
    the order of members alone.

    Raises `Refusal` where the patch cannot be applied, and `UndoRefusal` where its
    undo would be no patch within the limits. `room` and `undo_room` are the
    lengths that the two texts may have; a longer one is refused with 16.

    >>> apply_with_undo(b'{"a": 1}', b'[{"op": "add", "path": "/b", "value": [2]}]')
    Patched(document=b'{"a":1,"b":[2]}', undo=b'[{"op":"remove","path":"/b"}]')
    >>> apply_with_undo(31 * b'[' + 31 * b']', b'[{"op": "add", "path": "", "value": 0}]')
    Traceback (most recent call last):
    ...
    json_patch.UndoRefusal: undo: more than 32 nested containers
    """
    texts = _octets(document, "document"), _octets(patch, "patch")
    if room < 0 or undo_room < 0:
        raise ValueError("room is less than 0")
    laid_down = _UndoAnswer()
    answer = laid_down.answer
    output, undo = (ctypes.create_string_buffer(max(length, 1)) for length in (room, undo_room))
    _apply_with_undo(
        texts[0], len(texts[0]), texts[1], len(texts[1]), output, room, undo, undo_room,
        *_undo_work().lent(), laid_down,
    )
    if answer.number == 0:
        lengths = answer.length, laid_down.undo
        return Patched(*map(ctypes.string_at, (output, undo), lengths))
    fields = (answer.number, answer.text, answer.op, answer.place, answer.pointer)
    if _of_undo(*fields[:2], answer.place, texts[1]):
        raise UndoRefusal(*fields, f"undo: {Kind(answer.number).meaning}")
    raise Refusal(*fields, _words(*fields, *texts))


def merge(document: Bytes, patch: Bytes, *, room: int = OUTPUT) -> bytes:
    """Applies a merge patch (RFC 7396) to the document; returns the result.

    A patch that is an object is merged member by member, and a null member removes;
    any other patch replaces the whole. Members keep their position, new ones go
    last. Raises `Refusal` otherwise; a result of more than 2,048 values is refused
    with 6. `room` is the length that the result may have.

    >>> merge(b'{"a": {"b": 1, "c": 2}}', b'{"a": {"b": null, "d": [null]}}')
    b'{"a":{"c":2,"d":[null]}}'
    """
    texts = _octets(document, "document"), _octets(patch, "patch")
    if room < 0:
        raise ValueError("room is less than 0")
    answer, output = _Answer(), ctypes.create_string_buffer(max(room, 1))
    _merge(texts[0], len(texts[0]), texts[1], len(texts[1]), output, room, *_work().lent(), answer)
    if answer.number == 0:
        return ctypes.string_at(output, answer.length)
    fields = (answer.number, answer.text, answer.op, answer.place, answer.pointer)
    raise Refusal(*fields, _words(*fields, *texts))


def apply_with_origins(
    document: Bytes, patch: Bytes, *, region: Union[str, Bytes, None] = None, room: int = OUTPUT
) -> Listed:
    """Applies the patch as `apply` does; returns the result and its values' origins.

    An origin is the number of the operation that put the value there by add, replace or
    copy, and 0 for a value from the document. A moved value keeps its own, and a
    container keeps its origin when a child changes.

    >>> apply_with_origins(b'{"a": 1}', b'[{"op": "copy", "from": "/a", "path": "/b"}]').origins[2]
    Origin(op=1, pointer='/b')
    """
    texts = _octets(document, "document"), _octets(patch, "patch")
    if room < 0:
        raise ValueError("room is less than 0")
    answer, output, entries = _Answer(), ctypes.create_string_buffer(max(room, 1)), _List()
    lent = [texts[0], len(texts[0]), texts[1], len(texts[1])]
    lists = [output, room, entries, MAX_NODES, *_work().lent()]
    if region is None:
        _apply_origins(*lent, *lists, answer)
    else:
        within = region.encode() if isinstance(region, str) else _octets(region, "region")
        _apply_within_origins(*lent, within, len(within), *lists, answer)
    return _listed(answer, output, entries, texts)


def merge_with_origins(document: Bytes, patch: Bytes, *, room: int = OUTPUT) -> Listed:
    """Applies a merge patch as `merge` does; returns the result and its values' origins.

    A merge patch counts as operation 1, also for the objects that it makes; an object of
    the document that is merged into keeps its 0.

    >>> [origin.op for origin in merge_with_origins(b'{"a": {}}', b'{"a": {"b": {}}}').origins]
    [0, 0, 1]
    """
    texts = _octets(document, "document"), _octets(patch, "patch")
    if room < 0:
        raise ValueError("room is less than 0")
    answer, output, entries = _Answer(), ctypes.create_string_buffer(max(room, 1)), _List()
    _merge_origins(
        texts[0], len(texts[0]), texts[1], len(texts[1]), output, room, entries, MAX_NODES,
        *_work().lent(), answer,
    )
    return _listed(answer, output, entries, texts)


def apply_with_undo_and_origins(
    document: Bytes, patch: Bytes, *, room: int = OUTPUT, undo_room: int = MAX_BYTES
) -> PatchedListed:
    """Applies the patch as `apply_with_undo` does; returns the result, its undo and its
    values' origins.

    >>> apply_with_undo_and_origins(b'[1]', b'[{"op": "add", "path": "/0", "value": 0}]').origins
    (Origin(op=0, pointer=''), Origin(op=1, pointer='/0'), Origin(op=0, pointer='/1'))
    """
    texts = _octets(document, "document"), _octets(patch, "patch")
    if room < 0 or undo_room < 0:
        raise ValueError("room is less than 0")
    laid_down, entries = _UndoAnswer(), _List()
    answer = laid_down.answer
    output, undo = (ctypes.create_string_buffer(max(length, 1)) for length in (room, undo_room))
    _apply_with_undo_origins(
        texts[0], len(texts[0]), texts[1], len(texts[1]), output, room, undo, undo_room,
        entries, MAX_NODES, *_undo_work().lent(), laid_down,
    )
    if _of_undo(answer.number, answer.text, answer.place, texts[1]):
        fields = (answer.number, answer.text, answer.op, answer.place, answer.pointer)
        raise UndoRefusal(*fields, f"undo: {Kind(answer.number).meaning}")
    patched, origins = _listed(answer, output, entries, texts)
    return PatchedListed(patched, ctypes.string_at(undo, laid_down.undo), origins)


def _listed(answer: _Answer, output: Any, entries: Any, texts: Tuple[bytes, bytes]) -> Listed:
    """What an answer and a list come to, or the refusal."""
    if answer.number == 0:
        document = ctypes.string_at(output, answer.length)
        return Listed(document, tuple(map(Origin, entries, _pointers(json.loads(document)))))
    fields = (answer.number, answer.text, answer.op, answer.place, answer.pointer)
    raise Refusal(*fields, _words(*fields, *texts))


def _pointers(value: Any, pointer: str = "") -> Iterator[str]:
    """The pointers of a value and of all in it, a container's before those of its children."""
    yield pointer
    children: Any = ()
    if isinstance(value, dict):
        children = value.items()
    elif isinstance(value, list):
        children = enumerate(value)
    for token, child in children:
        escaped = str(token).replace("~", "~0").replace("/", "~1")
        yield from _pointers(child, f"{pointer}/{escaped}")


def _of_undo(number: int, text: int, place: int, patch: bytes) -> bool:
    """Whether a refusal is the undo's: a patch that was read is refused with a
    place, and one that was not was too long."""
    if number == Kind.INPUT_TOO_LONG and len(patch) > MAX_BYTES:
        return False
    limits = (Kind.TOO_MANY_OPERATIONS, Kind.TOO_DEEP, Kind.TOO_MANY_NODES, Kind.INPUT_TOO_LONG)
    return number in limits and text == 2 and place == 0


def inspect(patch: Bytes) -> Counts:
    """Reads a patch and judges its shape, without a document, and counts its
    operations.

    Raises `Refusal` where `apply` would refuse the patch with any document.

    >>> inspect(b'[{"op": "remove", "path": "/a"}, {"op": "remove", "path": "/b"}]')
    Counts(adds=0, removes=2, replaces=0, moves=0, copies=0, tests=0)
    >>> inspect(b'[{"op": "remove"}]')
    Traceback (most recent call last):
    ...
    json_patch.Refusal: patch: operation 1, remove: the patch is malformed
    """
    text = _octets(patch, "patch")
    found = _Inspection()
    _inspect(text, len(text), *_work().lent(), found)
    if found.number == 0:
        return Counts(*(getattr(found, name) for name in Counts._fields))
    fields = (found.number, found.text, found.op, found.place, 0)
    raise Refusal(*fields, _words(*fields, b"", text))


def compare(first: Bytes, second: Bytes) -> Compared:
    """Compares the values of two texts, as a test in a patch does: numbers by exact
    value, strings by their unescaped text, members in any order.

    The count is that of SPECIFICATION 17: the first one's members in order, each against
    the second one's names from the first until one matches; all stops at the first
    difference. For values of a and b nodes it is at most a times b.

    Raises `Refusal` where a text is none; its `text` is 1 or 2.

    >>> compare(b'{"mAh": 3000, "cut": [4.2]}', b'{"cut": [4.20], "mAh": 3e3}')
    Compared(equal=True, names=3)
    >>> compare(b'{"mAh": 3000}', b'{"mAh": 3001}').equal
    False
    >>> compare(b'1', b'[1,]')
    Traceback (most recent call last):
    ...
    json_patch.Refusal: second:1:4: not JSON text
    """
    texts = _octets(first, "first text"), _octets(second, "second text")
    found = _Comparison()
    _compare(texts[0], len(texts[0]), texts[1], len(texts[1]), *_work().lent(), found)
    if found.number == 0:
        return Compared(found.equal == 1, found.names)
    fields = (found.number, found.text, 0, found.place, 0)
    raise Refusal(*fields, _words(*fields, *texts, names=("first", "second")))


def _octets(text: Bytes, name: str) -> bytes:
    """A text as bytes."""
    if isinstance(text, str):
        raise TypeError(f"the {name} is a str: encode it as UTF-8 first")
    if not isinstance(text, (bytes, bytearray, memoryview)):
        raise TypeError(f"the {name} is not bytes but {type(text).__name__}")
    return bytes(text)


def _words(
    number: int, text: int, op: int, place: int, pointer: int, document: bytes, patch: bytes,
    names: Tuple[str, str] = ("document", "patch"),
) -> str:
    """A refusal in words, with the operation or the place in the two texts."""
    kind = Kind(number)
    name, octets = (names[0], document) if text == 1 else (names[1], patch)
    if text and Kind.NOT_JSON <= kind <= Kind.NUMBER_OVER_LIMIT:
        line = octets.count(b"\n", 0, place) + 1
        start = octets.rfind(b"\n", 0, place) + 1
        column = sum(byte & 0xC0 != 0x80 for byte in octets[start:place]) + 1
        return f"{name}:{line}:{column}: {kind.meaning}"
    if op:
        way = _way(patch, op, place, Pointer(pointer), kind)
        return f"patch: operation {op}{_operation(patch, op)}: {kind.meaning}{way}"
    if text == 0 and kind in (Kind.INPUT_TOO_LONG, Kind.MALFORMED_POINTER):
        name = "region"
    return f"{name}: {kind.meaning}"


def _operation(patch: bytes, op: int) -> str:
    """An operation's name and pointers, as far as it has them."""
    operation = json.loads(patch)[op - 1]
    if not isinstance(operation, dict) or not isinstance(operation.get("op"), str):
        return ""
    words: List[str] = [f", {_shown(operation['op'])[1:-1]}"]
    path, origin = operation.get("path"), operation.get("from")
    if operation["op"] in ("move", "copy") and isinstance(origin, str):
        words += [f"from {_shown(origin)}", "to"]
    if isinstance(path, str):
        words.append(_shown(path))
    return " ".join(words)


def _way(patch: bytes, op: int, place: int, pointer: Pointer, kind: Kind) -> str:
    """How far a pointer got that leads nowhere: what was walked, and the token that
    failed."""
    if pointer == Pointer.NONE:
        return ""
    operation, name = json.loads(patch)[op - 1], pointer.name.lower()
    _, *tokens = operation[name].split("/")
    walked = "".join("/" + token for token in tokens[:place])
    there, token = _shown(walked) if walked else "the root", _shown(tokens[place])
    removed = ", once from is removed" if name == "path" and operation["op"] == "move" else ""
    fault = f"is an array, and {token} is no index" if kind == Kind.NO_INDEX else f"has no {token}"
    return f": {name}{removed}: {there} {fault}"


def _shown(text: str) -> str:
    """A string as JSON has it, cut where it is long."""
    if len(text) > 60:
        text = text[:59] + "…"
    return json.dumps(text, ensure_ascii=not text.isprintable())


_List = ctypes.c_uint16 * MAX_NODES
"""A list of origins: long enough for any result."""

_LIST = [ctypes.POINTER(ctypes.c_uint16), ctypes.c_size_t]

_local = threading.local()


def _work() -> _Work:
    """The work area of this thread."""
    try:
        return _local.work
    except AttributeError:
        _local.work = _Work()
        return _local.work


def _undo_work() -> _UndoWork:
    """The work area of this thread for calls with an undo."""
    try:
        return _local.undo_work
    except AttributeError:
        _local.undo_work = _UndoWork()
        return _local.undo_work


def _library() -> ctypes.CDLL:
    """The shared library."""
    named = os.environ.get("JSON_PATCH_LIBRARY")
    if named:
        return ctypes.CDLL(named)
    _, modules, above, prefix, *_ = [*Path(__file__).resolve().parents, *[Path("/")] * 4]
    # PREFIX/lib/python3.11/site-packages/json_patch, or python/json_patch of a clone.
    installed = modules.name.endswith("-packages") and above.name.startswith("python")
    cloned = modules.name == "python" and (above / "include" / "json_patch.h").is_file()
    beside = prefix / _SONAME if installed else above / "target" / "make" / _SONAME
    if (installed or cloned) and beside.is_file():
        return ctypes.CDLL(str(beside))
    try:
        return ctypes.CDLL(_SONAME)
    except OSError as error:
        raise ImportError(f"no {_SONAME}: run 'make install', or set JSON_PATCH_LIBRARY") from error


def _call(name: str, buffers: int, work: List[Any], answer: Any) -> Any:
    """A call of the library, by the number of its buffers beside the work area."""
    call = getattr(_shared, name)
    call.restype = ctypes.c_uint32
    call.argtypes = [
        *[ctypes.c_char_p, ctypes.c_size_t] * buffers,
        *work,
        ctypes.POINTER(answer),
    ]
    return call


_shared = _library()
_apply = _call("json_patch_apply", 3, _Work.types, _Answer)
_apply_within = _call("json_patch_apply_within", 4, _Work.types, _Answer)
_apply_with_undo = _call("json_patch_apply_with_undo", 4, _UndoWork.types, _UndoAnswer)
_merge = _call("json_patch_merge", 3, _Work.types, _Answer)
_apply_origins = _call("json_patch_apply_origins", 3, [*_LIST, *_Work.types], _Answer)
_apply_within_origins = _call(
    "json_patch_apply_within_origins", 4, [*_LIST, *_Work.types], _Answer
)
_merge_origins = _call("json_patch_merge_origins", 3, [*_LIST, *_Work.types], _Answer)
_apply_with_undo_origins = _call(
    "json_patch_apply_with_undo_origins", 4, [*_LIST, *_UndoWork.types], _UndoAnswer
)
_inspect = _call("json_patch_inspect", 1, _Work.types, _Inspection)
_compare = _call("json_patch_compare", 2, _Work.types, _Comparison)
