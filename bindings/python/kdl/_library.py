"""The shared library: its calls, and what they raise."""
from __future__ import annotations

import ctypes
import os
import pathlib
import struct
from typing import Any, Callable, Dict, List, NamedTuple, Optional, Tuple, Union

VERSION = 2
OK, FAULTS, NOT_UTF8, OUT_OF_MEMORY, TOO_SMALL, NO_DOCUMENT, NOT_FOUND = range(7)
AS_DOCUMENT, AS_NODE, AS_ENTRY, AS_VALUE, AS_QUERY = range(5)
NODE, ARGUMENT, PROPERTY, END = range(1, 5)
STRING, INTEGER, LARGE, FLOAT, BOOL, NULL = range(1, 7)
NO_INDEX = ctypes.c_size_t(-1).value

u32, size, any_bytes = ctypes.c_uint32, ctypes.c_size_t, ctypes.c_void_p
row = struct.Struct("4Iq8N")
_report, _fault = struct.Struct("8N"), struct.Struct("4N")


class Handle(ctypes.Structure):
    """The struct of C that holds a document."""

    _fields_ = [("live", ctypes.c_bool), ("at", ctypes.c_void_p)]


class Layout(ctypes.Structure):
    """How `kdl_layout` lays a document out."""

    _fields_ = [("blank_lines", size), ("no_comments", u32), ("keep_spelling", u32), ("keep_one_line", u32)]


def _file() -> str:
    """Returns the shared library: one that is named, in this folder, built here, or installed."""
    here = pathlib.Path(__file__).resolve().parent
    built = (here / "libkdl.so", here.parent.parent / "c" / "out" / "libkdl.so")
    found = (str(it) for it in built if it.exists())
    return os.environ.get("KDL_LIBRARY") or next(found, "libkdl.so.1")


def _loaded(how: Callable[[str], Any]) -> Any:
    handle, out = ctypes.POINTER(Handle), ctypes.POINTER(size)
    text, path, strings = [ctypes.c_char_p, size], [out, size], [any_bytes, size, out]
    try:
        library = how(_file())
        for name, arguments in {
            "kdl_version": [],
            "kdl_parse": [*text, handle],
            "kdl_free": [handle],
            "kdl_print": [handle, *strings],
            "kdl_format": [handle],
            "kdl_strip": [handle],
            "kdl_layout": [handle, ctypes.POINTER(Layout), *text],
            "kdl_format_text": [*text, *strings],
            "kdl_reports": [*text, any_bytes, size, out, *strings],
            "kdl_faults_of": [u32, *text, any_bytes, size, out, *strings],
            "kdl_position": [any_bytes, size, size, out, out],
            "kdl_tree": [handle, any_bytes, size, out, *strings],
            "kdl_query": [handle, *text, out, size, out, out],
            "kdl_node_count": [handle, *path, out],
            "kdl_node": [handle, *path, out, any_bytes, *strings],
            "kdl_node_tree": [handle, *path, any_bytes, size, out, *strings],
            "kdl_entry": [handle, *path, size, any_bytes, *strings],
            "kdl_find": [handle, *path, *text, out],
            "kdl_find_entry": [handle, *path, *text, out],
            "kdl_set_value": [handle, *path, size, *text],
            "kdl_set_key": [handle, *path, size, u32, *text],
            "kdl_set_type": [handle, *path, size, u32, *text],
            "kdl_set_name": [handle, *path, *text],
            "kdl_insert_entry": [handle, *path, size, *text],
            "kdl_remove_entry": [handle, *path, size],
            "kdl_insert_node": [handle, *path, size, *text],
            "kdl_remove_node": [handle, *path, size],
        }.items():
            call = getattr(library, name)
            call.argtypes, call.restype = arguments, None if name == "kdl_free" else u32
    except (OSError, AttributeError) as error:
        why = f"{error}: build it by bindings/c/build, or name a libkdl.so in KDL_LIBRARY"
        raise ImportError(why) from error
    if library.kdl_version() < VERSION:
        raise ImportError(f"{_file()} is older than this module")
    return library


# A call on a document keeps the interpreter's lock, so that no two threads use one document at once.
# A call on only a text releases the lock.
lib, texts = _loaded(ctypes.PyDLL), _loaded(ctypes.CDLL)


class Fault(NamedTuple):
    """A fault of a text: bytes `start` to `end` of it in UTF-8, the line and column of its start in
    characters from 1, a message, and, if there is more to say, a label for the place and a help.
    """

    start: int
    end: int
    line: int
    column: int
    message: str
    label: Optional[str] = None
    help: Optional[str] = None


class KdlError(ValueError):
    """A text that is not KDL, or no query. `faults` lists its faults, in the order in which they are
    found: an unclosed block comes after the faults inside it. Sort by `start` for the order of the
    text. The text of the error is `line:column: message` of the first three, joined by `; `.
    """

    def __init__(self, faults: List[Fault]) -> None:
        told = [f"{it.line}:{it.column}: {it.message}" for it in faults[:3]]
        more = [f"and {len(faults) - 3} more"] if len(faults) > 3 else []
        super().__init__("; ".join(told + more))
        self.faults = faults

    def __reduce__(self) -> Any:
        return KdlError, (self.faults,)


def encoded(text: Union[str, bytes]) -> bytes:
    """Returns the bytes of a text."""
    if isinstance(text, str):
        return text.encode()
    if isinstance(text, (bytes, bytearray, memoryview)):
        return bytes(text)
    raise TypeError(f"a text is a str or bytes, not {type(text).__name__}")


def check(status: int, text: bytes = b"", kind: int = AS_DOCUMENT) -> None:
    """Raises the exception of a status. The text is the one that was read."""
    if status == OK:
        return
    if status == FAULTS:
        raise KdlError(faults_of(text, kind))
    if status == NOT_UTF8:
        text.decode()
    if status == OUT_OF_MEMORY:
        raise MemoryError
    if status == NO_DOCUMENT:
        raise ValueError("the document is closed")
    if status == NOT_FOUND:
        raise IndexError("no node at this path, or no entry at this index")
    raise RuntimeError(f"the library returned {status}")


def written(call: Callable[..., int], room: int) -> Tuple[int, bytes]:
    """Makes a call, again if the room was too small. Returns its status and the text it writes."""
    needed = size()
    while True:
        out = ctypes.create_string_buffer(max(room, 1))
        status = call(out, room, needed)
        if status != TOO_SMALL:
            return status, ctypes.string_at(out, needed.value)
        room = needed.value


def steps(path: Tuple[int, ...]) -> Tuple[Any, int]:
    """Returns a path as the two arguments of a call."""
    return (size * max(len(path), 1))(*path), len(path)


def faults(text: Union[str, bytes]) -> List[Fault]:
    """Returns the faults of a text. There are none if it is KDL.

    They are in the order in which they are found: an unclosed block comes after the faults inside
    it. Sort by `start` for the order of the text. Raises `UnicodeDecodeError` for bytes that are
    not UTF-8, and `UnicodeEncodeError` for a str with surrogates; both are `ValueError`.

    >>> faults("a 1")
    []
    >>> faults("{}")[0].message
    'Found child block instead of node name'
    """
    return faults_of(encoded(text), AS_DOCUMENT)


def faults_of(text: bytes, kind: int) -> List[Fault]:
    """Returns the faults of a text of that kind. Only those of a document have labels and helps."""
    packed = _report if kind == AS_DOCUMENT else _fault
    room, length, count, used = 16, 2048, size(), size()
    while True:
        rows = ctypes.create_string_buffer(room * packed.size)
        strings = ctypes.create_string_buffer(length)
        begun = (kind, text) if packed is _fault else (text,)
        call = texts.kdl_faults_of if packed is _fault else texts.kdl_reports
        status = call(*begun, len(text), rows, room, count, strings, length, used)
        if status not in (OK, FAULTS):
            check(status, text)
        if count.value <= room and used.value <= length:
            break
        room, length = max(count.value, 1), max(used.value, 1)
    told = strings.raw
    part = lambda start, n: told[start : start + n].decode() if n else None
    found = list(packed.iter_unpack(memoryview(rows)[: count.value * packed.size]))
    places = _positions(text, [it[0] for it in found])
    return [
        Fault(it[0], it[0] + it[1], *places[it[0]],
              part(*it[2:4]) or "", *(part(*it[at : at + 2]) for at in range(4, len(it), 2)))
        for it in found
    ]


def _positions(text: bytes, offsets: List[int]) -> Dict[int, Tuple[int, int]]:
    """Returns the line and column of each offset, each counted from the one before."""
    found: Dict[int, Tuple[int, int]] = {}
    at, line, column, down, across = 0, 1, 1, size(), size()
    base = ctypes.cast(text, any_bytes).value or 0
    for offset in sorted(set(offsets)):
        # A CR LF is one newline, and no part ends inside of it.
        within = text[offset - 1 : offset + 1] == b"\r\n"
        check(texts.kdl_position(base + at, offset - at + within, offset - at, down, across), text)
        here = line + down.value - 1, across.value + (column - 1 if down.value == 1 else 0)
        found[offset] = here
        if not within:
            at, (line, column) = offset, here
    return found


def format_text(text: Union[str, bytes]) -> str:
    r"""Returns a text laid out, with its comments. Raises `KdlError` if it has faults,
    `UnicodeDecodeError` for bytes that are not UTF-8, and `UnicodeEncodeError` for a str with
    surrogates; all are `ValueError`. A text without nodes gets one newline after its comments.

    >>> format_text("a   1 // one"), format_text("// one\n"), format_text("")
    ('a 1 // one\n', '// one\n\n', '\n')
    """
    text = encoded(text)
    status, out = written(lambda *it: texts.kdl_format_text(text, len(text), *it), len(text) * 2)
    check(status, text)
    return out.decode()
