"""The text of a document with one more node."""
from __future__ import annotations

import re
from typing import TYPE_CHECKING, Optional, Sequence, Tuple

from ._data import Node, node_at
from ._library import KdlError

if TYPE_CHECKING:
    from ._document import Document

_NEWLINE = re.compile("\r\n|[\n\r\x0b\x0c\x85\u2028\u2029]")
# What may end a node and its line.
_LINE_END = re.compile("[ \t]*;?[ \t]*(//[^\n\r\x0b\x0c\x85\u2028\u2029]*)?(\r\n|[\n\r\x0b\x0c\x85\u2028\u2029])")


def with_added(document: Document, path: Tuple[int, ...], node: str, place: int) -> Optional[bytes]:
    """Returns the text of the document with the node at that place in the block of the node at the path,
    or in the document. Returns None where the text has to have another form, as after a `\\` at the end.
    """
    from ._document import Document

    before = bytes(document)
    text = _added(before, path, node, place)
    try:
        with Document(text) as longer, Document(before) as exact:
            exact.insert_node(path, node + "\n", place)
            longer.strip()
            exact.strip()
            return text if longer == exact else None
    except KdlError:
        return None


def _added(text: bytes, path: Tuple[int, ...], node: str, place: int) -> bytes:
    from ._document import Document

    with Document(text) as document:
        nodes = document.to_nodes()
    parent = node_at(nodes, path) if path else None
    children = nodes if parent is None else parent.children
    if children is None:
        assert parent is not None
        return _in_new_block(text, parent, node)
    if place > 0:
        return _after(text, children[:place], place == len(children), parent, node)
    if children:
        return _before(text, path, children[0], parent, node)
    if parent is None:
        before = text if not text or text.endswith(b"\n") else text + b"\n"
        return before + node.encode() + b"\n"
    return _in_empty_block(text, path, node)


def _indent_at(text: bytes, at: int) -> Tuple[str, bool]:
    """Returns the spaces that begin the line of that byte, and whether nothing else is before it."""
    line = _NEWLINE.split(text[:at].decode())[-1].lstrip("\ufeff")
    spaces = line[: len(line) - len(line.lstrip(" \t"))]
    return spaces, spaces == line


def _deeper(spaces: str) -> str:
    return spaces + ("\t" if spaces.startswith("\t") else "    ")


def _on_lines(node: str, spaces: str) -> bytes:
    return (spaces + node.replace("\n", "\n" + spaces)).encode()


def _is_for_lines(node: str) -> bool:
    """Returns whether the node has to have lines of its own."""
    return "\n" in node or "//" in node


def _in_new_block(text: bytes, parent: Node, node: str) -> bytes:
    start, end = parent.span
    spaces, _ = _indent_at(text, start)
    before = text[:end].rstrip(b" \t")
    lines = _on_lines(node, _deeper(spaces))
    return b"".join([before, b" {\n", lines, b"\n", spaces.encode(), b"}", text[len(before) :]])


def _spaces(text: bytes, first: Node, parent: Optional[Node]) -> Tuple[str, bool]:
    """Returns the indentation of a block, and whether its first node begins a line."""
    spaces, is_first = _indent_at(text, first.span[0])
    if is_first:
        return spaces, True
    return "" if parent is None else _deeper(_indent_at(text, parent.span[0])[0]), False


def _after(text: bytes, children: Sequence[Node], is_last: bool, parent: Optional[Node], node: str) -> bytes:
    """Returns the text with the node after these children, which are all or the first ones of a block."""
    spaces, is_first = _spaces(text, children[0], parent)
    end = children[-1].span[1]
    rest = text[end:].decode()
    line_end = _LINE_END.match(rest)
    if line_end:
        at = end + len(line_end[0].encode())
        return text[:at] + _on_lines(node, spaces) + b"\n" + text[at:]
    is_ended = rest.startswith(";")
    at = end + is_ended
    if parent is None:
        if is_ended and not _is_for_lines(node):
            return text[:at] + b" " + node.encode() + (b";" if rest[1:].strip() else b"") + text[at:]
        return text[:at].rstrip(b" \t") + b"\n" + _on_lines(node, spaces) + text[at:]
    if is_first and is_last or _is_for_lines(node):
        next_spaces = _indent_at(text, parent.span[0])[0] if is_last else spaces
        lines = b"\n" + _on_lines(node, spaces) + b"\n" + next_spaces.encode()
        return text[:at].rstrip(b" \t") + lines + text[at:].lstrip(b" \t")
    if is_ended:
        return text[:at] + b" " + node.encode() + b";" + text[at:]
    before = text[:end].rstrip(b" \t")
    return before + b"; " + node.encode() + text[len(before) :]


def _before(text: bytes, path: Tuple[int, ...], first: Node, parent: Optional[Node], node: str) -> bytes:
    """Returns the text with the node before the first one of a block, or of the document."""
    if parent is None:
        at = 3 if text.startswith("\ufeff".encode()) else 0
        return text[:at] + node.encode() + b"\n" + text[at:]
    at = _insert_at(text, path)
    spaces, is_first = _spaces(text, first, parent)
    line_end = _NEWLINE.search(text[at : first.span[0]].decode())
    if is_first and line_end:
        at += len(line_end.string[: line_end.end()].encode())
        return text[:at] + _on_lines(node, spaces) + b"\n" + text[at:]
    if not _is_for_lines(node):
        return text[:at] + b" " + node.encode() + b";" + text[at:]
    lines = b"\n" + _on_lines(node, spaces) + b"\n" + spaces.encode()
    return text[:at] + lines + text[at:].lstrip(b" \t")


def _insert_at(text: bytes, path: Tuple[int, ...]) -> int:
    """Returns where the library inserts at the start of a block: after the `{`, or before the `}` of a
    block without nodes."""
    from ._document import Document

    found = []
    for mark in ("_", "x"):  # one of which is not what follows there
        with Document(text) as document:
            document.insert_node(path, mark, 0)
            longer = bytes(document)
        found.append(next(at for at in range(len(longer)) if longer[at : at + 1] != text[at : at + 1]))
    return min(found)


def _in_empty_block(text: bytes, path: Tuple[int, ...], node: str) -> bytes:
    """Returns the text with the node in a block without nodes."""
    end = _insert_at(text, path)
    spaces, is_first = _indent_at(text, end)
    if is_first:
        at = end - len(spaces.encode())
        return text[:at] + _on_lines(node, _deeper(spaces)) + b"\n" + text[at:]
    before = text[:end].rstrip(b" \t")
    if _is_for_lines(node):
        return before + b"\n" + _on_lines(node, _deeper(spaces)) + b"\n" + spaces.encode() + text[end:]
    return before + b" " + node.encode() + b" " + text[end:]
