"""Nodes and values as texts."""
from __future__ import annotations

import re
from typing import Any, Callable, Dict, Iterable, Iterator, List

from ._data import Entry, Float, Node, Value
from ._library import format_text

# The whole numbers that a document may have.
_LEAST, _MOST = -(2**127), 2**127 - 1


def spelled(value: Value) -> str:
    """Returns a value in KDL."""
    if isinstance(value, str):
        return quoted(value)
    if value is None:
        return "#null"
    if isinstance(value, bool):
        return "#true" if value else "#false"
    if isinstance(value, int):
        if not _LEAST <= value <= _MOST:
            raise OverflowError(f"a whole number of KDL is of 128 bits, not {value}")
        return str(int(value))
    if isinstance(value, Float):
        return value.text
    if isinstance(value, float):
        text = float.__repr__(value)
        return {"inf": "#inf", "-inf": "#-inf", "nan": "#nan"}.get(text) or text
    raise TypeError(f"no value of KDL: {type(value).__name__}")


# What is escaped: quotes, controls, marks of direction, the byte order mark, newlines of Unicode.
_ESCAPED = re.compile(r'["\\\x00-\x1f\x7f\x85\u200e\u200f\u2028\u2029\u202a-\u202e\u2066-\u2069\ufeff]')
_MARKS = {'"': '\\"', "\\": "\\\\", "\n": "\\n", "\r": "\\r", "\t": "\\t", "\b": "\\b", "\f": "\\f"}


def quoted(text: str) -> str:
    """Returns a string in quotes."""
    if not isinstance(text, str):
        raise TypeError(f"a name, key or type is a str, not {type(text).__name__}")
    if _ESCAPED.search(text):
        text = _ESCAPED.sub(lambda it: _MARKS.get(it[0]) or f"\\u{{{ord(it[0]):x}}}", text)
    return f'"{text}"'


def spelled_entry(entry: Entry, name: Callable[[str], str] = quoted) -> str:
    """Returns an entry in KDL. `name` gives the key in quotes."""
    text = spelled(entry.value)
    if entry.type is not None:
        text = f"({quoted(entry.type)}){text}"
    return text if entry.name is None else f"{name(entry.name)}={text}"


class _Names(Dict[str, str]):
    """Names, each in quotes."""

    def __missing__(self, name: str) -> str:
        self[name] = text = quoted(name)
        return text


def text_of(nodes: Iterable[Node]) -> str:
    """Returns a text of the nodes, which is not laid out."""
    out: List[str] = []
    name = _Names().__getitem__  # names are often the same
    work: List[Iterator[Node]] = [iter(nodes)]
    while work:
        for node in work[-1]:
            node = node._whole()
            if node.type is not None:
                out.append(f"({quoted(node.type)})")
            out.append(name(node.name))
            for entry in node.entries:
                out.append(" ")
                out.append(spelled_entry(entry, name))
            if node.children is None:
                out.append("\n")
            else:
                out.append(" {\n")
                work.append(iter(node.children))
                break
        else:
            work.pop()
            out.append("}\n" if work else "")
    return "".join(out)


def dumps(data: Any) -> str:
    r"""Returns the text of nodes or of plain data, laid out, or the text of a `Document` as it is.
    Without nodes it is one newline.

    Plain data are a dict from str to None, bool, int, float, str, and lists and dicts of these. Each
    item of the dict becomes a node of that name:

    - a scalar is its argument, `{"port": 8080}` is `port 8080`;
    - a dict is its block: `{"tls": {"key": "x"}}` is `tls { key x; }`;
    - a list of two or more scalars is its arguments: `{"tags": ["a", "b"]}` is `tags a b`;
    - any other list is a block of nodes `-`, one for each item: `{"a": [[], 1]}` is `a { -; - 1; }`.
      The empty list is a node without arguments and block, and `{}` is a node with an empty block.

    So the text reads back to equal data by `loads(text).to_data()`. A key `-` would be read as an
    item of a list, and is refused. Raises `TypeError` for what is neither nodes nor plain data,
    `ValueError` for the key `-`, and `OverflowError` beyond 128 bits.

    >>> dumps([Node("a", ["b", "c d"], {"k": None}), Node("b", children=[])])
    'a b "c d" k=#null\nb {\n\n}\n'
    >>> dumps({"port": 8080, "tags": ["a", "b"], "only": ["a"], "tls": {"key": None}})
    'port 8080\ntags a b\nonly {\n    - a\n}\ntls {\n    key #null\n}\n'
    >>> dumps({"when": {1, 2}})
    Traceback (most recent call last):
    TypeError: at when: set is not None, bool, int, float, str, list or dict
    """
    from ._document import Document
    from ._plain import nodes_of

    if isinstance(data, Document):
        return str(data)
    if isinstance(data, dict):
        data = nodes_of(data)
    if isinstance(data, (str, bytes, Node)) or not hasattr(data, "__iter__"):
        raise TypeError(f"taken are a Document, an iterable of nodes and a dict, not {type(data).__name__}")
    return format_text(text_of(data))
