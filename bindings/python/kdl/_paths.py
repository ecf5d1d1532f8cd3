"""PATHs: texts that name a node, an argument or a property, as the program `kdl` reads them."""
from __future__ import annotations

import re
from typing import Any, List, NamedTuple, Optional, Sequence, Tuple, Union

from ._library import AS_VALUE, encoded, faults_of

from ._data import Node, Nodes, loads


class Step(NamedTuple):
    """One node on the way: its name, and its index among the nodes of that name."""

    name: str
    index: Optional[int]


class Wanted(NamedTuple):
    """The steps of a PATH, and what it names of the last node: the node for None, an argument for an
    index, a property for a key."""

    steps: List[Step]
    of: Union[None, int, str]


# A string in quotes: one line or several, with the `#` of a raw one.
_QUOTED = re.compile(
    r'(?s)(?P<raw>\#+)(?:"""(?:.*?)"""|"(?!"")(?:.*?)")(?P=raw)|"""(?:[^\\]|\\.)*?"""|"(?!"")(?:[^"\\]|\\.)*"|""(?!")'
)
_BARE = re.compile(r"[^/\[\]#]*")
_PLAIN = re.compile("[A-Za-z_][A-Za-z0-9_]*")
_KEYWORDS = {"true", "false", "null", "inf", "nan"}


class _Reader:
    """Reads a text from its start."""

    def __init__(self, text: str) -> None:
        self.text, self.at = text, 0

    def fault(self, message: str) -> ValueError:
        at = len(self.text[: self.at].encode())
        return ValueError(f"at byte {at} of the path: {message}")

    def take(self, mark: str) -> bool:
        if not self.text.startswith(mark, self.at):
            return False
        self.at += len(mark)
        return True

    def name(self) -> str:
        """Reads a bare string up to `/`, `[`, `]` or `#`, or a string in quotes."""
        is_quoted = re.compile('#*"').match(self.text, self.at)
        found = (_QUOTED if is_quoted else _BARE).match(self.text, self.at)
        if not found:
            raise self.fault("the string does not end")
        word = found[0]
        if not word or word.startswith("@"):
            raise self.fault("expected a name")
        name = word if _PLAIN.fullmatch(word) and word not in _KEYWORDS else _string_of(word)
        if name is None:
            raise self.fault("not a name; write it in quotes")
        self.at = found.end()
        return name

    def number(self, message: str) -> int:
        digits = re.compile("[0-9]*").match(self.text, self.at)
        assert digits
        if not digits[0] or int(digits[0]) >= 2**64:
            raise self.fault(message)
        self.at = digits.end()
        return int(digits[0])

    def step(self) -> Step:
        name = self.name()
        if not self.take("["):
            return Step(name, None)
        message = "expected a whole number and `]`"
        index = self.number(message)
        if not self.take("]"):
            raise self.fault(message)
        return Step(name, index)


def _string_of(word: str) -> Optional[str]:
    """Returns the string that a text of KDL is, or None if it is none."""
    if faults_of(encoded(word), AS_VALUE):
        return None
    value = loads(f"- {word}")[0][0]
    return value if isinstance(value, str) else None


def read_path(text: str) -> Wanted:
    """Reads a PATH. Raises `ValueError` if the text is none."""
    if text == "/":
        return Wanted([], None)
    reader, steps = _Reader(text), []
    of: Union[None, int, str] = None
    while True:
        steps.append(reader.step())
        if not reader.take("/"):
            of = reader.number("expected a whole number") if reader.take("#") else None
            break
        if reader.take("@"):
            of = reader.name()
            break
    if reader.at < len(text):
        raise reader.fault("expected the end of the path")
    return Wanted(steps, of)


def places_of(nodes: Sequence[Node], steps: List[Step]) -> Optional[Tuple[int, ...]]:
    """Returns the indices of the node that the steps lead to, or None if there is none."""
    places: Tuple[int, ...] = ()
    for step in steps:
        of_name = (at for at, it in enumerate(nodes) if it.name == step.name)
        at = next((at for count, at in enumerate(of_name) if count == (step.index or 0)), None)
        if at is None:
            return None
        places += (at,)
        nodes = nodes[at].children or []
    return places


def part_of(node: Node, of: Union[None, int, str], default: Any) -> Any:
    """Returns what a PATH names of a node."""
    return node if of is None else node.get(of, default)


def found_in(nodes: Nodes, path: str, default: Any) -> Any:
    """Returns what a PATH names, or the default if it is not there."""
    wanted = read_path(path)
    if not wanted.steps:
        return nodes
    places = places_of(nodes, wanted.steps)
    if places is None:
        return default
    found: Any = nodes
    for at in places:
        found = (found if found is nodes else found.children)[at]
    return part_of(found, wanted.of, default)
