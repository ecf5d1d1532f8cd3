"""The nodes and entries of a document, whose changes change its text."""
from __future__ import annotations

import operator
from typing import (
    TYPE_CHECKING, Any, Iterable, Iterator, List, MutableSequence, Optional, SupportsIndex, Tuple, Union,
)

from ._data import Entry, Node, Nodes, Path, Value, _entry, node_at
from ._writing import spelled

if TYPE_CHECKING:
    from ._document import Document

Indices = Tuple[int, ...]


class Place:
    """The place of a node or an entry of a document, which follows what is inserted and removed."""

    __slots__ = ("above", "index", "nodes", "entries")

    def __init__(self, above: Optional[Place], index: int) -> None:
        self.above = above
        #: The index when it was last known, or -1 after the removal.
        self.index = index
        #: The places of the nodes in the block, and of the entries: None before the first one is used.
        self.nodes: Optional[List[Optional[Place]]] = None
        self.entries: Optional[List[Optional[Place]]] = None

    def below(self, places: List[Optional[Place]], index: int) -> Place:
        """Returns the place at the index, which is made if it is not there."""
        found = places[index]
        if found is None:
            found = places[index] = Place(self, index)
        return found

    def among(self, places: Optional[List[Optional[Place]]]) -> int:
        """Returns the index. Raises `ReferenceError` if the node or entry was removed."""
        if self.index < 0 or places is None:
            raise ReferenceError("it was removed from the document")
        if self.index >= len(places) or places[self.index] is not self:
            self.index = places.index(self)
        return self.index

    def path(self) -> Indices:
        """Returns the path of a node."""
        found, here = [], self
        while here.above is not None:
            found.append(here.among(here.above.nodes))
            here = here.above
        return tuple(reversed(found))

    def shift(self, path: Indices, index: int, by: int, is_entry: bool) -> None:
        """Follows a node, or an entry of a node, that was inserted (1) or removed (-1) at the index. The
        path is that of the node above it, and this is the place of the document."""
        here: Optional[Place] = self
        for step in path:
            here = here.nodes[step] if here is not None and here.nodes is not None else None
        places = None if here is None else here.entries if is_entry else here.nodes
        if places is not None and by > 0:
            places.insert(index, None)
        elif places is not None:
            gone = places.pop(index)
            if gone is not None:
                gone.index = -1


class DocumentEntry(Entry):
    """An entry of a node of a `Document`. To set its `value`, `name` or `type` changes the text."""

    __slots__ = ("_node", "_place")

    def __init__(self, node: DocumentNode, place: Place) -> None:
        self._node, self._place = node, place

    def _where(self) -> Tuple[Document, Indices, int]:
        """Returns the document, the path of the node, and the index of the entry."""
        path = self._node._where()
        return self._node.document, path, self._place.among(self._node._place.entries)

    def _read(self) -> Entry:
        with self._node.document._lock:
            document, path, index = self._where()
            return document._node_read(path).entries[index]

    @property
    def value(self) -> Value:
        """The value. A new one is written in the library's spelling: see `Document.set_value`."""
        return self._read().value

    @value.setter
    def value(self, value: Value) -> None:
        text = spelled(value)
        with self._node.document._lock:
            document, path, index = self._where()
            document.set_spelling(path, index, text)

    @property
    def name(self) -> Optional[str]:
        """The key of a property, or None of an argument."""
        return self._read().name

    @name.setter
    def name(self, name: Optional[str]) -> None:
        with self._node.document._lock:
            document, path, index = self._where()
            document.set_key(path, index, name)

    @property
    def type(self) -> Optional[str]:
        """The type, or None."""
        return self._read().type

    @type.setter
    def type(self, type: Optional[str]) -> None:
        with self._node.document._lock:
            document, path, index = self._where()
            document.set_type(path, type, index)

    @property
    def span(self) -> Tuple[int, int]:
        """Its (start, end) in the text that it was read from, in bytes. It cannot be set."""
        return self._read().span

    @span.setter
    def span(self, _: Tuple[int, int]) -> None:
        raise AttributeError("the place in the text cannot be set")


class DocumentEntries(MutableSequence[Entry]):
    """The entries of a node of a `Document`: a list, which changes the text."""

    __slots__ = ("_node",)

    def __init__(self, node: DocumentNode) -> None:
        self._node = node

    def __len__(self) -> int:
        return len(self._node._read().entries)

    def __getitem__(self, index: Any) -> Any:
        with self._node.document._lock:
            node, above = self._node, self._node._place
            count = len(node._read().entries)
            if above.entries is None:
                above.entries = [None] * count
            places, indices = above.entries, range(count)[index]
            made = lambda it: DocumentEntry(node, above.below(places, it))
            return [made(it) for it in indices] if isinstance(indices, range) else made(indices)

    def __setitem__(self, index: Any, value: Any) -> None:
        it = self[operator.index(index)]
        it.value, it.name, it.type = value.value, value.name, value.type

    def __delitem__(self, index: Union[SupportsIndex, slice]) -> None:
        for it in self[index] if isinstance(index, slice) else [self[index]]:
            with self._node.document._lock:
                document, path, at = it._where()
                document.remove_entry(path, at)

    def insert(self, index: SupportsIndex, value: Entry) -> None:
        """Inserts an entry before the one at the index: see `Document.insert_entry`."""
        with self._node.document._lock:
            count, at = len(self), operator.index(index)
            place = min(at, count) if at >= 0 else max(at + count, 0)
            self._node.document.insert_entry(self._node, value, place)

    def pop(self, index: SupportsIndex = -1) -> Entry:
        """Removes the entry at the index, and returns it as data."""
        entry = self._node._read().entries[index]
        del self[operator.index(index)]
        return _entry(entry.value, entry.name, entry.type, entry.span)

    def reverse(self) -> None:
        """Reverses the order of the values, keys and types."""
        for at, entry in enumerate(reversed(self._node._read().entries)):
            self[at] = entry

    def __iter__(self) -> Iterator[Entry]:
        return iter(self[:])

    def __eq__(self, other: object) -> bool:
        if isinstance(other, (list, DocumentEntries)):
            return list(self._node._read().entries) == list(other)
        return NotImplemented

    __hash__ = None  # type: ignore[assignment]

    def __repr__(self) -> str:
        return repr(list(self._node._read().entries))


class DocumentNode(Node):
    r"""A node of a `Document`. What is set, added or removed here changes the text of the document,
    and no other byte of it.

    It reads as a `Node`. `name` and `type` can be set; `args`, `props`, `entries` and `children` can
    be changed as lists and dicts; `node[0] = ..` sets an argument, `node["k"] = ..` a property, and
    `del` removes them. It stays the same node if others are inserted or removed. Once it was removed
    itself, each use raises `ReferenceError`.

    >>> document = Document("// ports\nserver web port=0x50 { tls #false // for now\n}\n")
    >>> server = document["server"]
    >>> server["port"] = 8080
    >>> server.args.append("api")
    >>> server.child("tls")[0] = True
    >>> server.children[0].name = "https"
    >>> print(document, end="")
    // ports
    server web port=8080 api { https #true // for now
    }
    >>> server.remove()
    >>> server.name
    Traceback (most recent call last):
    ReferenceError: it was removed from the document
    """

    __slots__ = ("_document", "_place")

    def __init__(self, document: Document, place: Place) -> None:
        self._document, self._place = document, place

    @property
    def document(self) -> Document:
        """The document."""
        return self._document

    @property
    def path(self) -> Indices:
        """The indices of the node, from the document down."""
        with self.document._lock:
            return self._where()

    def _where(self, document: Optional[Document] = None) -> Indices:
        if document is not None and document is not self.document:
            raise ValueError("the node is one of another document")
        return self._place.path()

    def _read(self) -> Node:
        with self.document._lock:
            return self.document._node_read(self._where())

    def _whole(self) -> Node:
        with self.document._lock:
            return self.document._node_whole(self._where())

    def __reduce__(self) -> Any:
        return self.copy().__reduce__()

    def __deepcopy__(self, _: Any) -> Node:
        return self.copy()

    @property
    def name(self) -> str:
        """The name."""
        return self._read().name

    @name.setter
    def name(self, name: str) -> None:
        self.document.set_name(self, name)

    @property
    def type(self) -> Optional[str]:
        """The type, or None."""
        return self._read().type

    @type.setter
    def type(self, type: Optional[str]) -> None:
        self.document.set_type(self, type)

    @property
    def span(self) -> Tuple[int, int]:
        """Its (start, end) in the text that it was read from, in bytes. It cannot be set."""
        return self._read().span

    @span.setter
    def span(self, _: Tuple[int, int]) -> None:
        raise AttributeError("the place in the text cannot be set")

    @property
    def entries(self) -> MutableSequence[Entry]:
        """The arguments and properties, in their order: a list, which changes the text."""
        return DocumentEntries(self)

    @entries.setter
    def entries(self, entries: Iterable[Entry]) -> None:
        here, new = self.entries, list(entries)
        del here[len(new) :]
        for at, entry in enumerate(new):
            if at >= len(here):
                here.append(entry)
            elif here[at] != entry:
                here[at] = entry

    @property
    def children(self) -> Optional[MutableSequence[Node]]:
        """The nodes of the block, a list which changes the text; or None if there is no block."""
        return None if self._read().children is None else DocumentNodes(self.document, self)

    @children.setter
    def children(self, nodes: Optional[Iterable[Union[Node, str]]]) -> None:
        if nodes is None:
            if self.children is not None:
                raise ValueError("a block stays: its nodes can be removed")
            return
        new = [*nodes]
        old = [*(self.children or [])]
        for node in new or ["_"]:
            self.add(node)
        if not new and self.children:
            del self.children[-1]
        for it in old:
            self.document.remove_node(it)

    def add(self, node: Union[Node, str], index: Optional[int] = None) -> DocumentNode:
        """Adds a node to the block, as the last one or before the one at the index: see
        `Document.add_node`."""
        return self.document.add_node(self, node, index)

    def remove(self) -> None:
        """Removes the node: see `Document.remove_node`."""
        self.document.remove_node(self)

    def node(self, path: Path) -> DocumentNode:
        """Returns the node at the path below this one."""
        below = [path] if isinstance(path, (str, int)) else path
        with self.document._lock:
            return self.document.node([*self._where(), *below])

    def __str__(self) -> str:
        """Returns the text of the node in the document, from its type or name to its end."""
        with self.document._lock:
            text, nodes = self.document._exact()
            start, end = node_at(nodes, self._where()).span
        return text[start:end].decode().rstrip(" \t")

    def __repr__(self) -> str:
        """Returns the start of the text of the node."""
        return f"DocumentNode({cut(str(self))!r})"


class DocumentNodes(MutableSequence[Node]):
    """The nodes of a `Document`, or of a block of it: a list, which changes the text."""

    __slots__ = ("_document", "_parent")

    def __init__(self, document: Document, parent: Optional[DocumentNode]) -> None:
        self._document, self._parent = document, parent

    def _where(self) -> Indices:
        return () if self._parent is None else self._parent._where()

    def __len__(self) -> int:
        with self._document._lock:
            return self._document._node_count(self._where())

    def __getitem__(self, index: Any) -> Any:
        """Returns the node at the index or path, or a list of nodes for a slice."""
        if isinstance(index, (str, list, tuple)):
            return self.node(index)
        with self._document._lock:
            path, document = self._where(), self._document
            above = document._root if self._parent is None else self._parent._place
            if above.nodes is None:
                above.nodes = [None] * document._node_count(path)
            places, indices = above.nodes, range(document._node_count(path))[index]
            made = lambda it: DocumentNode(document, above.below(places, it))
            return [made(it) for it in indices] if isinstance(indices, range) else made(indices)

    def node(self, path: Path) -> DocumentNode:
        """Returns the node at the path, of which the first step is one of these nodes."""
        steps = [path] if isinstance(path, (str, int)) else path
        with self._document._lock:
            if not steps:
                raise IndexError("the empty path is no node")
            return self._document.node([*self._where(), *steps])

    def get(self, path: Path, default: Any = None) -> Any:
        """Returns the node at the path, or the default if there is none."""
        try:
            return self.node(path)
        except LookupError:
            return default

    def __contains__(self, value: object) -> bool:
        """Returns whether a node is equal to that one, or there is one of that name or at that path."""
        if isinstance(value, (str, list, tuple)):
            return self.get(value) is not None
        return any(it == value for it in self)

    def __setitem__(self, index: Any, value: Any) -> None:
        with self._document._lock:
            old = self[operator.index(index)]
            self.insert(old.path[-1], value)
            old.remove()

    def __delitem__(self, index: Union[SupportsIndex, slice]) -> None:
        for it in self[index] if isinstance(index, slice) else [self[index]]:
            it.remove()

    def insert(self, index: SupportsIndex, value: Union[Node, str]) -> None:
        """Inserts a node before the one at the index: see `Document.add_node`."""
        with self._document._lock:
            count = len(self)
            place = max(min(operator.index(index), count), -count)
            self._document.add_node(self._where(), value, place)

    def pop(self, index: SupportsIndex = -1) -> Node:
        """Removes the node at the index, and returns it as data."""
        node: DocumentNode = self[operator.index(index)]
        data = node.copy()
        node.remove()
        return data

    def reverse(self) -> None:
        """Reverses the order of the nodes, which are laid out."""
        for at, node in enumerate([it.copy() for it in reversed(self)]):
            self[at] = node

    def __iter__(self) -> Iterator[DocumentNode]:
        # All now, so that a node may be removed in the meantime.
        return iter(self[:])

    def __eq__(self, other: object) -> bool:
        return list(self) == list(other) if isinstance(other, (list, Nodes, DocumentNodes)) else NotImplemented

    __hash__ = None  # type: ignore[assignment]

    def __repr__(self) -> str:
        return repr(list(self))

    def __reduce__(self) -> Any:
        return Nodes, ([it.copy() for it in self],)


#: A path, or a node of the document.
NodePath = Union[Path, DocumentNode]


def cut(text: str) -> str:
    """Returns the first line of a text, with a mark if more follows."""
    line, rest = (text.split("\n", 1) + [""])[:2]
    return line[:40] + "..." if len(line) > 40 or rest else line
