"""Documents that keep their form, and their nodes, which change it."""
from __future__ import annotations

import ctypes
import operator
import threading
from typing import Any, Dict, Iterator, List, Optional, Tuple, Type, TypeVar, Union

from ._adding import with_added
from ._data import Entry, Node, Nodes, Rows, Value, node_at
from ._files import Source, read
from ._library import (
    AS_DOCUMENT, AS_ENTRY, AS_NODE, AS_QUERY, AS_VALUE, FAULTS, NO_INDEX, NOT_FOUND, OK, TOO_SMALL,
    Handle, KdlError, Layout, check, encoded, faults_of, lib, row, size, steps, texts, written,
)
from ._paths import Step, part_of, places_of, read_path
from ._views import DocumentNode, DocumentNodes, Indices, NodePath, Place, cut
from ._writing import dumps, spelled, spelled_entry

D = TypeVar("D", bound="Document")
# To read all nodes takes as long as to read single ones of so many bytes each.
_BYTES_FOR_ONE = 128
# So does to read so many rows of a node with its block.
_ROWS_FOR_ONE = 8


class Document:
    r"""A document that keeps every byte of its form.

    `Document(text)` is the document of a text, as `Document.parse(text)` is, and without a text an
    empty one. It is closed at the end of a `with` block, by `close`, or when it is no longer used.

    A path says where a node is. It is a name, an index, a list of these, from the document down, or a
    node of the document. A name is the first node of that name, an index counts all nodes from 0, and
    a negative one from the end. A str is one name: "a/b" is no path, but a PATH for `find`.

    The nodes that `nodes`, `node`, `get`, `find`, `query` and `document[..]` return are those of the
    document: a change of one changes the text, and nothing else in it. They stay the same nodes if
    others are added or removed. A node that was removed raises `ReferenceError` when it is used.

    A call with a path raises `KeyError` if there is no node of a name in it, and `IndexError` if
    there is none at an index: `node`, `document[..]`, and each `set_..`, `insert_..`, `add_..` and
    `remove_..`. A call with an entry raises `KeyError` if the node has no property of that key
    (`set_prop` adds one instead), and `IndexError` if it has no entry at that index. `insert_node`
    and `insert_entry` raise `IndexError` for an index beyond the number of nodes or entries. The
    empty path is the document, but only for `insert_node` and `add_node`: for any other call it is no
    node, and has no entries.

    `insert_node`, `add_node`, `insert_entry` and `set_spelling` raise `KdlError` if their text is not
    exactly one node, entry or value. The positions of its faults are in that text, not in the
    document. After an exception the document is unchanged, except by `format` and `strip`: if memory
    runs out, a part of the document may be laid out.

    >>> with Document.parse("a  0x10 // ten\n") as document:
    ...     document["a"].args, str(document)
    ([16], 'a  0x10 // ten\n')
    >>> document = Document("server {\n    port 8080 // the usual one\n}\n")
    >>> document["server"].child("port")[0] = 9090
    >>> print(document, end="")
    server {
        port 9090 // the usual one
    }
    >>> try:
    ...     Document.parse("a 1").insert_entry("a", "k=2 3")
    ... except KdlError as error:
    ...     print(error)
    1:5: Expected end of document
    """

    _handle: Handle
    _len: int
    #: The rows, the nodes made of them, and the text with its nodes, as long as no edit follows.
    _rows: Optional[Rows]
    _nodes: Optional[Nodes]
    _printed: Optional[Tuple[bytes, Nodes]]
    #: How many nodes were read since the last edit.
    _reads: int
    #: The places of the nodes that were looked up.
    _root: Place

    def __init__(self, text: Union[str, bytes] = b"") -> None:
        self._handle, self._lock, self._root = Handle(), threading.RLock(), Place(None, 0)
        text = encoded(text)
        # No other thread knows this handle yet.
        check(texts.kdl_parse(text, len(text), self._handle), text)
        self._len = len(text)
        self._changed()

    @classmethod
    def parse(cls: Type[D], text: Union[str, bytes]) -> D:
        """Parses a text. Raises `KdlError` if it has faults, `UnicodeDecodeError` for bytes that are
        not UTF-8, and `UnicodeEncodeError` for a str with surrogates; all are `ValueError`.
        """
        return cls(text)

    @classmethod
    def load(cls: Type[D], file: Source) -> D:
        """Parses a file: see `kdl.load`. `kdl.dump(document, file)` writes it."""
        return cls(read(file))

    def close(self) -> None:
        """Frees the memory of the document. Any other call then raises `ValueError`."""
        lib.kdl_free(self._handle)
        self._changed()

    def __del__(self, _free: Any = lib.kdl_free) -> None:
        _free(self._handle)

    def __enter__(self: D) -> D:
        return self

    def __exit__(self, *_: object) -> None:
        self.close()

    def __reduce__(self) -> Any:
        return type(self), (bytes(self),)

    def __bytes__(self) -> bytes:
        status, text = written(lambda *it: lib.kdl_print(self._handle, *it), self._len)
        check(status)
        self._len = len(text)
        return text

    def __str__(self) -> str:
        return bytes(self).decode()

    def __repr__(self) -> str:
        """Returns the start of the text, and the number of nodes."""
        if not self._handle.live:
            return "Document(closed)"
        count = len(self)
        return f"Document({cut(str(self))!r}, {count} node{'' if count == 1 else 's'})"

    def __eq__(self, other: object) -> bool:
        """Returns whether both print the same text, and so have the same data and form."""
        return bytes(self) == bytes(other) if isinstance(other, Document) else NotImplemented

    __hash__ = None  # type: ignore[assignment]

    def same_data(self, other: Document) -> bool:
        r"""Returns whether both have the same data, whatever their comments, spellings and layout.

        >>> one, two = Document("a 1 k=2"), Document("a 0x1 \\\n  k=2 // c\n")
        >>> one == two, one.same_data(two), one.same_data(Document("a 1.0 k=2"))
        (False, True, False)
        """
        return self._stripped() == other._stripped()

    def _stripped(self) -> bytes:
        with Document(bytes(self)) as copy:
            copy.strip()
            return bytes(copy)

    def format(
        self, *, indent: Union[int, str] = 4, blank_lines: int = 0, keep_spelling: bool = False,
        keep_one_line: bool = False,
    ) -> None:
        r"""Lays the document out, with its comments. Its data stay.

        The indent of a level is a number of spaces, or a text of spaces and tabs. At most `blank_lines`
        empty lines in a row are kept. With `keep_spelling`, values, names, keys and types keep their
        spellings. With `keep_one_line`, a block that is on one line stays on one line. A block without
        nodes and comments is `{}`. Raises
        `ValueError` for another indent or a negative number, and then changes nothing.

        >>> document = Document("a   0x10; b { c; } // d")
        >>> document.format(indent=2, keep_spelling=True)
        >>> str(document)
        'a 0x10\nb {\n  c\n} // d\n'
        >>> document.format()
        >>> str(document)
        'a 16\nb {\n    c\n} // d\n'
        """
        if blank_lines < 0 or isinstance(indent, int) and indent < 0:
            raise ValueError("a number of spaces or empty lines is at least 0")
        text = (" " * indent if isinstance(indent, int) else indent).encode()
        layout = Layout(blank_lines, False, keep_spelling, keep_one_line)
        with self._lock:
            status = lib.kdl_layout(self._handle, layout, text, len(text))
            self._changed()
        if status == FAULTS:
            raise ValueError(f"the indent {indent!r} has another character than spaces and tabs")
        check(status)

    def strip(self) -> None:
        r"""Lays the document out, without its comments. Two documents then print the same text if and
        only if they have the same data.

        >>> document = Document("a   0x10; b { c; } // d")
        >>> document.strip()
        >>> str(document)
        'a 16\nb {\n    c\n}\n'
        """
        self._lay(lib.kdl_strip)

    def autoformat(self, *, comments: bool = True) -> None:
        """Lays the document out as `dumps` does, with a newline where a block has no nodes; without comments
        does `strip`."""
        self._lay(lib.kdl_format if comments else lib.kdl_strip)

    def _lay(self, call: Any) -> None:
        with self._lock:
            status = call(self._handle)
            self._changed()
        check(status)

    def _changed(self) -> None:
        self._rows = self._nodes = self._printed = None
        self._reads = 0

    # Look-ups

    @property
    def nodes(self) -> DocumentNodes:
        """The nodes of the document: a list, which changes the document.

        >>> document = Document("a 1; b")
        >>> document.nodes[0].name = "c"
        >>> del document.nodes[1]
        >>> document.nodes, len(document.nodes), str(document)
        ([DocumentNode('c 1')], 1, 'c 1;')
        """
        return DocumentNodes(self, None)

    def to_nodes(self) -> Nodes:
        """Returns the nodes as data of their own, as `loads` does. A change of them does not change
        the document, nor does an edit of the document change them."""
        with self._lock:
            rows = self._all_rows()
        return Nodes._of(rows)

    def to_data(self) -> Dict[str, Any]:
        """Returns the plain data of the document: see `Nodes.to_data`."""
        return self.to_nodes().to_data()

    def _all_rows(self) -> Rows:
        if self._rows is None:
            self._rows = Rows(*self._tree())
        return self._rows

    def _all_nodes(self) -> Nodes:
        """Returns the nodes for reading, as long as no edit follows."""
        if self._nodes is None:
            self._nodes = Nodes._of(self._all_rows())
        return self._nodes

    def _tree(self) -> Tuple[memoryview, bytes]:
        tree = lambda *it: lib.kdl_tree(self._handle, *it)
        return self._rows_of(tree, self._len // 8 + 16, self._len + 64)

    def _rows_of(self, call: Any, room: int, length: int) -> Tuple[memoryview, bytes]:
        """Returns the rows of a call, and their strings. The room is a first guess."""
        count, used = size(), size()
        while True:
            rows = ctypes.create_string_buffer(room * row.size)
            strings = ctypes.create_string_buffer(length)
            status = call(rows, room, count, strings, length, used)
            if status != TOO_SMALL:
                break
            room, length = max(count.value, 1), max(used.value, 1)
        check(status)
        return memoryview(rows).cast("B")[: count.value * row.size], ctypes.string_at(strings, used.value)

    def _node_read(self, path: Indices) -> Node:
        """Returns the node at the path for reading. Of its children only whether there is a block is
        sure to be there."""
        with self._lock:
            self._reads += 1
            if self._nodes is not None or self._reads > 16 + self._len // _BYTES_FOR_ONE:
                return node_at(self._all_nodes(), path)
            return self._single(path)

    def _node_whole(self, path: Indices) -> Node:
        """Returns the node at the path for reading, with its children."""
        with self._lock:
            if self._nodes is None and self._reads <= 16 + self._len // _BYTES_FOR_ONE:
                at = steps(path)
                rows, strings = self._rows_of(lambda *it: lib.kdl_node_tree(self._handle, *at, *it), 64, 1024)
                self._reads += 1 + len(rows) // row.size // _ROWS_FOR_ONE
                return Rows(rows, strings).node(0)
            return node_at(self._all_nodes(), path)

    def _single(self, path: Indices) -> Node:
        """Reads one node, without its children."""
        count, at = size(), steps(path)
        rows, strings = self._row(lambda *it: lib.kdl_node(self._handle, *at, count, *it), b"")
        for index in range(count.value):
            entry = lambda *it: lib.kdl_entry(self._handle, *at, index, *it)
            more, strings = self._row(entry, strings)
            rows += more
        return Rows(memoryview(rows), strings).node(0)

    def _row(self, call: Any, strings: bytes) -> Tuple[bytes, bytes]:
        """Returns the row of a call, and the strings with those of it at their end."""
        out = ctypes.create_string_buffer(row.size)
        status, more = written(lambda *it: call(out, *it), 64)
        check(status)
        it = list(row.unpack(out.raw))
        for start in (5, 7, 9):
            it[start] += len(strings)
        return row.pack(*it), strings + more

    def _exact(self) -> Tuple[bytes, Nodes]:
        """Returns the text, and nodes whose spans are in it."""
        with self._lock:
            if self._printed is None:
                text = bytes(self)
                with Document(text) as copy:
                    self._printed = text, copy.to_nodes()
            return self._printed

    def __iter__(self) -> Iterator[DocumentNode]:
        return iter(self.nodes)

    def __len__(self) -> int:
        return self._node_count(())

    def __contains__(self, path: object) -> bool:
        """Returns whether there is a node of that name, or at that path of names and indices."""
        return isinstance(path, (str, list, tuple)) and self.get(path) is not None

    def __getitem__(self, path: NodePath) -> DocumentNode:
        """Returns the first node of that name, the node at that index, or the node at that path."""
        if not isinstance(path, (str, int, list, tuple, DocumentNode)):
            raise KeyError(path)
        return self.node(path)

    def __delitem__(self, path: NodePath) -> None:
        """Removes a node, as `remove_node` does."""
        self.remove_node(path)

    def get(self, path: NodePath, default: Any = None) -> Any:
        """Returns the node at the path, or the default if there is none.

        >>> document = Document("server { port 8080; }")
        >>> document.get(["server", "port"]), document.get("port"), document.get("port", 1)
        (DocumentNode('port 8080'), None, 1)
        """
        try:
            return self.node(path)
        except LookupError:
            return default

    def get_arg(self, path: NodePath, default: Any = None) -> Any:
        """Returns the first argument of the node at the path, or the default if there is no such node
        or it has no argument. `#null` is an argument: it gives None.

        >>> document = Document.parse("port 8080; proxy #null; tls { key a; }")
        >>> document.get_arg("port"), document.get_arg("proxy", 1), document.get_arg("x", 1)
        (8080, None, 1)
        >>> document.get_arg(["tls", "key"])
        'a'
        """
        node = self.get(path)
        return default if node is None else node.get(0, default)

    def node(self, path: NodePath) -> DocumentNode:
        """Returns the node at the path.

        >>> Document.parse("server { port 8080; }").node(["server", "port"]).args
        [8080]
        """
        with self._lock:
            at = self._indices(path)
            if not at:
                raise IndexError("the empty path is no node")
            return self._view(at)

    def find(self, path: str, default: Any = None) -> Any:
        """Returns what a PATH names, as the program `kdl get` reads it: a node, or with `#1` the value
        of an argument, or with `/@host` that of a property; or the default if it is not there. Raises
        `ValueError` if the text is no PATH.

        >>> document = Document("server a; server b host=x { port 1 2; }")
        >>> document.find("server[1]/port"), document.find("server[1]/port#1")
        (DocumentNode('port 1 2'), 2)
        >>> document.find("server[1]/@host"), document.find("server/port"), document.find("x/y", 0)
        ('x', None, 0)
        """
        wanted = read_path(path)
        if not wanted.steps:
            return self
        with self._lock:
            try:
                at = self._stepped(wanted.steps)
            except LookupError:
                return default
            return part_of(self._view(at), wanted.of, default)

    def _stepped(self, wanted: List[Step]) -> Indices:
        """Returns the indices of the steps of a PATH. Raises `KeyError` if they lead nowhere."""
        if not any(it.index for it in wanted):
            return self._indices([it.name for it in wanted])
        at = places_of(self._all_nodes(), wanted)
        if at is None:
            raise KeyError(wanted)
        return at

    def query(self, text: Union[str, bytes]) -> Optional[DocumentNode]:
        """Returns the first node that a query selects, or None: see `query_all`."""
        return next(iter(self.query_all(text)), None)

    def query_all(self, text: Union[str, bytes]) -> List[DocumentNode]:
        """Returns the nodes that a query of the KDL query language selects, in the order of the
        document. Raises `KdlError` if the text is no query.

        >>> document = Document("server a { port 1; }; server b { port 2; tls; }")
        >>> [it.args for it in document.query_all("server >> port")]
        [[1], [2]]
        >>> document.query("port[val() > 1]")[0] = 3
        >>> str(document)
        'server a { port 1; }; server b { port 3; tls; }'
        >>> document.query("a b")
        Traceback (most recent call last):
        kdl.KdlError: 1:3: Expected an operator
        """
        with self._lock:
            return [self._view(it) for it in self._query(text)]

    def _query(self, text: Union[str, bytes]) -> List[Indices]:
        """Returns the paths of the nodes that a query selects."""
        query = encoded(text)
        room, count, needed = 256, size(), size()
        while True:
            found = (size * room)()
            status = lib.kdl_query(self._handle, query, len(query), found, room, count, needed)
            if status != TOO_SMALL:
                break
            room = needed.value
        check(status, query, AS_QUERY)
        paths, at = [], 0
        for _ in range(count.value):
            end = at + 1 + found[at]
            paths.append(tuple(found[at + 1 : end]))
            at = end
        return paths

    def _view(self, path: Indices) -> DocumentNode:
        """Returns the node at these indices."""
        here = self._root
        for depth, index in enumerate(path):
            if here.nodes is None:
                here.nodes = [None] * self._node_count(path[:depth])
            here = here.below(here.nodes, index)
        return DocumentNode(self, here)

    def _indices(self, path: NodePath) -> Indices:
        """Returns the indices of a path. Raises `KeyError` if there is no node of a name, and
        `IndexError` if there is none at an index."""
        if isinstance(path, DocumentNode):
            return path._where(self)
        found: Indices = ()
        for step in (path,) if isinstance(path, (str, int)) else path:
            if isinstance(step, str):
                found += (self._found(lib.kdl_find, found, step),)
            else:
                index, count = operator.index(step), self._node_count(found)
                if not -count <= index < count:
                    raise IndexError(f"no node at the index {index}")
                found += (index % count,)
        return found

    def _found(self, call: Any, path: Indices, name: str) -> int:
        try:
            key, index = name.encode(), size()
        except UnicodeEncodeError:
            raise KeyError(name) from None
        status = call(self._handle, *steps(path), key, len(key), index)
        if status == NOT_FOUND:
            raise KeyError(name)
        check(status)
        return index.value

    def _node_count(self, path: Indices, without: int = 0) -> int:
        """Counts the nodes of the document or the node's block. Returns `without` if it has none."""
        count = size()
        status = lib.kdl_node_count(self._handle, *steps(path), count)
        if status == NOT_FOUND:
            return without
        check(status)
        return count.value

    def _entry_count(self, path: Indices) -> int:
        count, out, needed = size(), ctypes.create_string_buffer(row.size), size()
        status = lib.kdl_node(self._handle, *steps(path), count, out, out, 0, needed)
        check(status if status != TOO_SMALL else OK)
        return count.value

    # Edits

    def _edit(self, call: Any, path: Indices, *rest: int, text: Optional[bytes] = None,
              kind: int = AS_DOCUMENT, by: int = 0) -> None:
        """Makes the call. It inserts (1) or removes (-1) what is at the index after the path."""
        given = () if text is None else (text, len(text))
        status = call(self._handle, *steps(path), *rest, *given)
        self._changed()
        check(status, text or b"", kind)
        if by:
            is_entry = call in (lib.kdl_insert_entry, lib.kdl_remove_entry)
            self._root.shift(path, rest[0], by, is_entry)

    def _entry(self, path: Indices, entry: Union[str, int]) -> int:
        """Returns the index of an entry among all of the node, from an index or a property's key."""
        if isinstance(entry, str):
            return self._found(lib.kdl_find_entry, path, entry)
        index, count = operator.index(entry), self._entry_count(path)
        if not -count <= index < count:
            raise IndexError(f"no entry at the index {index}")
        return index % count

    def set_value(self, path: NodePath, entry: Union[str, int], value: Value) -> None:
        """Sets the value of an entry: of the property of that key, or of the entry at that index
        among all entries of the node. Its key, its type and what is around it stay. The value is
        written in the library's spelling (`0x1F90` becomes `9090`), a string in quotes: see
        `set_spelling`.
        `OverflowError` beyond 128 bits.

        >>> document = Document.parse("a 1 /* one */ (u8)0x2 k = 3")
        >>> document.set_value("a", 1, 4)
        >>> document.set_value("a", "k", "five")
        >>> str(document)
        'a 1 /* one */ (u8)4 k = "five"'
        """
        self.set_spelling(path, entry, spelled(value))

    def set_spelling(self, path: NodePath, entry: Union[str, int], text: str) -> None:
        """Sets the value of an entry, and its spelling, both from a text in KDL. The entry is the
        property of that key, or the entry at that index among all entries of the node. Its key, its
        type and what is around it stay. The text is the value alone: with a key, a type, a space or
        a comment it raises `KdlError`.

        An entry that `insert_entry` or `set_prop` added, or that `autoformat` laid out, is printed
        in the library's spelling whatever the text: only its value is set.

        >>> document = Document.parse("mode 0o644")
        >>> document.set_spelling("mode", 0, "0o755")
        >>> str(document), document.get_arg("mode")
        ('mode 0o755', 493)
        """
        with self._lock:
            at = self._indices(path)
            self._edit(lib.kdl_set_value, at, self._entry(at, entry), text=encoded(text), kind=AS_VALUE)

    def set_prop(self, path: NodePath, key: str, value: Value) -> None:
        """Sets the value of the property of that key, or adds the property as the last entry.

        >>> document = Document.parse("a k=1 // c")
        >>> document.set_prop("a", "k", 2)
        >>> document.set_prop("a", "n", 3)
        >>> str(document)
        'a k=2 n=3 // c'
        """
        try:
            self.set_value(path, key, value)
        except KeyError:
            self.insert_entry(path, Entry(value, key))

    def set_key(self, path: NodePath, entry: Union[str, int], key: Optional[str]) -> None:
        """Sets the key of an entry, or makes it an argument if the key is None.

        >>> document = Document.parse("a 1 k=2")
        >>> document.set_key("a", 0, "n")
        >>> document.set_key("a", "k", None)
        >>> str(document)
        'a n=1 2'
        """
        given = (key or "").encode()
        with self._lock:
            at = self._indices(path)
            self._edit(lib.kdl_set_key, at, self._entry(at, entry), int(key is not None), text=given)

    def set_type(self, path: NodePath, type: Optional[str], entry: Union[None, str, int] = None) -> None:
        """Sets the type of a node, or of an entry of it, or removes the type if it is None.

        >>> document = Document.parse("(old)a 1")
        >>> document.set_type("a", None)
        >>> document.set_type("a", "u8", 0)
        >>> str(document)
        'a (u8)1'
        """
        given = (type or "").encode()
        with self._lock:
            at = self._indices(path)
            index = NO_INDEX if entry is None else self._entry(at, entry)
            self._edit(lib.kdl_set_type, at, index, int(type is not None), text=given)

    def set_name(self, path: NodePath, name: str) -> None:
        """Sets the name of a node.

        >>> document = Document.parse("a 1; b")
        >>> document.set_name("a", "c d")
        >>> str(document)
        '"c d" 1; b'
        """
        given = name.encode()
        with self._lock:
            self._edit(lib.kdl_set_name, self._indices(path), text=given)

    def insert_entry(self, path: NodePath, entry: Union[Entry, str], index: Optional[int] = None) -> None:
        """Inserts an entry, or the entry of a text in KDL, before the one at the index or as the
        last.

        It is printed after one space, in the library's spelling, even if a text is given: `0x10` is
        inserted as `16`, and `k="x"` as `k=x`. Spaces, comments and `/-` entries in the text are
        dropped. For another spelling, parse the text of the document anew, and then call
        `set_spelling`.

        >>> document = Document.parse("a 1 // c")
        >>> document.insert_entry("a", Entry("x y", "k"))
        >>> document.insert_entry("a", "(u8)0", 0)
        >>> str(document)
        'a (u8)0 1 k="x y" // c'
        >>> document.insert_entry("a", "mode=0o755")
        >>> document = Document.parse(str(document))
        >>> str(document)
        'a (u8)0 1 k="x y" mode=493 // c'
        >>> document.set_spelling("a", "mode", "0o755")
        >>> str(document)
        'a (u8)0 1 k="x y" mode=0o755 // c'
        """
        text = encoded(spelled_entry(entry) if isinstance(entry, Entry) else entry)
        with self._lock:
            at = self._indices(path)
            place = _place(index, self._entry_count(at))
            self._edit(lib.kdl_insert_entry, at, place, text=text, kind=AS_ENTRY, by=1)

    def remove_entry(self, path: NodePath, entry: Union[str, int]) -> None:
        """Removes the last property of that key, or the entry at that index, with the spaces,
        comments and `/-` entries between it and what is before it. What is after it stays.

        >>> document = Document.parse("a 1 k=2 // c")
        >>> document.remove_entry("a", "k")
        >>> str(document)
        'a 1 // c'
        """
        with self._lock:
            at = self._indices(path)
            self._edit(lib.kdl_remove_entry, at, self._entry(at, entry), by=-1)

    def insert_node(self, path: NodePath, node: Union[Node, str], index: Optional[int] = None) -> None:
        r"""Inserts a node, or the node of a text in KDL, into the block of the node at the path, or
        into the document if the path is (): before the node at the index, or as the last. A node
        without a block gets one.

        It is inserted before the comments and `/-` nodes in front of the node at the index: at index
        0 of a document, before a licence comment too. As the last, it is inserted right after the
        last node, and before the comments after that.

        A `Node` suits a block with one node to a line, each ended by a newline. It is laid out and
        indented by 4 spaces for each level, with LF, whatever the neighbours have; after a `;` it
        stays on that line. At index 0 of a block whose first node begins a line, an empty line
        follows it; in an empty block that has a newline, an empty line is before it. Its strings are
        in quotes only if they have to be: `Node("log", props={"level": "info"})` is inserted as
        `log level=info`. Give a text for quotes, another spelling, or another place of newlines.

        A text is inserted as it is, with its spaces and comments. Newlines are added only if they
        are needed to separate it from its neighbours. End it with a newline for a line of its own,
        and begin it with one too at index 0 of a block and after a `;`. The newline after the `{`
        belongs to the node that was first: so at index 0 an empty line comes after the new node,
        unless the text ends in `;`.

        >>> document = Document.parse("a {\n    b 1 // one\n}\n")
        >>> document.insert_node("a", Node("c", [2]))
        >>> document.insert_node((), 'log level="info" // three\n')
        >>> print(document, end="")
        a {
            b 1 // one
            c 2
        }
        log level="info" // three
        """
        with self._lock:
            at = self._indices(path)
            count = self._node_count(at, -1)
            place = _place(index, max(count, 0))
            text = _indented(node, len(at), place, count) if isinstance(node, Node) else node
            self._edit(lib.kdl_insert_node, at, place, text=encoded(text), kind=AS_NODE, by=1)

    def add_node(self, path: NodePath, node: Union[Node, str],
                 index: Optional[int] = None) -> DocumentNode:
        r"""Adds a node, or the node of a text in KDL, to the block of the node at the path, or to the
        document if the path is (): before the node at the index, or as the last. Returns the new node.

        In a block on several lines it gets a line of its own, with the indentation of the first node.
        In a block on one line it stays on that line, unless it has a newline or a `//`. A node without
        a block gets one on several lines, indented by 4 spaces, or by a tab after a tab. Further lines
        of the text are indented as the first one. It is added before the comments in front of the node
        at the index. Where that form would change other data, as after a `\` at the end of the text, it
        is that of `insert_node`. The text of the document is read anew: `insert_node` is faster.

        >>> document = Document("server {\n  port 80 // c\n}\n")
        >>> document.add_node("server", 'tls #true')
        DocumentNode('tls #true')
        >>> document.add_node(["server", "tls"], Node("key", ["a"]))[0]
        'a'
        >>> print(document, end="")
        server {
          port 80 // c
          tls #true {
              key a
          }
        }
        >>> document = Document("a { b; }")
        >>> document.add_node("a", "c 1"), str(document)
        (DocumentNode('c 1'), 'a { b; c 1; }')
        """
        lines = (dumps([node]) if isinstance(node, Node) else node).strip(" \t\r\n")
        faults = faults_of(encoded(lines), AS_NODE)
        if faults:
            raise KdlError(faults)
        with self._lock:
            at = self._indices(path)
            place = _place(index, self._node_count(at))
            text = with_added(self, at, lines, place)
            if text is None:
                self.insert_node(at, lines + "\n", place)
            else:
                check(lib.kdl_parse(text, len(text), self._handle), text)
                self._changed()
                self._root.shift(at, place, 1, False)
            return self._view((*at, place))

    def remove_node(self, path: NodePath) -> None:
        r"""Removes a node, with what is before it and its end.

        Before it are the spaces, newlines, comments and `/-` nodes back to the end of the node before
        it, to the `{`, or to the start of the document: a licence comment or a version marker before
        the first node is removed with that node. Its end is the newline or `;` after it, with the
        spaces and comments before that. What is after its end stays.

        >>> document = Document.parse("a\n// of b\nb 1 { c; } // end\n// of d\nd\n")
        >>> document.remove_node("b")
        >>> str(document)
        'a\n// of d\nd\n'
        >>> document = Document.parse("a {\n    b\n    c\n}\n")
        >>> document.remove_node(["a", "b"])
        >>> str(document)
        'a {    c\n}\n'
        """
        with self._lock:
            at = self._indices(path)
            if not at:
                raise IndexError("the empty path is no node")
            self._edit(lib.kdl_remove_node, at[:-1], at[-1], by=-1)


def _place(index: Optional[int], count: int) -> int:
    """Returns the index at which to insert among so many: the last one if no index is given."""
    if index is None:
        return count
    if not -count <= operator.index(index) <= count:
        raise IndexError(f"no place at the index {index}")
    return index + count if index < 0 else index


def _indented(node: Node, depth: int, place: int, count: int) -> str:
    """Returns the lines of a node for an index in a block at that depth. The block has so many nodes,
    or -1 if it is yet to be made."""
    lines = dumps([node])[:-1].replace("\n", "\n" + "    " * depth)
    is_first = depth > 0 and place == 0 and count >= 0
    return ("\n" if is_first else "") + "    " * depth + lines + ("" if is_first and count else "\n")
