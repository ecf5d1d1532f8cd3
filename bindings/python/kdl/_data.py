"""Nodes as data: what a text says, without its form."""
from __future__ import annotations

import gc
import operator
import re
import threading
from itertools import compress
from typing import (
    Any, Callable, Dict, Iterable, Iterator, List, Mapping, MutableSequence, Optional, Sequence,
    SupportsIndex, Tuple, Union, overload,
)

from ._library import BOOL, END, FLOAT, INTEGER, LARGE, NODE, PROPERTY, STRING, row

#: What an entry may have: a string, a whole number, a `Float` or `float`, a boolean, or null.
Value = Union[str, int, float, bool, None]
#: Where a node is. A path is a name, an index, or a sequence of these, from the document down: a
#: name is the first node of that name, an index counts all nodes from 0, and a negative one from
#: the end. A str is one name: "a/b" is no path.
Path = Union[str, int, Sequence[Union[str, int]]]

# A float in KDL. A point or an exponent sets it apart from a whole number.
_FLOATS = re.compile(
    r"#-?inf|#nan|[+-]?[0-9][0-9_]*(?=[.eE])(\.[0-9][0-9_]*)?([eE][+-]?[0-9][0-9_]*)?"
)


class Float(float):
    """A float that keeps its text. `Float(text)` keeps the text given; a float that was read has the
    text in which it was read, without `_`.

    Raises `ValueError` for a text that is not a float in KDL. A float has a point or an exponent, with digits
    on both sides, or is `#inf`, `#-inf` or `#nan`.

    >>> loads("price 1_000.50")[0][0].text
    '1000.50'
    >>> print(dumps([Node("price", [Float("1.50"), Float("#inf")])]), end="")
    price 1.50 #inf
    >>> Float("1")
    Traceback (most recent call last):
    ValueError: no float in KDL: '1'
    """

    __slots__ = ("text",)
    text: str

    def __new__(cls, text: str) -> Float:
        if not _FLOATS.fullmatch(text):
            raise ValueError(f"no float in KDL: {text!r}")
        # Python takes no '_' at the end of digits.
        self = float.__new__(cls, text.lstrip("#").replace("_", ""))
        self.text = text
        return self

    def __reduce__(self) -> Any:
        return Float, (self.text,)


class Entry:
    """An argument, whose `name` is None, or a property.

    `span` is its (start, end) in the text that it was read from, in bytes. It is not compared. A nan
    is not equal to itself, as in Python: two entries `#nan` differ, and so do the nodes that have
    them.

    >>> Entry(8080, "port", type="u16")
    Entry(8080, 'port', type='u16')
    """

    __slots__ = ("value", "name", "type", "_start", "_length")
    value: Value
    name: Optional[str]
    type: Optional[str]
    _start: int
    _length: int

    def __init__(self, value: Value, name: Optional[str] = None, *, type: Optional[str] = None,
                 span: Tuple[int, int] = (0, 0)) -> None:
        self.value, self.name, self.type, self.span = value, name, type, span

    @property
    def span(self) -> Tuple[int, int]:
        """Its (start, end) in the text that it was read from, in bytes."""
        return self._start, self._start + self._length

    @span.setter
    def span(self, span: Tuple[int, int]) -> None:
        self._start, self._length = span[0], span[1] - span[0]

    def __eq__(self, other: object) -> bool:
        if not isinstance(other, Entry):
            return NotImplemented
        return (_is_same(self.value, other.value) and self.name == other.name
                and self.type == other.type)

    __hash__ = None  # type: ignore[assignment]

    def __repr__(self) -> str:
        name = "" if self.name is None else f", {self.name!r}"
        return f"Entry({self.value!r}{name}{'' if self.type is None else f', type={self.type!r}'})"

    def __reduce__(self) -> Any:
        return _entry, (self.value, self.name, self.type, self.span)


def _is_same(one: Value, two: Value) -> bool:
    """Returns whether two values are equal. In KDL 1, 1.0 and #true are three values."""
    return (one == two and isinstance(one, bool) == isinstance(two, bool)
            and isinstance(one, float) == isinstance(two, float))


def _stays(old: Value, new: Value) -> bool:
    """Returns whether the new value needs no change: it is equal, and no `Float` of another text."""
    texts = [it.text if isinstance(it, Float) else None for it in (old, new)]
    return _is_same(old, new) and texts[1] in (None, texts[0])


def _entry(value: Value, name: Optional[str], type: Optional[str], span: Tuple[int, int]) -> Entry:
    return Entry(value, name, type=type, span=span)


def value_of(kind: int, integer: int, text: str) -> Value:
    """Returns the value of a row."""
    if kind == STRING:
        return text
    if kind == INTEGER:
        return integer
    if kind == LARGE:
        return int(text)
    if kind == FLOAT:
        number = float.__new__(Float, text.lstrip("#"))
        number.text = text
        return number
    return bool(integer) if kind == BOOL else None


class Node:
    """A node: a name, arguments, properties and children.

    `entries` has the arguments and properties in their order. `children` is a list, or None if the
    node has no block. `span` is its (start, end) in the text that it was read from, in bytes. It is
    not compared.

    Its entries are the `entries` given, then an argument for each of `args`, then a property for
    each of `props`. `args` is a list or another iterable of values, and no str.

    >>> node = Node("server", ["web"], {"port": 8080}, [Node("tls")])
    >>> node
    Node('server', entries=[Entry('web'), Entry(8080, 'port')], children=[...])
    >>> node == loads("server web port=8080 { tls; }")[0]
    True
    >>> Node("a", [2], {"k": 3}, entries=[Entry(1)]).entries
    [Entry(1), Entry(2), Entry(3, 'k')]
    >>> node["port"], node[0], node.get("host"), node.get(["tls"]).name
    (8080, 'web', None, 'tls')
    >>> node["port"] = 9090
    >>> node.args.append("api")
    >>> print(node)
    server web port=9090 api {
        tls
    }
    """

    __slots__ = ("name", "type", "entries", "children", "_start", "_length")
    name: str
    type: Optional[str]
    entries: MutableSequence[Entry]
    children: Optional[MutableSequence[Node]]
    _start: int
    _length: int

    def __init__(self, name: str, args: Iterable[Value] = (),
                 props: Optional[Mapping[str, Value]] = None,
                 children: Optional[Iterable[Node]] = None, *, type: Optional[str] = None,
                 entries: Optional[Iterable[Entry]] = None) -> None:
        if isinstance(args, (str, bytes, bytearray)):
            raise TypeError("args is a list of values: [args] for one")
        self.name, self.type, self.span = name, type, (0, 0)
        self.entries = [] if entries is None else list(entries)
        self.entries += [Entry(it) for it in args]
        self.entries += [Entry(value, it) for it, value in (props or {}).items()]
        self.children = None if children is None else list(children)

    @property
    def span(self) -> Tuple[int, int]:
        """Its (start, end) in the text that it was read from, in bytes."""
        return self._start, self._start + self._length

    @span.setter
    def span(self, span: Tuple[int, int]) -> None:
        self._start, self._length = span[0], span[1] - span[0]

    def _whole(self) -> Node:
        """Returns the node as data, only for reading."""
        return self

    def _read(self) -> Node:
        """Returns the node as data, only for reading, and perhaps without its children."""
        return self

    def copy(self) -> Node:
        """Returns the node as data of its own, with all in its block."""
        return _copied(self._whole())

    @property
    def args(self) -> List[Value]:
        """The values of the arguments, in their order. A change of this list changes the node."""
        return _Args(self)

    @args.setter
    def args(self, values: Iterable[Value]) -> None:
        self.args[:] = values

    @property
    def props(self) -> Dict[str, Value]:
        """The values of the properties by their keys. Of two with one key, the last one counts. A
        change of this dict changes the node."""
        return _Props(self)

    @props.setter
    def props(self, values: Mapping[str, Value]) -> None:
        _Props.put(self.props, dict(values))

    def __getitem__(self, key: Path) -> Any:
        """Returns the value of the property of that key, or of the argument at that index, or, for a
        list of names and indices, the node at that path below this one."""
        if isinstance(key, str):
            return self._read().entries[self._entry_at(key)].value
        if isinstance(key, int):
            return [it.value for it in self._read().entries if it.name is None][key]
        return self.node(key)

    def __setitem__(self, key: Union[str, int], value: Value) -> None:
        """Sets the value of the property of that key, which is added if there is none, or of the
        argument at that index."""
        try:
            self.entries[self._entry_at(key)].value = value
        except KeyError:
            self.entries.append(Entry(value, str(key)))

    def __delitem__(self, key: Union[str, int]) -> None:
        """Removes each property of that key, or the argument at that index."""
        del self.entries[self._entry_at(key)]
        while isinstance(key, str) and key in self:
            del self.entries[self._entry_at(key)]

    def __contains__(self, key: object) -> bool:
        """Returns whether there is a property of that key, an argument at that index, or a node at
        that path."""
        missing = object()
        return self.get(key, missing) is not missing  # type: ignore[arg-type]

    def _entry_at(self, key: Union[str, int]) -> int:
        """Returns the index of an entry from the index of an argument or the key of a property."""
        entries = self._read().entries
        if isinstance(key, int):
            return [at for at, it in enumerate(entries) if it.name is None][key]
        if not isinstance(key, str):
            raise TypeError(f"a key is a str or an int, not {type(key).__name__}")
        for at in range(len(entries) - 1, -1, -1):
            if entries[at].name == key:
                return at
        raise KeyError(key)

    # Python would iterate by __getitem__, over the arguments: a node is no list of nodes.
    __iter__ = None

    def get(self, key: Path, default: Any = None) -> Any:
        """Returns what `node[key]` is, or the default if there is no such value or node."""
        try:
            return self[key]
        except LookupError:
            return default

    def node(self, path: Path) -> Node:
        """Returns the node at the path below this one. Raises `KeyError` if there is no node of a
        name, and `IndexError` if there is none at an index.

        >>> loads("a { b { c 1; c 2; }; }")[0].node(["b", -1]).args
        [2]
        """
        return node_at(self.children or [], path, self)

    def child(self, path: Path, default: Any = None) -> Any:
        """Returns the first child of that name, or the node at that path below this one, or the
        default if there is none."""
        try:
            return self.node(path)
        except LookupError:
            return default

    def query(self, text: Union[str, bytes]) -> Any:
        """Returns the first node below this one that a query selects, or None: see `query_all`."""
        return next(iter(self.query_all(text)), None)

    def query_all(self, text: Union[str, bytes]) -> List[Any]:
        """Returns the nodes below this one that a query selects, in their order. The query sees the
        block as a document: `top() > port` is a child `port`. Raises `KdlError` if the text is no query.

        >>> loads("server { port 1; tls { port 2; }; }")[0].query_all("top() > port")[0].args
        [1]
        """
        return _queried(self.children or [], text)

    def to_data(self) -> Any:
        """Returns the plain data of the node: see `Nodes.to_data`."""
        from ._plain import value_of_node

        return value_of_node(self._whole())

    def __eq__(self, other: object) -> bool:
        if not isinstance(other, Node):
            return NotImplemented
        return are_same([self._whole()], [other._whole()])

    __hash__ = None  # type: ignore[assignment]

    def __repr__(self) -> str:
        parts = [repr(self.name)]
        if self.entries:
            parts.append(f"entries={self.entries!r}")
        if self.children is not None:
            parts.append("children=[...]" if self.children else "children=[]")
        if self.type is not None:
            parts.append(f"type={self.type!r}")
        return f"Node({', '.join(parts)})"

    def __str__(self) -> str:
        """Returns the text of the node, laid out, without a newline at its end."""
        from ._writing import dumps

        return dumps([self])[:-1]

    def __reduce__(self) -> Any:
        children = None if self.children is None else list(self.children)
        return _node, (self.name, self.type, list(self.entries), children, self.span)


def _copied(node: Node) -> Node:
    # Over a list, since blocks may be deep.
    copies: List[Node] = []
    work = [(node, copies)]
    for old, into in work:
        new = Node(old.name, type=old.type, children=None if old.children is None else [])
        new.span = old.span
        new.entries = [Entry(it.value, it.name, type=it.type, span=it.span) for it in old.entries]
        into.append(new)
        if new.children is not None and old.children:
            work += [(it._whole(), new.children) for it in old.children]
    return copies[0]


def _node(name: str, type: Optional[str], entries: List[Entry], children: Optional[List[Node]],
          span: Tuple[int, int]) -> Node:
    node = Node(name, type=type, entries=entries, children=children)
    node.span = span
    return node


def are_same(ones: Sequence[Node], twos: Sequence[Node]) -> bool:
    """Returns whether the nodes are equal."""
    # Over a list, since blocks may be deep.
    work = [(ones, twos)]
    while work:
        ones, twos = work.pop()
        if len(ones) != len(twos):
            return False
        for one, two in zip(ones, twos):
            one, two = one._whole(), two._whole()
            if (one.name, one.type, one.entries) != (two.name, two.type, two.entries):
                return False
            if (one.children is None) != (two.children is None):
                return False
            if one.children is not None and two.children is not None:
                work.append((one.children, two.children))
    return True


def node_at(nodes: Sequence[Node], path: Path, found: Optional[Node] = None) -> Node:
    """Returns the node at the path. For the empty path it is `found`."""
    for step in (path,) if isinstance(path, (str, int)) else path:
        if isinstance(step, str):
            found = next((it for it in nodes if it.name == step), None)
            if found is None:
                raise KeyError(step)
        else:
            index = operator.index(step)
            if not -len(nodes) <= index < len(nodes):
                raise IndexError(f"no node at the index {index}")
            found = nodes[index]
        nodes = found.children or []
    if found is None:
        raise IndexError("the empty path is no node")
    return found


def _queried(nodes: Sequence[Node], text: Union[str, bytes]) -> List[Node]:
    """Returns the nodes among these, and in their blocks, that a query selects."""
    from ._document import Document
    from ._writing import text_of

    with Document(text_of(nodes)) as document:
        return [node_at(nodes, it) for it in document._query(text)]


def _then_put(of: Any, name: str) -> Any:
    """Returns the method of a list or dict that then changes the node."""
    plain = getattr(of, name)

    def call(self: Any, *given: Any, **named: Any) -> Any:
        self.renew()
        result = plain(self, *given, **named)
        self.put(self)
        return result

    call.__name__, call.__doc__ = name, plain.__doc__
    return call


class _Args(List[Value]):
    """The values of a node's arguments, whose changes change the node."""

    __slots__ = ("_of",)

    def __init__(self, node: Node) -> None:
        self._of = node
        super().__init__([it.value for it in node._read().entries if it.name is None])

    def renew(self) -> None:
        list.__init__(self, _Args(self._of))

    def put(self, values: List[Value]) -> None:
        """Sets, adds and removes what differs, and leaves the other arguments as they are."""
        entries, new = self._of.entries, list(values)
        places = [at for at, it in enumerate(self._of._read().entries) if it.name is None]
        old = [it.value for it in self._of._read().entries if it.name is None]
        first = 0
        while first < min(len(old), len(new)) and _stays(old[first], new[first]):
            first += 1
        while len(old) != len(new) and min(len(old), len(new)) > first and _stays(old[-1], new[-1]):
            del new[-1], old[-1]
        for at in range(first, min(len(old), len(new))):
            if not _stays(old[at], new[at]):
                entries[places[at]].value = new[at]
        for at in range(len(old) - 1, len(new) - 1, -1):
            del entries[places[at]]
        for at in range(len(old), len(new)):
            place = places[len(old)] + at - len(old) if len(old) < len(places) else len(entries)
            entries.insert(place, Entry(new[at]))

    def __reduce__(self) -> Any:
        return list, (list(self),)


for _name in ("__setitem__", "__delitem__", "__iadd__", "__imul__", "append", "clear", "extend",
              "insert", "pop", "remove", "reverse", "sort"):
    setattr(_Args, _name, _then_put(list, _name))


class _Props(Dict[str, Value]):
    """The values of a node's properties by their keys, whose changes change the node."""

    __slots__ = ("_of",)

    def __init__(self, node: Node) -> None:
        self._of = node
        super().__init__((it.name, it.value) for it in node._read().entries if it.name is not None)

    def renew(self) -> None:
        new = _Props(self._of)
        dict.clear(self)
        dict.update(self, new)

    def put(self, values: Mapping[str, Value]) -> None:
        """Sets, adds and removes what differs, and leaves the other properties as they are."""
        node, old = self._of, dict(_Props(self._of))
        for key in old:
            if key not in values:
                del node[key]
        for key, value in dict(values).items():
            if key not in old or not _stays(old[key], value):
                node[key] = value

    def __reduce__(self) -> Any:
        return dict, (dict(self),)


for _name in ("__setitem__", "__delitem__", "__ior__", "clear", "pop", "popitem", "setdefault", "update"):
    setattr(_Props, _name, _then_put(dict, _name))


# Which rows are nodes or ends.
_IS_NODE_OR_END = bytes(it in (NODE, END) for it in range(256))


class Rows:
    """The rows of a document, and their strings. Nodes are made of them when they are used."""

    __slots__ = ("_rows", "_text", "_is_ascii", "_begins")

    def __init__(self, rows: memoryview, strings: bytes) -> None:
        self._rows = rows
        # A byte is a character here, also where a character takes several bytes.
        self._text, self._is_ascii = strings.decode("latin-1"), strings.isascii()
        self._begins: List[int] = []

    def begins(self) -> List[int]:
        """Returns the row of each node of the document, and the number of rows."""
        if not self._begins:
            kinds, has_block = bytes(self._rows[:: row.size]), bytes(self._rows[12 :: row.size])
            depth, begins = 0, []
            for at in compress(range(len(kinds)), kinds.translate(_IS_NODE_OR_END)):
                if kinds[at] == END:
                    depth -= 1
                else:
                    if not depth:
                        begins.append(at)
                    depth += has_block[at]
            # At once, since another thread may be here too.
            self._begins = [*begins, len(kinds)]
        return self._begins

    def node(self, index: int) -> Node:
        """Returns the node at the index, made anew."""
        begin, end = self.begins()[index : index + 2]
        return self._made(begin, end)[0]

    def nodes(self) -> List[Node]:
        """Returns all nodes, made anew."""
        return self._made(0, len(self._rows) // row.size)

    def _made(self, begin: int, end: int) -> List[Node]:
        rows = self._rows[begin * row.size : end * row.size]
        # A collection among so many new objects would find nothing.
        was_on = gc.isenabled()
        gc.disable()
        try:
            nodes = nodes_of(rows, self._text)
            if not self._is_ascii:
                _decode(nodes)
            return nodes
        finally:
            if was_on:
                gc.enable()


def nodes_of(rows: Any, text: str) -> List[Node]:
    """Returns the nodes of the rows, in one pass. The text has a character for each byte of their
    strings."""
    nodes: List[Node] = []
    above: List[List[Node]] = []
    entries: List[Entry] = []
    top, new_node, new_entry = nodes, Node.__new__, Entry.__new__
    for (kind, value, has_type, has_block, integer, name, name_len, type, type_len, at, at_len,
         start, length) in row.iter_unpack(rows):
        if kind == NODE:
            node = new_node(Node)
            node.name = text[name : name + name_len]
            node.entries = entries = []
            node.children = None
            node.type = text[type : type + type_len] if has_type else None
            node._start, node._length = start, length
            nodes.append(node)
            if has_block:
                above.append(nodes)
                nodes = node.children = []
        elif kind == END:
            nodes = above.pop()
        else:
            entry = new_entry(Entry)
            if value == STRING:
                entry.value = text[at : at + at_len]
            elif value == INTEGER:
                entry.value = integer
            else:
                entry.value = value_of(value, integer, text[at : at + at_len])
            entry.name = text[name : name + name_len] if kind == PROPERTY else None
            entry.type = text[type : type + type_len] if has_type else None
            entry._start, entry._length = start, length
            entries.append(entry)
    return top


def _decode(nodes: Sequence[Node]) -> None:
    """Decodes the strings of the nodes, of which a character is a byte so far."""
    decoded: Callable[[Any], Any] = lambda it: it.encode("latin-1").decode() if isinstance(it, str) else it
    work = [nodes]
    for block in work:
        for node in block:
            node.name, node.type = decoded(node.name), decoded(node.type)
            for entry in node.entries:
                entry.value, entry.name = decoded(entry.value), decoded(entry.name)
                entry.type = decoded(entry.type)
            if node.children:
                work.append(node.children)


class Nodes(MutableSequence[Node]):
    """A list of nodes, as `loads` returns it. A node is made when it is first used, and is the same
    one from then on.

    >>> nodes = loads("a 1; b { c 2; }")
    >>> nodes.append(Node("d"))
    >>> len(nodes), nodes[-1], nodes.get(["b", "c"]).args, nodes.get("x")
    (3, Node('d'), [2], None)
    >>> nodes["a"][0], "b" in nodes, ["b", "x"] in nodes
    (1, True, False)
    """

    __slots__ = ("_rows", "_made", "_all", "_lock")

    def __init__(self, nodes: Iterable[Node] = ()) -> None:
        self._all: Optional[List[Node]] = list(nodes)
        self._rows: Optional[Rows] = None
        self._made: Dict[int, Node] = {}
        self._lock = threading.Lock()

    @classmethod
    def _of(cls, rows: Rows) -> Nodes:
        self = cls()
        self._all, self._rows = None, rows
        return self

    def _list(self) -> List[Node]:
        """Returns all nodes."""
        if self._all is None:
            with self._lock:
                if self._rows is not None:
                    nodes = self._rows.nodes()
                    for index, node in self._made.items():
                        nodes[index] = node
                    self._all, self._rows, self._made = nodes, None, {}
        assert self._all is not None
        return self._all

    def __len__(self) -> int:
        rows = self._rows
        return len(self._list()) if rows is None else len(rows.begins()) - 1

    @overload
    def __getitem__(self, index: Union[SupportsIndex, str, Sequence[Union[str, int]]]) -> Node: ...
    @overload
    def __getitem__(self, index: slice) -> List[Node]: ...

    def __getitem__(self, index: Any) -> Any:
        """Returns the node at the index or path, or a list of nodes for a slice."""
        if isinstance(index, (str, list, tuple)):
            return self.node(index)
        if self._rows is not None and not isinstance(index, slice):
            with self._lock:
                rows = self._rows
                if rows is not None:
                    at = range(len(rows.begins()) - 1)[index]
                    if at not in self._made:
                        self._made[at] = rows.node(at)
                    return self._made[at]
        return self._list()[index]

    def __setitem__(self, index: Any, value: Any) -> None:
        self._list()[index] = value

    def __delitem__(self, index: Union[SupportsIndex, slice]) -> None:
        del self._list()[index]

    def __contains__(self, value: object) -> bool:
        """Returns whether a node is equal to that one, or there is one of that name or at that path."""
        if isinstance(value, (str, list, tuple)):
            return self.get(value) is not None
        return value in self._list()

    def insert(self, index: SupportsIndex, value: Node) -> None:
        """Inserts a node before the one at the index."""
        self._list().insert(index, value)

    def __iter__(self) -> Iterator[Node]:
        return iter(self._list())

    def node(self, path: Path) -> Node:
        """Returns the node at the path. Raises `KeyError` if there is no node of a name, and
        `IndexError` if there is none at an index."""
        return node_at(self, path)

    def get(self, path: Path, default: Any = None) -> Any:
        """Returns the node at the path, or the default if there is none. A path is a name, an index,
        or a list of these."""
        try:
            return self.node(path)
        except LookupError:
            return default

    def find(self, path: str, default: Any = None) -> Any:
        """Returns what a PATH names, or the default: see `Document.find`.

        >>> nodes = loads("server web { port 8080; }")
        >>> nodes.find("server/port#0"), nodes.find("server/port").args, nodes.find("x/y", 0)
        (8080, [8080], 0)
        """
        from ._paths import found_in

        return found_in(self, path, default)

    def query(self, text: Union[str, bytes]) -> Optional[Node]:
        """Returns the first node that a query selects, or None: see `query_all`."""
        return next(iter(self.query_all(text)), None)

    def query_all(self, text: Union[str, bytes]) -> List[Node]:
        """Returns the nodes that a query selects, in the order of the document: the very objects that
        are in this list and its blocks. Raises `KdlError` if the text is no query.

        >>> nodes = loads("server a { port 1; }; server b { port 2; tls; }")
        >>> [it.args for it in nodes.query_all("server >> port")]
        [[1], [2]]
        >>> nodes.query("port[val() > 1]") is nodes[1].children[0]
        True
        """
        return _queried(self, text)

    def to_data(self) -> Dict[str, Any]:
        """Returns the plain data of the nodes, of which `dumps` makes these nodes again. Raises
        `ValueError` if the nodes are not those of plain data, which `dumps` describes.

        >>> loads("port 8080; tags a b; tls { key x; }").to_data()
        {'port': 8080, 'tags': ['a', 'b'], 'tls': {'key': 'x'}}
        """
        from ._plain import data_of

        return data_of(self)

    def __eq__(self, other: object) -> bool:
        if isinstance(other, (list, Nodes)):
            return are_same(self, other) if all(isinstance(it, Node) for it in other) else False
        return NotImplemented

    __hash__ = None  # type: ignore[assignment]

    def __repr__(self) -> str:
        return repr(self._list())

    def __reduce__(self) -> Any:
        return Nodes, (list(self),)

    def __deepcopy__(self, _: Any) -> Nodes:
        return Nodes(it.copy() for it in self)


def loads(text: Union[str, bytes]) -> Nodes:
    """Parses a text, and returns its nodes. Raises `KdlError` if it has faults, `UnicodeDecodeError`
    for bytes that are not UTF-8, and `UnicodeEncodeError` for a str with surrogates; all are
    `ValueError`.

    >>> loads("a 1 k=#true { b; }")
    [Node('a', entries=[Entry(1), Entry(True, 'k')], children=[...])]
    """
    from ._document import Document

    with Document(text) as document:
        return document.to_nodes()
