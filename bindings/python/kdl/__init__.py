r"""KDL 2 documents, by the proved library `kdl`.

As data, in the manner of `json`:

>>> nodes = loads('server "web" port=8080 { tags eu west; }')
>>> nodes[0].name, nodes[0].args, nodes[0].props
('server', ['web'], {'port': 8080})
>>> nodes[0]["port"], nodes[0][0], nodes.get(["server", "tags"]).args
(8080, 'web', ['eu', 'west'])
>>> print(dumps([Node("server", ["web"], {"port": 8080}, [Node("tags", ["eu", "west"])])]), end="")
server web port=8080 {
    tags eu west
}
>>> print(dumps({"port": 8080, "tags": ["eu", "west"]}), end="")
port 8080
tags eu west

As a document that keeps its form, and is edited in place:

>>> document = Document("server {\n  port 0x1F90 // the usual one\n}\n")
>>> document["server"].child("port")[0] = 9090
>>> document["server"].add("tls #true")
DocumentNode('tls #true')
>>> print(document, end="")
server {
  port 9090 // the usual one
  tls #true
}
>>> document.query("server > [val() = 9090]").name
'port'

A text with faults raises a `KdlError`, which lists all of them:

>>> try:
...     loads("name web\nport #treu\n")
... except KdlError as error:
...     print(error)
...     print(error.faults[0].line, error.faults[0].column, error.faults[0].message)
2:6: Expected keyword
2 6 Expected keyword

`load` and `dump` read and write files. `python -m kdl` is the program `kdl`, if that is installed.
"""
from typing import Any

from ._data import Entry, Float, Node, Nodes, Path as Path, Value, loads
from ._document import Document
from ._files import Source, read as _read, write as _write
from ._library import Fault, KdlError, faults, format_text
from ._views import DocumentEntries, DocumentEntry, DocumentNode, DocumentNodes
from ._writing import dumps

__version__ = "1.0"

# `Path` is left out, which `pathlib.Path` has too.
__all__ = [
    "Document", "DocumentEntries", "DocumentEntry", "DocumentNode", "DocumentNodes", "Entry", "Fault",
    "Float", "KdlError", "Node", "Nodes", "Value", "dump", "dumps", "faults", "format_text", "load",
    "loads",
]


def load(file: Source) -> Nodes:
    """Parses a file, and returns its nodes, as `loads` does. The file is a path, or a file that is open
    for text or bytes. A file that is open for text may have changed its newlines: see `open`.
    """
    return loads(_read(file))


def dump(data: Any, file: Source) -> None:
    """Writes what `dumps` returns to a file: a path, or a file that is open for text or bytes.

    A file at a path is written anew, and then renamed: at any time, the whole old or new text is there.
    """
    _write(file, dumps(data).encode())


for _it in (Document, DocumentEntries, DocumentEntry, DocumentNode, DocumentNodes, Entry, Fault, Float,
            KdlError, Node, Nodes, dumps, faults, format_text, loads):
    _it.__module__ = __name__
