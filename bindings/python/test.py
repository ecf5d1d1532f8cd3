"""The module kdl on all rows of crates/rows/data that are documents, nodes, entries and queries, on the
examples, on random data, and from the command line. Prints nothing if all is well.

    python3 test.py [TEST..]    only the tests of these names
"""
import doctest
import inspect
import os
import pathlib
import pickle
import re
import subprocess
import sys
import tempfile
import typing
from collections.abc import Sequence

from checking import HERE, below, raises
import kdl
import rows
import test_data
import test_document
from kdl import Document, Entry, Float, KdlError, Node


# Rows


def spelled(value):
    """A value as the rows name it."""
    if isinstance(value, bool):
        return f"bool {str(value).lower()}"
    if isinstance(value, Float):
        return f"float {value.text}"
    kinds = {str: f"string {value}", int: f"number {value}"}
    return kinds.get(type(value), "null")


def span(it):
    return f"{it.span[0]}..{it.span[1]}"


def field(nodes, label):
    """Returns the text of a field of the nodes, or True if the label says that there is none and
    there is none. Raises KeyError if the module does not have the field."""
    words, at = label.split(" "), nodes
    while len(words) > 1:
        if isinstance(at, Sequence) and words[0].isdigit():
            at = at[int(words.pop(0)) - 1]
        elif isinstance(at, Node) and words[0] == "block":
            at = at.children
            words.pop(0)
        elif isinstance(at, Node) and words[0] == "entry":
            at = at.entries[int(words[1]) - 1]
            del words[:2]
        else:
            break
    fields = {
        list: {"nodes": len, "no nodes": lambda it: it == []},
        Node: {
            "name": lambda it: it.name, "type": lambda it: it.type, "span": span,
            "entries": lambda it: len(it.entries), "no entries": lambda it: it.entries == [],
            "no type": lambda it: it.type is None, "no block": lambda it: it.children is None,
        },
        Entry: {
            "key": lambda it: it.name, "type": lambda it: it.type, "span": span,
            "no key": lambda it: it.name is None, "no type": lambda it: it.type is None,
            "value": lambda it: spelled(it.value),
        },
    }
    return fields[list if isinstance(at, Sequence) else type(at)][" ".join(words)](at)


def has_fields(case, nodes, prefix=""):
    """Checks each field that the row names and the module tells, and returns how many."""
    found = 0
    for label, text in case.wanted:
        is_span = label.endswith("span") and prefix
        if is_span or prefix and re.match("leading|trailing|before|after|terminator|whole", label):
            continue
        try:
            told = field(nodes, prefix + label)
        except KeyError:
            continue
        assert told is True if text is None else str(told) == text, (case.place, label, told, text)
        found += 1
    return found


def has_faults(case, faults, text):
    """Checks what the row says of the faults, and returns how many lines that were."""
    first, found = faults[0], 0
    as_line = lambda it: f"{it.start}..{it.end} {it.message}"
    for it in faults[:100]:
        assert 0 <= it.start <= it.end <= len(text), case
        text[: it.start].decode() + text[it.start : it.end].decode()
    for label, wanted in case.wanted:
        told = {
            "message": first.message, "label": first.label, "help": first.help,
            "diagnostics": str(len(faults)),
        }
        if label in ("refused", "diagnostic") or label.startswith("diagnostic "):
            if wanted is None:
                continue
            at = int(label[11:]) - 1 if label != "refused" else 0
            assert as_line(faults[at]).startswith(wanted), (case.place, faults[at], wanted)
        elif label in ("no label", "no help"):
            assert told[label[3:]] is None, case
        elif label in told and (label in ("message", "diagnostics") or case.call == "document"):
            assert told[label] == wanted, (case.place, label, told[label], wanted)
        else:
            continue
        found += 1
    return found


def document_holds(case):
    text = case.text.encode()
    kind = rows.kind_of(case)
    try:
        document = Document.parse(case.text)
    except KdlError as error:
        assert kind != "a", case
        return has_faults(case, error.faults, text)
    assert kind != "r", case
    assert bytes(document) == text, case
    nodes = document.to_nodes()
    found = has_fields(case, nodes)
    for label, wanted in case.wanted:
        if label.startswith("get ") or label == "no get":
            name = wanted if wanted is not None and label == "no get" else label[4:]
            missing = object()
            value = document.get_arg(name, missing)
            assert (value is missing) == (label == "no get"), case
            if value is not missing:
                assert kdl.dumps([Node("a", [value])]) == f"a {wanted}\n", case
            found += 1
        if label in ("fmt", "strip") and not case.is_set:
            laid = Document(text)
            laid.autoformat(comments=label == "fmt")
            assert str(laid) == wanted, (case, str(laid))
            assert label == "strip" or kdl.format_text(text) == wanted, case
            found += 1
    if kind == "a" and len(text) < 10000:
        back = kdl.loads(kdl.dumps(nodes))
        assert repr_of(back) == repr_of(nodes), case
        reads_each(case, document, nodes)
        adds_each(case, nodes)
    return found


def reads_each(case, document, nodes):
    """Each node reads alone as it does among all, and has its text."""
    for path in list(below(nodes).values())[:20]:
        alone, node = document._single(path), nodes.node(path)
        fields = lambda it: (it.name, it.type, it.span, it.children is None, repr(it.entries), [e.span for e in it.entries])
        assert fields(alone) == fields(node), (case, path)
        assert repr_of(kdl.loads(str(document.node(path)))) == repr_of([node]), (case, path)


def adds_each(case, nodes):
    """A node is added to each block, and to each node without one, and nothing else changes."""
    for path in [(), *below(nodes).values()][:4]:
        for text, index in (("z 1", None), ("z 1 // of z", None), ("z 1", 0), ("z 1", -1), ("z 1 // of z", 0)):
            document, wanted = Document(case.text), kdl.loads(case.text)
            parent = wanted.node(path) if path else None
            if parent and parent.children is None:
                parent.children = []
            block = parent.children if parent else wanted
            if index == -1 and not block:
                continue
            added = document.add_node(path, text, index)
            block.insert(len(block) if index is None else index, Node("z", [1]))
            assert repr_of(document.to_nodes()) == repr_of(wanted), (case, path, str(document))
            assert added.args == [1] and text in str(document), (case, path)


def repr_of(nodes):
    """All data of the nodes as one text."""
    document = Document(kdl.dumps(nodes))
    document.autoformat(comments=False)
    return str(document)


def node_holds(case):
    """A node as a text for `insert_node`, and an entry as one for `insert_entry`."""
    document = Document("a")
    try:
        if case.call == "node":
            document.insert_node((), case.text, 0)
        else:
            document.insert_entry("a", case.text)
    except KdlError as error:
        assert rows.kind_of(case) != "a", case
        assert str(document) == "a"
        return has_faults(case, error.faults, case.text.encode())
    assert rows.kind_of(case) != "r", case
    nodes = document.to_nodes()
    assert kdl.loads(str(document)) == nodes or "nan" in str(document), case
    return has_fields(case, nodes, "1 " if case.call == "node" else "1 entry 1 ")


def all_rows():
    """Tries each row that the module can try. The rows that say only whether a text is accepted are
    tried only in C."""
    found = {"document": 0, "node": 0, "entry": 0}
    for case in rows.cases():
        if case.call == "document" and {it for it, _ in case.wanted} - {"accepted", "refused"}:
            found["document"] += document_holds(case)
        elif case.call in ("node", "entry"):
            found[case.call] += node_holds(case)
    assert found["document"] > 5000 and found["node"] > 300 and found["entry"] > 500, found


def examples():
    for path in rows.examples():
        text = path.read_bytes()
        document = Document.parse(text)
        assert bytes(document) == text, path
        nodes = document.to_nodes()
        document.autoformat(comments=False)
        strip = bytes(document)
        assert repr_of(nodes).encode() == strip and repr_of(document.nodes).encode() == strip, path
        assert kdl.loads(kdl.format_text(text)) == document.nodes or b"#nan" in text, path


def errors():
    text = 'name "web\nport #treu\nlimits {\n    cpu 0x\n'
    error = raises(KdlError, Document.parse, text)
    assert [it[:5] for it in error.faults] == [
        (5, 9, 1, 6, "Unexpected newline in single-line quoted string"),
        (15, 20, 2, 6, "Expected keyword"),
        (38, 40, 4, 9, "Expected hexadecimal number"),
        (28, 29, 3, 8, "No closing '}' for child block"),
    ], error.faults
    assert str(error).startswith("1:6: Unexpected newline") and error.faults[0].label
    assert pickle.loads(pickle.dumps(error)).faults == error.faults
    assert isinstance(error, ValueError)
    document = Document("a 1")
    for call, given, start in ((document.insert_entry, ("a", "b c"), 1), (document.insert_node, ((), "b; c"), 1),
                               (document.set_spelling, ("a", 0, "k=1"), 0), (document.set_spelling, ("a", 0, ""), 0),
                               (document.set_spelling, ("a", 0, "/*x*/0"), 0), (document.set_spelling, ("a", 0, "0 "), 0)):
        fault = raises(KdlError, call, *given).faults[0]
        assert fault.line == 1 and fault.column == fault.start + 1 >= start + 1 and fault.message, fault
    assert str(document) == "a 1"
    raises(UnicodeDecodeError, kdl.faults, b"\xc3")
    for call in (Document, Document.parse, kdl.loads, kdl.format_text, kdl.faults):
        assert raises(UnicodeDecodeError, call, b"a \xff").start == 2
        raises(UnicodeEncodeError, call, "a \ud800")
    many = kdl.faults("é }\r\n" * 3000)
    assert len(many) == 3000 and many[-1][2:4] == (3000, 3), many[-1]
    with Document("a") as closed:
        pass
    closed.close()
    for call in (str, bytes, len, Document.autoformat, Document.format, Document.strip, Document.to_nodes, list,
                 lambda it: it.get_arg("a"), lambda it: it.find("a"), lambda it: it.query("a"),
                 lambda it: it.set_name(0, "b"), lambda it: it.insert_node((), "a"), lambda it: it.add_node((), "a")):
        assert "closed" in str(raises(ValueError, call, closed))


# The command line


def ran(*words, program=None):
    """Runs `python -m kdl` with that program `kdl`, or none."""
    environment = {**os.environ, "PYTHONPATH": str(HERE), "PATH": "/nowhere", "KDL": program or ""}
    it = subprocess.run([sys.executable, "-m", "kdl", *words], capture_output=True, env=environment)
    return it.returncode, it.stdout.decode(), it.stderr.decode()


def command_line():
    """`python -m kdl` is the program `kdl`, or says that there is none."""
    with tempfile.TemporaryDirectory() as room:
        program = pathlib.Path(room) / "kdl"
        program.write_text("#!/bin/sh\nfor it; do echo \"<$it>\"; done\nexit 5\n")
        assert ran("fmt", "a b", "--help", program=str(program))[0] == 3  # it may not be run
        program.chmod(0o755)
        assert ran("fmt", "a b", "--help", program=str(program)) == (5, "<fmt>\n<a b>\n<--help>\n", "")
        status, out, err = ran("fmt", "--check", "a.kdl")
        assert (status, out) == (3, "") and "install" in err, err
        environment = {**os.environ, "PYTHONPATH": str(HERE), "PATH": room + ":" + os.environ["PATH"]}
        environment.pop("KDL", None)
        it = subprocess.run([sys.executable, "-m", "kdl", "x"], capture_output=True, env=environment)
        assert (it.returncode, it.stdout) == (5, b"<x>\n")
    built = HERE.parent.parent / "crates/kdl_cli/out/kdl_cli"
    if os.access(built, os.X_OK):
        with tempfile.TemporaryDirectory() as room:
            path = pathlib.Path(room) / "a.kdl"
            path.write_text("a   1")
            assert ran("fmt", "--check", str(path), program=str(built))[0] == 1
            path.write_text("a 1\n")
            assert ran("fmt", "--check", str(path), program=str(built)) == (0, "", "")


# What is said of it


def public(of, name):
    """The public functions and methods, with their names."""
    for key, it in vars(of).items():
        it = it.fget if isinstance(it, property) else getattr(it, "__func__", it)
        if key.startswith("_") and key not in ("__init__", "__getitem__", "__setitem__", "__contains__"):
            continue
        if inspect.isfunction(it):
            yield f"{name}.{key}", it


def signatures():
    """Each public function has a docstring, and a type for each parameter and its result."""
    functions = [(it, getattr(kdl, it)) for it in kdl.__all__ if inspect.isfunction(getattr(kdl, it))]
    classes = [getattr(kdl, it) for it in kdl.__all__ if inspect.isclass(getattr(kdl, it))]
    for of in classes:
        assert of.__doc__ and of.__module__ == "kdl", of
        functions += public(of, of.__name__)
    assert len(functions) > 80, len(functions)
    for name, it in functions:
        inspected = inspect.signature(it)
        names = [key for key in inspected.parameters if key not in ("self", "cls")]
        assert {*names, "return"} <= {*it.__annotations__}, name
        typing.get_type_hints(it, {**vars(kdl._library), **vars(kdl._views), **vars(kdl._document), **vars(kdl._data), **vars(kdl._files)})
        is_named = name.split(".")[-1].startswith("__") or name.split(".")[-1] == "insert"
        assert it.__doc__ or is_named, name
    assert (HERE / "kdl" / "py.typed").exists() and re.fullmatch("[0-9.]+", kdl.__version__)
    assert f'version = "{kdl.__version__}"' in (HERE / "pyproject.toml").read_text()


def doctests():
    """The examples of the docstrings hold."""
    finder, runner = doctest.DocTestFinder(), doctest.DocTestRunner()
    for test in finder.find(kdl, "kdl", module=False, globs=dict(vars(kdl))):
        runner.run(test)
    assert runner.failures == 0 and runner.tries > 100, (runner.failures, runner.tries)


TESTS = (*test_data.TESTS, *test_document.TESTS, errors, examples, signatures, doctests, command_line, all_rows)

if __name__ == "__main__":
    for test in TESTS:
        if not sys.argv[1:] or test.__name__ in sys.argv[1:]:
            test()
