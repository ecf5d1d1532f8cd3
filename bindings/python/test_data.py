"""The nodes that `loads` gives, plain data, and files."""
import copy
import io
import os
import pathlib
import pickle
import random
import tempfile
from collections.abc import Sequence

from checking import raises
import kdl
from kdl import Document, Entry, Float, KdlError, Node


def data():
    odd = "".join(map(chr, [*range(1, 0x250), 0x2028, 0xFEFF, 0x202E, 0x1F600]))
    nodes = [
        Node("a b", [odd, "", "true", "1"], {"#x": -3, odd: None}, []),
        Node("", type="", entries=[Entry(2**127 - 1, type=odd), Entry(-(2**127), "k"), Entry("\0")]),
        Node("f", [1.0, 1e300, -0.0, 5e-324, Float("1.500"), 0.1, float("inf"), float("-inf")]),
    ]
    assert kdl.loads(kdl.dumps(nodes)) == nodes
    assert kdl.loads(kdl.dumps([Node("n", [float("nan")])]))[0][0].text == "#nan"
    assert kdl.loads(kdl.dumps([])) == [] and kdl.loads("") == []
    raises(OverflowError, kdl.dumps, [Node("a", [2**127])])
    raises(TypeError, kdl.dumps, [Node("a", [b"bytes"])])
    raises(TypeError, kdl.dumps, [Node(1)])
    raises(TypeError, kdl.loads, 1)
    raises(UnicodeEncodeError, kdl.loads, "\ud800")
    node = kdl.loads("(t)n 1 k=2 k=3 2 { c 4; c 5; }")[0]
    assert (node.type, node.args, node.props, node.span) == ("t", [1, 2], {"k": 3}, (0, 30))
    assert node["k"] == 3 and node[1] == 2 and node[-1] == 2 and node.get("x", 7) == node.get(5, 7) == 7
    assert node.child("c").args == [4] and node.child("d") is None and node.child("c").child("d") is None
    # a node is not a list of nodes, and a text is not a list of values
    for given in (node, Node("a")):
        raises(TypeError, iter, given)
        raises(TypeError, kdl.dumps, given)
        raises(TypeError, Node, "a", children=given)
    for given in ("xyz", "", b"xyz", bytearray(b"xyz")):
        raises(TypeError, Node, "a", given)
    combined = Node("a", (it for it in (2, 3)), {"k": 4}, entries=[Entry(0, "j"), Entry(1)])
    assert kdl.dumps([combined]) == "a j=0 1 2 3 k=4\n"
    raises(IndexError, lambda: node[2])
    raises(KeyError, lambda: node["x"])
    same = lambda one, two: kdl.loads(one) == kdl.loads(two)
    assert same("a 1 { b; }", "a 0x1 {b}") and not same("a 1", "a 1.0") and not same("a", "a {}")
    assert not same("a 1", "a #true") and not same("a { b; }", "a { b {}; }") and same("a {}", "a { }")


def floats():
    """A `Float` is what the library reads as a float, and keeps its value and its text."""
    kept = "1.5 +1.5 -0.0 00.5 1e5 1E-5 1e+5 1.5e10 1e400 #inf #-inf #nan".split()
    for text in (*kept, "1_0.5_0", "1.5_", "1_.5", "1__0.5e1_0_", "1_e5"):
        read, = kdl.loads(f"a {text}")[0].args
        for given in (Float(text), pickle.loads(pickle.dumps(Float(text)))):
            assert type(read) is Float and repr(read) == repr(given) and given.text == text, text
        assert read.text == text.replace("_", ""), text
        back, = kdl.loads(kdl.dumps([Node("a", [Float(text)])]))[0].args
        assert type(back) is Float and repr(back) == repr(read), text
        document = Document("a 1 // c")
        document.set_value("a", 0, Float(text))
        assert str(document) == f"a {text} // c"
    wrong = (
        "1 -1 1_0 1. .5 -.5 1._5 1e 1e_5 1.5e 1.e5 _1.5 +-1.5 0x1.5 1,5 inf -inf nan Infinity #+inf #-nan ##inf "
        "#true \u0663.5 1.\u0663 1.5e\u0663 \uff11.5 \u22121.5"
    )
    for text in wrong.split():
        raises(ValueError, Float, text)
        told = [] if kdl.faults(f"a {text}") else kdl.loads(f"a {text}")[0].args
        assert not any(isinstance(it, float) for it in told), text
    for text in ("", " 1.5", "1.5 ", "1.5\n", "1.5 2", "\n#inf", "1.5;", "1.5//"):
        raises(ValueError, Float, text)
    for given in (1, 1.5, b"1.5", None):
        raises(TypeError, Float, given)


def sequences():
    """The nodes of `loads` and `to_nodes` are lists of data of their own."""
    text = "a 1; b { c; }; a 2; d"
    document, want = Document(text), [Node("a", [1]), Node("b", children=[Node("c")]), Node("a", [2]), Node("d")]
    for made in (document.to_nodes, lambda: kdl.loads(text)):
        assert len(made()) == 4 and made() and isinstance(made(), Sequence)
        assert made() == want and want == made() and made() == made() and not made() != want
        assert made() != want[1:] and made() != tuple(want) and made() != [1] and repr(made()) == repr(want)
        assert [made()[it] for it in range(-4, 4)] == want * 2 and [*reversed(made())] == want[::-1]
        for part in (slice(1, 3), slice(None), slice(-1, None), slice(None, None, -2), slice(9, 12)):
            assert type(made()[part]) is list and made()[part] == want[part]
        assert want[2] in made() and Node("a") not in made()
        assert made().index(want[3]) == 3 and made().count(want[0]) == 1
        for index in (4, -5, 2**64):
            raises(IndexError, made().__getitem__, index)
        for wrong in (1.0, None):
            raises(TypeError, made().__getitem__, wrong)
        raises(KeyError, made().__getitem__, "x")
        assert made()["b"].children == [Node("c")] and made()[["b", "c"]] == Node("c") and "x" not in made()
        raises(TypeError, hash, made())
        for other in (copy.copy(made()), copy.deepcopy(made()), pickle.loads(pickle.dumps(made()))):
            assert other == want
        nodes = made()
        nodes[1:3] = [Node("x")]
        nodes.insert(0, nodes.pop())
        nodes += [Node("y")]
        nodes[1].children = [Node("z")]
        assert kdl.dumps(nodes) == "d\na 1 {\n    z\n}\nx\ny\n" and str(document) == text
    # each call gives nodes of its own, which are the same ones for each way to access them
    nodes, others = document.to_nodes(), document.to_nodes()
    nodes[1].name = "changed"
    assert nodes[1] is [*nodes][1] is nodes[1:][0] and nodes[1].name == "changed"
    assert nodes[1].children is nodes[1].children and nodes[0].entries is nodes[0].entries
    assert others == want and nodes != want and kdl.dumps(nodes).startswith("a 1\nchanged {")
    document.remove_node(0)
    document.insert_node((), "e")
    assert others == want and others[3].name == "d" and document.nodes[3].name == "e"
    empty = kdl.loads("// c\n")
    assert len(empty) == 0 and not empty and empty == [] and [*empty] == empty[:] == []
    spans = lambda nodes: [(it.span, [e.span for e in it.entries], spans(it.children or ())) for it in nodes]
    assert spans(kdl.loads("(t)é 1 k=2 { b; }")) == [((0, 18), [(6, 7), (8, 11)], [((14, 15), [], [])])]
    # accessing each node by its index takes no more than one pass does
    many = Document("a 1 k=2 { b; }\n" * 20000)
    nodes = many.to_nodes()
    assert all(nodes[it].args == [1] and many.nodes[it].name == "a" for it in range(20000))


def plain_of(chosen, depth):
    """Random plain data."""
    scalars = [None, True, False, 0, -7, 2**100, 1.5, -0.0, 1e300, "", "x y", "-", "#true", "é\n", float("inf")]
    kind = chosen.random()
    if depth == 0 or kind < 0.4:
        return chosen.choice(scalars)
    if kind < 0.7:
        return [plain_of(chosen, depth - 1) for _ in range(chosen.randrange(4))]
    return {name: plain_of(chosen, depth - 1) for name in chosen.sample(["a", "b c", "", "é", "1"], chosen.randrange(4))}


def exact(data):
    """The data as a text that tells 1, 1.0 and true apart."""
    if isinstance(data, dict):
        return "{" + ", ".join(f"{key!r}: {exact(it)}" for key, it in data.items()) + "}"
    if isinstance(data, list):
        return "[" + ", ".join(map(exact, data)) + "]"
    return repr(data)


def plain():
    """Plain data read back as they were."""
    for seed in range(2000):
        chosen = random.Random(seed)
        data = {name: plain_of(chosen, 4) for name in chosen.sample(["a", "b", "x y", "é"], chosen.randrange(4))}
        text = kdl.dumps(data)
        assert exact(kdl.loads(text).to_data()) == exact(Document(text).to_data()) == exact(data), (data, text)
    assert kdl.dumps({"a": 1}) == "a 1\n" and kdl.dumps({}) == "\n" and kdl.loads("").to_data() == {}
    assert kdl.dumps({"a": [{"b": 1}, 2]}) == "a {\n    - {\n        b 1\n    }\n    - 2\n}\n"
    for wrong in ({"a": {1}}, {"a": (1, 2)}, {1: 2}, {"a": b"x"}, {"a": {"b": [1, object()]}}, {"a": Node("x")}, 5, None, "a", b"a", object()):
        raises(TypeError, kdl.dumps, wrong)
    assert "at a/b[1]: object is not None" in str(raises(TypeError, kdl.dumps, {"a": {"b": [1, object()]}}))
    raises(ValueError, kdl.dumps, {"-": 1})
    raises(OverflowError, kdl.dumps, {"a": [2**127]})
    for text in ("a; a", "a k=1", "(t)a 1", "a (t)1", "a 1 {}", "a { b; b; }", "- 1", "a { - 1; b 2; }"):
        told = raises(ValueError, kdl.loads(text).to_data)
        assert str(told).startswith("no plain data: "), told
    assert kdl.loads("a { b 1; }")[0].to_data() == {"b": 1} and Document("a 1 2")["a"].to_data() == [1, 2]


def files():
    """`load` and `dump` take paths, and files that are open for text or bytes."""
    with tempfile.TemporaryDirectory() as room:
        path = pathlib.Path(room) / "a.kdl"
        text = "a  0x1 // é\r\nb\n"
        path.write_bytes(text.encode())
        os.chmod(path, 0o640)
        for file in (path, str(path), io.BytesIO(text.encode()), io.StringIO(text)):
            assert kdl.load(file) == [Node("a", [1]), Node("b")]
        with open(path, newline="", encoding="utf-8") as file:
            document = Document.load(file)
        assert str(document) == text
        document["a"][0] = 2
        kdl.dump(document, path)
        assert path.read_bytes() == text.replace("0x1", "2").encode() == bytes(Document.load(str(path)))
        assert path.stat().st_mode & 0o777 == 0o640 and os.listdir(room) == ["a.kdl"]
        for data, want in (({"a": "é"}, "a é\n"), ([Node("b", [1])], "b 1\n"), (kdl.load(path), "a 2\nb\n")):
            one, two = io.StringIO(), io.BytesIO()
            kdl.dump(data, one)
            kdl.dump(data, two)
            kdl.dump(data, str(path))
            assert one.getvalue() == want and two.getvalue() == want.encode() == path.read_bytes()
        with open(path, "w", encoding="utf-8") as file:
            kdl.dump({"a": 1}, file)
        with open(path, "ab") as file:
            kdl.dump({"b": 2}, file)
        assert path.read_text() == "a 1\nb 2\n"
        raises(FileNotFoundError, kdl.load, path.with_name("none.kdl"))
        raises(TypeError, kdl.dump, {"a": {1}}, path)
        kdl.dump({"a": 1}, path.with_name("new.kdl"))
        os.symlink("a.kdl", path.with_name("link.kdl"))
        kdl.dump({"c": 1}, path.with_name("link.kdl"))
        assert path.read_text() == "c 1\n" and path.with_name("link.kdl").is_symlink()
        path.write_bytes(b"a 1\nb #treu\n\xff")
        raises(UnicodeDecodeError, kdl.load, path)
        path.write_bytes(b"a 1\nb #treu\n")
        assert raises(KdlError, Document.load, path).faults[0].line == 2


TESTS = (data, floats, sequences, plain, files)
