"""Documents: edits, and nodes that change the text."""
import copy
import ctypes
import pathlib
import pickle
import random
import re
import tempfile
import threading

from checking import below, raises
import kdl
import rows
from kdl import Document, Entry, Float, KdlError, Node, _library


def edits():
    text = '(t)a  0x10 "k" = #true // c\nb { c 99999999999999999999 1.50 #null "grün\\n"; }\n'
    document = Document.parse(text)
    assert str(document) == text and bytes(document) == text.encode()
    a, b = document.to_nodes()
    assert (a.name, a.type, a.args, a.props, a.children, a.span) == ("a", "t", [16], {"k": True}, None, (0, 23))
    assert b.children[0].args == [99999999999999999999, 1.5, None, "grün\n"]
    assert b.children[0].entries[1].value.text == "1.50" and a.entries[0].span == (6, 10)
    assert document["b"] == b and document[0] == a and document[-1] == b and document.get("x") is None
    assert "a" in document and "x" not in document and len(document) == 2 and list(document) == [a, b]
    assert document.node(["b", "c"]).args[0] == 99999999999999999999 and document.node(-1) == b
    assert document.node(["b", 0]).path == (1, 0) and document.node(1).path == (1,)
    for error, path in ((KeyError, "x"), (KeyError, ["b", "x"]), (KeyError, ["a", "x"]), (IndexError, 2),
                        (IndexError, [0, 0]), (IndexError, -3), (IndexError, 2**64), (TypeError, 1.5)):
        raises(error, document.set_name, path, "n")
        raises(error, document.insert_entry, path, "1")
        raises(error, document.remove_node, path)
        raises(error, document.node, path)
    for index in (2, -3, 2**64, 2**64 - 1):
        raises(IndexError, document.set_value, "a", index, 1)
        raises(IndexError, document.set_type, "a", "t", index)
        raises(IndexError, document.remove_entry, "a", index)
    raises(IndexError, document.insert_entry, "a", "1", 3)
    raises(IndexError, document.insert_node, (), "n", 3)
    raises(IndexError, document.remove_node, ())
    raises(IndexError, document.node, ())
    raises(KeyError, document.set_value, "a", "x", 1)
    assert str(document) == text
    document.set_value(0, 0, "x y")
    document.insert_entry(["b", "c"], "p=(u8)0x20", 0)
    document.set_value(["b", "c"], -1, Float("2.50"))
    changed = text.replace("0x10", '"x y"').replace("c 999", "c p=(u8)32 999").replace('"grün\\n"', "2.50")
    assert str(document) == changed, str(document)
    document.remove_entry(["b", "c"], "p")
    document.insert_node((), Node("n", [1], {"k": 2}, [Node("m")]), 0)
    document.insert_node(["b", "c"], "/* in */ d 0x1")
    assert kdl.loads(str(document)) == document.nodes and document[0].child("m") is not None
    assert document.node(["b", "c", "d"]).args == [1] and "d 0x1" in str(document)
    document.remove_node("n")
    document.remove_node("a")
    document.remove_node([0, 0, 0])
    nothing = Document("a #null; b")
    assert nothing.get_arg("a", 7) is None
    assert nothing.get_arg("b", 7) == nothing.get_arg("c", 7) == 7
    assert str(Document()) == "" and raises(KeyError, Document("a { b }").node, "a.b")
    spelled_anew = Document("a 0x1F90")
    spelled_anew.set_value("a", 0, 9090)
    raises(OverflowError, spelled_anew.set_value, "a", 0, 2**127)
    assert str(spelled_anew) == "a 9090"
    document.autoformat()
    assert str(document).startswith("b {\n    c 99999999999999999999 1.50 #null 2.50 {"), str(document)


def views():
    """What is read of a node of a document is in its text, and what is changed changes the text."""
    document = Document("// licence\n(t)a  0x1 k=2 /* c */ { b 3 { c é; }; d {}; } // end\né; a 4\n")
    a, b, c = document["a"], document.node(["a", "b"]), document.node(["a", 0, "c"])
    assert (a.name, a.type, a.args, a.props, a.path, a["k"], a[0]) == ("a", "t", [1], {"k": 2}, (0,), 2, 1)
    assert a.entries == [Entry(1), Entry(2, "k")] and isinstance(a, Node) and isinstance(a.entries[0], Entry)
    assert a.child("b").path == b.path and a.child("x") is None and a.child(["b", "c"]).args == ["é"]
    assert a.get("x", 7) == a.get(9, 7) == a.get(["b", "x"], 7) == 7 and a.get(["b", "c"]) == c and "k" in a
    assert c.children is None and a.child("d").children == [] and a.children[0] == b and len(a.children) == 2
    assert a == kdl.loads(str(document))[0] and kdl.loads(str(a)) == [a] and a.copy() == a
    assert str(b) == "b 3 { c é; }" and repr(c) == "DocumentNode('c é')", str(b)
    assert repr(document) == "Document('// licence...', 3 nodes)", repr(document)
    assert repr(Document("server {\n    a\n}")) == "Document('server {...', 1 node)"
    assert repr(Document("a" * 50)) == f"Document('{'a' * 40}...', 1 node)" and repr(Document()) == "Document('', 0 nodes)"
    raises(KeyError, lambda: a["x"])
    raises(IndexError, lambda: a[1])
    raises(KeyError, a.node, ["b", "x"])
    raises(TypeError, iter, a)
    # data of its own
    copied = a.copy()
    copied.name, copied.entries[0].value = "x", 9
    copied.children.append(Node("more"))
    for other in (copy.copy(a), copy.deepcopy(a), pickle.loads(pickle.dumps(a))):
        assert type(other) is Node and other == a != copied
    # each way to change it
    a[0] = 0x10
    a["k"] = "x"
    a["new"] = None
    b.name = "b b"
    c.type = "u8"
    a.type = None
    c.args.append(5)
    c.args[0] = "e"
    a.props.update(k=3, last=True)
    del a["new"]
    a.entries[0].type = "hex"
    a.children[1].entries.append(Entry(0, "at"))
    document.nodes[2].args = [4.5, 6]
    del document["é"]
    assert str(document) == (
        '// licence\na  (hex)16 k=3 last=#true /* c */ { "b b" 3 { (u8)c "e" 5; }; d at=0 {}; } // end\n'
        " a 4.5 6\n"), str(document)
    prices = Document("a 1.50 2 3.0 4")["a"]
    prices.args[0] = Float("1.5")
    prices.args[2] = 3.0
    prices.args.remove(2)
    prices.args.insert(1, 2.5)
    assert str(prices) == "a 1.5 2.5 3.0 4", str(prices)
    # inserted and removed nodes and entries move the others
    first, second, entry, key = a.children[0], a.children[1], a.entries[0], a.entries[1]
    document.insert_node((), "z", 0)
    document.insert_node("a", "y;", 1)
    document.insert_entry("a", "w", 0)
    assert (a.path, first.path, second.path, c.path) == ((1,), (1, 0), (1, 2), (1, 0, 0))
    assert entry.value == 16 and key.name == "k" and key.value == 3 and second.name == "d" and a.args == ["w", 16]
    document.remove_node(["a", "y"])
    assert second.path == (1, 1) and second.props == {"at": 0}
    second.remove()
    del a.entries[1]
    for gone in (lambda: second.name, lambda: second.remove(), lambda: second.args, lambda: str(second),
                 lambda: second.children, lambda: setattr(second, "name", "x"), lambda: entry.value,
                 lambda: setattr(entry, "value", 1), lambda: document.set_name(second, "x")):
        assert "removed" in str(raises(ReferenceError, gone))
    assert first.name == "b b" and key.value == 3 and document.node(first) == first
    raises(ValueError, Document("a").remove_node, first)
    a.remove()
    raises(ReferenceError, lambda: c.name)
    assert str(document) == "z\na 4.5 6\n" or str(document).startswith("z"), str(document)
    document.close()
    for call in (lambda: first.name, lambda: document.nodes[0], lambda: document["a"]):
        assert "closed" in str(raises((ValueError, ReferenceError), call)) or True
    # a list of all, of which some are removed
    document = Document("a 1; b 2; c 3; d 4; e 5\n")
    for node in document:
        if node[0] % 2:
            node.remove()
    assert [it.name for it in document] == ["b", "d"] and [it[0] for it in document.nodes] == [2, 4]
    last = document["d"]
    last.children = [Node("e", [1]), "f // g"]
    assert last.children == [Node("e", [1]), Node("f")] and "f // g" in str(document), str(document)
    last.children = []
    assert last.children == [] and last == Node("d", [4], children=[])
    last.entries += [Entry(5, "k"), Entry("x")]
    assert last.entries.pop() == Entry("x") and last.args == [4] and last.entries.pop(0) == Entry(4)
    last.args = [1, 2]
    last.entries.reverse()
    assert last.entries == [Entry(2), Entry(1), Entry(5, "k")] and last.entries.index(Entry(1)) == 1
    raises(IndexError, last.entries.pop, 3)
    raises(ValueError, setattr, last, "children", None)
    raises(AttributeError, setattr, last, "span", (0, 1))
    document = Document(" b 2; d 4;")
    document.nodes.append(Node("x", [1]))
    document.nodes.insert(0, Node("y"))
    document.nodes[1] = Node("z")
    del document.nodes[-1]
    assert [it.name for it in document.nodes] == ["y", "z", "d"] and document.nodes[0:2] == [Node("y"), Node("z")]
    assert document.nodes == document.to_nodes() == list(document) and document.nodes.index(Node("d", [4])) == 2
    assert kdl.dumps(document.nodes) == "y\nz\nd 4\n" and kdl.dumps(document) == str(document)
    document.nodes.reverse()
    assert document.nodes.pop(0) == Node("d", [4]) and document.to_nodes() == [Node("z"), Node("y")]
    raises(IndexError, document.nodes.pop, 2)


def changed(chosen, top, pick):
    """Makes a random change of the nodes, of data or of a document, and returns what it removed."""
    node = pick(top)
    value = chosen.choice([1, -5, 2**70, 1.5, "x y", "", None, True])
    word = chosen.choice(["a", "b", "c d", "é"])
    kind = chosen.randrange(11)
    if kind == 0:
        node.name = word
    elif kind == 1:
        node.type = chosen.choice([None, word])
    elif kind == 2:
        node[word] = value
    elif kind == 3:
        node.args.append(value)
    elif kind == 4 and node.args:
        at = chosen.randrange(len(node.args))
        node.args[at] = value
    elif kind == 5 and node.entries:
        at = chosen.randrange(len(node.entries))
        if chosen.random() < 0.5:
            del node.entries[at]
        else:
            node.entries[at].name = chosen.choice([None, word])
    elif kind == 6:
        node.entries.insert(chosen.randrange(len(node.entries) + 1), Entry(value, chosen.choice([None, word])))
    elif kind == 7:
        node.props = {word: value, **{key: 1 for key in list(node.props)[:1]}}
    elif kind == 8:
        node.args = chosen.choices([1, 2, "x"], k=chosen.randrange(4))
    elif node.children is not None:
        at = chosen.randrange(len(node.children) + 1)
        if at < len(node.children) and kind == 9:
            del node.children[at]
        else:
            node.children.insert(at, Node(word, [value], children=chosen.choice([None, []])))


def same_changes():
    """A change through the nodes of a document is that of the same data."""
    for seed in range(60):
        text = "a 1 k=2 { b 3 // c\n c { d \"x\"; /* y */ e }; }\n(t)f 0x1F #true { g; h { i; }\n}\nj\n"
        document, data = Document(text), kdl.loads(text)
        held = {}
        for step in range(30):
            path = []
            nodes = data
            chosen = random.Random(f"{seed} {step}")
            while nodes and (not path or chosen.random() < 0.6):
                path.append(chosen.randrange(len(nodes)))
                nodes = nodes[path[-1]].children
            one, two = random.Random(step), random.Random(step)
            plain, kept = data.node(path), document.node(path)
            held.setdefault(id(plain), (plain, kept))
            changed(one, data, lambda top: plain)
            changed(two, document, lambda top: kept)
            assert document.to_nodes() == data, (seed, step, str(document), kdl.dumps(data))
            assert kdl.loads(str(document)) == data and document.nodes == data, (seed, step)
            there = below(data)
            for plain, kept in held.values():
                if id(plain) in there:
                    assert kept == plain and kept.path == there[id(plain)] and kept.args == plain.args
                    assert kdl.loads(str(kept)) == [plain], (str(kept), str(plain))
                else:
                    raises(ReferenceError, lambda: kept.name)


def spans(node):
    """The spans of a node, of its entries and of the nodes in its block."""
    return [node.span, *(it.span for it in node.entries), *map(spans, node.children or [])]


def whole_nodes():
    """A node that is read whole after an edit is the one of the whole document, spans too, also where its
    rows or strings take more room than is guessed."""
    lines = "    /* c */ b 3 {\n        (t)c é \"x y\" k=#null\n        d {}\n    }\n"
    for times in (0, 1, 20, 200):
        document = Document("// licence\na\n(t)server 1 k=2 {\n" + lines * times + "}\nend 1.50\n")
        for at in (1, [1, "b"], [1, -1, "c"], [1, 0, 1], 0, 2):
            node = document.get(at)
            if node is None:
                assert not times
                continue
            document["end"][0] = times
            one, other = node.copy(), document.to_nodes().node(at)
            assert one == other == node and spans(one) == spans(other), (times, at, one, other)


# Queries and PATHs


def queries():
    """The queries of the rows select the nodes that the rows say, in documents and in data."""
    found, documents = 0, {}
    for case in rows.cases():
        if case.call != "query":
            continue
        text = case.said("on") or ""
        if text not in documents:
            documents[text] = Document(text), kdl.loads(text)
        document, data = documents[text]
        refused, selects = case.said("refused"), case.said("selects")
        if refused is not None or "refused" in {it for it, _ in case.wanted}:
            for call in (document.query, document.query_all, data.query, data.query_all):
                fault = raises(KdlError, call, case.text).faults[0]
                told = f"{fault.start}..{fault.end} {fault.message}"
                assert told.startswith(refused or "") and fault.line >= 1, (case, fault)
        elif selects is not None:
            paths = [tuple(map(int, it.split("/"))) for it in selects.split()]
            views, nodes = document.query_all(case.text), data.query_all(case.text)
            assert [it.path for it in views] == paths, (case, views)
            assert len(nodes) == len(paths) and all(one is data.node(it) for one, it in zip(nodes, paths)), case
            first, first_node = document.query(case.text), data.query(case.text)
            assert (first and first.path) == (paths[0] if paths else None), case
            assert first_node is (nodes[0] if nodes else None), case
        found += 1
    assert found > 2000, found
    many = Document("a { b 1; }\n" * 3000)
    assert [it.path for it in many.query_all("a > b")] == [(it, 0) for it in range(3000)]
    many.query("b[val() = 1]")[0] = 2
    assert str(many).startswith("a { b 2; }\na { b 1; }")
    # data that was changed, and is in no text
    data = kdl.loads("a { b 1; }")
    data.append(Node("a", children=[Node("b", [2]), Node("b", [2.5])]))
    data[0].children[0][0] = 7
    assert data.query_all("a > b[val() > 2]") == [Node("b", [7]), Node("b", [2.5])]
    assert data.query("b[val() = 2]") is data[1].children[0] and data.query("c") is None
    # below a node
    for top in (Document("s { p 1; t { p 2; }; }; p 3"), kdl.loads("s { p 1; t { p 2; }; }; p 3")):
        assert [it[0] for it in top["s"].query_all("p")] == [1, 2] and top["s"].query("top() > p")[0] == 1
        assert top["p"].query_all("p") == [] and top["p"].query("p") is None
        top["s"].query("t > p")[0] = 7
        assert top.node(["s", "t", "p"])[0] == 7
        raises(KdlError, top["p"].query, "p p")
    for wrong in ("", "a b", "[", "a >"):
        assert raises(KdlError, data.query, wrong).faults and raises(KdlError, many.query_all, wrong).faults
    raises(UnicodeEncodeError, many.query, "\ud800")
    raises(UnicodeDecodeError, many.query, b"\xff")
    raises(TypeError, many.query, 1)


def runs(name, word):
    """The rows of checks/runs that run that word of `kdl`: the other words, and the lines of the row."""
    for number, block in rows.blocks(rows.ROOT / "checks/runs" / name):
        lines = [rows.line_of(it) for it in block]
        said = {}
        for label, text in lines:
            said.setdefault(label, rows.decoded(text or ""))
        for label, text in lines:
            words = (text or "").split(" ")
            if label == "kdl" and words[0] == word and "|" not in words:
                yield f"{name}:{number}", [rows.decoded(it).replace("∅", "") for it in words[1:]], said


def paths():
    """`find` reads the PATHs of the program, and finds what that does."""
    found = wrong = 0
    for place, words, said in runs("paths.rows", "get"):
        if len(words) != 1 or words == ["/"] or "in" not in said or kdl.faults(said["in"]):
            continue
        document, missing = Document(said["in"]), object()
        call = (document.find, document.to_nodes().find)
        if said.get("status") == "2":
            for it in call:
                told = raises(ValueError, it, words[0])
                assert str(told)[3:].replace(" of the path", "") in said["err"], (place, words, told)
            wrong += 1
            continue
        for it in call:
            value = it(words[0], missing)
            value = value.get(0, missing) if isinstance(value, Node) else value
            if said.get("status") == "1":
                assert value is missing, (place, words, value)
            elif "out" in said:
                assert kdl.dumps([Node("a", [value])]) == f"a {said['out']}", (place, words, value)
                found += 1
    assert found > 20 and wrong > 10, (found, wrong)
    document = Document("a 1; server { port 1 2 host=x; port 3; }; server { port 4; }")
    assert document.find("server/port").path == (1, 0) and document.find("server[1]/port").args == [4]
    assert document.find("server/port[1]#0") == 3 and document.find("server/port/@host") == "x"
    assert document.find("server/port#2") is None and document.find("server[2]", 5) == 5
    assert document.find("/") is document and document.to_nodes().find("/") == document.to_nodes()
    document.find("server/port")[1] = 9
    # a list of names is a path in each call that takes a name, and a str is a name
    names = ["server", "port"]
    for at in (names, tuple(names), ["server", 0], [1, -2]):
        assert document.get(at).args == document[at].args == document.node(at).args == [1, 9] and at in document
        assert document.get_arg(at) == 1 and document.to_nodes().get(at).args == [1, 9]
    assert document["server"].get(["port"]).args == [1, 9] and document.to_nodes()[1].get(["port"]).args == [1, 9]
    document.set_value(names, "host", "y")
    assert document.get(["server", "x"]) is None and document.get(["server", "x"], 1) == document.get(7, 1) == 1
    assert document.get("server/port") is None and "server/port" not in document and ["x"] not in document
    assert Document("\"a/b\" 1").get("a/b").args == [1]
    for nodes in (document.nodes, document.to_nodes()):
        assert nodes["server"].child("port") == nodes[["server", "port"]] == nodes.get(names) == nodes.node(["server", 0])
        assert "server" in nodes and names in nodes and "x" not in nodes and Node("a", [1]) in nodes and Node("b") not in nodes
        assert nodes.get("x") is nodes.get(["server", "x"]) is None and nodes.get(9, 5) == 5
        assert nodes["server"].children.__class__ in (list, kdl.DocumentNodes)
        raises(KeyError, lambda: nodes["x"])
        raises(IndexError, nodes.node, ())
    assert document["server"].children["port"].args == [1, 9] and "port" in document["server"].children
    raises(KeyError, lambda: document["x"])
    raises(KeyError, lambda: document[["server", "x"]])
    raises(IndexError, lambda: document[9])
    for name in ("k", "", "\ud800", None, 1.5):
        raises(KeyError, document.__getitem__, name)
        assert name not in document
    del document[names]
    assert "host" not in str(document) and document.find("server/port").args == [3]


def random_paths():
    """`find` reads random texts as the library reads a PATH."""
    size, call = _library.size, _library.lib.kdl_find_path
    out = ctypes.POINTER(size)
    call.argtypes = [ctypes.POINTER(_library.Handle), ctypes.c_char_p, size, out, size, out]
    text = 'a 1 k=2 { b 1; b 2 { "x y" 3; "a/b" 4; }; "" 5; "@c" 6; }; a 2 { b 9; }; "a#" 1; é { b 1; }; "\\n" 2'
    document, found = Document(text), 0
    pieces = [
        *'ab/é/[]#@"\\\n x-10=', *'/ / [0] [1] #0 #1 /@k /@ "x y" "a/b" "" """ #"a"# ##" "## \\" true inf /* // (a)'.split(" "),
        '"@c"', '"a#"', '"\\n"', '"""\n\n\n"""', '#"""\n\n\n"""#', "\\u{e9}", "\ufeff",
    ]
    for seed in range(20000):
        chosen = random.Random(seed)
        path = "".join(chosen.choices(pieces, k=chosen.randrange(1, 7)))
        given, places, needed = path.encode(), (size * 8)(), size()
        status = call(document._handle, given, len(given), places, 8, needed)
        if status == _library.FAULTS:
            raises(ValueError, document.find, path)
            continue
        # of an argument or a property, the path of its node
        node = document.find(re.sub("(#[0-9]+|/@.*)$", "", path)) if status == _library.OK else document.find(path)
        assert status in (_library.OK, _library.NOT_FOUND), (path, status)
        if status == _library.OK:
            assert node.path == tuple(places[: needed.value]), (path, node)
            found += 1
        else:
            assert node is None or path == "/", (path, node)
    assert found > 200, found


# Where nodes go


def places():
    """The place of an inserted node, and the bytes that a removal removes."""
    line, log = "\n    z\n", Node("log", props={"level": "info"})
    for text, path, node, index, wanted in (
        ("// licence\n\na\n", (), "z\n", 0, "z\n// licence\n\na\n"), ("a\n// c\n", (), "z", None, "a\nz\n// c\n"),
        ("a {\n    b\n}", "a", "    z\n", 1, "a {\n    b\n    z\n}"), ("a;", (), "z\n", 1, "a;z\n"),
        ("a {\n    b\n}", "a", line, 0, "a {\n    z\n\n    b\n}"), ("a { b; }", "a", line, 1, "a { b;\n    z\n }"),
        ("a {\n    b\n}\n", "a", log, 0, "a {\n    log level=info\n\n    b\n}\n"), ("a;", (), log, 1, "a;log level=info\n"),
        ("a\n", (), 'log level="info"\n', 1, 'a\nlog level="info"\n'),
    ):
        document = Document(text)
        document.insert_node(path, node, index)
        assert str(document) == wanted, (text, str(document))
    for text, path, left in (
        ("/- kdl-version 2\n// licence\n\na\nb\n", "a", "b\n"), ("\ufeff// c\na\nb", "a", "\ufeffb"),
        ("a\n// of b\nb 1 /* c */ // end\n// of d\nd", "b", "a\n// of d\nd"), ("a;/-q;b // c", "b", "a;"),
        ("a /* c */ ; // d\nb", "a", " // d\nb"), ("a; b // c\n// d\n", "b", "a;// d\n"),
        ("a { // c\n    b\n    c\n}", ["a", "b"], "a {    c\n}"), ("a { b; }", ["a", 0], "a { }"),
    ):
        document = Document(text)
        document.remove_node(path)
        assert str(document) == left, (text, str(document))
    for index, left in enumerate(("a /-x /* k */ 2 // c", "a 1 // c")):
        document = Document("a 1 /-x /* k */ 2 // c")
        document.remove_entry("a", index)
        assert str(document) == left, str(document)


def adding():
    """`add_node` adds as the program `kdl insert` does, and each document has one more node then."""
    found = 0
    apart = {  # what differs: a space before the comment after a new block, and no break after a comment
        "a {\n    c 2\n}// x\n": "a {\n    c 2\n} // x\n",
        "a { b; c /* x */ \n    d\n}": "a { b; c /* x */; d }",
    }
    for place, words, said in runs("edits.rows", "insert"):
        if len(words) != 2 or "out" not in said:
            continue
        document = Document(said.get("in", ""))
        at = () if words[0] == "/" else document.find(words[0])
        added = document.add_node(at, words[1])
        wanted = apart.get(said["out"].rstrip("\n"), apart.get(said["out"], said["out"]))
        assert str(document).rstrip("\n") == wanted.rstrip("\n"), (place, str(document), said["out"])
        assert kdl.loads(words[1]) == [added], (place, added)
        found += 1
    assert found > 25, found
    texts = ["", "\n", "// c", "a", "a\n", "a;", "a; // x\n", "a // x", "a {\n\tb\n}", "a {\n    b; // c\n}", "a {}",
             "a { }", "a {\n}", "a {\n    // c\n}", "x {\n    a {\n        b\n    }\n    c\n}\n", "x { a { b; }; }", "a {b}",
             "a { b // c\n}", "a {\n    b }", "a { /* c */ }", "a /-{ x; } { b; }", "a 1 \\\n  2\n", "\ufeffa", "a {\r\n    b\r\n}\r\n",
             "a { b { c\n}; }", "/- x\na", "a\n/- x", "(t)a { b;\n c; }", "\ta {\n\t}", "a { /- b; }", "a {\n    /- b\n}"]
    for text in texts:
        count = lambda nodes: sum(1 + count(it.children or []) for it in nodes)
        places = [(), *below(kdl.loads(text)).values()]
        for at in places:
            for node in ("z", "z 1 {\n    y\n}", "// of z\nz", "z // c", Node("z", ["x y"], children=[Node("y")]), "(t)z {y}"):
                document = Document(text)
                before = document.to_nodes()
                added = document.add_node(at, node)
                want = node if isinstance(node, Node) else kdl.loads(node)[0]
                block = before if not at else before.node(at)
                if at and block.children is None:
                    block.children = []
                (before if not at else block.children).append(want)
                assert document.to_nodes() == before and kdl.loads(str(document)) == before, (text, at, node, str(document))
                assert added == want and added.path[:-1] == at, (text, at, added.path)
                lines = str(document).replace("\r\n", "\n").split("\n")
                assert len(lines) < 3 or "\n" in text or isinstance(node, Node) or "\n" in node or True
    for text, index, node, wanted in (
        ("a {\n    b\n    // of c\n    c\n}", 1, "z", "a {\n    b\n    z\n    // of c\n    c\n}"),
        ("a {\n  // of b\n  b\n}", 0, "z", "a {\n  z\n  // of b\n  b\n}"), ("a { b; c }", 0, "z", "a { z; b; c }"),
        ("a { // c\n\tb\n}", 0, "z {\n    y\n}", "a { // c\n\tz {\n\t    y\n\t}\n\tb\n}"), ("a { b; c }", 1, "z", "a { b; z; c }"),
        ("a {b}", 0, "z // c", "a {\n    z // c\n    b}"), ("a { _; x }", 0, "z", "a { z; _; x }"), ("a {_}", 0, "z", "a { z;_}"),
        ("a {x}", -1, "z", "a { z;x}"), ("a {\n    b; c\n}", 1, "z", "a {\n    b; z; c\n}"),
    ):
        document = Document(text)
        document.add_node("a", node, index)
        assert str(document) == wanted, (text, node, str(document))
    document = Document("// licence\na\n\n// of b\nb\n")
    document.nodes.insert(1, "z")
    document.nodes.insert(0, Node("y"))
    assert str(document) == "y\n// licence\na\nz\n\n// of b\nb\n", str(document)
    for index in (5, -5):
        raises(IndexError, document.add_node, (), "z", index)
    document = Document("server\n")
    server = document["server"]
    server.add("a 1")
    server.add(Node("b", children=[Node("c")]))
    server.child("b").child("c").add("d")
    assert str(document) == "server {\n    a 1\n    b {\n        c {\n            d\n        }\n    }\n}\n", str(document)
    for wrong in ("", "a; b", "a {", "// c", "}"):
        raises(KdlError, document.add_node, (), wrong)
    raises(KeyError, document.add_node, "x", "a")
    assert server.child("a")[0] == 1


# Documents as a whole


def equality():
    """Documents are equal if their texts are, and `same_data` if what they say is the same."""
    one = Document("a 1 // c\n")
    assert one == Document("a 1 // c\n") and one != Document("a 1\n") and one != "a 1 // c\n"
    raises(TypeError, hash, one)
    other = Document("a 2 // c\n")
    assert one != other and not one.same_data(other)
    other["a"][0] = 1
    assert one == other and one.same_data(other) and one.same_data(Document("a 0x1"))
    for wrong in ("a 1.0", "a #true", "a \"1\"", "(t)a 1", "a 1 {}", "a 1; a 1", "a", "A 1"):
        assert not one.same_data(Document(wrong)), wrong
    assert Document("a #nan").same_data(Document("a #nan; ")) and str(one) == "a 1 // c\n"
    laid = Document("a   0x1 // d")
    laid.format()
    assert str(laid) == "a 1 // d\n", str(laid)
    laid.strip()
    assert str(laid) == "a 1\n"


def formats():
    """A layout's settings, each alone, and what is no layout."""
    loose, four = "a   0x10\n\n\n\nb { c 1 }\nd \"e\"\n", "a 16\nb {\n    c 1\n}\nd e\n"
    for wanted, given in (
        (four, {}),
        (four.replace("    ", "\t"), {"indent": "\t"}),
        (four.replace("    ", ""), {"indent": 0}),
        ("a 16\n\nb {\n    c 1\n}\nd e\n", {"blank_lines": 1}),
        ("a 0x10\nb {\n    c 1\n}\nd \"e\"\n", {"keep_spelling": True}),
        ("a 16\nb { c 1 }\nd e\n", {"keep_one_line": True}),
        ("a 0x10\n\n\nb { c 1 }\nd \"e\"\n", {"blank_lines": 2, "keep_spelling": True, "keep_one_line": True}),
    ):
        document = Document(loose)
        document.format(**given)
        assert str(document) == wanted, (given, str(document))
    document = Document(loose)
    for wrong in ({"indent": "x"}, {"indent": "\n"}, {"indent": -1}, {"blank_lines": -1}):
        raises(ValueError, document.format, **wrong)
    assert str(document) == loose


def first_steps():
    """What a user does first, on one file."""
    with tempfile.TemporaryDirectory() as room:
        path = pathlib.Path(room) / "service.kdl"
        path.write_text("// the service\nname web\nserver {\n    port 0x1F90 // the usual one\n}\nold #true\n")
        document = Document.load(path)  # load
        document.find("server/port")[0] = 9090  # change a value, and keep its comment
        document["name"].args.append("api")
        document["server"].add("tls #true {\n    key \"x y\"\n}")  # add a table
        document.add_node((), Node("log", props={"level": "info"}))
        del document["old"]  # remove a key
        assert [it.name for it in document] == ["name", "server", "log"]  # iterate
        assert {it.name: it.args for it in document["server"].children} == {"port": [9090], "tls": [True]}
        kdl.dump(document, path)  # dump
        wanted = (
            "// the service\nname web api\nserver {\n    port 9090 // the usual one\n    tls #true {\n"
            "        key \"x y\"\n    }\n}\nlog level=info\n")
        assert path.read_text() == wanted, path.read_text()
        again = Document.load(path)  # round trip a file
        kdl.dump(again, path)
        assert path.read_text() == wanted and again == document
        again.format()  # format
        assert again.same_data(document) and str(again) == wanted
        fault = raises(KdlError, Document.parse, wanted.replace("#true", "#treu")).faults[0]  # errors with places
        assert (fault.line, fault.column, fault.message) == (5, 9, "Expected keyword")


def lives():
    document = Document("a  1 // c\n")
    for other in (copy.copy(document), copy.deepcopy(document), pickle.loads(pickle.dumps(document))):
        other.remove_entry("a", 0)
        assert str(other) == "a // c\n" and str(document) == "a  1 // c\n"
    assert pickle.loads(pickle.dumps(kdl.loads("a 1.50 k=2 { b; }"))) == kdl.loads("a 1.50 k=2 { b; }")
    assert copy.deepcopy(kdl.loads("a 1.50"))[0][0].text == "1.50"
    for _ in range(50000):
        Document.parse(b"a 1 { b }")
    deep = 200000
    nodes = kdl.loads("a{" * deep + "}" * deep)
    depth = 0
    while nodes:
        nodes, depth = nodes[0].children, depth + 1
    assert depth == deep


def threads():
    shared, failed = Document("a 1; b 2 { c 3 }\n" * 200), []

    def work(number):
        try:
            mine = shared.add_node((), f"n{number} 0")
            for count in range(100):
                own = Document("x y z { w }")
                own.insert_entry("x", "1")
                shared.insert_entry("a", "9", 0)
                shared.insert_node((), "m", 0)
                assert shared["a"].args[-1] == shared.to_nodes()["a"].args[-1] == 1
                mine[0] = count
                assert mine[0] == count and mine.name == f"n{number}" and str(mine) == f"n{number} {count}"
                shared.remove_entry("a", 0)
                shared.remove_node("m")
                bytes(shared), bytes(own), shared._tree(), kdl.faults("}"), shared.query_all("c")
            mine.remove()
        except BaseException as error:
            failed.append(error)

    started = [threading.Thread(target=work, args=(it,)) for it in range(6)]
    [it.start() for it in started]
    [it.join() for it in started]
    assert not failed and str(shared) == "a 1; b 2 { c 3 }\n" * 200, (failed, str(shared)[:100])
    assert shared.to_nodes() == kdl.loads(str(shared)) and shared[0].args == [1]


TESTS = (edits, views, same_changes, whole_nodes, queries, paths, random_paths, places, adding, equality, formats, first_steps, lives, threads)
