"""How long `loads` and `dumps` take beside `json` and `tomllib`, on one document of about 1 MB in
each language; and each call in C, where a program of bindings/c/speed.c is named.

    python3 speed.py [PROGRAM]
"""
import json
import pathlib
import random
import subprocess
import sys
import tempfile
import time

import kdl

try:
    import tomllib
except ImportError:
    tomllib = None


def records(count):
    """The same data as objects for `json`, as nodes, and as a text in TOML."""
    chosen = random.Random(1)
    word = lambda: "".join(chosen.choices("abcdefghijklmnopqrstuvwxyz", k=chosen.randint(3, 9)))
    objects, nodes, toml = [], [], []
    for _ in range(count):
        it = {
            "name": word(), "host": f"{word()}.{word()}.example", "port": chosen.randint(1, 65535),
            "weight": chosen.randint(1, 999) / 8, "enabled": chosen.random() < 0.5,
            "tags": [word() for _ in range(chosen.randint(1, 5))],
            "limits": {"cpu": chosen.randint(1, 64), "memory": chosen.randint(1, 10**6)},
        }
        objects.append(it)
        fields = [kdl.Node(key, [it[key]]) for key in ("host", "port", "weight", "enabled")]
        fields += [kdl.Node("tags", it["tags"]), kdl.Node("limits", (), it["limits"])]
        nodes.append(kdl.Node("server", [it["name"]], None, fields))
        toml.append("[[server]]\n" + "".join(f"{key} = {json.dumps(it[key])}\n" for key in list(it)[:6]))
        toml.append("limits = {{ cpu = {cpu}, memory = {memory} }}\n".format(**it["limits"]))
    return {"server": objects}, nodes, "".join(toml)


def least(call, runs=9):
    times = []
    for _ in range(runs):
        begun = time.process_time()
        call()
        times.append(time.process_time() - begun)
    return min(times)


def edited(document):
    """Reads and sets a value of each record, and finds some by a query."""
    for server in document:
        port = server.child("port")
        port[0] = port[0] + 1


def edited_once(document):
    """Sets a value of a record, and reads the record whole."""
    document[0].child("port")[0] = 8081
    return document[0].copy()


def main():
    objects, nodes, toml = records(7500)
    text, as_json = kdl.dumps(nodes), json.dumps(objects, indent=4)
    assert kdl.loads(text) == nodes and json.loads(as_json) == objects
    document = kdl.Document(text)
    base = {"loads": least(lambda: json.loads(as_json)), "dumps": least(lambda: json.dumps(objects))}
    rows = [
        ("json.loads", "loads", len(as_json), base["loads"]),
        ("kdl.loads", "loads", len(text), least(lambda: kdl.loads(text))),
        ("  of each node", "loads", len(text), least(lambda: list(kdl.loads(text)))),
        ("json.dumps", "dumps", len(json.dumps(objects)), base["dumps"]),
        ("  with indent=4", "dumps", len(as_json), least(lambda: json.dumps(objects, indent=4))),
        ("kdl.dumps", "dumps", len(text), least(lambda: kdl.dumps(nodes))),
        ("Document.parse", "loads", len(text), least(lambda: kdl.Document(text))),
        ("  7,500 edits", "loads", len(text), least(lambda: edited(document), 1)),
        ("  one, copied", "loads", len(text), least(lambda: edited_once(document))),
        ("kdl.faults", "loads", len(text), least(lambda: kdl.faults(text))),
        ("  a query", "loads", len(text), least(lambda: document.query_all("server >> [val() = 9090]"))),
        ("str(document)", "dumps", len(text), least(lambda: str(document))),
    ]
    if tomllib:
        assert tomllib.loads(toml) == objects
        rows.insert(3, ("tomllib.loads", "loads", len(toml), least(lambda: tomllib.loads(toml), 3)))
    for name, of, size, took in rows:
        print(f"{name:15} {size:8} bytes {took * 1e3:7.1f} ms, {took / base[of]:5.1f} times json.{of}")
    if len(sys.argv) > 1:
        with tempfile.NamedTemporaryFile(suffix=".kdl") as file:
            pathlib.Path(file.name).write_text(text, encoding="utf-8")
            print(subprocess.run([sys.argv[1], file.name], capture_output=True, check=True).stdout.decode(), end="")


if __name__ == "__main__":
    main()
