"""The rows of crates/rows/data as cases for the tests of the bindings (crates/rows/README.md).

    python3 rows.py FILE [N]    writes each text, or each N-th, that is read as a document, and the
                                examples, for test programs in C: how many there are, and for each a
                                line `KIND LENGTH STRIP FMT`, the text, and what it is laid out to
                                without and with comments

KIND is `a` for an accepted text, `r` for a refused one, and `?` if the rows do not say. A length is
in bytes, and -1 if the rows do not say.
"""
import pathlib
import re
import sys
from typing import Iterator, List, NamedTuple, Optional, Tuple

ROOT = pathlib.Path(__file__).resolve().parent.parent
MEMBERS = {
    "newline": ["\r\n", *"\n\v\f\r\x85\u2028\u2029"],
    "space": [*"\t \xa0\u1680", *map(chr, range(0x2000, 0x200B)), *"\u202f\u205f\u3000"],
    "banned": [
        *map(chr, [*range(9), *range(0xE, 0x20), 0x7F, 0x200E, 0x200F]),
        *map(chr, [*range(0x202A, 0x202F), *range(0x2066, 0x206A), 0xFEFF]),
    ],
}
CALLS = ("document", "node", "entry", "identifier", "float", "string", "fronts", "replaced", "query")
MARKS = {"⏎": "\n", "⇥": "\t", "␍": "\r", "␠": " "}


class Case(NamedTuple):
    """A text, the call that reads it, and what is expected: labels, each with a text or None.
    `is_set` says that the row changes what is read before it is laid out, or how it is laid out."""

    place: str
    call: str
    text: str
    wanted: List[Tuple[str, Optional[str]]]
    is_set: bool

    def said(self, label: str) -> Optional[str]:
        return next((text for it, text in self.wanted if it == label), None)


def line_of(line: str) -> Tuple[str, Optional[str]]:
    """The label of a line, and its text."""
    if ": " in line:
        label, text = line.split(": ", 1)
        return label, text
    return (line[:-1], "") if line.endswith(":") else (line, None)


def decoded(notation: str, member: str = "", own: str = "") -> str:
    """The text that the notation means."""
    whole = re.sub("⟦([0-9]+):(.*?)⟧", lambda it: it[2] * int(it[1]), notation)
    fills = {**MARKS, "◊": member, "□": own}
    mark = lambda it: chr(int(it[1], 16)) if it[1] else fills[it[0]]
    return re.sub("⟨([0-9a-f]+)⟩|[⏎⇥␍␠◊□]", mark, whole)


def blocks(path: pathlib.Path) -> Iterator[Tuple[int, List[str]]]:
    """The rows of a file, each with the lines of its section."""
    section, block, begun = [], [], 0
    lines = path.read_text(encoding="utf-8").split("\n")
    for number, line in enumerate([*lines, ""], 1):
        if line.startswith("#"):
            continue
        if line:
            begun = begun if block else number
            block.append(line)
        elif block and block[0].startswith("section: "):
            section, block = block[1:], []
        elif block:
            yield begun, block + section
            block = []


def cases_of(place: str, block: List[str]) -> Iterator[Case]:
    """The cases of a row."""
    lines = [line_of(it) for it in block]
    settings = dict(it for it in lines if it[0] in ("each", "by"))
    patterns = [text for label, text in lines if label == "within"] or ["□"]
    is_set = any(re.match("(indent|level|keep .*|set .*)$", it[0]) for it in lines)
    other = {*CALLS, "each", "by", "within", "indent", "level"}
    wanted = [it for it in lines if it[0] not in other and not re.match("(keep|set) ", it[0])]
    for call, notation in lines:
        if call not in CALLS or notation is None:
            continue
        for member in MEMBERS[settings["each"]] if "each" in settings else [""]:
            own = decoded(notation, member)
            for pattern in patterns:
                text = decoded(pattern, member, own)
                fill = lambda it: None if it is None else decoded(it, member, own)
                said = [(fill(label), fill(it)) for label, it in wanted]
                yield from made(Case(place, call, text, said, is_set), settings)


def made(case: Case, settings: dict) -> Iterator[Case]:
    """The case, or those that are made of it."""
    text, of = case.text, lambda it, wanted: case._replace(call="document", text=it, wanted=wanted)
    if case.call == "fronts":
        refused = case.said("refused at")
        spans = [(it.split("..") * 2)[:2] for it in (refused or "").split()]
        for at in range(len(text) + 1):
            size = len(text[:at].encode())
            is_refused = any(int(first) <= size <= int(last) for first, last in spans)
            word = "refused" if is_refused else "accepted"
            yield of(text[:at], [(word, None)] if refused is not None else [])
    elif case.call == "replaced":
        for at, old in enumerate(text):
            for new in [*decoded(settings["by"]), old + old, ""]:
                yield of(text[:at] + new + text[at + 1 :], [])
    else:
        yield case


def cases() -> Iterator[Case]:
    """The cases of all files whose rows hold."""
    names = (ROOT / "crates/rows/args").read_text().split()
    for name in names[: names.index("wrong")]:
        for number, block in blocks(ROOT / "crates/rows/data" / name):
            yield from cases_of(f"{name}:{number}", block)


def examples() -> List[pathlib.Path]:
    return sorted((ROOT / "examples").glob("*.kdl"))


def kind_of(case: Case) -> str:
    labels = {it for it, _ in case.wanted}
    if "refused" in labels:
        return "r"
    told = "accepted|fmts?|strips?|get .*|no get|whole|nodes|no nodes|span|leading|trailing|[0-9]+ .*|same data"
    return "a" if any(re.fullmatch(told, it) for it in labels) else "?"


def write(path: str, step: int) -> None:
    """Writes each step-th of the cases for programs in C: how many there are, and each text once."""
    out = [b"a %d -1 -1\n" % len(text) + text for text in (it.read_bytes() for it in examples())]
    seen = set()
    for case in cases():
        text = case.text.encode()
        laid = [None if case.is_set else case.said(it) for it in ("strip", "fmt")]
        if case.call != "document" or text in seen and laid == [None, None]:
            continue
        seen.add(text)
        parts = [None if it is None else it.encode() for it in laid]
        lengths = [-1 if it is None else len(it) for it in parts]
        line = b"%s %d %d %d\n" % (kind_of(case).encode(), len(text), *lengths)
        out.append(b"".join([line, text, *(it or b"" for it in parts)]))
    out = out[::step]
    pathlib.Path(path).write_bytes(b"%d\n" % len(out) + b"".join(out))


if __name__ == "__main__":
    write(sys.argv[1], int([*sys.argv, "1"][2]))
