"""Runs rows of text on the programs `kdl` and `kdl-tool`. README.md beside it says what a row is."""
import glob
import os
import re
import subprocess
import tempfile

MARKS = str.maketrans({"⏎": "\n", "⇥": "\t", "␍": "\r", "␠": " ", "∅": ""})
PROGRAMS = ("kdl", "kdl-tool")
LABEL = re.compile(r"section|kdl|kdl-tool|status|in|out|err|(out|err) (has|lacks)|(file|after) \S+")


class Row:
    """A program and its command line, what it is run on, and what is expected."""

    def __init__(self, place, program, command, lines):
        self.place, self.program, self.command, self.lines = place, program, command, lines

    def text(self, label):
        """The text of a label: its lines after each other."""
        return meant("".join(self.lines.get(label, [])))

    def files(self, kind):
        """The files that the row has before or after the run."""
        return {meant(label.split(" ", 1)[1]): self.text(label) for label in self.lines if label.startswith(kind + " ")}


def meant(text):
    """What a text means, in bytes: each mark is replaced by what it marks."""
    text = re.sub(r"⟦(\d+):(.*?)⟧", lambda it: it[2] * int(it[1]), text).translate(MARKS)
    text = re.sub(r"⟨byte ([89a-f][0-9a-f])⟩", lambda it: chr(0xdc00 + int(it[1], 16)), text)
    text = re.sub(r"⟨([0-9a-f]+)⟩", lambda it: chr(int(it[1], 16)), text)
    return text.encode("utf-8", "surrogateescape")


def blocks(path):
    """The blocks of a file: for each, the number of its first line, and the texts of each of its labels."""
    block = {}
    with open(path, encoding="utf-8", newline="\n") as file:
        for number, line in enumerate(file.read().split("\n") + [""], 1):
            if line.startswith("#"):
                continue
            if not line and block:
                yield first, block
                block = {}
            elif line:
                first = first if block else number
                label, _, text = line.partition(":")
                block.setdefault(label, []).append(text.removeprefix(" "))


def rows(path):
    """The rows of a file: the lines of a section are those of each of its blocks that has no line of the same label."""
    section = {}
    for number, block in blocks(path):
        if "section" in block:
            section = block
            continue
        lines = {**section, **block}
        place = f"{os.path.basename(path)}:{number}"
        found = [(program, command) for program in PROGRAMS for command in lines.get(program, [])]
        for program, command in found or [("kdl", "")]:
            yield Row(place, program, command, lines)


def run(program, row, folder, user):
    """Runs the commands of a row, each on the output of the one before. Returns the last run, or the first that fails."""
    text = row.text("in")
    for command in row.command.split(" | "):
        words = [meant(word) for word in command.split(" ")]
        ran = subprocess.run([program, *words], input=text, capture_output=True, cwd=folder, timeout=120, **user)
        if ran.returncode:
            break
        text = ran.stdout
    return ran


def files_in(folder):
    """The names and the bytes of the files of a folder."""
    found = {}
    for name in os.listdir(os.fsencode(folder)):
        with open(os.path.join(os.fsencode(folder), name), "rb") as file:
            found[name] = file.read()
    return found


def unlike(row, what, found):
    """What differs between what a run wrote and what a row expects: all of it, or parts that are there, or are not."""
    parts = [meant(part) for part in row.lines.get(what + " has", [])]
    banned = [meant(part) for part in row.lines.get(what + " lacks", [])]
    wrong = [f"{what}: {found!r} has no {part!r}" for part in parts if part not in found]
    wrong += [f"{what}: {found!r} has {part!r}" for part in banned if part in found]
    if (what in row.lines or not parts) and found != row.text(what):
        wrong.append(f"{what}: {found!r}, not {row.text(what)!r}")
    return wrong


def faults_of(programs, row, user):
    """What is wrong with a row, or with what its program does on it."""
    wrong = [f"no such label: {label}" for label in row.lines if not LABEL.fullmatch(label)]
    texts = [row.command, *(text for label, texts in row.lines.items() if label not in PROGRAMS for text in texts)]
    wrong += [f"a text ends in a space: {text!r}" for text in texts if text.endswith(" ")]
    if wrong or not row.command:
        return wrong or ["no line `kdl`"]
    with tempfile.TemporaryDirectory() as folder:
        os.chmod(folder, 0o777)
        before = row.files("file")
        for name, text in before.items():
            path = os.path.join(os.fsencode(folder), name)
            with open(path, "wb") as file:
                file.write(text)
            if user:
                os.chown(path, user["user"], user["group"])
        ran = run(programs[row.program], row, folder, user)
        left = files_in(folder)
    if str(ran.returncode) != "".join(row.lines.get("status", ["0"])):
        wrong.append(f"status: {ran.returncode}, {ran.stderr!r}")
    wrong += unlike(row, "out", ran.stdout) + unlike(row, "err", ran.stderr)
    wanted = {**before, **row.files("after")}
    return wrong if left == wanted else wrong + [f"files: {left!r}, not {wanted!r}"]


def faults(programs, user):
    """The faults of all rows beside this file, and the rows of `wrong.rows` that have none. `programs` are by their names."""
    told = []
    for path in sorted(glob.glob(os.path.join(os.path.dirname(os.path.abspath(__file__)), "*.rows"))):
        is_wrong = os.path.basename(path) == "wrong.rows"
        for row in rows(path):
            found = faults_of(programs, row, user)
            if is_wrong and not found:
                told.append(f"{row.place}: {row.program} {row.command}: the row is wrong, and nothing fails")
            elif not is_wrong:
                told += [f"{row.place}: {row.program} {row.command}: {fault}" for fault in found]
    return told
