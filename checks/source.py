"""What the checks in Python share: how they read the files of this repository, and how they fail.

Importing it changes to the root of the repository. The first line of a script that imports it has `-B`, so that Python
leaves no compiled file here.
"""
import os
import re
import sys
from typing import Dict, List, NamedTuple, Optional

os.chdir(os.path.join(os.path.dirname(os.path.abspath(__file__)), ".."))

COMMENT = {".rt": r"(?m)(?<!\S)//.*$", ".antt": r"(?m)(?<!\S)--(?!\S).*$"}
# What is before the name in a declaration of specs/ or proofs/.
KEYS = r" *(?:(?:abbrev|data|mod|mutual|pub|record|unfoldable) )*"
USE = re.compile(r"(?m)^ *(?:unfoldable )?(pub |ghost |)use ([^\s:;{}]+?)(?:\.\{([^{}]*)\}| as ([^\s;]+)|);?$")


def text_of(path: str) -> str:
    with open(path, encoding="utf-8") as file:
        return file.read()


def code_of(path: str) -> str:
    """The text of a file of src/, specs/ or proofs/ without its comments. Each line keeps its number."""
    return re.sub(COMMENT[os.path.splitext(path)[1]], "", text_of(path))


def libraries() -> Dict[str, List[str]]:
    """The libraries that each crate uses, in the order of crates.txt."""
    rows = re.findall(r"(?m)^(\w+)(?: staticlib)?:(.*)", text_of("crates.txt"))
    return {crate: used.split() for crate, used in rows}


def names_of(listed: str) -> Dict[str, str]:
    """The names between the braces of a `use` line: for each as it is called here, what it is called there."""
    pairs = [item.split(" as ") for item in re.split(r",\s*", listed.strip(", \n")) if item]
    return {pair[-1].strip("«»"): pair[0].strip("«»") for pair in pairs}


class Use(NamedTuple):
    """A `use` line of specs or proofs. It brings names, as `names_of` has them, or else the module by a name."""

    mark: str
    module: str
    names: Dict[str, str]
    alias: Optional[str]
    line: int


def uses_of(text: str) -> List[Use]:
    found = []
    for use in USE.finditer(text):
        mark, module, listed, alias = use.groups()
        brought = alias or module.split(".")[-1] if listed is None else None
        found.append(Use(mark.strip(), module, names_of(listed or ""), brought, text.count("\n", 0, use.start(2)) + 1))
    return found


def file_of(module: str) -> str:
    """The file of a module of this repository, as of `Rattle.kdl.specs.Found`."""
    return f"crates/{'/'.join(module.split('.')[1:])}.antt"


def rust_blocks(document: str) -> List["re.Match[str]"]:
    """The blocks of Rust in the text of a document; group 1 is the code."""
    return list(re.finditer(r"(?ms)^```rust\n(.*?)^```$", document))


def first_missing(lines: List[str], source: List[str]) -> Optional[int]:
    """The index of the first line that is not in the source after the lines before it; none if all are there."""
    rest = iter(source)
    return next((at for at, line in enumerate(lines) if line not in rest), None)


def report(failures: List[str]) -> None:
    """Prints each failure once and fails; does nothing if there is none."""
    if failures:
        print("\n".join(dict.fromkeys(failures)))
        sys.exit(1)


def print_or_check(page: str, text: str) -> None:
    """Prints the text of a page. With --check it prints nothing, and fails if the file of the page has another text."""
    if sys.argv[1:] != ["--check"]:
        print(text, end="")
    elif not os.path.exists(page) or text_of(page) != text:
        script = os.path.basename(sys.argv[0])
        sys.exit(f"{script}: {page} is not up to date: checks/{script} > {page}")
