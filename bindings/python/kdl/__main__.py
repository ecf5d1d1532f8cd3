"""`python -m kdl`: the program `kdl`, with the same words and flags."""
import os
import shutil
import sys
from typing import List

MISSING = """there is no program kdl: install it by ./install in the repository of this module, or from the
archive for Linux that ./dist makes; or name the program in the variable KDL
"""


def main(words: List[str]) -> int:
    """Becomes the program with these words. Returns 3 if there is none."""
    program = os.environ.get("KDL") or shutil.which("kdl")
    try:
        if program:
            os.execv(program, [program, *words])
    except OSError as error:
        sys.stderr.write(f"{program}: {error.strerror}\n")
    else:
        sys.stderr.write(MISSING)
    return 3


if __name__ == "__main__":
    sys.exit(main(sys.argv[1:]))
