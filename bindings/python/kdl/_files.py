"""Files: `load` and `dump`."""
from __future__ import annotations

import os
import tempfile
from typing import Any, IO, Union

#: A path, or a file that is open for text or for bytes.
Source = Union[str, "os.PathLike[str]", IO[str], IO[bytes]]


def read(file: Source) -> Union[str, bytes]:
    """Returns the text of a file."""
    if isinstance(file, (str, os.PathLike)):
        with open(file, "rb") as opened:
            return opened.read()
    return file.read()


def write(file: Source, text: bytes) -> None:
    """Writes the text to a file. A file at a path is replaced: at any time, the whole old or new text is
    there."""
    if isinstance(file, (str, os.PathLike)):
        _replace(file, text)
        return
    out: Any = file
    try:
        out.write("")
    except TypeError:
        out.write(text)
    else:
        out.write(text.decode())


def _replace(name: Union[str, "os.PathLike[str]"], text: bytes) -> None:
    path = os.path.realpath(name)
    if os.path.exists(path) and not os.path.isfile(path):  # as a pipe
        with open(path, "wb") as file:
            file.write(text)
        return
    handle, made = tempfile.mkstemp(dir=os.path.dirname(path))
    try:
        with open(handle, "wb") as file:
            file.write(text)
        os.chmod(made, _mode(path))
        os.replace(made, path)
    except BaseException:
        os.unlink(made)
        raise


def _mode(path: str) -> int:
    """Returns the permissions of the file, or those of a new one."""
    try:
        return os.stat(path).st_mode & 0o7777
    except FileNotFoundError:
        mask = os.umask(0)
        os.umask(mask)
        return 0o666 & ~mask
