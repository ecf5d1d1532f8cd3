"""The build backend of this folder: a wheel of the package kdl, with the shared library that bindings/c/build
made. It needs no other package, so that `pip install` works without a network.
"""
import base64
import hashlib
import os
import pathlib
import re
import sysconfig
import zipfile

HERE = pathlib.Path(__file__).resolve().parent
LIBRARY = HERE.parent / "c" / "out" / "libkdl.so"
PROJECT = (HERE / "pyproject.toml").read_text(encoding="utf-8")


def _said(key):
    """The text of a key of the project."""
    return re.search(f'(?m)^{key} = "(.*)"$', PROJECT)[1]


NAME = _said("name")
NAMED = f"{NAME.replace('-', '_')}-{_said('version')}"
# On x86-64 Linux, the library needs no symbol of a C library newer than glibc 2.34: `checks/dist` looks.
PLATFORM = sysconfig.get_platform().replace("linux-x86_64", "manylinux_2_34_x86_64")
TAG = "py3-none-" + re.sub("[-.]", "_", PLATFORM)
METADATA = f"""Metadata-Version: 2.1
Name: {NAME}
Version: {_said("version")}
Summary: {_said("description")}
License: Apache-2.0
Requires-Python: {_said("requires-python")}
"""
WHEEL = f"Wheel-Version: 1.0\nGenerator: {__name__}\nRoot-Is-Purelib: false\nTag: {TAG}\n"


def build_wheel(wheel_directory, config_settings=None, metadata_directory=None):
    """Writes the wheel, and returns its name."""
    if not LIBRARY.exists():
        raise SystemExit(f"there is no {LIBRARY}: run bindings/c/build first")
    info = f"{NAMED}.dist-info"
    files = {
        **{f"kdl/{it.name}": it.read_bytes() for it in [*sorted((HERE / "kdl").glob("*.py")), HERE / "kdl/py.typed"]},
        "kdl/libkdl.so": LIBRARY.read_bytes(),
        f"{info}/LICENSE": (HERE.parent.parent / "LICENSE").read_bytes(),
        f"{info}/METADATA": METADATA.encode(),
        f"{info}/WHEEL": WHEEL.encode(),
    }
    record = "".join(f"{name},sha256={_sum(it)},{len(it)}\n" for name, it in files.items())
    files[f"{info}/RECORD"] = f"{record}{info}/RECORD,,\n".encode()
    name = f"{NAMED}-{TAG}.whl"
    with zipfile.ZipFile(os.path.join(wheel_directory, name), "w", zipfile.ZIP_DEFLATED) as wheel:
        for path, data in files.items():
            entry = zipfile.ZipInfo(path)  # with a fixed date, so that equal files make equal wheels
            entry.external_attr = 0o644 << 16
            wheel.writestr(entry, data, zipfile.ZIP_DEFLATED)
    return name


def build_sdist(sdist_directory, config_settings=None):
    """A source without the toolchain would be of no use."""
    raise SystemExit("kdl is built from its repository alone")


def _sum(data):
    return base64.urlsafe_b64encode(hashlib.sha256(data).digest()).rstrip(b"=").decode()
