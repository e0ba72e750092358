"""Builds the wheel and the source distribution of the package for pip, with the standard library alone.

The wheel contains the package, the conformance kit, and the shared object if bindings/build has built it. Without it
the package uses the shared object that the system has. The source distribution has the library as one file of C
(bindings/portable/make). A wheel that is built there contains what the compiler `CC` (default: cc) makes of it. The
version is that of the file VERSION.
"""

from __future__ import annotations

import base64
import gzip
import hashlib
import io
import os
import pathlib
import shlex
import subprocess
import sys
import sysconfig
import tarfile
import zipfile
from collections.abc import Iterator
from typing import Any

HERE = pathlib.Path(__file__).resolve().parent
SOURCE = "riddlesage_portable.c"
IS_DISTRIBUTION = (HERE / SOURCE).is_file()
TOP = HERE if IS_DISTRIBUTION else HERE.parent.parent
LIBRARY = HERE / "libriddlesage.so" if IS_DISTRIBUTION else HERE.parent / "out" / "libriddlesage.so"
VERSION = (TOP / "VERSION").read_text("ascii").strip()
INFO = f"riddlesage-{VERSION}.dist-info"
# The tag cannot say that the shared object needs version 2 of the instruction set, x86-64-v2.
BUILT, PURE = "py3-none-linux_x86_64", "py3-none-any"
METADATA = (
    f"Metadata-Version: 2.1\nName: riddlesage\nVersion: {VERSION}\nRequires-Python: >=3.9\n"
    "Summary: A bit-level reference model of a classical CAN controller\n"
    'Provides-Extra: can\nRequires-Dist: python-can (>=4.1) ; extra == "can"\n'
)
ENTRIES = (
    "[can.interface]\nriddlesage = riddlesage.python_can:RiddlesageBus\n\n"
    "[pytest11]\nriddlesage = riddlesage.pytest_plugin\n"
)


def package() -> Iterator[tuple[str, bytes]]:
    """The files of the package itself, with their contents."""
    for path in sorted((HERE / "riddlesage").iterdir()):
        if path.is_file() and path.suffix in (".py", ".typed"):
            yield f"riddlesage/{path.name}", path.read_bytes()


def kit() -> Iterator[tuple[str, bytes]]:
    """The files of the conformance kit, with their contents."""
    for folder, pattern in (("kit", "*.py"), ("kit", "*.txt"), ("cases", "*.toml"), ("transcripts", "*.toml")):
        for path in sorted((TOP / "conformance" / folder).glob(pattern)):
            yield f"conformance/{folder}/{path.name}", path.read_bytes()


def files(tag: str) -> Iterator[tuple[str, bytes]]:
    """The files of the wheel, with their contents."""
    yield from package()
    for path, content in kit():
        yield f"riddlesage/{path}", content
    if tag != PURE:
        yield "riddlesage/libriddlesage.so", LIBRARY.read_bytes()
    yield f"{INFO}/entry_points.txt", ENTRIES.encode("ascii")
    yield f"{INFO}/METADATA", METADATA.encode("ascii")
    pure = str(tag == PURE).lower()
    python, abi, platforms = tag.split("-")
    tags = "".join(f"Tag: {python}-{abi}-{it}\n" for it in platforms.split("."))
    yield f"{INFO}/WHEEL", f"Wheel-Version: 1.0\nGenerator: riddlesage\nRoot-Is-Purelib: {pure}\n{tags}".encode("ascii")


def build_wheel(folder: str, settings: dict[str, Any] | None = None, metadata: str | None = None) -> str:
    """Writes the wheel to a folder, and returns its name."""
    if IS_DISTRIBUTION:
        compile_library()
        return write_wheel(folder, f"py3-none-{sysconfig.get_platform().replace('-', '_').replace('.', '_')}")
    return write_wheel(folder, BUILT if LIBRARY.is_file() else PURE)


def compile_library() -> None:
    """Makes the shared object from the one file of C."""
    exported = "__declspec(dllexport)" if sys.platform == "win32" else '__attribute__((visibility("default")))'
    words = [*shlex.split(os.environ.get("CC", "cc")), "-std=c11", "-O2", "-shared", "-fvisibility=hidden"]
    words += ["-fPIC"] * (sys.platform != "win32")
    words += [f"-DRIDDLESAGE_API={exported}", "-o", str(LIBRARY), str(HERE / SOURCE)]
    try:
        done = subprocess.run(words, capture_output=True, text=True)
    except FileNotFoundError:
        raise RuntimeError(f"riddlesage needs a C compiler: {words[0]} is not installed; CC may name another") from None
    if done.returncode != 0:
        raise RuntimeError(f"riddlesage: the C compiler {words[0]} failed\n{done.stderr}")


def write_wheel(folder: str, tag: str) -> str:
    """Writes the wheel with this tag to a folder, and returns its name. The same files give the same bytes."""
    name = f"riddlesage-{VERSION}-{tag}.whl"
    record = ""
    with zipfile.ZipFile(os.path.join(folder, name), "w", zipfile.ZIP_DEFLATED) as wheel:
        for path, content in files(tag):
            digest = base64.urlsafe_b64encode(hashlib.sha256(content).digest()).rstrip(b"=").decode("ascii")
            record += f"{path},sha256={digest},{len(content)}\n"
            write(wheel, path, content)
        write(wheel, f"{INFO}/RECORD", f"{record}{INFO}/RECORD,,\n".encode("ascii"))
    return name


def write(wheel: zipfile.ZipFile, path: str, content: bytes) -> None:
    """Adds a file to the wheel, with the earliest time that a wheel can have."""
    entry = zipfile.ZipInfo(path, (1980, 1, 1, 0, 0, 0))
    entry.external_attr = 0o100644 << 16
    entry.compress_type = zipfile.ZIP_DEFLATED
    wheel.writestr(entry, content)


def sources() -> Iterator[tuple[str, bytes]]:
    """The files of the source distribution, with their contents."""
    generated = HERE if IS_DISTRIBUTION else HERE.parent / "out"
    for path in (HERE / "pyproject.toml", HERE / "wheel_backend.py", TOP / "VERSION", generated / SOURCE):
        yield path.name, path.read_bytes()
    yield "riddlesage.h", ((HERE if IS_DISTRIBUTION else HERE.parent) / "riddlesage.h").read_bytes()
    yield "PKG-INFO", METADATA.encode("ascii")
    yield from package()
    yield from kit()


def build_sdist(folder: str, settings: dict[str, Any] | None = None) -> str:
    """Writes the source distribution to a folder, and returns its name. The same files give the same bytes."""
    if not IS_DISTRIBUTION and not (HERE.parent / "out" / SOURCE).is_file():
        raise RuntimeError("riddlesage: run bindings/portable/make first, which makes the library as one file of C")
    root = f"riddlesage-{VERSION}"
    packed = io.BytesIO()
    with tarfile.open(fileobj=packed, mode="w", format=tarfile.PAX_FORMAT) as archive:
        for path, content in sources():
            entry = tarfile.TarInfo(f"{root}/{path}")
            entry.size, entry.mode = len(content), 0o644
            archive.addfile(entry, io.BytesIO(content))
    name = f"{root}.tar.gz"
    pathlib.Path(folder, name).write_bytes(gzip.compress(packed.getvalue(), 9, mtime=0))
    return name
