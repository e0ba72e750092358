"""Whether something is up to date with the sources: by file time, or by a checksum.

Built files never leave the machine, so their file times are compared (tools/is-current): put gives a program the time
at which its build began. That the edits of a crate were tried is recorded as a checksum, which is valid in each clone.
"""

from __future__ import annotations

import hashlib
import os
import re
import shutil

from editing import read_more
from repository import TOP

# An import. In Rattle it ends with a semicolon.
IMPORT = re.compile(r"^ *(?:pub(?:\(crate\))? )?(?:ghost )?use [^;{\n]*(?:\{[^}]*\})?;?$", re.M)


def put(built: str, to: str, begun: int) -> None:
    """Copies a built program to a path. Its file time is the begin of its build (ns), so later changes are newer."""
    shutil.copy(built, f"{to}.new")
    os.utime(f"{to}.new", ns=(begun, begun))
    os.replace(f"{to}.new", to)


def sum_of(crate: str) -> str:
    """A checksum of what a crate's mutants of more-edits/ are tried on, and of each mutant.

    Comments, layout and imports don't count: none changes what a mutant says.
    """
    folder = f"{TOP}/crates/{crate}"
    texts = {f"more-edits/{name}.edit": edit for name, edit in read_more(folder).edits.items()}
    for path in _tried(folder):
        with open(path, encoding="utf-8") as it:
            texts[os.path.relpath(path, folder)] = _words(it.read())
    summed = ((path, hashlib.sha256(text.encode()).hexdigest()) for path, text in sorted(texts.items()))
    return hashlib.sha256("".join(f"{it}  {path}\n" for path, it in summed).encode()).hexdigest()[:16]


def _words(source: str) -> str:
    """The words of a source, of Rattle or of its specification language, without comments, layout and imports."""
    code = "".join(it for it in source.splitlines(keepends=True) if not it.lstrip().startswith(("//", "--")))
    return " ".join(IMPORT.sub("", code).split())


def _tried(folder: str) -> list[str]:
    """The files of a crate that the trial of a mutant depends on: specs/, and src/ without tests."""
    return [
        f"{at}/{name}"
        for part in ("src", "specs")
        for at, _, names in os.walk(f"{folder}/{part}")
        for name in names
        if name != "tests.rt" and "tests" not in at.split("/")
    ]
