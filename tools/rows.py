"""Copies the crates of tests/rows among the crates of a copy of the repository."""

from __future__ import annotations

import os
import shutil

# of Rattle files outside of crates/: rt ci accepts none there that ends in .rt
SUFFIX = ".rattle"


def crates_of(root: str) -> dict[str, str]:
    """The line of each crate in tests/rows/libraries.txt."""
    with open(f"{root}/tests/rows/libraries.txt", encoding="utf-8") as it:
        return {line.partition(":")[0]: line for line in it if line.strip() and not line.startswith("#")}


def put_rows(root: str, to: str) -> None:
    """Copies the crates of tests/rows of a repository among those of a copy of it.

    A crate cannot depend on a static library, so in the copy static libraries become libraries.
    """
    lines = crates_of(root)
    for crate in lines:
        source = f"{root}/tests/rows/{crate}"
        for folder, _, files in os.walk(source):
            made = f"{to}/crates/{crate}/src/{os.path.relpath(folder, source)}"
            os.makedirs(made, exist_ok=True)
            for it in files:
                shutil.copyfile(f"{folder}/{it}", f"{made}/{it.removesuffix(SUFFIX)}.rt")
    with open(f"{to}/crates.txt", encoding="utf-8") as listed:
        own = listed.read()
    with open(f"{to}/crates.txt", "w", encoding="utf-8") as out:
        out.writelines([own.replace(" staticlib:", ":"), *lines.values()])
