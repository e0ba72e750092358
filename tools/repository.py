"""Crates of the repository: their dependencies, what their proofs cost, and copies of them in which rt is called."""

from __future__ import annotations

import os
import re
import shutil
import subprocess
from collections.abc import Collection

TOP = os.path.dirname(os.path.dirname(os.path.realpath(__file__)))


def below(crate: str) -> list[str]:
    """The crates of the repository that a crate depends on, directly or not."""
    call = subprocess.run([f"{TOP}/tools/libraries", crate], stdout=subprocess.PIPE, text=True, check=True)
    return call.stdout.split()


def needs_of(crates: Collection[str]) -> dict[str, list[str]]:
    """For each of these crates, its direct dependencies among them."""
    with open(f"{TOP}/crates.txt", encoding="utf-8") as it:
        rows = [re.match(r"(\w+)[^:#]*:(.*)", line) for line in it]
    return {row[1]: [it for it in row[2].split() if it in crates] for row in rows if row and row[1] in crates}


def read_costs() -> dict[str, float]:
    """The processor seconds that the proof of each crate takes, from tools/costs.txt."""
    with open(f"{TOP}/tools/costs.txt", encoding="utf-8") as it:
        rows = [line.split() for line in it if line.strip() and not line.startswith("#")]
    return {crate: float(seconds) for crate, seconds in rows}


def copy(crates: Collection[str], to: str, *left_out: str) -> None:
    """Makes a repository of these crates in a folder, without the files and folders of these names.

    The folder is outside of this repository: within it, rt ci refuses a second crates.txt.
    """
    shutil.copy(f"{TOP}/HANDLES", to)
    with open(f"{TOP}/crates.txt", encoding="utf-8") as it, open(f"{to}/crates.txt", "w", encoding="utf-8") as out:
        out.writelines(line for line in it if re.split(r"\W", line)[0] in crates)
    for crate in crates:
        unread = shutil.ignore_patterns(*left_out)
        shutil.copytree(f"{TOP}/crates/{crate}", f"{to}/crates/{crate}", symlinks=True, ignore=unread)
