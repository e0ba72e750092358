"""The repository, and the commands that inspect it."""

from __future__ import annotations

import functools
import pathlib
import re
import subprocess

TOP = pathlib.Path(__file__).resolve().parents[2]
VERSION = (TOP / "VERSION").read_text("ascii").strip()


class Refusal(Exception):
    """The reason why no release is made."""


def output(*command: str | pathlib.Path) -> str:
    """The output of a command, run at the top of the tree, without the last line end."""
    ran = subprocess.run(
        command, cwd=TOP, check=True, stdout=subprocess.PIPE, stdin=subprocess.DEVNULL, text=True, errors="replace"
    )
    return ran.stdout.rstrip("\n")


def tracked(*patterns: str) -> list[str]:
    """The names of the files below these paths, sorted: those that are committed, and those that could be."""
    return sorted(output("git", "ls-files", "--cached", "--others", "--exclude-standard", "--", *patterns).splitlines())


def commit() -> str:
    """The commit that is checked out."""
    return output("git", "rev-parse", "HEAD")


@functools.cache
def commit_time() -> int:
    """The time of the commit in seconds, which is that of all files of a release."""
    return int(output("git", "log", "-1", "--format=%ct"))


def kits() -> list[str]:
    """The kits of the toolchain with which all was proved, as README names them."""
    return sorted(set(re.findall(r"`(rattle-kit-\w+)`", (TOP / "README.md").read_text("utf-8"))))


@functools.cache
def toolchain() -> pathlib.Path:
    """The folder of the Rattle toolchain."""
    return pathlib.Path(output("rt", "doc")).parent
