"""The record of the last tree that passed tests/all: it is left in out/, and a release needs it."""

from __future__ import annotations

import dataclasses
import hashlib
import json
import subprocess

from making.programs import PROGRAMS
from making.tree import TOP, Refusal, commit, output

FILE = TOP / "out" / "proved.json"
# Its time is the beginning of the run.
BEGUN = TOP / "out" / "begun"
# The files that tests/all builds, and that are parts of a release.
LIBRARY = ("bindings/out/libriddlesage.a", "bindings/out/libriddlesage.so")
PAGE = "page/out/riddlesage.html"
# The library as one file of C, and the module of the page: what the packages of sources are made of.
PORTABLE = ("bindings/out/riddlesage_portable.c", "page/out/riddlesage.wasm")
OBJECTS = {name: f"crates/{name}/out/{name}.o" for name in PROGRAMS}
PARTS = (*OBJECTS.values(), *LIBRARY, PAGE, *PORTABLE)


@dataclasses.dataclass(frozen=True)
class Sources:
    """Sources: their commit, and the checksum of git for all of them."""

    commit: str
    tree: str


@dataclasses.dataclass(frozen=True)
class Record:
    """A run of tests/all that passed: its sources, its toolchain, and its last line.

    `left_out` has the checks that lacked a tool or were not run, and `parts` the checksum of each file that it built.
    """

    sources: Sources
    toolchain: str
    result: str
    left_out: list[str]
    parts: dict[str, str]


def sources() -> Sources | None:
    """The current sources; None if a file differs from its commit, or there is no repository."""
    try:
        if output("git", "status", "--porcelain"):
            return None
        return Sources(commit(), output("git", "rev-parse", "HEAD^{tree}"))
    except (OSError, subprocess.CalledProcessError):
        return None


def sums(since: float = 0) -> dict[str, str]:
    """The checksum of each part of a release that exists and is not older than this time."""
    files = {it: TOP / it for it in PARTS if (TOP / it).is_file() and (TOP / it).stat().st_mtime >= since}
    return {it: hashlib.sha256(path.read_bytes()).hexdigest() for it, path in files.items()}


def leave(begun: Sources | None, result: str, left_out: list[str]) -> bool:
    """Writes the record of a run that passed, unless the sources have changed; returns whether it did."""
    if begun is None or begun != sources():
        return False
    record = Record(begun, output("rt", "version"), result, left_out, sums(BEGUN.stat().st_mtime))
    FILE.write_text(json.dumps(dataclasses.asdict(record), indent=1) + "\n", "utf-8")
    return True


def forget() -> None:
    """Removes the record when a run begins, and notes the time."""
    FILE.unlink(missing_ok=True)
    BEGUN.parent.mkdir(exist_ok=True)
    BEGUN.touch()


def proved() -> Record:
    """The record, if it is that of the current tree; otherwise a Refusal."""
    if not FILE.is_file():
        raise Refusal("tests/all has not passed on a clean tree here in its last run")
    fields = json.loads(FILE.read_text("utf-8"))
    record = Record(Sources(**fields.pop("sources")), **fields)
    now = sources()
    if now is None:
        raise Refusal("the tree has files that are not as its commit has them")
    if now.tree != record.sources.tree:
        raise Refusal(f"tests/all passed on commit {record.sources.commit}, and this is {now.commit}")
    if output("rt", "version") != record.toolchain:
        raise Refusal(f"tests/all passed with {record.toolchain}, and this is {output('rt', 'version')}")
    built = sums()
    if changed := [it for it in PARTS if built.get(it) != record.parts.get(it)]:
        raise Refusal(f"not as tests/all left it: {' '.join(changed)}")
    return record
