"""Edits of a crate: those of must-fail/, a file each, as rt must-fail reads them, and the others, in one file.

more-edits/all.edit has a line with a sum of the sources on which the prover was last seen to refuse them
(current.sum_of), and then each edit, in the order of their names: an empty line, its name, and the lines of a file of
must-fail/.
"""

from __future__ import annotations

import glob
import os
import re
from typing import NamedTuple

PARTS = ("src", "specs", "proofs")
MORE = "more-edits/all.edit"
TRIED = "tried: "


class MoreEdits(NamedTuple):
    """What more-edits/all.edit has: the sum, and the lines of each edit, by name."""

    tried: str
    edits: dict[str, str]

    def text(self) -> str:
        """The text of the file."""
        return "\n".join([f"{TRIED}{self.tried}\n", *(f"{name}\n{edit}" for name, edit in sorted(self.edits.items()))])


def read_more(crate: str) -> MoreEdits:
    """The edits of more-edits/ of the crate in this folder, none where it has no such file.

    Raises ValueError where that is laid out in another way, or has a name twice.
    """
    path = f"{crate}/{MORE}"
    if not os.path.exists(path):
        return MoreEdits("never", {})
    with open(path, encoding="utf-8") as it:
        text = it.read()
    head, *blocks = text.removesuffix("\n").split("\n\n")
    named = (it.partition("\n") for it in blocks)
    more = MoreEdits(head.removeprefix(TRIED), {name: f"{edit}\n" for name, _, edit in named})
    if more.text() != text or "\n" in more.tried:
        raise ValueError(f"{path} is not laid out as docs/EDITS.md says, or not in the order of the names")
    return more


def write_more(crate: str, more: MoreEdits) -> None:
    """Writes the edits of more-edits/ of the crate in this folder."""
    os.makedirs(os.path.dirname(f"{crate}/{MORE}"), exist_ok=True)
    with open(f"{crate}/{MORE}", "w", encoding="utf-8") as out:
        out.write(more.text())


def edits_of(crate: str) -> dict[str, str]:
    """The lines of all edits of the crate in this folder, by name, those of must-fail/ first.

    Raises ValueError as read_more does, and where a name is in both.
    """
    edits, more = {}, read_more(crate).edits
    for path in sorted(glob.glob(f"{crate}/must-fail/*.edit")):
        name = os.path.basename(path).removesuffix(".edit")
        if name in more:
            raise ValueError(f"{path}: {MORE} has one of this name, too")
        with open(path, encoding="utf-8") as it:
            edits[name] = it.read()
    return {**edits, **more}


def edited(edit: str, crate: str) -> dict[str, str]:
    """The texts that the lines of an edit make of the files of the crate in this folder, by path.

    Raises ValueError where it can't be applied.
    """
    path, old, texts = "", None, {}
    for line in edit.removesuffix("\n").split("\n"):
        if line.startswith("file: "):
            path = line[len("file: ") :].strip()
            if os.path.normpath(path) != path or path.split("/")[0] not in PARTS:
                raise ValueError("a file: line names no file below src, specs or proofs")
        elif line.startswith("old: "):
            old = line[len("old: ") :]
        elif line.startswith("new:"):
            new = re.sub(r"\A ", "", line[len("new:") :])
            if not path or not old:
                raise ValueError("a new: line stands before any file: or old: line")
            if path not in texts:
                with open(f"{crate}/{path}", encoding="utf-8") as it:
                    texts[path] = it.read()
            found = texts[path].count(old)
            if found != 1:
                raise ValueError(f"an old: text is in {path} {found} times, and not once")
            texts[path], old = texts[path].replace(old, new), None
        else:
            raise ValueError("a line begins with none of file:, old: and new:")
    if not texts:
        raise ValueError("it has no old: and new: lines")
    return texts
