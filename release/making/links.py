"""The links of the documents in a release: each leads to a file of the release."""

from __future__ import annotations

import os
import re

LINK = re.compile(r"\[(?P<words>[^\[\]]*)\]\((?P<path>[^():#\s]+)(?P<part>#[^()\s]*)?\)")


def settled(text: str, name: str, documents: set[str], shared: set[str]) -> str:
    """The text of the document with this name; its links lead to the places of the files in the release.

    Documents keep their relative places, and so do shared files, below another folder. Links to other files, such as
    those of a crate, become plain words.
    """
    folder = os.path.dirname(name)

    def link(met: re.Match[str]) -> str:
        target = os.path.normpath(os.path.join(folder, met["path"]))
        if target in documents:
            return met[0]
        if target in shared:
            path = os.path.relpath(f"share/riddlesage/{target}", f"share/doc/riddlesage/{folder}")
            return f"[{met['words']}]({path}{met['part'] or ''})"
        return met["words"]

    return LINK.sub(link, text)
