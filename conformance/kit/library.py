"""Reads the cases and transcripts of files and folders."""

from __future__ import annotations

import glob
import os
from typing import Iterable

from .documents import Case, DocumentFault, Transcript, read_document

_TOP = os.path.dirname(os.path.dirname(os.path.realpath(__file__)))
FOLDER = os.path.join(_TOP, "cases")
TRANSCRIPTS = os.path.join(_TOP, "transcripts")


def _files(path: str) -> list[str]:
    if os.path.isdir(path):
        return sorted(glob.glob(os.path.join(glob.escape(path), "*.toml")))
    return [path]


def read_library(paths: Iterable[str]) -> tuple[list[Case], dict[str, Transcript]]:
    """All cases of these files and folders, and the transcripts by the names of their cases.

    Raises DocumentFault with the name of the file in front, or OSError.
    """
    cases: dict[str, Case] = {}
    transcripts: dict[str, Transcript] = {}
    for file in [file for path in paths for file in _files(path)]:
        try:
            with open(file, encoding="utf-8") as opened:
                more, recorded = read_document(opened.read(), cases.values())
        except UnicodeDecodeError:
            raise ValueError(f"{file}: {DocumentFault('toml')}") from None
        except DocumentFault as fault:
            fault.args = (f"{file}: {fault}",)
            raise
        for case in more:
            if case.name in cases:
                raise ValueError(f"{file}: another file has a case {case.name}, too")
            cases[case.name] = case
        transcripts.update({transcript.case: transcript for transcript in recorded})
    return list(cases.values()), transcripts
