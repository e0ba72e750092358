"""Plays many cases. An adapter that made a case void is ended, and started again for the next one."""

from __future__ import annotations

import time
from typing import Iterable, Iterator, Sequence

from .adapter import MOST_LEVELS, Adapter, NotStarted, Skip, Void
from .documents import Case, Transcript
from .playing import play

MOST_VOIDS = 3


class Stopped(Exception):
    """Three cases in a row were void. The text says so."""


class Played:
    """A case with its transcript, or with the reason why there is none."""

    def __init__(self, case: Case, transcript: Transcript | None, kind: str, detail: str, seconds: float) -> None:
        self.case, self.transcript, self.kind, self.detail, self.seconds = case, transcript, kind, detail, seconds


class Session:
    """An adapter's command, and the adapter while one runs.

    Once it has reported an event, a case in which it reports none counts as a case without events.
    """

    def __init__(self, command: Sequence[str], without: Sequence[str] = (), batch: int = MOST_LEVELS) -> None:
        self._command, self._without, self._batch = command, without, batch
        self._adapter: Adapter | None = None
        self._voids = 0
        self._reports_events = False

    def __enter__(self) -> Session:
        return self

    def __exit__(self, *_: object) -> None:
        self._close()

    def _close(self) -> None:
        if self._adapter is not None:
            self._adapter.close()
            self._adapter = None

    def _play(self, case: Case) -> tuple[Transcript | None, str, str]:
        lacking = [need for need in case.needs if need in self._without]
        if lacking:
            return None, "skip", ", ".join(lacking)
        try:
            if self._adapter is None:
                self._adapter = Adapter(self._command)
            transcript = play(case, self._adapter, self._batch)
        except Skip as reason:
            return None, "skip", str(reason)
        except NotStarted:
            raise
        except (Void, OSError) as reason:
            self._close()
            return None, "void", str(reason)
        if transcript.events is not None:
            self._reports_events = True
        elif self._reports_events:
            transcript.events = []
        return transcript, "played", ""

    def play_all(self, cases: Iterable[Case]) -> Iterator[Played]:
        """Plays each case in turn. Raises Stopped after the third void in a row, NotStarted if no adapter starts."""
        for case in cases:
            begun = time.monotonic()
            transcript, kind, detail = self._play(case)
            yield Played(case, transcript, kind, detail, time.monotonic() - begun)
            self._voids = self._voids + 1 if kind == "void" else 0
            if self._voids == MOST_VOIDS:
                raise Stopped("stopped: three cases in a row are void, and no more are played")
