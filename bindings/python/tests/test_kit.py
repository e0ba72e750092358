"""The plugin: the library passes every case of the kit; with BROKEN set, a controller that drives nothing is tested."""

from __future__ import annotations

import os

from riddlesage import RECESSIVE, Port
from riddlesage.pytest_plugin import CanCase


class Silent(Port):
    """A port that drives nothing, and so acknowledges nothing."""

    def drive(self) -> int:
        """Always recessive."""
        return RECESSIVE


def test_a_port(can_case: CanCase) -> None:
    """One test per case."""
    kind = Silent if os.environ.get("BROKEN") else Port
    can_case.hold_against(kind(4096, 0, joining=can_case.joining))
