#!/usr/bin/env python3
"""Writes a log of candump with COUNT random frames, without those that can-utils reads differently.

some_log.py [COUNT]
"""

from __future__ import annotations

import pathlib
import random
import sys

TOP = pathlib.Path(__file__).resolve().parent.parent.parent
sys.path.insert(0, str(TOP / "bindings" / "python"))

from decoder import some_frame
from riddlesage.candump import text_of


def main() -> None:
    """Writes the lines, a millisecond apart."""
    count, chance = int(sys.argv[1]) if len(sys.argv) > 1 else 20000, random.Random(1)
    number = 0
    while number < count:
        frame = some_frame(chance)
        if frame.dlc <= 8 and not (frame.remote and frame.dlc):
            print(f"({1436509052 + number // 1000}.{number % 1000:03}000) can0 {text_of(frame)}")
            number += 1


if __name__ == "__main__":
    main()
