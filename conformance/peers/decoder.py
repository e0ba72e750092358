#!/usr/bin/env python3
"""Compares sigrok's decoder of CAN with the library's encoder, over random frames, which are acknowledged.

    decoder.py [COUNT]

For each kind of frames it prints how many the decoder reads correctly, and in what the others differ. sigrok-cli and
libsigrokdecode are packages of Debian; the library is that of bindings/out.
"""

from __future__ import annotations

import collections
import pathlib
import random
import re
import subprocess
import sys
import tempfile
from collections.abc import Iterator

TOP = pathlib.Path(__file__).resolve().parent.parent.parent
sys.path.insert(0, str(TOP / "bindings" / "python"))

from riddlesage import DOMINANT, RECESSIVE, Frame, encode

# Samples per bit time, and recessive levels after a frame: a misread frame must not reach into the next one.
SAMPLES, GAP = 10, 800
# Frames in one run: the decoder skips the levels after a frame that it reads as too long.
CHUNK = 50
# The ACK slot comes before the ACK delimiter and the end of frame.
SLOT = -9


def some_frame(chance: random.Random) -> Frame:
    """A random frame."""
    extended, remote, dlc = chance.random() < 0.5, chance.random() < 0.2, chance.randrange(16)
    data = b"" if remote else bytes(chance.choice((0, 255, chance.randrange(256))) for _ in range(min(dlc, 8)))
    return Frame(chance.randrange(1 << (29 if extended else 11)), data, extended, remote, dlc)


def wire(frame: Frame) -> bytes:
    """The frame's levels, acknowledged."""
    levels = bytearray(encode(frame))
    levels[SLOT] = DOMINANT
    return bytes(levels)


def read(frames: list[Frame]) -> list[str]:
    """What sigrok prints for each frame, a line for each annotation."""
    levels, starts = bytearray([RECESSIVE] * 20), []
    for frame in frames:
        starts.append(len(levels))
        levels += wire(frame) + bytes([RECESSIVE] * GAP)
    with tempfile.NamedTemporaryFile(suffix=".bin") as file:
        file.write(bytes(level for level in levels for _ in range(SAMPLES)))
        file.flush()
        decoder = "can:can_rx=0:nominal_bitrate=1000000:sample_point=50"
        words = ["sigrok-cli", "-I", f"binary:numchannels=1:samplerate={SAMPLES}000000", "-i", file.name, "-P", decoder]
        words += ["-A", "can", "--protocol-decoder-samplenum"]
        printed = subprocess.run(words, check=True, capture_output=True, text=True).stdout
    texts = [""] * len(frames)
    for line in printed.splitlines():
        place, text = re.fullmatch(r"(\d+)-\d+ can-1: (.*)", line).groups()  # type: ignore[union-attr]
        number = sum(start <= int(place) // SAMPLES + 1 for start in starts) - 1
        texts[max(number, 0)] += text + "\n"
    return texts


def differences(frame: Frame, printed: str) -> Iterator[str]:
    """The parts that sigrok reads differently."""
    label = "Full Identifier" if frame.extended else "Identifier"
    identifier = re.search(rf"^{label}: (\d+)", printed, re.M)
    if not identifier or int(identifier[1]) != frame.identifier:
        yield "the identifier"
    if ("remote frame" in printed) != frame.remote:
        yield "whether it is remote"
    dlc = re.search(r"^Data length code: (\d+)", printed, re.M)
    if not dlc or int(dlc[1]) != frame.dlc:
        yield "the DLC"
    if bytes(int(byte, 16) for byte in re.findall(r"^Data byte \d+: 0x(\w\w)", printed, re.M)) != frame.data:
        yield "the data"
    elif "ACK slot: ACK" not in printed or "End of frame" not in printed or re.search("must be|invalid|Error", printed):
        yield "what follows the data"


def kind_of(frame: Frame) -> str:
    """The kind under which the frame is counted."""
    if frame.remote:
        return "remote frames with a DLC of 0" if frame.dlc == 0 else "remote frames with a DLC above 0"
    return "data frames with a DLC above 8" if frame.dlc > 8 else "data frames with a DLC of 0 to 8"


def main() -> None:
    """Counts, by kind of frame, what sigrok reads differently."""
    count, chance = int(sys.argv[1]) if len(sys.argv) > 1 else 2000, random.Random(1)
    seen: collections.Counter[str] = collections.Counter()
    differing: collections.Counter[tuple[str, str]] = collections.Counter()
    while count > 0:
        frames = [some_frame(chance) for _ in range(min(count, CHUNK))]
        count -= len(frames)
        for frame, printed in zip(frames, read(frames)):
            seen[kind_of(frame)] += 1
            differing[kind_of(frame), ", ".join(differences(frame, printed))] += 1
    for kind in sorted(seen):
        print(f"{kind}: {differing[kind, '']} of {seen[kind]} read correctly")
        for (of, what), times in sorted(differing.items()):
            if of == kind and what:
                print(f"  {times} differ in {what}")


if __name__ == "__main__":
    main()
