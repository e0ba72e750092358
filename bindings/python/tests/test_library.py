"""The declarations of the package, compared with riddlesage.h: structs and numbers, for machines of 32 and 64 bits."""

from __future__ import annotations

import ctypes
import pathlib
import re
import shutil
import subprocess
from collections.abc import Iterator

import pytest
from riddlesage import Field, Status, _library

HEADER = pathlib.Path(__file__).resolve().parents[2] / "riddlesage.h"
STRUCTS: dict[str, type[ctypes.Structure]] = {
    "riddlesage_frame": _library.PlainFrame,
    "riddlesage_heard": _library.PlainHeard,
    "riddlesage_offer": _library.PlainOffer,
    "riddlesage_hit": _library.PlainHit,
    "riddlesage_wire": _library.PlainWire,
    "riddlesage_standing": _library.PlainStanding,
    "riddlesage_port": _library.PlainPort,
    "riddlesage_port_time": _library.PlainPortTime,
    "riddlesage_wrong": _library.PlainWrong,
    "riddlesage_coverage": _library.PlainCoverage,
}
# what the fields of a riddlesage_port, which only the library uses, are called there
PORT = {"at": "handle.at", "live": "handle.live", "unused": "handle.unused"}
# machines of 64 and of 32 bits; on the second one a uint64_t is aligned to four bytes
MACHINES = ("x86_64-linux-gnu", "i686-linux-gnu", "arm-linux-gnueabihf")


def assertions() -> Iterator[str]:
    """The sizes and offsets of the package, as assertions of C."""
    for name, struct in STRUCTS.items():
        yield f'_Static_assert(sizeof({name}) == {ctypes.sizeof(struct)}, "the size of {name}");'
        for field, *_ in struct._fields_:
            if field.startswith("unused") and name != "riddlesage_port" or field == "unused_end":
                continue
            place = getattr(struct, field).offset
            inside = PORT.get(field, field) if name == "riddlesage_port" else field
            yield f'_Static_assert(offsetof({name}, {inside}) == {place}, "the place of {field} in {name}");'
    for constant, value in (
        ("FIELD_ROOM", _library.FIELD_ROOM),
        ("WORDS_ROOM", _library.WORDS_ROOM),
        ("MOST_BITS", _library.MOST_BITS),
        ("COVERAGE_ITEMS", _library.COVERAGE_ITEMS),
        *((f"FIELD_{field.name}", field.value) for field in Field),
        *((status.name, status.value) for status in Status),
    ):
        yield f'_Static_assert(RIDDLESAGE_{constant} == {value}, "{constant}");'


def compiled(*command: str) -> str:
    """What a compiler finds in the assertions."""
    text = "\n".join(["#include <stddef.h>", f'#include "{HEADER}"', *assertions()])
    words = [*command, "-std=c11", "-ffreestanding", "-fsyntax-only", "-x", "c", "-"]
    return subprocess.run(words, input=text, capture_output=True, text=True, check=False).stderr


@pytest.mark.parametrize("machine", MACHINES)
def test_layouts(machine: str) -> None:
    """Structs have the sizes and offsets of C, the same on each machine."""
    if not shutil.which("clang"):
        pytest.skip("clang is not installed")
    assert compiled("clang", f"--target={machine}") == ""


def test_layout_here() -> None:
    """The same with this machine's compiler."""
    if not shutil.which("cc"):
        pytest.skip("cc is not installed")
    assert compiled("cc") == ""


def test_no_hidden_bytes() -> None:
    """Each byte of a struct with a uint64_t or an address is in a field, so the alignment of these plays no role."""
    for name, struct in STRUCTS.items():
        hidden = ctypes.sizeof(struct) - sum(ctypes.sizeof(kind) for _, kind, *_ in struct._fields_)
        # a frame has 15 bytes, and is aligned as its identifier
        assert hidden == 0 or name in ("riddlesage_frame", "riddlesage_heard"), (name, hidden)


def test_every_struct_is_compared() -> None:
    """No struct of the header is left out, and each status has its number."""
    header = HEADER.read_text("ascii")
    assert set(re.findall(r"^typedef struct (\w+) \{", header, flags=re.MULTILINE)) == set(STRUCTS)
    before = header.split("} riddlesage_status;")[0]
    statuses = re.findall(r"^  RIDDLESAGE_(\w+) = \d+,? +/\*\*<", before, flags=re.MULTILINE)
    assert statuses == [status.name for status in Status]
