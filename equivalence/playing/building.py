"""Programs in C++, the simulator and the learner: compiled at the first call, and kept in the user's cache."""

from __future__ import annotations

import hashlib
import os
import pathlib
import platform
import shutil
import subprocess
import time
from dataclasses import dataclass

from holding.faults import FAILED, Fault

FOLDER = pathlib.Path(__file__).resolve().parent.parent
COMPILERS = ("c++", "g++", "clang++")
OPTIONS = ["-std=c++17", "-O2", "-Wno-psabi"]
# for this machine; a compiler that knows neither builds without
TUNED: tuple[list[str], ...] = (["-march=native"], ["-mcpu=native"], [])
CADICAL = "apt-get install libcadical-dev"
LONGEST = 300  # seconds


@dataclass(frozen=True)
class Engine:
    """A program: its name, what it is called, the folders of its sources, the first with main.cc; libraries."""

    name: str
    said: str
    folders: tuple[str, ...]
    libraries: tuple[str, ...] = ()

    def sources(self) -> list[pathlib.Path]:
        """All files that it is compiled from."""
        return [path for folder in self.folders for path in sorted((FOLDER / folder).iterdir())]


SIMULATOR = Engine("play", "simulator", ("playing/engine",))
LEARNER = Engine("find", "learner", ("finding/engine", "playing/engine"), ("-lcadical",))


def compiler(said: str) -> str:
    """The C++ compiler that is installed. Raises Fault if there is none."""
    for name in COMPILERS:
        if shutil.which(name):
            return name
    raise Fault(f"no C++ compiler is installed, which builds the {said}: apt-get install g++", FAILED)


def processor() -> str:
    """What distinguishes the machine from others that may share the cache."""
    try:
        lines = pathlib.Path("/proc/cpuinfo").read_text(errors="replace").splitlines()
    except OSError:
        lines = []
    return "\n".join([platform.machine(), *sorted({it for it in lines if it.startswith(("flags", "Features"))})])


def digest(command: str, engine: Engine) -> str:
    """A name for what the sources, the compiler and the machine give."""
    version = subprocess.run([command, "--version"], capture_output=True, text=True, errors="replace").stdout
    made = hashlib.sha256("\n".join([version, processor(), *OPTIONS]).encode())
    for path in engine.sources():
        made.update(path.read_bytes())
    return made.hexdigest()[:24]


def cache(room: pathlib.Path) -> pathlib.Path:
    """The folder in which the simulator is kept; the temporary one if the user's cache can't be written."""
    base = os.environ.get("XDG_CACHE_HOME") or os.path.expanduser("~/.cache")
    folder = pathlib.Path(base) / "riddlesage"
    try:
        folder.mkdir(parents=True, exist_ok=True)
    except OSError:
        return room
    return folder if os.access(folder, os.W_OK | os.X_OK) else room


def compiled(command: str, engine: Engine, made: pathlib.Path) -> None:
    """Compiles a program to this file. Raises Fault with the compiler's first errors if that fails."""
    errors = ""
    for tuned in TUNED:
        main = str(FOLDER / engine.folders[0] / "main.cc")
        words = [command, *OPTIONS, *tuned, "-o", str(made), main, *engine.libraries]
        try:
            ran = subprocess.run(words, capture_output=True, text=True, errors="replace", timeout=LONGEST)
        except subprocess.TimeoutExpired:
            raise Fault(f"{command} did not compile the {engine.said} in {LONGEST} s", FAILED) from None
        if ran.returncode == 0:
            return
        errors = errors or ran.stderr
    if "cadical" in errors:
        raise Fault("the SAT solver's library is not installed, which the learner needs: " + CADICAL, FAILED)
    raise Fault(f"{command} can't compile the {engine.said}: " + "; ".join(errors.splitlines()[:3]), FAILED)


def simulator(room: pathlib.Path) -> tuple[pathlib.Path, str]:
    """The simulator, and a line about it if it has been compiled now."""
    return built(SIMULATOR, room)


def built(engine: Engine, room: pathlib.Path) -> tuple[pathlib.Path, str]:
    """A program, and a line about it if it has been compiled now."""
    command = compiler(engine.said)
    kept = cache(room) / f"{engine.name}-{digest(command, engine)}"
    if kept.exists():
        return kept, ""
    begun = time.monotonic()
    made = kept.with_name(f"{kept.name}.{os.getpid()}")
    compiled(command, engine, made)
    made.replace(kept)
    return kept, f"{engine.said}: compiled in {time.monotonic() - begun:.0f} s, and kept as {kept}"
