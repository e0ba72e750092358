"""Builds adapters from their sources, unchanged or with a change."""

from __future__ import annotations

import glob
import os
import subprocess
from dataclasses import dataclass, field
from typing import Iterable, Protocol, Sequence

REPOSITORY = os.path.dirname(os.path.dirname(os.path.dirname(os.path.realpath(__file__))))
CONTROLLER = "conformance/adapters/controller"
SIMULATOR = ("bench/machine.rs", "bench/frames.rs")
ADAPTER = "conformance/adapters/simulator.rs"


class Patch(Protocol):
    """A change of sources, such as a mutation."""

    def applied(self, texts: dict[str, str]) -> dict[str, str]:
        """The sources, by path, with the change. Raises ValueError if it does not fit."""


class NotBuilt(Exception):
    """The compiler rejects the sources. The text is the compiler's."""


def _run(command: Sequence[str]) -> None:
    built = subprocess.run(command, capture_output=True, text=True)
    if built.returncode != 0:
        raise NotBuilt(built.stderr)


def _read(paths: Iterable[str]) -> dict[str, str]:
    texts = {}
    for path in paths:
        with open(os.path.join(REPOSITORY, path), encoding="utf-8") as file:
            texts[path] = file.read()
    return texts


def _write(texts: dict[str, str], folder: str) -> None:
    for path, text in texts.items():
        there = os.path.join(folder, path)
        os.makedirs(os.path.dirname(there), exist_ok=True)
        with open(there, "w", encoding="utf-8") as file:
            file.write(text)


@dataclass
class Model:
    """An adapter's sources by path. Its mutations are changes of `texts`."""

    name: str
    texts: dict[str, str]

    def build(self, folder: str, patch: Patch | None = None) -> str:
        """Builds the adapter in a folder of its own. Returns the path of the program.

        Raises NotBuilt, or ValueError if the patch does not fit.
        """
        texts = self.texts if patch is None else patch.applied(self.texts)
        _write(texts, folder)
        program = os.path.join(folder, "adapter")
        self._compile(texts, folder, program)
        return program

    def _compile(self, texts: dict[str, str], folder: str, program: str) -> None:
        raise NotImplementedError


@dataclass
class CModel(Model):
    """The small controller in C.

    Objects of unchanged sources are reused for mutants, because a mutation changes one file or two.
    """

    objects: dict[str, str] = field(default_factory=dict)

    def _compile(self, texts: dict[str, str], folder: str, program: str) -> None:
        same_headers = all(text == self.texts[path] for path, text in texts.items() if path.endswith(".h"))
        objects: list[str] = []
        for path, text in texts.items():
            if path.endswith(".c"):
                kept = self.objects.get(path) if same_headers and text == self.texts[path] else None
                objects.append(kept or self._object(path, folder))
        _run([*self._compiler(), "-o", program, *objects])

    def _object(self, path: str, folder: str) -> str:
        made = os.path.join(folder, path[: -len(".c")] + ".o")
        _run([*self._compiler(), "-c", "-o", made, os.path.join(folder, path)])
        return made

    @staticmethod
    def _compiler() -> list[str]:
        return [os.environ.get("CC", "cc"), "-std=c99", "-w"]

    def keep_objects(self, folder: str) -> None:
        """Compiles the unchanged sources for the builds that follow. The folder has to stay."""
        _write(self.texts, folder)
        self.objects = {path: self._object(path, folder) for path in self.texts if path.endswith(".c")}


@dataclass
class RustModel(Model):
    """The plain simulator in Rust."""

    def _compile(self, texts: dict[str, str], folder: str, program: str) -> None:
        _write(_read([ADAPTER]), folder)
        _run(["rustc", "-A", "warnings", "-o", program, os.path.join(folder, ADAPTER)])


def controller() -> CModel:
    """The small controller in C, unchanged."""
    paths = glob.glob(os.path.join(REPOSITORY, CONTROLLER, "*.[ch]"))
    return CModel("controller", _read(sorted(os.path.relpath(path, REPOSITORY) for path in paths)))


def simulator() -> RustModel:
    """The plain simulator in Rust, unchanged."""
    return RustModel("simulator", _read(SIMULATOR))
