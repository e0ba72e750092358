"""The files of a release, in the places of a system or an archive."""

from __future__ import annotations

import gzip
import os
import pathlib
import shutil
import subprocess
from typing import NamedTuple

from making import completions, links, man_pages
from making.programs import Program
from making.record import LIBRARY, OBJECTS, PAGE
from making.tree import TOP, VERSION, commit_time, output, toolchain, tracked

SONAME = f"libriddlesage.so.{VERSION.split('.')[0]}"
# Files that are useful without the repository, and those of them that are not: tests.
BINDINGS = ("bindings/examples", "bindings/rust", "bindings/sv", "bindings/verilog", "bindings/vhdl")
SHARED = ("conformance", "equivalence", "examples", *BINDINGS)
OF_THE_REPOSITORY = (
    *("check", "record", "mechanical", "mutants", "mutations", "hold_mutations", "play_mutations", "find_mutations"),
    *("peer", "peers", "tests", ".clang-tidy"),
)
# The files of the circuit, and the arguments with which cangates writes each.
CIRCUIT = {"v": ["verilog"], "aag": ["aiger"], "aig": ["aiger", "--binary"]}
LGPL = pathlib.Path("/usr/share/common-licenses/LGPL-2.1")
DOCUMENTS = (
    ":(glob)*.md",
    "docs",
    "bench/README.md",
    "bindings",
    "conformance",
    "equivalence",
    "examples",
    "page",
    "release",
)


class Layout(NamedTuple):
    """The place of libraries below the prefix of a system."""

    libraries: str
    # the prefix, and that of pkg-config's file
    prefix: str


class Parts(NamedTuple):
    """The inputs of the files: the folder of the linked programs, their help texts, and the text on their origin."""

    programs: pathlib.Path
    described: list[Program]
    built_from: str


def put(path: pathlib.Path, content: bytes | str, mode: int = 0o644) -> None:
    """Writes a file, and makes its folders."""
    path.parent.mkdir(parents=True, exist_ok=True)
    path.write_bytes(content.encode("utf-8") if isinstance(content, str) else content)
    path.chmod(mode)


def link(path: pathlib.Path, to: str) -> None:
    """Makes a link to a name that is relative to its folder."""
    path.parent.mkdir(parents=True, exist_ok=True)
    path.symlink_to(to)


def copy(name: str, to: pathlib.Path) -> None:
    """Copies a file of the repository; it stays executable."""
    file = TOP / name
    put(to, file.read_bytes(), 0o755 if os.access(file, os.X_OK) else 0o644)


def stage(root: pathlib.Path, layout: Layout, parts: Parts) -> None:
    """Writes the files that an archive and a package have in common, below a folder."""
    share = root / "share"
    _programs(root, parts)
    _library(root, layout)
    shared = [it for it in tracked(*SHARED) if _is_shared(it)]
    for name in shared:
        copy(name, share / "riddlesage" / name)
    copy(PAGE, share / "riddlesage" / "riddlesage.html")
    for end, words in CIRCUIT.items():
        written = subprocess.run([parts.programs / "cangates", *words], check=True, stdout=subprocess.PIPE)
        put(share / "riddlesage" / "circuit" / f"riddlesage_controller.{end}", written.stdout)
    documents = share / "doc" / "riddlesage"
    _documents(documents, set(shared))
    put(documents / "BUILT-FROM", parts.built_from)
    for name, text in _notices().items():
        put(documents / "notices" / name, text)


def _is_shared(name: str) -> bool:
    return not name.endswith(".md") and not set(name.split("/")) & set(OF_THE_REPOSITORY)


def _documents(folder: pathlib.Path, shared: set[str]) -> None:
    """The documents and their pictures, with links to files of the release."""
    documents = [it for it in tracked(*DOCUMENTS) if it.endswith((".md", ".png", ".svg"))]
    for name in documents:
        if name.endswith(".md"):
            put(folder / name, links.settled((TOP / name).read_text("utf-8"), name, set(documents), shared))
        else:
            copy(name, folder / name)


def _programs(root: pathlib.Path, parts: Parts) -> None:
    """The programs, and their object files, for users who want to link another C library."""
    share = root / "share"
    for part in linked():
        put(root / "lib" / "riddlesage" / part.name, part.read_bytes())
    for it in parts.described:
        put(root / "bin" / it.name, (parts.programs / it.name).read_bytes(), 0o755)
        page = man_pages.page(it, VERSION, commit_time()).encode("ascii")
        put(share / "man" / "man1" / f"{it.name}.1.gz", gzip.compress(page, 9, mtime=0))
        put(share / "bash-completion" / "completions" / it.name, completions.bash(it))
        put(share / "zsh" / "vendor-completions" / f"_{it.name}", completions.zsh(it))
        put(share / "fish" / "vendor_completions.d" / f"{it.name}.fish", completions.fish(it))


def _library(root: pathlib.Path, layout: Layout) -> None:
    archive, shared = (TOP / it for it in LIBRARY)
    libraries = root / layout.libraries
    put(libraries / archive.name, archive.read_bytes())
    put(libraries / f"libriddlesage.so.{VERSION}", shared.read_bytes())
    link(libraries / SONAME, f"libriddlesage.so.{VERSION}")
    link(libraries / "libriddlesage.so", SONAME)
    places = [layout.prefix, "${prefix}/include", f"${{prefix}}/{layout.libraries}"]
    put(libraries / "pkgconfig" / "riddlesage.pc", output(TOP / "bindings" / "pkg-config", *places) + "\n")
    for name in ("bindings/riddlesage.h", "bindings/cpp/riddlesage.hpp"):
        copy(name, root / "include" / os.path.basename(name))


def linked() -> list[pathlib.Path]:
    """The object files and libraries of the programs, without the C library."""
    return [*(TOP / it for it in OBJECTS.values()), *(toolchain() / "c" / it for it in ("libos_c.a", "liblibc_c.a"))]


def _notices() -> dict[str, bytes]:
    """The licences of the libraries of the toolchain in the programs, which must be passed on."""
    lines = (it.partition(":") for it in (TOP / "crates.txt").read_text("utf-8").splitlines() if not it.startswith("#"))
    used = {name for _, _, names in lines for name in names.split()}
    # toml brings further libraries
    files = (file for name in [*used, "toml_*"] for file in (toolchain() / "rattle").glob(f"{name}/LICENSE*"))
    notices = {f"{it.parent.name}-{it.name}": it.read_bytes() for it in files}
    return {**notices, "glibc-LICENSE-LGPL-2.1": LGPL.read_bytes()}


def settled(root: pathlib.Path) -> pathlib.Path:
    """The folder, with all its folders readable for everyone."""
    for folder in [root, *(it for it in root.rglob("*") if it.is_dir() and not it.is_symlink())]:
        folder.chmod(0o755)
    return root


def cleared(folder: pathlib.Path) -> pathlib.Path:
    """A new, empty folder in its place."""
    shutil.rmtree(folder, ignore_errors=True)
    folder.mkdir(parents=True)
    return folder
