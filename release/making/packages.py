"""The forms of a release: an archive, a Debian package, a wheel, and packages of sources."""

from __future__ import annotations

import hashlib
import os
import pathlib
import re
import shutil
import subprocess
import sys

from making.staging import SONAME, Layout, Parts, link, put, settled, stage
from making.tree import TOP, VERSION, commit_time, output

sys.path.insert(0, str(TOP / "bindings" / "python"))

import wheel_backend

NAME = f"riddlesage-{VERSION}-linux-x86_64"
_MODULE = "lib/python3/dist-packages"
# Python writes files into the folders of the package that dpkg does not know.
_PRERM = f"""\
#!/bin/sh
set -e
find /usr/{_MODULE}/riddlesage /usr/share/riddlesage -name __pycache__ -prune -exec rm -rf {{}} +
"""
_CONTROL = """\
Package: riddlesage
Version: {version}
Architecture: amd64
Section: electronics
Priority: optional
Maintainer: nobody yet <nobody@example.invalid>
Installed-Size: {size}
Depends: libc6 (>= {libc})
Recommends: python3 (>= 3.9)
Suggests: python3-pytest, pkg-config, iverilog, verilator, ghdl, yosys, cadical, g++, libcadical-dev
Description: formally verified reference model of classical CAN
 canbit encodes frames, decodes traces, and simulates a bus with injected bit
 errors. canhold judges controllers with a conformance test kit. canplan
 computes worst-case response times. cangates writes the reference controller
 as a circuit, in Verilog and AIGER. hold checks a design in Verilog or VHDL
 for equivalence with that circuit, with a SAT solver. Golden models for test
 benches in C, C++, Rust, Python, Verilog, SystemVerilog and VHDL are included.
 Bit timing, synchronisation and CAN FD are not modelled.
"""


def _sum(path: pathlib.Path, algorithm: str) -> str:
    return hashlib.new(algorithm, path.read_bytes()).hexdigest()


def sums(root: pathlib.Path, algorithm: str) -> str:
    """A line with the checksum of each file below a folder, in the format of sha256sum."""
    files = sorted(it for it in root.rglob("*") if it.is_file() and not it.is_symlink())
    return "".join(f"{_sum(it, algorithm)}  {it.relative_to(root)}\n" for it in files)


def libc_needed() -> str:
    """The oldest version of the C library with all symbols that the shared library needs."""
    names = output("readelf", "--version-info", "--wide", TOP / wheel_backend.LIBRARY)
    return max(re.findall(r"GLIBC_([\d.]+)", names), key=lambda it: [int(part) for part in it.split(".")])


def wheel(into: pathlib.Path) -> pathlib.Path:
    """Makes the wheel. Its tag names the C library that it needs; the tag of 2014 is for an older pip."""
    libc = libc_needed()
    tags = [f"manylinux_{libc.replace('.', '_')}_x86_64"]
    tags += ["manylinux2014_x86_64"] * (int(libc.split(".")[1]) <= 17)
    return into / wheel_backend.write_wheel(str(into), f"py3-none-{'.'.join(tags)}")


def _packed(root: pathlib.Path, to: pathlib.Path, compressor: str) -> None:
    """Packs a folder; the same files give the same bytes."""
    words = ["tar", "--sort=name", f"--mtime=@{commit_time()}", "--owner=0", "--group=0", "--numeric-owner"]
    words += ["--format=gnu", f"--use-compress-program={compressor}", "-cf", str(to), root.name]
    subprocess.run(words, check=True, cwd=root.parent)


def sources(into: pathlib.Path, room: pathlib.Path) -> None:
    """Makes the packages that build from the library as one file of C, and the one for npm."""
    subprocess.run([TOP / "bindings" / "portable" / "packages" / "stage", room], check=True)
    shutil.copyfile(room / f"riddlesage-{VERSION}.tar.gz", into / f"riddlesage-{VERSION}.tar.gz")
    root = settled(room / f"riddlesage-{VERSION}-source")
    _packed(root, into / f"{root.name}.tar.xz", "xz -9 -T1")
    # npm wants all files of a package in a folder of this name
    module = settled((room / f"riddlesage-{VERSION}-npm").rename(room / "package"))
    _packed(module, into / f"riddlesage-{VERSION}-npm.tgz", "gzip -9 -n")


def archive(into: pathlib.Path, room: pathlib.Path, parts: Parts, wheel: pathlib.Path) -> None:
    """Makes the archive, which can be unpacked anywhere."""
    root = room / NAME
    stage(root, Layout("lib", "${pcfiledir}/../.."), parts)
    put(root / "python" / wheel.name, wheel.read_bytes())
    for name in ("README.md", "BUILT-FROM"):
        link(root / name, f"share/doc/riddlesage/{name}")
    put(root / "SHA256SUMS", sums(root, "sha256"))
    _packed(settled(root), into / f"{NAME}.tar.xz", "xz -9 -T1")


def debian_package(into: pathlib.Path, room: pathlib.Path, parts: Parts) -> None:
    """Makes the Debian package, with files in the places of Debian."""
    root = room / "package"
    usr = root / "usr"
    stage(usr, Layout("lib/x86_64-linux-gnu", "/usr"), parts)
    for file, content in wheel_backend.files(wheel_backend.PURE):
        if not file.startswith("riddlesage/conformance/"):
            put(usr / _MODULE / file, content)
    link(usr / _MODULE / "riddlesage" / "conformance", "../../../../share/riddlesage/conformance")
    size = sum(it.stat().st_size for it in usr.rglob("*") if it.is_file() and not it.is_symlink()) // 1024
    control = _CONTROL.format(version=VERSION, size=size, libc=libc_needed())
    md5sums = sums(root, "md5")
    put(root / "DEBIAN" / "control", control)
    put(root / "DEBIAN" / "md5sums", md5sums)
    put(root / "DEBIAN" / "prerm", _PRERM, 0o755)
    put(root / "DEBIAN" / "shlibs", f"libriddlesage {SONAME.rpartition('.')[2]} riddlesage (>= {VERSION})\n")
    put(root / "DEBIAN" / "triggers", "activate-noawait ldconfig\n")
    settled(root)
    for it in root.rglob("*"):
        os.utime(it, (commit_time(), commit_time()), follow_symlinks=False)
    words = ["dpkg-deb", "--root-owner-group", "-Zxz", "--build", str(root), f"{into}/riddlesage_{VERSION}_amd64.deb"]
    times = {**os.environ, "SOURCE_DATE_EPOCH": str(commit_time())}
    subprocess.run(words, check=True, env=times, stdout=subprocess.DEVNULL)
