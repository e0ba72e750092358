"""Proves crates from nothing, in parallel.

In one tree rt proves one crate after the other, since it locks a crate and all below it as long as it proves. So here
each crate has a folder of its own, with the sources of the crates below it and their kept proofs (`out`), and one call
of rt lib. The crates that the longest chain waits for come first, with a job for each processor; the others have one
job. The proofs go to crates/NAME/out, where rt reuses them. Crates that have kept proofs there are left to rt.

What is read from the tree is copied before the first proof, and what goes there is put there after the last. So in
between another command may clear crates/NAME/out, as rt ci does.
"""

from __future__ import annotations

import fcntl
import graphlib
import math
import os
import shutil
import subprocess
import sys
import tempfile
from collections.abc import Collection, Iterator
from contextlib import contextmanager
from dataclasses import dataclass

from repository import TOP, below, copy, needs_of, read_costs

# The share of the seconds of tools/costs.txt (one job a crate) that an otherwise idle machine takes.
USUAL_SLOWNESS = 0.5
# The seconds of a crate that is not listed there.
USUAL_COST = 30.0
# The memory that a proof may take, in bytes.
MEMORY = 3 << 30
# Crates outside of the longest chain give way to those within it.
NICE = 10


def lanes() -> int:
    """How many proofs run in parallel here."""
    memory = os.sysconf("SC_PHYS_PAGES") * os.sysconf("SC_PAGE_SIZE")
    return max(1, min(len(os.sched_getaffinity(0)), memory // MEMORY))


def out_of(crate: str, top: str = TOP) -> str:
    """Where rt keeps the proofs of a crate."""
    return f"{top}/crates/{crate}/out"


def is_new(crate: str) -> bool:
    """Whether rt has kept no proofs of a crate that it can reuse. rt ci keeps none in the tree."""
    return not os.path.isdir(f"{out_of(crate)}/incremental")


def link(from_: str, to: str) -> None:
    """Links a file to a second place, or copies it if that is impossible."""
    try:
        os.link(from_, to)
    except OSError:
        shutil.copy2(from_, to)


def link_all(from_: str, to: str) -> None:
    """Links the files of a folder to a second one."""
    shutil.copytree(from_, to, symlinks=True, copy_function=link)


class Plan:
    """The crates to be proved, and their order."""

    def __init__(self, crates: Collection[str]) -> None:
        self.needs = needs_of(crates)
        costs = read_costs()
        self.seconds = {crate: costs.get(crate, USUAL_COST) * USUAL_SLOWNESS for crate in crates}
        # of each crate, the seconds of the longest chain that waits for it, with its own
        self.chains: dict[str, float] = dict.fromkeys(crates, 0.0)
        for crate in reversed(list(graphlib.TopologicalSorter(self.needs).static_order())):
            self.chains[crate] += self.seconds[crate]
            for it in self.needs[crate]:
                self.chains[it] = max(self.chains[it], self.chains[crate])
        self.left = set(crates)

    def ready(self, running: Collection[str]) -> list[str]:
        """The crates that can be proved now, the one that is waited for most first."""
        free = [it for it in self.left if it not in running and self.left.isdisjoint(self.needs[it])]
        return sorted(free, key=lambda it: -self.chains[it])

    def progress(self) -> str:
        """The progress, in words."""
        chain = max((self.chains[it] for it in self.left), default=0)
        seconds = max(chain, sum(self.seconds[it] for it in self.left) / lanes())
        time = f", about {math.ceil(seconds / 60)} min left" if self.left else ""
        return f"{len(self.needs) - len(self.left)} of {len(self.needs)} crates{time}"


class NotProved(Exception):
    """A crate was not proved; its text is the output of rt."""


@dataclass(frozen=True)
class Proof:
    """A crate that is being proved, in a folder of its own."""

    crate: str
    room: str
    call: subprocess.Popen[bytes]

    def output(self) -> str:
        """The output of rt."""
        with open(f"{self.room}/log", encoding="utf-8", errors="replace") as log:
            return log.read()


class Prover:
    """Proves the new ones of some crates, which include all that they depend on, each in a folder of its own.

    The folder of a crate also keeps its `out`: that of the tree, or that of the proof here.
    """

    def __init__(self, crates: Collection[str], rooms: str) -> None:
        self.crates, self.rooms = crates, rooms
        self.plan = Plan([it for it in crates if is_new(it)])
        self.running: dict[int, Proof] = {}
        for it in crates:
            os.mkdir(self._room(it))
            if it in self.plan.left:
                copy([it, *below(it)], self._room(it), "out", "must-fail", "more-edits")
            else:
                link_all(out_of(it), self._out(it))

    def _room(self, crate: str) -> str:
        return f"{self.rooms}/{crate}"

    def _out(self, crate: str) -> str:
        return out_of(crate, self._room(crate))

    def prove(self, name: str) -> bool:
        """Proves all, prints the progress in the name of a command, and returns whether all are proved."""
        try:
            while self.plan.left:
                print(f"{name}: {self.plan.progress()}", file=sys.stderr, flush=True)
                self._begin()
                self._end_one()
        except NotProved as why:
            print(why, file=sys.stderr)
            return False
        finally:
            for proof in self.running.values():
                proof.call.terminate()
                proof.call.wait()
        print(f"{name}: {self.plan.progress()}", file=sys.stderr, flush=True)
        return True

    def _begin(self) -> None:
        """Begins the proofs that can begin."""
        crates = [it.crate for it in self.running.values()]
        for crate in self.plan.ready(crates)[: lanes() - len(crates)]:
            is_first = all(self.plan.chains[it.crate] < self.plan.chains[crate] for it in self.running.values())
            call = self._call(crate, lanes() if is_first else 1, 0 if is_first else NICE)
            self.running[call.pid] = Proof(crate, self._room(crate), call)

    def _call(self, crate: str, jobs: int, nice: int) -> subprocess.Popen[bytes]:
        """A call of rt lib for a crate, in its folder."""
        room = self._room(crate)
        for it in below(crate):
            link_all(self._out(it), out_of(it, room))
        with open(f"{room}/log", "wb") as log:
            return subprocess.Popen(
                ["nice", "-n", str(nice), "rt", "lib", "--jobs", str(jobs)],
                cwd=f"{room}/crates/{crate}",
                stdin=subprocess.DEVNULL,
                stdout=log,
                stderr=subprocess.STDOUT,
            )

    def _end_one(self) -> None:
        """Waits until a call ends. Raises NotProved if it failed."""
        pid, status = os.wait()
        if proof := self.running.pop(pid, None):
            proof.call.returncode = os.waitstatus_to_exitcode(status)
            if proof.call.returncode:
                raise NotProved(proof.output())
            self.plan.left.discard(proof.crate)

    def put(self) -> None:
        """Puts into the tree the proofs that it lacks."""
        for crate in self.crates:
            if crate not in self.plan.left and is_new(crate):
                shutil.rmtree(out_of(crate), ignore_errors=True)
                shutil.move(self._out(crate), out_of(crate))


@contextmanager
def alone() -> Iterator[None]:
    """Waits until no other call proves crates of this tree."""
    os.makedirs(f"{TOP}/out", exist_ok=True)
    with open(f"{TOP}/out/proving", "w", encoding="ascii") as lock:
        fcntl.flock(lock, fcntl.LOCK_EX)
        yield


def prove(name: str, crates: Collection[str], beside: bool = False) -> bool:
    """Proves the new ones of these crates and of their dependencies, and returns whether all are proved.

    In parallel with a command that clears crates/NAME/out (beside), a line on standard output says that the command may
    begin, and the end of standard input that it has ended. Then what was there of these crates is put back, too.
    """
    needed = {*crates}.union(*map(below, crates))
    with alone(), tempfile.TemporaryDirectory(prefix="proving-") as rooms:
        if not beside and not any(map(is_new, needed)):
            return True
        prover = Prover(needed, rooms)
        if beside:
            print("copied", flush=True)
        try:
            return prover.prove(name)
        finally:
            if beside:
                sys.stdin.read()
            prover.put()
