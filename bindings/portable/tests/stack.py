#!/usr/bin/env python3
"""Prints the most stack that a call can use, from the call graph that gcc writes with -fcallgraph-info=su.

    stack.py GRAPH TIMES NAME..     the bytes for the deepest of these functions, and its name

The compiler reports the frame of each function. Functions of other files count as 0. A function that calls itself
counts TIMES. Any other recursion, or a frame whose size is not fixed, ends the program with status 1 and a line that
names it.
"""

from __future__ import annotations

import re
import sys
from collections.abc import Iterable

NODE = re.compile(r'node: { title: "([^"]*)" label: "([^"]*)"')
EDGE = re.compile(r'edge: { sourcename: "([^"]*)" targetname: "([^"]*)"')
FRAME = re.compile(r"(\d+) bytes \((\w+)\)")


class Unbounded(Exception):
    """A function whose stack has no bound; the text names it."""


class Graph:
    """The functions of a file, their frames in bytes, and whom each calls."""

    def __init__(self, text: str, times: int) -> None:
        self.frames: dict[str, int] = {}
        self.called: dict[str, set[str]] = {}
        self.most: dict[str, int] = {}
        for name, label in NODE.findall(text):
            found = FRAME.search(label)
            if found and found[2] not in ("static", "dynamic,bounded"):
                raise Unbounded(f"{name}: the size of its frame is not fixed")
            self.frames[name] = int(found[1]) if found else 0
        for name, other in EDGE.findall(text):
            self.called.setdefault(name, set()).add(other)
        for name, called in self.called.items():
            if name in called:
                called.remove(name)
                self.frames[name] *= times

    def depth(self, name: str, above: tuple[str, ...] = ()) -> int:
        """The most bytes from the entry of a function on."""
        if name in above:
            raise Unbounded(f"{name} is recursive")
        if name not in self.most:
            deeper = (self.depth(it, (*above, name)) for it in self.called.get(name, ()))
            self.most[name] = self.frames.get(name, 0) + max(deeper, default=0)
        return self.most[name]


def deepest(graph: Graph, names: Iterable[str]) -> tuple[int, str]:
    """The most bytes of these functions, and which one that is."""
    return max((graph.depth(name), name) for name in names)


def main() -> int:
    if len(sys.argv) < 4 or not sys.argv[2].isdecimal():
        print("usage: stack.py GRAPH TIMES NAME..", file=sys.stderr)
        return 2
    try:
        with open(sys.argv[1], encoding="utf-8") as file:
            most, name = deepest(Graph(file.read(), int(sys.argv[2])), sys.argv[3:])
    except (OSError, Unbounded) as why:
        print(f"stack.py: {why}", file=sys.stderr)
        return 1
    print(f"at most {most} bytes of stack: {name}")
    return 0


if __name__ == "__main__":
    sys.exit(main())
