"""The functions of crates: contracts, doc comments, and which ones are public. Sources are in the layout of rt fmt."""

from __future__ import annotations

import dataclasses
import glob
import os
import re
from collections.abc import Iterator

from repository import TOP

FUNCTION = re.compile(r"( *)(?:pub(?:\(\w+\))? )?(?:const )?(?:unsafe )?(?:extern \"C\" )?fn (\w+)")
CLAUSE = re.compile(r" *(requires|ensures|decreases|invariant)\b(?:\*? (\w+))?")
TRAIT = re.compile(r"pub trait (\w+)")
IMPL = re.compile(r"impl(?:<.*?>)? (?:(\w+)(?:<.*?>)? for )?(\w+)")
ITEM = re.compile(r"^pub (?:extern \"C\" |const |unsafe )*(?:fn|struct|enum|trait|type|const|static) (\w+)", re.M)
USE = re.compile(r"^(pub )?(?:pub\(crate\) )?use ([^;]*);", re.M)
Path = tuple[str, ...]


@dataclasses.dataclass(frozen=True)
class Clause:
    """A clause of a contract: `requires` or `ensures`, its name if it has one, and what is within its braces."""

    word: str
    name: str
    text: str


@dataclasses.dataclass(frozen=True)
class Call:
    """A function with its contract. Its owner is a type, a trait or a public module, if it is named after one."""

    file: str
    owner: str
    name: str
    clauses: tuple[Clause, ...]
    doc: str
    is_law: bool  # it does nothing, and its contract is the law

    def names(self, word: str) -> list[str]:
        """The names of its clauses with this word, without those that have none."""
        return [it.name for it in self.clauses if it.word == word and it.name]

    def __str__(self) -> str:
        return f"{self.owner}::{self.name}" if self.owner else self.name


def contract(lines: list[str], at: int, indent: str) -> tuple[tuple[Clause, ...], int]:
    """The clauses of the function that begins at this line, and the line at which its contract has ended."""
    found: list[tuple[str, str, list[str]]] = []
    for end in range(at, len(lines)):
        line = lines[end]
        if line in (f"{indent}{{", f"{indent}{{}}"):
            break
        begins = CLAUSE.match(line)
        if begins:
            found.append((begins[1], begins[2] or "", []))
        if found and not line.lstrip().startswith("//"):
            found[-1][2].append(line[begins.end() :] if begins else line)
        if line.endswith(("};",) if found else ("{", "{}", ";")):
            break
    texts = (" ".join(" ".join(text).split()).rstrip(";") for _, _, text in found)
    return tuple(Clause(word, name, text[1:-1].strip()) for (word, name, _), text in zip(found, texts)), end


def imports(text: str, only_public: bool = False) -> Iterator[Path]:
    """The paths of the items that a module imports."""
    for use in USE.finditer(text):
        if use[1] or not only_public:
            front, _, names = " ".join(use[2].split()).partition("{")
            for name in names.rstrip(" ,}").split(",") if names else [""]:
                yield tuple(it for it in f"{front}{name.strip()}".split("::") if it)


class Crate:
    """The modules of a crate that is a library, by their paths: that of the file lib.rt is empty."""

    def __init__(self, name: str) -> None:
        source = f"{TOP}/crates/{name}/src"
        self.files: dict[Path, str] = {}
        self.texts: dict[Path, str] = {}
        for file in sorted(glob.glob(f"{source}/**/*.rt", recursive=True)):
            path = tuple(os.path.relpath(file, source)[: -len(".rt")].split("/"))
            module = () if path == ("lib",) else path
            self.files[module] = os.path.relpath(file, TOP)
            with open(file, encoding="utf-8") as it:
                self.texts[module] = it.read()
        self.items = {module: set(ITEM.findall(text)) for module, text in self.texts.items()}
        self.imports = {module: list(imports(text)) for module, text in self.texts.items()}

    def home(self, module: Path, path: Path) -> Path | None:
        """The path of the public item that a path names in a module, none if it is not of this crate."""
        first, *rest = path
        start = {"crate": (), "self": module, "super": module[:-1]}.get(first, (*module, first))
        whole = (*start, *rest)
        if not whole or whole[-1] in self.items.get(whole[:-1], ()):
            return whole or None
        found = (it for it in self.imports.get(whole[:-1], ()) if it[-1] == whole[-1] and it != path)
        return next((home for it in found if (home := self.home(whole[:-1], it))), None)

    def exported(self) -> set[Path]:
        """The paths of the items that other crates name by the crate alone."""
        named = imports(self.texts[()], only_public=True)
        return {(it,) for it in self.items[()]} | {home for it in named if (home := self.home((), it))}

    def in_modules(self) -> set[Path]:
        """The paths of the items that other crates name by a module of the crate."""
        names = re.findall(r"^pub mod (\w+);", self.texts[()], re.M)
        return {(name, it) for name in names for it in self.items[(name,)]}

    def calls(self) -> Iterator[Call]:
        """The functions that other crates can call: public ones, and those of public types and traits.

        A function that a trait asks for counts again at a type only if the type promises more of it.
        """
        exported = self.exported()
        public = exported | self.in_modules()
        for module in sorted(self.texts):
            for call, is_public, is_of_trait in functions(self.files[module], self.texts[module]):
                home = self.home(module, (call.owner,)) if call.owner else (*module, call.name)
                if home not in public or not (is_public or is_of_trait and call.names("ensures")):
                    continue
                owner = call.owner if home in exported else "::".join(home if call.owner else home[:-1])
                yield dataclasses.replace(call, owner=owner)


def functions(file: str, text: str) -> Iterator[tuple[Call, bool, bool]]:
    """The functions of a file, and of each whether it is public, and whether its type implements a trait with it."""
    lines = text.split("\n")
    owner, is_trait, is_of_trait = "", False, False
    doc: list[str] = []
    for at, line in enumerate(lines):
        if begins := IMPL.match(line):
            owner, is_trait, is_of_trait = begins[2], False, begins[1] is not None
        elif begins := TRAIT.match(line):
            owner, is_trait, is_of_trait = begins[1], True, False
        elif line == "}":
            owner, is_trait, is_of_trait = "", False, False
        begins = FUNCTION.match(line)
        if begins and len(begins[1]) == (4 if owner else 0):
            clauses, end = contract(lines, at, begins[1])
            call = Call(file, owner, begins[2], clauses, " ".join(doc), lines[end].strip() == "{}")
            yield call, is_trait or line.lstrip().startswith("pub "), is_of_trait
        if line.lstrip().startswith("///"):
            doc.append(line.lstrip()[len("///") :].strip())
        elif not line.lstrip().startswith("#["):
            doc = []
