"""The commands that README shows, with the mutant of the controller in C that it builds as the reader's controller."""

from __future__ import annotations

import pathlib
import re
import shutil
import subprocess
import tempfile
import unittest

from kit.documents import Case, read_document
from kit.library import FOLDER, read_library

REPOSITORY = pathlib.Path(__file__).resolve().parent.parent.parent
PAGE = (REPOSITORY / "conformance" / "README.md").read_text("utf-8")
BLOCKS = [
    [line[4:] for line in block.splitlines()] for block in re.findall(r"(?:^ {4}.*\n)+", PAGE, flags=re.MULTILINE)
]


def block_of(begin: str) -> list[str]:
    """The lines of the page's block that begins so."""
    return next(block for block in BLOCKS if block[0].startswith(begin))


def walked(block: list[str]) -> tuple[str, str]:
    """The commands of a block, each after a dollar sign, and their output."""
    commands = [line[2:] for line in block if line.startswith("$ ")]
    return "\n".join(commands), "\n".join(line for line in block if not line.startswith("$ "))


def counted(cases: list[Case]) -> dict[str, int]:
    """The number of cases of each family."""
    families = [case.family for case in cases]
    return {family: families.count(family) for family in families}


class Walk(unittest.TestCase):
    """The steps of the page in their order, in a folder that serves as the clone."""

    def setUp(self) -> None:
        """Links the parts of the repository, so that nothing is written to it."""
        self.folder = tempfile.TemporaryDirectory()
        self.clone = pathlib.Path(self.folder.name) / "clone"
        self.clone.mkdir()
        for part in REPOSITORY.iterdir():
            (self.clone / part.name).symlink_to(part)

    def tearDown(self) -> None:
        self.folder.cleanup()

    def printed(self, *commands: str) -> str:
        """What the commands print, whatever their status, with the adapter for COMMAND and the folder for /tmp."""
        text = "\n".join(commands).replace("COMMAND", "../adapter").replace("/tmp/", f"{self.folder.name}/")
        ran = subprocess.run(["bash", "-c", text], cwd=self.clone, capture_output=True, text=True, check=False)
        return ran.stdout

    def last_line(self, *commands: str) -> str:
        """The last line that they print."""
        return self.printed(*commands).splitlines()[-1]

    def walk(self, begin: str) -> None:
        """The commands of the block that begins so print what it shows."""
        commands, output = walked(block_of(begin))
        self.assertEqual(self.printed(commands).strip("\n"), output)

    @unittest.skipUnless(shutil.which("cc"), "cc is not installed")
    def test_from_a_clone_to_a_verdict(self) -> None:
        """The controller, its mutant, the skeleton, the long set and the co-simulation."""
        self.walk("$ cp -r conformance/adapters/controller")
        self.walk("$ sed")
        self.walk("$ conformance/run --quiet --expect conformance/transcripts -- conformance/adapters/skeleton.py")
        self.assertIn("passed", self.last_line(*block_of("conformance/run --show --only rx-identifiers")))

        further = block_of("cc -std=c99 -O2 -o /tmp/reference")
        self.printed(*further[:2])
        result = re.fullmatch(r"passed \d+ failed (\d+) void 0 skipped 0 of (\d+)", self.last_line(further[2]))
        assert result
        self.assertIn(f"With the mutation above, {result[1]} of the {result[2]} cases fail.", PAGE)
        self.assertFalse(self.last_line(further[3]).endswith("the same"))
        same = further[3].replace("COMMAND", "/tmp/reference").replace("--runs 200", "--runs 5")
        self.assertTrue(self.last_line(same).endswith("the same"))

        standard, long = (counted(read_library([path])[0]) for path in (FOLDER, f"{self.folder.name}/long"))
        table = PAGE.split("| Class |")[1].split("\n## ")[0]
        rows = re.findall(r"\b([a-z][a-z-]+) (\d+)(?: \((\d+)\))?(?=[,| ])", table)
        shown = {(family, int(number), int(more or number)) for family, number, more in rows}
        self.assertEqual(shown, {(family, standard[family], long[family]) for family in standard})

    @unittest.skipUnless(shutil.which("cc") and shutil.which("rt"), "cc or rt is not installed")
    def test_have_it_judged(self) -> None:
        """The proved judge names the rule."""
        for begin in ("$ cp -r conformance/adapters/controller", "$ sed"):
            self.printed(walked(block_of(begin))[0])
        self.walk("$ conformance/run --quiet --transcripts")

    def test_the_case_is_one(self) -> None:
        """The case that the page shows can be read."""
        self.assertEqual(len(read_document("\n".join(block_of("[[case]]")))[0]), 1)


if __name__ == "__main__":
    unittest.main()
