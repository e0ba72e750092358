"""A picture as SVG: shapes and text, with the same bytes on every machine."""

from __future__ import annotations

from xml.sax.saxutils import escape, quoteattr

INK = "#1a1f24"
SOFT = "#4d5761"
RULE = "#d3d8dd"
PANEL = "#f4f6f8"
BAD = "#a3130f"
ACCENT = "#0b57a4"
RED = "#f2c4bd"
BLUE = "#bcd8f6"
ORANGE = "#f7d9a8"
GREEN = "#c6e6c3"
GREY = "#dfe3e7"
YELLOW = "#f3e39a"
PINK = "#f0c6e2"
LILAC = "#d5d3ee"

# Verdana and DejaVu Sans are the widest plain fonts: text that fits in these fits in any other.
STYLE = (
    "text{font:13px Verdana,'DejaVu Sans',Helvetica,Arial,sans-serif;fill:%s}"
    ".m{font-family:'DejaVu Sans Mono',Menlo,Consolas,monospace}.b{font-weight:bold}" % INK
)
# what an arrow ends with, in each of its colours
HEAD = '<marker id="{name}" viewBox="0 0 8 8" refX="7" refY="4" markerWidth="8" markerHeight="8" orient="auto" '
HEAD += 'markerUnits="userSpaceOnUse"><path d="M 0 0 L 8 4 L 0 8 z" fill="{colour}"/></marker>'
HATCH = '<pattern id="hatch" width="5" height="5" patternUnits="userSpaceOnUse">'
HATCH += '<path d="M-1 1L1 -1M0 5L5 0M4 6L6 4" stroke="#3a434b" stroke-width="0.9"/></pattern>'
Point = tuple[float, float]


def number(value: float) -> str:
    """A coordinate, to a tenth."""
    return f"{value:.1f}".removesuffix(".0")


def points(path: list[Point]) -> str:
    """A path of straight lines."""
    return "M" + "L".join(f"{number(x)} {number(y)}" for x, y in path)


class Picture:
    """Shapes on a white ground, one after another."""

    def __init__(self, width: int, height: int, title: str, about: str) -> None:
        self.width, self.height = width, height
        self.title, self.about = title, about
        self.shapes: list[str] = []
        self.heads: dict[str, str] = {}
        self.hatched = False

    def box(
        self, x: float, y: float, width: float, height: float, fill: str, line: str = "", corner: float = 0
    ) -> None:
        """A rectangle, with a line around it if that has a colour."""
        edge = f' stroke="{line}"' if line else ""
        rounded = f' rx="{number(corner)}"' if corner else ""
        place = f'x="{number(x)}" y="{number(y)}" width="{number(width)}" height="{number(height)}"'
        self.shapes.append(f'<rect {place} fill="{fill}"{edge}{rounded}/>')

    def glaze(self, x: float, y: float, width: float, height: float, fill: str, line: str, corner: float) -> None:
        """A rectangle through which one sees what is below it, with a line around it."""
        self.box(x, y, width, height, fill, line, corner)
        self.shapes[-1] = self.shapes[-1].replace("/>", ' fill-opacity="0.55"/>')

    def hatch(self, x: float, y: float, width: float, height: float) -> None:
        """A hatched rectangle."""
        self.hatched = True
        self.box(x, y, width, height, "url(#hatch)")

    def line(self, path: list[Point], colour: str = INK, width: float = 1, dash: str = "") -> None:
        """A line through some points."""
        dashes = f' stroke-dasharray="{dash}"' if dash else ""
        shape = f'fill="none" stroke="{colour}" stroke-width="{number(width)}"'
        self.shapes.append(f'<path d="{points(path)}" {shape}{dashes}/>')

    def area(self, path: list[Point], fill: str) -> None:
        """What a line through some points encloses."""
        self.shapes.append(f'<path d="{points(path)}z" fill="{fill}"/>')

    def arrow(
        self, path: list[Point], colour: str = INK, width: float = 1.5, dash: str = "", both: bool = False
    ) -> None:
        """A line with a head at its end, or at both ends."""
        name = self.heads.setdefault(colour, f"head{len(self.heads)}")
        if both:
            self.arrow([path[1], path[0]], colour, width, dash)
        self.line(path, colour, width, dash)
        self.shapes[-1] = self.shapes[-1].replace("/>", f' marker-end="url(#{name})"/>')

    def text(
        self, x: float, y: float, words: str, size: float = 13, at: str = "start", kind: str = "", colour: str = ""
    ) -> None:
        """Words whose base line begins at a point, or whose `middle` or `end` is there.

        The kind has the letters `m`, monospace, `b`, bold, and `t`, turned to read upwards.
        """
        style = f"font-size:{number(size)}px" if size != 13 else ""
        style += f";fill:{colour}" if colour else ""
        classes = " ".join(kind.replace("t", ""))
        parts = [f' style="{style.strip(";")}"' if style else "", f' class="{classes}"' if classes else ""]
        parts.append(f' text-anchor="{at}"' if at != "start" else "")
        place = f'x="{number(x)}" y="{number(y)}"'
        if "t" in kind:
            place = f'transform="translate({number(x)} {number(y)})rotate(-90)"'
        self.shapes.append(f'<text {place}{"".join(parts)}>{escape(words)}</text>')

    def lines(self, x: float, y: float, words: list[str], size: float = 13) -> None:
        """Lines of words, one below another."""
        for row, line in enumerate(words):
            self.text(x, y + row * (size + 4), line, size)

    def note(self, x: float, y: float, *words: str, at: str = "start") -> None:
        """Lines of small words, one below another."""
        for row, line in enumerate(words):
            self.text(x, y + row * 15, line, 11, at, colour=SOFT)

    def written(self) -> bytes:
        """The file."""
        size = f'width="{self.width}" height="{self.height}" viewBox="0 0 {self.width} {self.height}"'
        heads = [HEAD.format(name=name, colour=colour) for colour, name in self.heads.items()]
        definitions = "".join([*heads, *([HATCH] if self.hatched else [])])
        lines = [
            f'<svg xmlns="http://www.w3.org/2000/svg" {size} role="img" aria-label={quoteattr(self.title)}>',
            f"<title>{escape(self.title)}</title>",
            f"<desc>{escape(self.about)}</desc>",
            f"<style>{STYLE}</style>",
            *([f"<defs>{definitions}</defs>"] if definitions else []),
            f'<rect width="{self.width}" height="{self.height}" rx="6" fill="#fff"/>',
            *self.shapes,
            "</svg>",
        ]
        return ("\n".join(lines) + "\n").encode("utf-8")
