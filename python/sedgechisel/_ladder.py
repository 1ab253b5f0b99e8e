"""Draws ladders as SVG: the ground at the left, the spacecraft at the right, and a row for each event. It imports
nothing of the package, so tools/pictures.py uses it without the libraries."""
from __future__ import annotations

import html
from typing import Any, Callable, Dict, List, Sequence, Tuple

MOST_ROWS = 1000
# The lines of a script that happen on board.
ON_BOARD = {"report", "take", "takebypass", "telemetry"}
# The two ends, the width, where the ends' lines begin, the first row, a row's height, and the letters that fit outside.
_GROUND, _CRAFT, _WIDTH, _HEAD, _TOP, _ROW, _SIDE = 300, 600, 900, 34, 54, 26, 36
_NO_TIMES = "Captures have no times: each CLCW is drawn as early as it can follow from the frames."
_STYLE = ("text { font: 13px monospace; fill: #123; paint-order: stroke; stroke: #fff; stroke-width: 6px; "
          "stroke-linejoin: round } .name { font-weight: bold }")
_TIP = ('<marker id="tip" markerWidth="9" markerHeight="9" refX="8" refY="4" orient="auto">'
        '<path d="M0 0 L9 4 L0 8 z" fill="#345"/></marker>')
_LOST, _LINE = "#a22", "#345"


class Picture:
    """A picture of shapes and words. Words come after all shapes, so that no line runs through them."""

    def __init__(self, width: int, height: int, title: str) -> None:
        self.width, self.height, self.title = width, height, title
        self._shapes: List[str] = []
        self._words: List[str] = []

    @staticmethod
    def _fields(fields: Dict[str, Any]) -> str:
        shown = {key.replace("_", "-"): f"{it:.0f}" if isinstance(it, float) else str(it) for key, it in fields.items()}
        return "".join(f' {key}="{html.escape(it)}"' for key, it in shown.items())

    def add(self, name: str, **fields: Any) -> None:
        """Adds a shape."""
        self._shapes.append(f"<{name}{self._fields(fields)}/>")

    def text(self, x: float, y: float, text: str, anchor: str = "middle", **more: Any) -> None:
        """Adds words at a place."""
        fields = self._fields({"x": x, "y": y, "text_anchor": anchor, **more})
        self._words.append(f"<text{fields}>{html.escape(text)}</text>")

    def arrow(self, x0: float, y0: float, x1: float, y1: float, bend: float = 0, colour: str = _LINE,
              tip: bool = True) -> Tuple[float, float]:
        """Adds an arrow, bent to its left by this number of units. Returns its middle."""
        length = max(((x1 - x0) ** 2 + (y1 - y0) ** 2) ** 0.5, 1)
        x, y = (x0 + x1) / 2 + bend * (y1 - y0) / length, (y0 + y1) / 2 - bend * (x1 - x0) / length
        path = f"M {x0:.0f} {y0:.0f} Q {x:.0f} {y:.0f} {x1:.0f} {y1:.0f}"
        self.add("path", d=path, fill="none", stroke=colour, **({"marker_end": "url(#tip)"} if tip else {}))
        return (x0 + 2 * x + x1) / 4, (y0 + 2 * y + y1) / 4

    def svg(self) -> str:
        """Returns the picture as SVG."""
        head = (f'<svg xmlns="http://www.w3.org/2000/svg" viewBox="0 0 {self.width} {self.height}" '
                f'width="{self.width}" height="{self.height}" role="img">')
        back = f'<rect width="{self.width}" height="{self.height}" fill="#fff"/>'
        lines = [head, f"<title>{html.escape(self.title)}</title>", f"<style>{_STYLE}</style>", f"<defs>{_TIP}</defs>",
                 back, *self._shapes, *self._words, "</svg>"]
        return "\n".join(lines) + "\n"


def cut(text: str, most: int = _SIDE) -> str:
    """Returns the text, or its beginning if it is longer than this number of letters."""
    return text if len(text) <= most else f"{text[:most - 2]}.."


def flags_of(word: bytes) -> Tuple[List[str], int]:
    """Returns the flags and the value of a CLCW (CCSDS 232.0-B-4, 4.2.1)."""
    _, _, flags, value = word
    names = [name for bit, name in ((0x20, "lockout"), (0x10, "wait"), (0x08, "retransmit")) if flags & bit]
    return names, value


def clcw_name(word: bytes) -> str:
    """Returns what the ladder shows of a CLCW: its value and its flags."""
    names, value = flags_of(word)
    return " ".join([f"value {value}", *names])


class _Ladder(Picture):
    """A ladder with this number of rows. Anything above the first row is omitted."""

    def __init__(self, rows: int, title: str) -> None:
        super().__init__(_WIDTH, 80 + _ROW * rows, f"The ladder of {title}")
        for x, end in ((_GROUND, "ground"), (_CRAFT, "spacecraft")):
            super().text(x, 24, end, **{"class": "name"})
            self.add("line", x1=x, y1=_HEAD, x2=x, y2=self.height - 20, stroke="#9ab", stroke_width=2)

    def text(self, x: float, y: float, text: str, anchor: str = "middle", **more: Any) -> None:
        if y > _HEAD:
            super().text(x, y, text, anchor, **more)

    def beside(self, is_ground: bool, y: int, text: str) -> None:
        """Adds words next to an end."""
        self.text(_GROUND - 10 if is_ground else _CRAFT + 10, y + 4, cut(text), "end" if is_ground else "start")

    def frame(self, is_up: bool, begun: int, y: int, label: str, colour: str = _LINE) -> None:
        """Adds a frame that arrives."""
        if y > _HEAD:
            start, end = (_GROUND, _CRAFT) if is_up else (_CRAFT, _GROUND)
            x, at = self.arrow(start, begun, end, y, colour=colour)
            self.text(x, at - 4, label)

    def lost(self, is_up: bool, begun: int, y: int) -> None:
        """Adds a frame that is lost."""
        if y > _HEAD:
            start, x, at = _GROUND if is_up else _CRAFT, (_GROUND + _CRAFT) / 2, (begun + y) / 2
            self.arrow(start, begun, x, at, colour=_LOST, tip=False)
            self.text(x, at + 5, "\N{MULTIPLICATION X}", style=f"fill:{_LOST};font-size:18px")


class _Session(_Ladder):
    """The ladder of a script. `_ways` contains the frames in transit each way: where they begin, and their names."""

    def __init__(self, rows: int, title: str, name_of: Callable[[bytes], str]) -> None:
        super().__init__(rows, title)
        self._name_of = name_of
        self._ways: Dict[str, List[Tuple[int, str]]] = {"up": [], "down": []}

    def _arrives(self, way: str, what: str, answer: str, y: int) -> None:
        """Adds the fate of the first frame in transit."""
        is_up, (begun, label) = way == "up", self._ways[way].pop(0)
        if what == "lose":
            self.lost(is_up, begun, y)
        else:
            self.frame(is_up, begun, y, f"{label} damaged" if what == "damage" else label)
        self.beside(not is_up, y, f"{label} is lost" if what == "lose" else answer)

    def row(self, line: str, answer: str, y: int) -> None:
        """Adds a line of the script with its answer."""
        words = line.split()
        if answer.startswith("sent "):
            self._ways["up"].append((y, self._name_of(bytes.fromhex(answer.split()[1]))))
            self.beside(True, y, f"send {self._ways['up'][-1][1]}")
        elif answer.startswith("report "):
            self._ways["down"].append((y, clcw_name(bytes.fromhex(answer.split()[1]))))
            self.beside(False, y, answer)
        elif words[0] in self._ways and not answer.startswith("refused"):
            self._arrives(words[0], words[1], answer, y)
        elif words[0] in ON_BOARD:
            self.beside(False, y, f"{words[0]}: {answer}")
        elif words[0] == "show":
            self.text(_WIDTH / 2, y + 8, answer)
        else:
            self.beside(True, y, f"{cut(line, max(_SIDE - 2 - len(answer), 10))}: {answer}")


def session(title: str, events: Sequence[Tuple[str, str]], name_of: Callable[[bytes], str], first: int = 0) -> str:
    """Returns the ladder of a script as SVG, from the line `first` on; each line has its answer. `name_of` returns what
    the ladder shows of a telecommand frame."""
    picture = _Session(min(max(len(events) - first, 0), MOST_ROWS), title, name_of)
    for row, (line, answer) in enumerate(events[:first + MOST_ROWS], -first):
        picture.row(line, answer, _TOP + _ROW * row)
    return picture.svg()


def captures(title: str, records: Sequence[Tuple[bool, str, str, bool]], first: int = 0) -> str:
    """Returns the ladder of two captures as SVG, from the record `first` on. A record contains whether it is on the
    uplink, its name, the text next to it, and whether it is valid."""
    shown = records[first:first + MOST_ROWS]
    picture = _Ladder(len(shown) + 1, title)
    for row, (is_up, label, told, is_valid) in enumerate(shown):
        y = _TOP + _ROW * row
        picture.frame(is_up, y - 6, y + 10, label, _LINE if is_valid else _LOST)
        picture.beside(is_up, y, told)
    picture.text(_WIDTH / 2, _TOP + _ROW * len(shown) + 8, _NO_TIMES)
    return picture.svg()
