"""The diagrams of the documents as SVG, with the names that the sources and documents have. It is no tool itself."""
import re

from pxplanes import ends
from pxplanes.errors import Trouble

FONT = 'font-family="DejaVu Sans, Helvetica, sans-serif" font-size="%d" fill="#1a1a1a"'
FILLS = {"control": "#fde8c8", "tree": "#d8e8f8", "pixel": "#dff0d8", "plain": "#f2f2f2"}
LINE = 'stroke="#444" stroke-width="1.3" fill="none"'
HEAD = ('<svg xmlns="http://www.w3.org/2000/svg" viewBox="0 0 %d %d" width="%d" height="%d"><defs><marker id="tip" viewBox="0 0 8 8" '
        'refX="7" refY="4" markerWidth="8" markerHeight="8" orient="auto"><path d="M0 0L8 4L0 8z" fill="#444"/></marker></defs>'
        '<rect width="100%%" height="100%%" fill="#fff"/>')


def source(path: str) -> str:
    return ends.content("%s/%s" % (ends.TOP, path)).decode()


def found(pattern: str, path: str) -> list[str]:
    """What a pattern has in a file; at least one."""
    names = re.findall(pattern, source(path), re.M)
    if not names:
        raise Trouble("%s has nothing for its diagram" % path)
    return names


class Drawing:
    """The parts of a picture, in the order in which they are painted."""

    def __init__(self, width: int, height: int) -> None:
        self.parts = [HEAD % (width, height, width, height)]

    def text(self, x: float, y: float, said: str, size: int = 13, anchor: str = "middle") -> None:
        escaped = said.replace("&", "&amp;").replace("<", "&lt;")
        self.parts.append('<text x="%g" y="%g" text-anchor="%s" %s>%s</text>' % (x, y, anchor, FONT % size, escaped))

    def box(self, x: float, y: float, width: float, height: float, lines: list[str], kind: str = "plain", size: int = 13) -> None:
        """A box with its first line as a title in the middle, and the others below it, smaller."""
        self.parts.append('<rect x="%g" y="%g" width="%g" height="%g" rx="5" fill="%s" stroke="#444"/>' % (
            x, y, width, height, FILLS[kind]))
        top = y + height / 2 + 5 - 8 * (len(lines) - 1)
        for number, line in enumerate(lines):
            self.text(x + width / 2, top + 16 * number, line, size if number == 0 else 11)

    def way(self, *points: tuple[float, float], tip: bool = True) -> None:
        """A line through some points, with the tip of an arrow at its end."""
        path = "M" + "L".join("%g %g" % point for point in points)
        self.parts.append('<path d="%s" %s%s/>' % (path, LINE, ' marker-end="url(#tip)"' if tip else ""))

    def svg(self) -> str:
        return "\n".join(self.parts + ["</svg>", ""])


def machine() -> str:
    """The controller, the tree over 2 by 2 pixels, and what a pixel holds."""
    bits = found(r"const PIXEL_BITS: usize = (\d+)", "crates/px_commands/src/command_words.rt")[0]
    registers = found(r"^- `(enable|carry|latch)`", "docs/MACHINE.md")
    drawing = Drawing(800, 416)
    drawing.box(20, 20, 190, 74, ["controller", "a microinstruction each clock:", "lines c, a, b; an act"], "control")
    drawing.box(470, 28, 120, 36, ["root: line c"], "tree")
    drawing.way((210, 46), (470, 46))
    drawing.text(340, 38, "a bit each of A, B and C", 12)
    drawing.text(340, 62, "to the multiplier tree", 12)
    for node, x in enumerate((355, 595)):
        drawing.box(x, 118, 110, 36, ["odd: adds line a" if node else "even"], "tree", 12)
        drawing.way((530, 64), (x + 55, 118))
    for pixel in range(4):
        x = 250 + 140 * pixel
        drawing.box(x, 208, 110, 36, ["odd: adds line b" if pixel % 2 else "even"], "tree", 12)
        drawing.way((410 if pixel < 2 else 650, 154), (x + 55, 208))
        drawing.way((x + 55, 244), (x + 55, 282))
        drawing.box(x - 6, 282, 122, 80, ["pixel (%d, %d)" % divmod(pixel, 2), ", ".join(registers), "%s bits of memory" % bits], "pixel")
        drawing.way((x - 20, 400), (x - 20, 322), (x - 6, 322))
    for line, said in enumerate(("each leaf gives its pixel", "the value A*x + B*y + C,", "lowest bit first")):
        drawing.text(75, 250 + 16 * line, said, 12, "start")
    drawing.way((60, 94), (60, 400), (650, 400), tip=False)
    drawing.text(70, 392, "one act for every pixel", 12, "start")
    return drawing.svg()


def flow() -> str:
    """The rooms of the proved half, with their crates, and what goes from each to the next."""
    leaf = "docs/dev/ARCHITECTURE.md"
    rooms = dict(re.findall(r"^\| (\w+) \| [^|]* \| [^|]* \| (px_[^|]*) \|$", source(leaf), re.M))
    way = (("text", "a text"), ("solids", "a scene"), ("passes", "kept products, faces"), ("machine", "operations"), ("ends", "keys"))
    if set(rooms) != {room for room, _ in way} | {"commands"}:
        raise Trouble("%s has other rooms than its diagram" % leaf)
    drawing = Drawing(820, 270)
    for number, (room, comes) in enumerate(way):
        x = 40 + 156 * number
        crates = [each.strip() for each in rooms[room].split(",")]
        drawing.box(x, 66, 124, 164, [room, *crates], {"machine": "pixel", "passes": "control"}.get(room, "plain"), 14)
        drawing.way((x - 32 if number else 4, 145), (x, 145))
        drawing.text(x - 16 if number else 4, 60 if number % 2 else 42, comes, 12, "middle" if number else "start")
        drawing.way((max(x - 16, 14), 64 if number % 2 else 46), (max(x - 16, 14), 141), tip=False)
    drawing.way((788, 145), (816, 145))
    drawing.text(816, 60, "images", 12, "end")
    drawing.text(410, 256, "commands: " + rooms["commands"], 12)
    return drawing.svg()


def passes() -> str:
    """The steps of a scene's passes, with the two loops around them."""
    start, *steps = found(r"^ *\d\. \*\*(\w+)\*\*", "docs/PASSES.md")[:6]
    said = {"Open": "alive is 0", "Candidates": "a face that covers goes to T", "Confirmation": "only with fraction bits",
            "Classification": "each other solid: par, alive", "Merge": "the lesser key stays in B"}
    drawing = Drawing(1120, 210)
    drawing.box(16, 90, 130, 60, [start, "B is the background"], "control")
    for number, name in enumerate(steps):
        x = 190 + 184 * number
        drawing.box(x, 90, 168, 60, [name, said[name]], "pixel" if name == "Merge" else "tree")
        drawing.way((x - 44 if number == 0 else x - 16, 120), (x, 120))
    drawing.way((1010, 90), (1010, 56), (274, 56), (274, 90))
    drawing.text(642, 48, "for each literal of each kept product", 13)
    drawing.way((1010, 150), (1010, 186))
    drawing.text(1000, 182, "after the last: B is the picture", 13, "end")
    return drawing.svg()


DRAWN = {"docs/machine.svg": machine, "docs/flow.svg": flow, "docs/passes.svg": passes}
