"""Reads a scene's text as docs/SCENES.md says, and reports all that there is to say of its first bad
line: the word, what was expected there, the limit, the cure. What `explain` and `compare` share."""
import difflib
import re
from typing import Any, Iterable, Optional, Sequence, Union

from pxplanes.scene import limits

Span = tuple[int, int]
Word = tuple[bytes, Span]            # a word of a line, and its place there
Number = tuple[int, Span]
Plane = tuple[int, int, int]
Colour = tuple[int, ...]
Node = Union[int, str]               # the index of a solid, or a sign, in postorder
FaceRow = tuple[int, "Solid", str, Optional[int], Colour, int]

NAME = re.compile(rb"[A-Za-z_][A-Za-z0-9_]{0,31}\Z")
NUMBER = re.compile(rb"-?[0-9]+\Z")
WORD = re.compile(rb"[^ \t\r]+")
TOKEN = re.compile(rb"[A-Za-z0-9_]+|[^ \t\r]")
BITS = 72
KINDS = (b"front", b"back", b"side")
FORMS = {b"picture": ["picture WIDTH HEIGHT"], b"depth": ["depth W"],
         b"solid": ["solid NAME R G B"], b"front": ["front A B C", "front A B C R G B"],
         b"back": ["back A B C", "back A B C R G B"], b"side": ["side A B C"],
         b"show": ["show EXPRESSION"], b"end": ["end"]}
DUE: dict[int, list[bytes]] = {1: [], 2: [b"picture"], 3: [b"depth"], 4: [b"solid", b"show"],
       5: [b"front", b"back", b"side", b"solid", b"show"], 6: [b"end"], 7: []}
RANGES = {"picture": "width and height are from 1 to %d" % limits.MAX_PICTURE_SIZE,
          "depth": "the bits of a depth are from 1 to %d" % limits.MAX_DEPTH_BITS,
          "colour": "red, green and blue are from 0 to 255"}


# The commands that alone take lines behind `end`, and what those begin with.
BEHIND_END = (("shadow", "light lines", (b"light",)),
              ("debug", "command lines", (b"step", b"macro", b"run", b"until", b"back", b"at", b"pixel", b"field", b"tree", b"trace", b"quit")))


def cure_behind_end(first: bytes) -> str:
    """What to do about a line behind `end` that begins with this word."""
    for command, lines, words in BEHIND_END:
        if first in words:
            return "`pxplanes %s` alone takes %s behind end: call that, or drop this line" % (command, lines)
    return "drop this line, or put it before end"


class Refusal(Exception):
    """The first bad line: what the program says of it, and what else there is to say."""

    def __init__(self, note: str, span: Optional[Span] = None, due: Optional[str] = None, limit: Optional[str] = None,
                 cure: Optional[str] = None):
        Exception.__init__(self, note)
        self.note, self.span = note, span
        self.due, self.limit, self.cure = due, limit, cure

    @property
    def number(self) -> int:
        """The number of its line, from 1; 0 for the whole text."""
        return int(self.note.split(":")[0].split(" ")[-1])

    @property
    def cause(self) -> str:
        """The word of the language for what is wrong."""
        return self.note.split(": ")[1].split(" ")[0]


class Face:
    def __init__(self, number: int, plane: Plane, colour: Colour, line: int):
        self.number, self.plane, self.colour, self.line = number, plane, colour, line


class Solid:
    """`near` is the number of the near face; `line` counts from 1."""

    def __init__(self, name: str, colour: Colour, near: int, line: int):
        self.name, self.colour, self.near, self.line = name, colour, near, line
        self.fronts: list[Face] = []
        self.backs: list[Face] = []
        self.sides: list[Face] = []


class Scene:
    """`show` has the nodes in postorder: the index of a solid, or one of + * - ^."""

    def __init__(self) -> None:
        self.version = 1
        self.width = self.height = self.depth_bits = self.fraction_bits = 0
        self.solids: list[Solid] = []
        self.show: list[Node] = []

    def far(self) -> int:
        return (1 << self.depth_bits) - 1

    def faces(self) -> list[FaceRow]:
        """Number, solid, kind, which of its kind and colour of each face, in number order."""
        rows: list[FaceRow] = []
        for solid in self.solids:
            rows.append((solid.near, solid, "near", None, solid.colour, solid.line))
            for kind, faces in (("front", solid.fronts), ("back", solid.backs)):
                rows += [(face.number, solid, kind, which, face.colour, face.line)
                         for which, face in enumerate(faces, 1)]
        return sorted(rows, key=lambda row: row[0])

    def number_bits(self) -> int:
        """The bits of a face's number."""
        greatest = sum(1 + len(solid.fronts) + len(solid.backs) for solid in self.solids)
        return greatest.bit_length()

    def need(self) -> int:
        """The memory bits that a pixel needs."""
        return 2 * (self.depth_bits + self.fraction_bits + self.number_bits()) + 2


def text_of(word: bytes) -> str:
    return word.decode("latin-1")


def near_words(word: bytes, words: Iterable[bytes]) -> list[str]:
    return difflib.get_close_matches(text_of(word), [text_of(each) for each in words], 1, 0.5)


def listed(words: Sequence[str | bytes]) -> str:
    said = [text_of(word) if isinstance(word, bytes) else word for word in words]
    return said[0] if len(said) == 1 else ", ".join(said[:-1]) + " or " + said[-1]


def some(names: Iterable[bytes]) -> str:
    said = [text_of(name) for name in names]
    return ", ".join(said[:12]) + (", .." if len(said) > 12 else "") if said else "none"


def number_of(word: bytes) -> int:
    """The number that a word writes; its size ends at 10^18."""
    digits = word.lstrip(b"-").lstrip(b"0") or b"0"
    size = 10 ** 18 if len(digits) > 18 else int(digits)
    return -size if word[:1] == b"-" else size


def cut_lines(text: bytes) -> list[bytes]:
    pieces = text.split(b"\n")
    return pieces[:-1] if pieces[-1] == b"" else pieces


class Reader:
    """Reads lines one after another, as far as the first bad one."""

    def __init__(self) -> None:
        self.scene, self.step, self.line, self.numbered = Scene(), 1, 0, 0
        self.names: dict[bytes, int] = {}

    def malformed(self, cause: str, span: Optional[Span] = None, due: Optional[str] = None, cure: Optional[str] = None) -> Refusal:
        return Refusal("malformed line %d: %s" % (self.line, cause), span, due, None, cure)

    def over(self, kind: str, found: int, span: Span, limit: str, cure: str) -> Refusal:
        return Refusal("limit line %d: %s %d" % (self.line, kind, found), span, None, limit, cure)

    def forms(self, word: bytes) -> list[str]:
        if word == b"depth" and self.scene.version == 3:
            return ["depth W F"]
        return FORMS[word]

    def due(self) -> str:
        return {1: "pxscene 1, pxscene 2 or pxscene 3", 7: "nothing; a scene ends with its end line"
                }.get(self.step) or listed([form for word in DUE[self.step]
                                            for form in self.forms(word)[:1]])

    def take(self, raw: bytes) -> None:
        self.line += 1
        line = raw.split(b"#", 1)[0]
        words = [(match.group(), match.span()) for match in WORD.finditer(line)]
        if not words:
            return
        if self.step == 1:
            return self.header(words)
        first, span = words[0]
        if self.step == 7:
            raise self.malformed("after-end", span, self.due(), cure_behind_end(first))
        if first not in DUE[self.step]:
            raise self.malformed("unexpected", span, self.due(), self.cure_of_word(first))
        if first == b"show":
            return self.show(line, span[1])
        self.planes(first, words)

    def header(self, words: list[Word]) -> None:
        good = len(words) == 2 and words[0][0] == b"pxscene" and words[1][0] in (b"1", b"2", b"3")
        if not good:
            wrong = next((i for i, (word, _) in enumerate(words[:2])
                          if word not in ((b"pxscene",), (b"1", b"2", b"3"))[i]), 2)
            span = words[wrong][1] if wrong < len(words) else words[-1][1]
            raise self.malformed("not-header", span, self.due(),
                                 "make this line `pxscene 1`; `pxscene 2` allows ^, "
                                 "`pxscene 3` also `depth W F`")
        self.scene.version = int(words[1][0])
        self.step = 2

    def cure_of_word(self, word: bytes) -> str:
        close = near_words(word, DUE[self.step])
        if close:
            return "write %s" % close[0]
        if word in KINDS and self.step == 4:
            return "begin a solid above it: solid NAME R G B"
        if self.step == 6:
            return "a scene has one show line, and end behind it"
        return ("lines come in this order: pxscene, picture, depth, solids with their planes, "
                "show, end")

    def planes(self, first: bytes, words: list[Word]) -> None:
        forms = [form.split(" ") for form in self.forms(first)]
        form = next((form for form in forms if len(form) == len(words)), None)
        if form is None:
            most = max(len(form) for form in forms)
            span = words[most][1] if len(words) > most else words[-1][1]
            raise self.malformed("word-count", span, listed(self.forms(first)),
                                 self.cure_of_count(first, len(words)))
        for place, (word, span) in zip(form[1:], words[1:]):
            if place == "NAME" and not NAME.match(word):
                raise self.malformed("bad-name", span, "a name: 1 to 32 letters, digits and _, "
                                     "and no digit first", "choose another name")
            if place != "NAME" and not NUMBER.match(word):
                raise self.malformed("not-number", span, "%s, a whole number" % place,
                                     "write digits, with - before them where it is below 0")
        if first == b"solid" and words[1][0] in self.names:
            above = self.scene.solids[self.names[words[1][0]]]
            raise self.malformed("second-name", words[1][1], "a name that no solid above has",
                                 "choose another; line %d has this one" % above.line)
        numbers = [(number_of(word), span) for place, (word, span) in zip(form[1:], words[1:])
                   if place != "NAME"]
        getattr(self, "take_" + text_of(first))(first, words, numbers)

    def cure_of_count(self, first: bytes, count: int) -> str:
        if first == b"depth" and count == 3:
            return "write pxscene 3 in the first line, or drop the fraction bits"
        if first in (b"front", b"back") and count > 4:
            return "a colour of its own has all three of R, G and B"
        return "%d words stand here" % count

    def within(self, kind: str, number: Number, least: int, most: int, cure: str, limit: Optional[str] = None) -> None:
        found, span = number
        if not least <= found <= most:
            raise self.over(kind, found, span, limit or RANGES[kind], cure)

    def take_picture(self, first: bytes, words: list[Word], numbers: list[Number]) -> None:
        for number in numbers:
            self.within("picture", number, 1, limits.MAX_PICTURE_SIZE, "draw a smaller picture, or parts of it")
        self.scene.width, self.scene.height = (found for found, _ in numbers)
        self.step = 3

    def take_depth(self, first: bytes, words: list[Word], numbers: list[Number]) -> None:
        self.within("depth", numbers[0], 1, limits.MAX_DEPTH_BITS, "24 bits give depths to 16777214")
        depth_bits = numbers[0][0]
        if len(numbers) == 2:
            most = min(limits.MAX_FRACTION_BITS, limits.MAX_DEPTH_BITS - depth_bits)
            self.within("fraction", numbers[1], 0, most, "take fewer bits for one of the two",
                        "fraction bits are from 0 to 8, and both together at most 24: "
                        "%d is the most here" % most)
            self.scene.fraction_bits = numbers[1][0]
        self.scene.depth_bits = depth_bits
        self.step = 4

    def take_solid(self, first: bytes, words: list[Word], numbers: list[Number]) -> None:
        colour = self.colour(numbers)
        self.numbered += 1
        name, span = words[1]
        solids = len(self.scene.solids) + 1
        if solids > limits.MAX_SOLIDS:
            raise self.over("solids", solids, span, "a scene has at most %d solids" % limits.MAX_SOLIDS,
                            "draw the scene in parts, and keep the nearer depths")
        self.count_faces(words[0][1])
        self.names[name] = len(self.scene.solids)
        self.scene.solids.append(Solid(text_of(name), colour, self.numbered, self.line))
        self.step = 5

    def colour(self, numbers: list[Number]) -> tuple[int, ...]:
        for number in numbers:
            self.within("colour", number, 0, 255, "scale the colour to 255")
        return tuple(found for found, _ in numbers)

    def count_faces(self, span: Span) -> None:
        if self.numbered > limits.MAX_FACES:
            raise self.over("faces", self.numbered, span, "a scene has at most %d faces: the near "
                            "face of each solid, its fronts and its backs" % limits.MAX_FACES,
                            "leave out planes that never show")

    def plane(self, first: bytes, words: list[Word], numbers: list[Number]) -> None:
        for place, number in zip("ABC", numbers[:3]):
            most = limits.MAX_CONSTANT if place == "C" else limits.MAX_SLOPE
            self.within("coefficient", number, -most, most,
                        "scale the planes down; with fewer bits of depth all three get smaller",
                        "%s of a plane is from -%d to %d" % (place, most, most))
        colour = self.colour(numbers[3:]) or self.scene.solids[-1].colour
        kind = text_of(first) + "s"
        of_kind = getattr(self.scene.solids[-1], kind)
        if len(of_kind) + 1 > limits.MAX_PLANES_OF_A_KIND:
            raise self.over(kind, len(of_kind) + 1, words[0][1], "a solid has at most %d %s"
                            % (limits.MAX_PLANES_OF_A_KIND, kind), "make two solids of it, and show (ONE * OTHER)")
        self.numbered += first != b"side"
        if first != b"side":
            self.count_faces(words[0][1])
        (a, _), (b, _), (c, _) = numbers[:3]
        of_kind.append(Face(self.numbered if first != b"side" else 0, (a, b, c), colour, self.line))

    take_front = take_back = take_side = plane

    def take_end(self, first: bytes, words: list[Word], numbers: list[Number]) -> None:
        self.step = 7

    def show(self, line: bytes, start: int) -> None:
        tokens = [(match.group(), match.span()) for match in TOKEN.finditer(line, start)]
        nodes, nesting = self.expression(tokens, start)
        leaves = [token for token in nodes if NAME.match(token[0])]
        for name, span in leaves:
            if name not in self.names:
                close = near_words(name, self.names)
                raise self.malformed(
                    "unknown-name", span, "the name of a solid above: %s" % some(self.names),
                    ("write %s, or " % close[0] if close else "") + "add a line solid %s R G B"
                    % text_of(name))
        whole = (tokens[0][1][0], tokens[-1][1][1])
        if len(leaves) > limits.MAX_LEAVES:
            raise self.over("leaves", len(leaves), whole, "an expression has at most %d names"
                            % limits.MAX_LEAVES, "make convex parts one solid, with more planes")
        if nesting > limits.MAX_NESTING:
            raise self.over("nesting", nesting, whole, "brackets nest at most %d deep" % limits.MAX_NESTING,
                            "join halves: ((a + b) + (c + d)) in place of (((a + b) + c) + d)")
        self.scene.show = [self.names.get(token, text_of(token)) for token, _ in nodes]
        self.step = 6

    def expression(self, tokens: list[Word], start: int) -> tuple[list[Word], int]:
        """The nodes in postorder, and the nesting; without recursion, as deep as it may be."""
        operators = b"+*-^" if self.scene.version >= 2 else b"+*-"
        names_due = "a name or ("
        signs_due = "one of %s" % listed([operators[i:i + 1] for i in range(len(operators))])

        def bad(span: Span, due: str, cure: str = "write every operation in brackets, as ((block - hole) + post)") -> Refusal:
            return self.malformed("bad-expression", span, due, cure)

        for token, span in tokens:
            if token == b"^" and self.scene.version == 1:
                raise bad(span, signs_due, "write pxscene 2 in the first line: ^ needs it")
            if not NAME.match(token) and (len(token) > 1 or token not in operators + b"()"):
                is_word = re.match(rb"[A-Za-z0-9_]", token)
                raise bad(span, "a name: 1 to 32 letters, digits and _, and no digit first"
                          if is_word else "names, ( and ), and %s" % signs_due)
        open_ones: list[list[Any]] = []
        nodes: list[Word] = []
        whole: Optional[int] = None
        wants = True
        for token, span in tokens:
            if whole is not None:
                raise bad(span, "nothing behind a whole expression")
            if wants:
                if token == b"(":
                    open_ones.append([])
                    continue
                if not NAME.match(token):
                    raise bad(span, names_due)
                nodes.append((token, span))
                depth = 0
            elif len(open_ones[-1]) == 1:
                if len(token) > 1 or token not in operators:
                    raise bad(span, signs_due)
                open_ones[-1].append((token, span))
                wants = True
                continue
            else:
                if token != b")":
                    raise bad(span, ")")
                left, sign, right = open_ones.pop()
                nodes.append(sign)
                depth = 1 + max(left, right)
            wants = False
            if open_ones:
                open_ones[-1].append(depth)
            else:
                whole = depth
        if whole is None:
            end = tokens[-1][1][1] if tokens else start
            due = names_due if wants else signs_due if len(open_ones[-1]) == 1 else ")"
            raise bad((end, end + 1), due)
        return nodes, whole


def read(text: bytes) -> Scene:
    """The scene of a text; `Refusal` for its first bad line. The count of products is not taken."""
    if len(text) > limits.MAX_TEXT_BYTES:
        raise Refusal("limit line 0: text %d" % (limits.MAX_TEXT_BYTES + 1), None, None,
                      "a text has at most %d bytes" % limits.MAX_TEXT_BYTES, "leave out comments and blanks")
    reader = Reader()
    lines = cut_lines(text)
    for raw in lines:
        reader.take(raw)
    if reader.step != 7:
        raise Refusal("malformed line %d: missing-end" % len(lines), None, reader.due(), None,
                      "the text stops here: add the missing lines, up to end")
    return reader.scene


def pixel_memory(scene: Scene) -> None:
    """Refuses a scene that needs more memory bits a pixel than there are."""
    if scene.need() > BITS:
        raise Refusal("limit line 0: pixel-memory %d" % scene.need(), None, None,
                      "a pixel has %d bits, and needs twice the bits of depth, fraction and face "
                      "number, and 2" % BITS, "take fewer bits of depth, or fewer faces")
