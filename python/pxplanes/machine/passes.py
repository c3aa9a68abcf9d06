"""What the operations of a text are for, in words: docs/PASSES.md, step by step.

words.json has the words, which the page reads too, and the forms of operations by the letters of docs/LISTINGS.md."""
import itertools
import json
import os
import re
from typing import Any, Iterator, NamedTuple, Optional, Sequence

from pxplanes.scene import scenes

with open(os.path.join(os.path.dirname(os.path.realpath(__file__)), "words.json"), encoding="ascii") as words_file:
    WORDS: dict[str, Any] = json.load(words_file)
OPERATIONS: dict[str, Any] = WORDS["operations"]
Products = list[tuple[int, ...]]
Listed = Sequence[tuple[str, Sequence[int]]]


class Face(NamedTuple):
    """A face of a solid in words: the near face, a front, a back, or the far limit."""

    solid: scenes.Solid
    number: int
    said: str
    is_front: bool

    def of_solid(self) -> str:
        return "%s of `%s`" % (self.said, self.solid.name)


class Row(NamedTuple):
    """An operation: the number of its pass, its name and numbers, and what it is for."""

    in_pass: int
    name: str
    numbers: tuple[int, ...]
    words: str


class Step(NamedTuple):
    """What a pass is for, as the library's `course` has it: its role, the place of its literal among all, the solid
    and the number of its face, and which other literal it asks; 0 where it has none."""

    role: str
    literal: int = 0
    solid: int = 0
    face: int = 0
    other: int = 0


def filled(words: str, values: dict[str, Any]) -> str:
    """Words with values in the place of their names in braces."""
    return re.sub(r"\{(.+?)\}", lambda match: str(values[match.group(1)]), words)


def faces_of(solid: scenes.Solid) -> tuple[list[Face], list[Face]]:
    """The faces of a solid in the order of their index: the near face and the fronts; the backs and the far limit."""
    def named(kind: str, planes: list[scenes.Face]) -> list[Face]:
        names = ["the %s" % kind] if len(planes) == 1 else ["%s %d" % (kind, at) for at in range(1, len(planes) + 1)]
        return [Face(solid, each.number, name, kind == "front") for each, name in zip(planes, names)]

    return ([Face(solid, solid.near, "the near face", True), *named("front", solid.fronts)],
            [*named("back", solid.backs), Face(solid, 0, "the far limit", False)])


def edges(own: Face) -> Iterator[str]:
    """What each edge of a face keeps: those of the sides, of the other faces of its kind, and of the other kind."""
    fronts, backs = faces_of(own.solid)
    same, others = (fronts, backs) if own.is_front else (backs, fronts)
    where, other_way = ("behind", "before") if own.is_front else ("before", "behind")
    for side in range(1, len(own.solid.sides) + 1):
        yield filled(WORDS["side"], {"side": side, "solid": own.solid.name})
    at = same.index(own)
    for how, faces in ((where, same[:at]), ("at or " + where, same[at + 1:]), (other_way, others)):
        for each in faces:
            yield filled(WORDS["edge"], {"face": own.of_solid(), "how": how, "other": each.said})


def steps(scene: scenes.Scene, products: Products) -> Iterator[Step]:
    """The step of each pass of a scene (docs/PASSES.md, "Steps")."""
    yield Step("start")
    literals = [(product, literal) for product in products for literal in product]
    for place, (product, literal) in enumerate(literals, 1):
        def of_faces(role: str, solid: int, faces: list[Face], other: int = 0) -> Iterator[Step]:
            return (Step(role, place, solid, face.number, other) for face in faces)

        own = abs(literal)
        fronts, backs = faces_of(scene.solids[own - 1])
        yield Step("open", place)
        yield from of_faces("candidate", own, fronts if literal > 0 else backs[:-1])
        if scene.fraction_bits and literal > 0:
            yield from of_faces("drop", own, backs)
        elif scene.fraction_bits:
            yield from (Step("clear", place), *of_faces("front", own, fronts), Step("confirm", place))
        for other, asked in enumerate([abs(each) for each in product if abs(each) != own], 1):
            yield Step("begin", place, other=other)
            yield from of_faces("turn", asked, sum(faces_of(scene.solids[asked - 1]), []), other)
            yield Step("close", place, other=other)
        yield Step("merge", place)


def spelled(scene: scenes.Scene, product: Sequence[int]) -> str:
    names = [scene.solids[abs(literal) - 1].name for literal in product]
    signs = ["- " if literal < 0 else "* " if at else "" for at, literal in enumerate(product)]
    return " ".join(map("".join, zip(signs, names)))


def described(scene: scenes.Scene, products: Products, step: Step) -> tuple[str, list[str]]:
    """What a pass is for, and what each of its operations does after the first, which enables every pixel."""
    values: dict[str, Any] = {"products": len(products), "fraction": ""}
    own, does = WORDS["steps"][step.role], list[str]()
    face: Optional[Face] = None
    if step.literal:
        literals = [(at, each, literal) for at, each in enumerate(products, 1) for literal in each]
        number, product, literal = literals[step.literal - 1]
        values.update(product=number, spelled=spelled(scene, product), name=scene.solids[abs(literal) - 1].name)
    if step.other:
        asked = [each for each in product if abs(each) != abs(literal)][step.other - 1]
        values.update(asked=scene.solids[abs(asked) - 1].name, outside="outside" if asked > 0 else "inside")
    if step.solid:
        face = next(each for each in sum(faces_of(scene.solids[step.solid - 1]), []) if each.number == step.face)
        values.update(number=face.number, face=face.of_solid(), which=face.said, solid=face.solid.name)
    for words in own["does"]:
        if words == "{edges}" and face:
            does += edges(face)
        elif scene.fraction_bits or not words.startswith("{fraction}"):
            does.append(filled(words, values))
    return filled(own["says"], values), does


def products_of(scene: scenes.Scene, plan: bytes) -> Products:
    """The products that `plan` prints: of each the solids' numbers from 1 on, below 0 where one is taken away."""
    numbers, found = {solid.name: at for at, solid in enumerate(scene.solids, 1)}, []
    for line in plan.decode().split("\n")[1:-1]:
        words = line.split(" ") if line.startswith("- ") else ["*"] + line.split(" ")
        found.append(tuple(numbers[name] * (-1 if sign == "-" else 1) for sign, name in zip(words[0::2], words[1::2])))
    return found


def of_scene(scene: scenes.Scene, products: Products, listed: Listed) -> tuple[list[Row], list[str]]:
    """Of each operation that `list` writes: the number of its pass, its name, its numbers, and what it is for; and the
    passes' words."""
    rows: list[Row] = []
    said: list[str] = []
    passes = (described(scene, products, step) for step in steps(scene, products))
    words: Iterator[str] = iter(())
    for name, numbers in listed:
        if name == "all":
            says, does = next(passes)
            said.append(says)
            words = iter([spoken(name, ()), *does])
        rows.append(Row(len(said) - 1, name, tuple(numbers), next(words)))
    return rows, said


def of_listing(found: Listed) -> tuple[list[Row], list[str]]:
    """The same of a listing: a pass is what follows an `all`."""
    numbers = itertools.accumulate(int(name == "all" and at > 0) for at, (name, _) in enumerate(found))
    rows = [Row(number, name, tuple(given), spoken(name, given)) for number, (name, given) in zip(numbers, found)]
    return rows, ["pass %d of the listing" % (each + 1) for each in range(rows[-1][0] + 1 if rows else 0)]


def sum_text(form: Sequence[int]) -> str:
    """A linear form as one writes it."""
    text = ""
    for number, letter in zip(form, ("x", "y", "")):
        size = "" if abs(number) == 1 and letter else str(abs(number))
        sign = (" - " if number < 0 else " + ") if text else ("-" if number < 0 else "")
        text += sign + size + letter if number else ""
    return text or "0"


def places_of(name: str, numbers: Sequence[int]) -> dict[str, tuple[int, int]]:
    """The fields of memory that an operation names, by the letters of its form: first bit and length of each."""
    found = dict(zip(OPERATIONS[name]["form"].split(), numbers))
    return {letter: (found[letter], found.get("LEN", 1)) for letter in OPERATIONS[name]["places"]}


def spoken(name: str, numbers: Sequence[int]) -> str:
    """What an operation does, in words."""
    own = OPERATIONS[name]
    fields = {"memory " + letter: "memory %d to %d" % (at, at + length - 1) if length > 1 else "memory %d" % at
              for letter, (at, length) in places_of(name, numbers).items()}
    return filled(own["does"], {**dict(zip(own["form"].split(), numbers)), **fields, "sum": sum_text(numbers[:3])})


class Keys:
    """The numbers in the keys of a scene's pixels, by the bits of their memory (docs/PASSES.md, "Layout"); and the
    colours of faces."""

    def __init__(self, scene: scenes.Scene):
        self.face, self.depth = scene.number_bits(), scene.depth_bits
        self.length = self.face + scene.fraction_bits + self.depth
        self.colours = {0: [0, 0, 0], **{number: list(colour) for number, _, _, _, colour, _ in scene.faces()}}

    def number(self, memory: str, key: str, what: str) -> int:
        """A number of key "B" or "T": its "face" or its "depth"."""
        first = "BT".index(key) * self.length + (0 if what == "face" else self.length - self.depth)
        return int(memory[first:first + (self.face if what == "face" else self.depth)][::-1], 2)
