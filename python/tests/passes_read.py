"""The operations of a scene's products by docs/PASSES.md alone, step by step, each with what it is for: what tests compare with the program's,
the library's and passes.py's. And where the passes begin, their steps, and an operation as a line."""
from __future__ import annotations

from typing import Iterable, Iterator, Optional

from pxplanes.machine import micros
from pxplanes.scene import scenes

Form = tuple[int, int, int]
Products = list[tuple[int, ...]]
Made = tuple[str, tuple[int, ...], str]                 # an operation: its name, its numbers, and what it is for
Step = tuple[str, int, int, int, int]
Pass = tuple[Step, str, list[Made]]
Row = tuple[int, str, tuple[int, ...], str]


class Face:
    """A face of a solid with its plane and its words: the near face, a front, a back, or the far limit."""

    def __init__(self, solid: scenes.Solid, number: int, plane: Form, said: str, is_front: bool):
        self.solid, self.number, self.plane, self.said, self.is_front = solid, number, plane, said, is_front

    def of_solid(self) -> str:
        return "%s of `%s`" % (self.said, self.solid.name)


def faces_of(scene: scenes.Scene, solid: scenes.Solid) -> tuple[list[Face], list[Face]]:
    """The faces of a solid in the order of their index."""
    def named(kind: str, planes: list[scenes.Face]) -> list[str]:
        return ["the %s" % kind if len(planes) == 1 else "%s %d" % (kind, which) for which in range(1, len(planes) + 1)]

    far = (0, 0, scene.far() << scene.fraction_bits)
    fronts = [Face(solid, each.number, each.plane, said, True) for each, said in zip(solid.fronts, named("front", solid.fronts))]
    backs = [Face(solid, each.number, each.plane, said, False) for each, said in zip(solid.backs, named("back", solid.backs))]
    return ([Face(solid, solid.near, (0, 0, 0), "the near face", True)] + fronts,
            backs + [Face(solid, 0, far, "the far limit", False)])


def less(left: Form, right: Form, more: int = 0) -> Form:
    """The form of one plane less another, less so much more."""
    return left[0] - right[0], left[1] - right[1], left[2] - right[2] - more


def plus(plane: Form, more: int) -> Form:
    return plane[0], plane[1], plane[2] + more


def edges(scene: scenes.Scene, face: Face) -> Iterator[tuple[Form, str]]:
    """The edges of a face with what each keeps."""
    fronts, backs = faces_of(scene, face.solid)
    same, other = (fronts, backs) if face.is_front else (backs, fronts)
    own = next(at for at, each in enumerate(same) if each.said == face.said)
    for which, side in enumerate(face.solid.sides, 1):
        yield side.plane, "keep the pixels on the inner side of side %d of `%s`" % (which, face.solid.name)
    for at, each in enumerate(same):
        if at != own:
            first, second = (face, each) if face.is_front else (each, face)
            words = "at or behind" if face.is_front else "at or before"
            words = words[6:] if at < own else words
            yield (less(first.plane, second.plane, int(at < own)),
                   "keep the pixels where %s is %s %s" % (face.of_solid(), words, each.said))
    for each in other:
        front, back = (face, each) if face.is_front else (each, face)
        yield (less(back.plane, front.plane, 1),
               "keep the pixels where %s is %s %s" % (face.of_solid(), "before" if face.is_front else "behind", each.said))


class Passes:
    """The passes of a scene: of each the step, a line on what it is for, and its operations with their words. A step is its role, the
    place of its literal among all, the solid and the number of its face, and which other literal it asks; 0 where it has none."""

    def __init__(self, scene: scenes.Scene, products: Products):
        self.scene, self.products = scene, products
        self.bits, self.length = scene.number_bits(), scene.depth_bits + scene.fraction_bits + scene.number_bits()
        self.deep = (self.length + self.bits, scene.depth_bits + scene.fraction_bits)
        self.alive, self.par = 2 * self.length, 2 * self.length + 1
        self.literal, self.numbers = 0, {id(solid): at for at, solid in enumerate(scene.solids, 1)}

    def step(self, role: str, face: Optional[Face] = None, other: int = 0) -> Step:
        return role, self.literal, self.numbers[id(face.solid)] if face else 0, face.number if face else 0, other

    def bit(self, name: str, place: int, value: int, says: str) -> Made:
        return name, (place, value), says

    def __iter__(self) -> Iterator[Pass]:
        background, self.literal = self.scene.far() << self.scene.fraction_bits + self.bits, 0
        yield self.step("start"), "start: every pixel has the background", [
            ("load-const", (0, self.length, background), "put the background into key B")]
        for number, product in enumerate(self.products, 1):
            whole = self.spelled(product)
            for at, literal in enumerate(product):
                yield from self.of_literal(product, at, "product %d of %d, %s" % (number, len(self.products), whole), literal)

    def spelled(self, product: tuple[int, ...]) -> str:
        names = [self.scene.solids[abs(literal) - 1].name for literal in product]
        signs = ["" if literal > 0 else "- " for literal in product]
        return " ".join((sign if sign or not at else "* ") + name for at, (sign, name) in enumerate(zip(signs, names)))

    def of_literal(self, product: tuple[int, ...], at: int, where: str, literal: int) -> Iterator[Pass]:
        solid = self.scene.solids[abs(literal) - 1]
        self.literal += 1
        yield self.step("open"), "%s: faces of `%s`" % (where, solid.name), [
            self.bit("set-bit", self.alive, 0, "forget the candidate: alive is 0")]
        fronts, backs = faces_of(self.scene, solid)
        for face in fronts if literal > 0 else backs[:-1]:
            yield self.step("candidate", face), "candidate: face %d, %s" % (face.number, face.of_solid()), list(self.candidate(face))
        if self.scene.fraction_bits:
            yield from self.confirmed(literal > 0, solid, fronts, backs)
        for which, other in enumerate(product[:at] + product[at + 1:], 1):
            yield from self.classified(which, other)
        yield self.step("merge"), "merge: the nearer of candidate and best stays", list(self.merged())

    def kept(self, face: Face) -> Iterator[Made]:
        for form, says in edges(self.scene, face):
            yield "keep-sign", form, says

    def candidate(self, face: Face) -> Iterator[Made]:
        fraction = self.scene.fraction_bits
        yield from self.kept(face)
        yield ("load-linear", plus(face.plane, (1 << fraction) - 1) + self.deep,
               "put the depth of %s into key T" % face.of_solid())
        if fraction:
            yield "load-const", (self.deep[0], fraction, 0), "the cell at it or behind it: no fraction in key T"
        yield "load-const", (self.length, self.bits, face.number), "put face %d into key T" % face.number
        yield self.bit("set-bit", self.alive, 1, "here is a candidate: alive is 1")

    def alive_ones(self) -> Made:
        return self.bit("keep-bit", self.alive, 1, "keep the pixels with a candidate")

    def passed(self, face: Face, more: int = 0) -> Made:
        says = "keep the pixels whose candidate is %s %s" % (
            "a whole cell behind" if more else "at or behind", face.of_solid())
        return "keep-at-most", plus(face.plane, more) + self.deep, says

    def dies(self) -> Made:
        return self.bit("set-bit", self.alive, 0, "there the candidate dies: alive is 0")

    def counted(self, faces: list[Face], more: int = 0, other: int = 0) -> Iterator[Pass]:
        """The passes that count in par which of these faces are before the candidate."""
        for face in faces:
            yield self.step("turn" if other else "front", face, other), "against `%s`: count %s" % (face.solid.name, face.said), [
                self.alive_ones(), *self.kept(face), self.passed(face, more), ("toggle", (self.par,), "count it: turn par")]

    def par_cleared(self) -> Made:
        return self.bit("set-bit", self.par, 0, "nothing is counted yet: par is 0")

    def confirmed(self, is_plain: bool, solid: scenes.Solid, fronts: list[Face], backs: list[Face]) -> Iterator[Pass]:
        """With fraction bits: whether the solid has a cell of its own at the candidate."""
        if is_plain:
            for face in backs:
                yield self.step("drop", face), "is there a cell before %s" % face.of_solid(), [
                    self.alive_ones(), *self.kept(face), self.passed(face), self.dies()]
            return
        yield self.step("clear"), "is there a cell of `%s` before the candidate" % solid.name, [self.par_cleared()]
        yield from self.counted(fronts, 1 << self.scene.fraction_bits)
        yield self.step("confirm"), "is there a cell of `%s` before the candidate" % solid.name, [
            self.bit("keep-bit", self.par, 0, "keep the pixels where no front was counted"), self.dies()]

    def classified(self, which: int, literal: int) -> Iterator[Pass]:
        solid, is_plain = self.scene.solids[abs(literal) - 1], literal > 0
        fronts, backs = faces_of(self.scene, solid)
        yield self.step("begin", other=which), "against `%s`: nothing is counted yet" % solid.name, [self.par_cleared()]
        yield from self.counted(fronts + backs, other=which)
        yield self.step("close", other=which), "against `%s`: the verdict" % solid.name, [
            self.bit("keep-bit", self.par, int(not is_plain),
                     "keep the pixels whose candidate is %s `%s`" % ("outside" if is_plain else "inside", solid.name)), self.dies()]

    def merged(self) -> Iterator[Made]:
        yield self.alive_ones()
        yield "keep-less", (self.length, self.length, 0), "keep the pixels where key T is less than key B"
        yield "copy", (self.length, self.length, 0), "copy key T into key B"


def operations(scene: scenes.Scene, products: Products) -> tuple[list[Row], list[str]]:
    """Of each operation in order: the number of its pass, its name, its numbers, and what it is for; and the passes' words."""
    found: list[Row] = []
    said: list[str] = []
    for _, says, each in Passes(scene, products):
        found.append((len(said), "all", (), "enable every pixel"))
        found += [(len(said), name, numbers, words) for name, numbers, words in each]
        said.append(says)
    return found, said


def starts(scene: scenes.Scene, products: Products, levels: int) -> list[int]:
    """The clocks at which the passes begin, in an array whose tree has so many levels, and after them the end of the last."""
    clock = 0
    found: list[int] = []
    for number, name, numbers, _ in operations(scene, products)[0]:
        found += [clock] if number == len(found) else []
        clock += micros.clocks_of(name, numbers, levels)
    return found + [clock]


def steps(scene: scenes.Scene, products: Products) -> list[Step]:
    """The step of each pass (`Passes`)."""
    return [step for step, _, _ in Passes(scene, products)]


def line(name: str, numbers: Iterable[int]) -> str:
    """An operation as a line of a listing."""
    return " ".join([name, *map(str, numbers)])
