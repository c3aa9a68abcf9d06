"""What an accepted scene looks like: where each of its solids is in the picture, and what is likely
wrong with it. What `explain` reports; docs/PICTURE.md has the meaning that it uses.

A hint is a pair of a heading, LIKELY or LOOK, and a sentence. LIKELY is said where hardly anybody means what is written,
LOOK where a good scene may have it too."""
import copy
import textwrap
from typing import Any, Callable, Iterable, Iterator, Optional

from pxplanes.scene import rays, texts
from pxplanes.scene.scenes import Face, Node, Plane, Scene, Solid

Pair = tuple[int, int]
Hint = tuple[str, str]

# So many planes at pixels are tried in all, for what is taken away in vain; and as many for ^.
BUDGET = 3000000
# The letters of an expression in a hint.
WIDEST = 60
LIKELY, LOOK = "likely wrong", "worth a look"
# True of every hole that goes through: `explain` leaves it out.
NO_BACK = "is never shown: no back of it is where it is taken away"
NOT_SHOWN = "solid %s is not in the shown expression"
# The ways out of a picture: columns or rows, which end of them, and the direction.
WAYS_OUT = (("to the left", "columns", 0, (-1, 0)), ("to the right", "columns", 1, (1, 0)),
            ("above", "rows", 0, (0, -1)), ("below", "rows", 1, (0, 1)))


class Look:
    """Where a solid has cells: its first and last column, row and depth; or why it has none, under which heading."""

    def __init__(self) -> None:
        self.columns: Optional[Pair] = None
        self.rows: Optional[Pair] = None
        self.depths: Optional[Pair] = None
        self.why, self.heading = "", LIKELY

    def add(self, x: int, y: int, first: int, last: int) -> None:
        self.columns = widened(self.columns, x, x)
        self.rows = widened(self.rows, y, y)
        self.depths = widened(self.depths, first, last)


def widened(known: Optional[Pair], low: int, high: int) -> Pair:
    return (low, high) if known is None else (min(known[0], low), max(known[1], high))


def span_of(plane: Plane, y: int, first: int, last: int) -> Pair:
    """The x from first to last where A*x + B*y + C is not negative."""
    a, rest = plane[0], plane[1] * y + plane[2]
    if a > 0:
        return max(first, -(rest // a)), last
    if a < 0:
        return first, min(last, rest // -a)
    return (first, last) if rest >= 0 else (1, 0)


def kept(scene: Scene, planes: list[Plane]) -> Iterator[Plane]:
    """Row, first and last column of each row in which some pixel keeps all of these planes."""
    for y in range(scene.height):
        first, last = 0, scene.width - 1
        for plane in planes:
            if first > last:
                break
            first, last = span_of(plane, y, first, last)
        if first <= last:
            yield y, first, last


def forms(scene: Scene, solid: Solid) -> tuple[list[Plane], list[Plane], list[Plane]]:
    """The planes of the fronts with the near face, of the backs with the far limit, of the sides."""
    return ([(0, 0, 0)] + [face.plane for face in solid.fronts],
            [(0, 0, scene.far() << scene.fraction_bits)] + [face.plane for face in solid.backs],
            [side.plane for side in solid.sides])


def gaps(fronts: list[Plane], backs: list[Plane]) -> list[Plane]:
    return [(b[0] - f[0], b[1] - f[1], b[2] - f[2] - 1) for f in fronts for b in backs]


def all_looks(scene: Scene) -> list[Look]:
    """The look of each solid; where counting cells takes too long, what it is stays open."""
    if not scene.fraction_bits:
        return [look(scene, solid) for solid in scene.solids]
    cost = 0
    for solid in scene.solids:
        fronts, backs, sides = forms(scene, solid)
        pixels = sum(last + 1 - first for _, first, last in kept(scene, sides + gaps(fronts, backs)))
        cost += pixels * (len(fronts) + len(backs))
    return [look(scene, solid) if cost <= 2 * BUDGET else Look() for solid in scene.solids]


def look(scene: Scene, solid: Solid) -> Look:
    """Where a solid has cells in the picture. Without fraction bits a row needs its ends alone."""
    found, (fronts, backs, sides) = Look(), forms(scene, solid)
    whole = (lambda x, y: max(rays.value(plane, x, y) for plane in fronts),
             lambda x, y: min(rays.value(plane, x, y) for plane in backs))
    for y, first, last in kept(scene, sides + gaps(fronts, backs)):
        if scene.fraction_bits:
            for x in range(first, last + 1):
                low, high = (rays.cell_of(form(x, y), scene.fraction_bits) for form in whole)
                if low < high:
                    found.add(x, y, low, high - 1)
        else:
            low = least(lambda x: whole[0](x, y), first, last)
            high = -least(lambda x: -whole[1](x, y), first, last)
            found.add(first, y, low, high - 1)
            found.add(last, y, low, high - 1)
    if found.columns is None:
        found.heading, found.why = why_none(scene, solid)
    return found


def least(convex: Callable[[int], int], first: int, last: int) -> int:
    """The least value of a convex function of whole numbers."""
    while first < last:
        middle = (first + last) // 2
        if convex(middle) <= convex(middle + 1):
            last = middle
        else:
            first = middle + 1
    return convex(first)


def plane_text(kind: str, plane: Plane) -> str:
    return "%s %d %d %d" % ((kind,) + plane)


def why_none(scene: Scene, solid: Solid) -> Hint:
    """A hint: why a solid has no cell at any pixel of the picture."""
    fronts, backs, sides = forms(scene, solid)
    rows = list(kept(scene, sides))
    if not rows:
        return why_no_pixel(scene, solid)
    y, first, last = rows[len(rows) // 2]
    ends = rays.ends_of(scene, solid, (first + last) // 2, y)
    front, back = ends.front, ends.back
    if back.kind == "far limit":
        behind = min([rays.value(plane, (first + last) // 2, y) for plane in backs[1:]], default=0)
        bits = (max(front.value, behind) >> scene.fraction_bits).bit_length()
        has_room = front.value < behind or not solid.backs
        return (LIKELY if has_room else LOOK,
                "it begins farther than the far limit: the front in line %d is at %s, and the far limit %d%s" % (
                    front.line, parts(front.value, scene), scene.far(), "; depth %d has room" % bits
                    if has_room and bits <= 24 - scene.fraction_bits and bits > scene.depth_bits else ""))
    if front.kind == "near" and back.value <= 0:
        return LIKELY, "it ends before the eye: the back in line %d is at %s" % (back.line, parts(back.value, scene))
    if front.value < back.value:
        return LIKELY, "it passes between two depths: at %d %d from %s, line %d, up to %s%s" % (
            (first + last) // 2, y, parts(front.value, scene), front.line, parts(back.value, scene),
            ", line %d" % back.line if back.line else "")
    said = "its backs are not behind its fronts: at %d %d the back in line %d is at %s, and the front %s at %s" % (
        (first + last) // 2, y, back.line, parts(back.value, scene),
        "in line %d is" % front.line if front.kind == "front" else "the near face", parts(front.value, scene))
    if any(kept(scene, sides + gaps(fronts[:1] + backs[1:], backs[:1] + fronts[1:]))):
        return LIKELY, said + "; are the words front and back the wrong way round?"
    return LOOK, said


def parts(value: int, scene: Scene) -> str:
    whole = 1 << scene.fraction_bits
    return "%d" % (value // whole) if value % whole == 0 else "%g" % (value / whole)


def why_no_pixel(scene: Scene, solid: Solid) -> Hint:
    """A hint: which sides leave no pixel of the picture. Two that look away from each other are likely turned."""
    alone = next((side for side in solid.sides if not any(kept(scene, [side.plane]))), None)
    if alone:
        return LIKELY, "its side in line %d, %s, keeps no pixel of the picture" % (
            alone.line, plane_text("side", alone.plane))
    heading = LIKELY if any(look_away(scene, one, other) for one in solid.sides for other in solid.sides) else LOOK
    for side in solid.sides:
        a, b, c = side.plane
        turned = -a, -b, -c
        others = [other.plane for other in solid.sides if other is not side]
        if any(kept(scene, others + [turned])):
            return heading, "its sides leave no pixel; that in line %d may be the wrong way round: %s leaves some" % (
                side.line, plane_text("side", turned))
    return heading, "its sides leave no pixel"


def look_away(scene: Scene, one: Face, other: Face) -> bool:
    """Whether two sides, each of which keeps some pixels, are parallel and have none together."""
    (a, b, _), (p, q, _) = one.plane, other.plane
    return a * q == b * p and not any(kept(scene, [one.plane, other.plane]))


def ways(scene: Scene) -> set[tuple[int, bool]]:
    """Of each solid of the expression whether it is added, taken away, or both."""
    def join(sign: str, left: Any, right: Any) -> Any:
        turned = {(solid, not added) for solid, added in right}
        if sign == "^":
            return left | {(solid, not added) for solid, added in left} | right | turned
        return left | (turned if sign == "-" else right)

    return rays.folded(scene.show, lambda at: {(at, True)}, join)


def vain_sides(scene: Scene, solid: Solid) -> list[str]:
    """Sides that keep all that another side keeps which looks the same way."""
    out = []
    for i, side in enumerate(solid.sides):
        a, b, c = side.plane
        for k, other in enumerate(solid.sides):
            p, q, r = other.plane
            same = a * q == b * p and a * p + b * q > 0
            if i != k and same and (abs(p) + abs(q)) * c >= (abs(a) + abs(b)) * r and (
                    i > k or (abs(p) + abs(q)) * c > (abs(a) + abs(b)) * r):
                out.append("solid %s has a side that keeps all that the side in line %d keeps, line %d: %s; "
                           "are the signs of one the wrong way round?" % (
                               solid.name, other.line, side.line, plane_text("side", side.plane)))
                break
    return out


def is_vain(scene: Scene, index: int, rows: Iterable[Plane]) -> bool:
    """Whether the depths at the pixels of some rows are the same without a solid."""
    for y, first, last in rows:
        for x in range(first, last + 1):
            found = rays.crossings(scene, x, y)
            if rays.depth_of(scene, found) != rays.depth_of(scene, found[:index] + [None] + found[index + 1:]):
                return False
    return True


def box_of(looked: Look) -> Any:
    """The columns, rows and depths of a solid, each the first and the last; None where it has no cell, or that is open."""
    return looked.columns and (looked.columns, looked.rows, looked.depths)


def operations(scene: Scene) -> list[tuple[str, list[Node], list[Node]]]:
    """The sign of each operation of the expression, and its operands, each in postorder."""
    found: list[tuple[str, list[Node], list[Node]]] = []

    def leaf(at: int) -> list[Node]:
        return [at]

    def join(sign: str, left: list[Node], right: list[Node]) -> list[Node]:
        found.append((sign, left, right))
        return [*left, *right, sign]

    rays.folded(scene.show, leaf, join)
    return found


def hull(show: list[Node], looks: list[Look]) -> Any:
    """A box around all cells of an operand; None if its solids have none, or that is open."""
    def leaf(at: int) -> Any:
        return box_of(looks[at])

    def join(sign: str, left: Any, right: Any) -> Any:
        if sign in "-*" or not left or not right:
            return left if sign in "-*" else left or right
        return tuple(widened(one, *other) for one, other in zip(left, right))

    return rays.folded(show, leaf, join)


def apart(scene: Scene, looks: list[Look]) -> set[int]:
    """The solids that are taken away from what lies apart from them: whole columns, rows or depths are between."""
    return {at for sign, left, right in operations(scene) if sign == "-" for at in right if isinstance(at, int) and any(
        one[1] + 1 < two[0] or two[1] + 1 < one[0] for one, two in zip(hull(left, looks) or (), box_of(looks[at]) or ()))}


def without_meeting(scene: Scene, looks: list[Look]) -> list[Hint]:
    """A hint if the sides of some ^ have cells, and no common one. Every pixel of both boxes is tried, as far as the budget goes."""
    left_over, found, both = BUDGET, [], copy.copy(scene)
    planes = sum(3 + len(each.fronts) + len(each.backs) for each in scene.solids)
    for sign, left, right in operations(scene):
        boxes = hull(left, looks), hull(right, looks)
        if sign == "^" and all(boxes):
            columns, rows, depths = (range(max(one[0], other[0]), min(one[1], other[1]) + 1) for one, other in zip(*boxes))
            left_over -= len(columns) * len(rows) * planes if depths else 0
            both.show = [*left, *right, "*"]
            if not depths or left_over >= 0 and not any(
                    rays.runs(both, rays.crossings(scene, x, y)) for y in rows for x in columns):
                both.show[-1] = "^"
                found.append(texts.expression(both))
    return [(LOOK, "no cell of the picture is on both sides of ^ in %s%s: + has the same cells" % (
        textwrap.shorten(found[0], WIDEST, placeholder=" .."), " and in %d more" % (len(found) - 1) if found[1:] else ""))] if found else []


def taken_in_vain(scene: Scene, looks: list[Look]) -> Iterator[int]:
    """The solids that are taken away, and change no depth; of those that do, as many are tried as the budget has room for."""
    used, left = ways(scene), BUDGET
    planes = sum(3 + len(each.fronts) + len(each.backs) for each in scene.solids)
    for index, solid in enumerate(scene.solids):
        if (index, False) not in used or (index, True) in used or looks[index].why:
            continue
        fronts, backs, sides = forms(scene, solid)
        rows = list(kept(scene, sides + gaps(fronts, backs)))
        cost = sum(last + 1 - first for _, first, last in rows) * planes
        if cost <= left:
            left -= cost
            if is_vain(scene, index, rows):
                yield index


def before_drawing(scene: Scene, looks: list[Look]) -> list[Hint]:
    """The hints by the solids alone."""
    out = [(looked.heading, "solid %s has no cell in the picture: %s" % (solid.name, looked.why))
           for solid, looked in zip(scene.solids, looks) if looked.why]
    for solid, looked in zip(scene.solids, looks):
        out += [(LIKELY, each) for each in vain_sides(scene, solid)] if not looked.why else []
    far = apart(scene, looks)
    for index in taken_in_vain(scene, looks):
        out.append((LIKELY if index in far else LOOK, "solid %s is taken away, and nothing is nearer or farther by that%s" % (
            scene.solids[index].name, ": it lies apart from what it is taken from" if index in far else "")))
    out += [(LIKELY, each) for each in of_fraction(scene, looks) + without_common(scene, looks)]
    return out + without_meeting(scene, looks) + unbounded(scene, looks)


def unbounded(scene: Scene, looks: list[Look]) -> list[Hint]:
    """A hint for each solid that is added, and goes on where the picture ends with no plane of its own to end it."""
    used, out = ways(scene), []
    for index, (solid, looked) in enumerate(zip(scene.solids, looks)):
        if (index, True) in used and looked.columns:
            open_to = open_ways(scene, solid, looked)
            if open_to:
                out.append((LOOK, "solid %s is open %s: no plane of it ends it there" % (solid.name, ", ".join(open_to))))
    return out


def open_ways(scene: Scene, solid: Solid, looked: Look) -> list[str]:
    """The ways out of the picture by which a solid goes on without end."""
    fronts, backs = ([face.plane for face in faces] for faces in (solid.fronts, solid.backs))
    held = {plane[:2] for plane in [side.plane for side in solid.sides] + gaps(fronts, backs)} - {(0, 0)}
    out = []
    for words, what, end, way in WAYS_OUT:
        limit = (0, (scene.width if what == "columns" else scene.height) - 1)[end]
        if getattr(looked, what)[end] == limit and is_open(held, way):
            out.append(words)
    return out + ["to the eye"] * (not fronts) + ["behind"] * (not backs)


def is_open(held: set[Pair], way: Pair) -> bool:
    """Whether some direction with a part that way leads out of no half-plane with these A and B. It need only be looked for along
    their edges, and straight that way."""
    edges = {way} | {each for a, b in held for each in ((b, -a), (-b, a))}
    return any(x * way[0] + y * way[1] > 0 and all(a * x + b * y >= 0 for a, b in held) for x, y in edges)


def plural(count: int, word: str) -> str:
    return "%d %s%s" % (count, word, "" if count == 1 else "s")


def from_picture(scene: Scene, faces: Any, looks: list[Look]) -> list[Hint]:
    """The hints by a picture's face numbers."""
    if not any(faces):
        return [(LIKELY, "the picture is blank: no pixel shows a face")]
    out, seen, used = [], set(faces), ways(scene)
    for index, (solid, looked) in enumerate(zip(scene.solids, looks)):
        numbers = [solid.near] + [face.number for face in solid.fronts + solid.backs]
        taken_away = (index, False) in used and (index, True) not in used
        if (index, True) not in used and not taken_away:
            out.append(NOT_SHOWN % solid.name)
        elif not looked.why and not seen.intersection(numbers):
            if not taken_away:
                out.append("solid %s is never shown: others are in front of it, or take it away" % solid.name)
            elif solid.backs:
                out.append("solid %s %s" % (solid.name, NO_BACK))
        if solid.near in seen and solid.fronts:
            out.append("solid %s shows its near face at %s: its fronts are at or before the eye" % (
                solid.name, plural(faces.count(solid.near), "pixel")))
    return [(LOOK, each) for each in out]


def sorted_hints(hints: list[Hint]) -> list[Hint]:
    """First what is likely wrong."""
    return sorted(hints, key=lambda hint: hint[0] != LIKELY)


def of_fraction(scene: Scene, looks: list[Look]) -> list[str]:
    """A scene whose planes seem to count cells where they count parts of them."""
    ends = [looked.depths[1] for solid, looked in zip(scene.solids, looks) if looked.depths and solid.backs]
    if not scene.fraction_bits or not ends or max(ends) << scene.fraction_bits > scene.far():
        return []
    return ["all solids with a back end before depth %d of %d: with %d fraction bits fronts and backs count in parts "
            "of a cell, %d to each; are A, B and C times %d meant?" % (
                max(ends) + 1, scene.far(), scene.fraction_bits, 1 << scene.fraction_bits, 1 << scene.fraction_bits)]


def without_common(scene: Scene, looks: list[Look]) -> list[str]:
    """Pairs of solids that are intersected, and have no common cell by their boxes."""
    out = []
    for sign, left, right in operations(scene):
        if sign == "*" and isinstance(left[-1], int) and isinstance(right[-1], int):
            (one, first), (other, second) = ((scene.solids[at].name, box_of(looks[at])) for at in (left[-1], right[-1]))
            for what, a, b in zip(("columns", "rows", "depths"), first or (), second or ()):
                if a[1] < b[0] or b[1] < a[0]:
                    out.append("(%s * %s) has no cell: %s has the %s %d to %d, and %s %d to %d" % (one, other, one, what, *a, other, *b))
                    break
    return out


def table(scene: Scene, looks: list[Look], faces: Any) -> list[str]:
    """A line for each solid: line, columns, rows, depths, and pixels that show it, where they are known."""
    name = max([5] + [len(solid.name) for solid in scene.solids])
    out = ["%-*s  %5s  %-9s  %-9s  %-19s  %6s" % (name, "solid", "line", "columns", "rows", "depths", "pixels")]
    for solid, looked in zip(scene.solids, looks):
        numbers = {solid.near} | {face.number for face in solid.fronts + solid.backs}
        shown = "" if faces is None else "%d" % sum(face in numbers for face in faces)
        ranges = ["none" if looked.why else "open"] * 3
        if looked.columns:
            ranges = ["%d..%d" % pair for pair in (looked.columns, looked.rows, looked.depths) if pair]
        columns, rows, depths = ranges
        out.append("%-*s  %5d  %-9s  %-9s  %-19s  %6s" % (name, solid.name, solid.line, columns, rows, depths, shown))
    return [line.rstrip() for line in out]


def named(end: rays.End, scene: Scene) -> str:
    which = "" if end.which is None else " %d" % end.which
    face = ", face %d" % end.number if end.number else ""
    value = ", value %d" % end.value if scene.fraction_bits else ""
    line = ", line %d" % end.line if end.which else ""
    return "%s%s%s%s%s" % (end.kind, which, face, value, line)


def ray(scene: Scene, x: int, y: int) -> list[str]:
    """The ray of a pixel: what is seen, and where it is inside each solid, by which faces."""
    found = rays.crossings(scene, x, y)
    depth, face = rays.pixel_of(scene, found)
    own = next(((solid, kind, which) for number, solid, kind, which, _, _ in scene.faces() if number == face), None)
    seen = "the background" if own is None else "face %d, %s %s%s" % (
        face, own[0].name, own[1], "" if own[2] is None else " %d" % own[2])
    out = ["pixel %d %d: depth %d, %s" % (x, y, depth, seen)]
    for solid, each in zip(scene.solids, found):
        if each:
            out.append("  %s: depths %d to %d, from %s, to %s" % (
                solid.name, each.first, each.end - 1, named(each.front, scene), named(each.back, scene)))
        else:
            out.append("  %s: none; %s" % (solid.name, why_not(scene, solid, x, y)))
    cells = ", ".join("%d to %d" % (first, end - 1) for first, end in rays.runs(scene, found))
    return out + ["  %s: %s" % (texts.expression(scene), "depths " + cells if cells else "none")]


def why_not(scene: Scene, solid: Solid, x: int, y: int) -> str:
    side = rays.left_out(solid, x, y)
    if side:
        return "the side in line %d is %d here" % (side.line, rays.value(side.plane, x, y))
    ends = rays.ends_of(scene, solid, x, y)
    front, back = ends.front, ends.back
    return "it would begin at %s, %s, and end at %s, %s" % (
        parts(front.value, scene), named(front, scene), parts(back.value, scene), named(back, scene))
