"""Random scenes: one seed gives the same scene each time. What `conform` tries in addition to its suite."""
import random

SIGNS = "+++**--^"


def solid_of(draw: random.Random, name: str, parts: int) -> list[str]:
    """The lines of a solid of a few planes, over a picture of 32 by 24 pixels."""
    lines = [" ".join(["solid", name, *(str(draw.randint(0, 255)) for _ in range(3))])]
    for _ in range(draw.randint(0, 3)):
        a, b = draw.randint(-5, 5), draw.randint(-5, 5)
        x, y = draw.randint(0, 31), draw.randint(0, 23)
        lines.append("side %d %d %d" % (a, b, draw.randint(0, 60) - a * x - b * y))
    for kind, low, high in (("front", -20, 150), ("back", 60, 300)):
        for _ in range(draw.randint(0, 2)):
            slopes = draw.randint(-6 * parts, 6 * parts), draw.randint(-6 * parts, 6 * parts)
            lines.append("%s %d %d %d" % ((kind,) + slopes + (draw.randint(low * parts, high * parts),)))
    return lines


def expression(draw: random.Random, names: str) -> str:
    if len(names) == 1:
        return names[0]
    middle = draw.randint(1, len(names) - 1)
    left, right = expression(draw, names[:middle]), expression(draw, names[middle:])
    return "(%s %s %s)" % (left, draw.choice(SIGNS), right)


def scene_of(seed: int) -> str:
    """The text of the scene of a seed."""
    draw = random.Random(seed)
    names = "abcdef"[:draw.randint(3, 6)]
    fraction = draw.choice((0, 0, 2, 4))
    lines = ["# Drawn by lot, with the seed %d." % seed, "pxscene 3", "picture 32 24", "depth 8 %d" % fraction]
    for name in names:
        lines += solid_of(draw, name, 1 << fraction)
    return "\n".join(lines + ["show " + expression(draw, names), "end", ""])
