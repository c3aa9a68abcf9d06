"""A scene of some kilobytes that takes hours to draw; as a command it is written out."""
import functools
import itertools


def text(pairs=10, planes=15, side=512):
    """Pairs of thick solids, joined and then met: 2^pairs products, each of so many solids with twice so many planes."""
    lines = ["pxscene 1", "picture %d %d" % (side, side), "depth 16"]
    for pair, name in itertools.product(range(pairs), "ab"):
        lines.append("solid %s%d 200 100 50" % (name, pair))
        lines += ["front %d %d %d" % (pair - at, at, 10 + at) for at in range(planes)]
        lines += ["back %d %d %d" % (at, pair - at, 60000 - at) for at in range(planes)]
    met = functools.reduce("({} * {})".format, ("(a%d + b%d)" % (at, at) for at in range(pairs)))
    return "\n".join(lines + ["show " + met, "end", ""])


if __name__ == "__main__":
    print(text(), end="")
