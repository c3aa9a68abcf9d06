"""Tries renderers with planted mistakes on the suite: which ones are named. `python3 python/tests/mistakes.py [WORD]`
prints the table."""
import os
import sys

import numpy as np

TOP = os.path.dirname(os.path.dirname(os.path.dirname(os.path.abspath(__file__))))
sys.path[:0] = [os.path.join(TOP, "python")]
import mistakes_later
import renderer_by_events
import renderer_by_products
import renderer_by_rays
from pxplanes.compare import causes, picture, verdict
from pxplanes.suite import golden

CASES = list(golden.scenes_of(golden.SUITE))
RIGHT, NAMED, NONE, WRONG = "right", "named rightly", "no cause found", "NAMED WRONGLY"


def samples_of(draw):
    """The samples of a run of `draw`, which gives depths and faces of a case."""
    rows = [(case.scene, *(np.asarray(each).ravel() for each in draw(case))) for case in CASES]
    whole = verdict.is_whole([depths.astype(float) for _, depths, _ in rows])
    return [verdict.Sample(scene, *picture.grid(scene), depths.astype(float), faces.astype(np.int64), whole)
            for scene, depths, faces in rows]


def outcome(draw, word):
    """What is said of a mistake whose cause has this word, or these with & between, or None; and the causes that are named."""
    samples = samples_of(draw)
    if not any(each.differs.any() for each in samples):
        return RIGHT, []
    found = causes.find(samples).causes
    is_named = word and any(all(part in each for part in word.split(" & ")) for each in found)
    return (NONE if not found else NAMED if is_named else WRONG), found


def planted():
    """Each mistake: its renderer, its name, the word of its cause or None, and what draws it."""
    for name, (word, renderer) in renderer_by_events.completed().items():
        yield "events", name, word, lambda case, renderer=renderer: renderer.draw(case.scene)
    for name, (word, renderer) in renderer_by_products.MISTAKES.items():
        yield "products", name, word, lambda case, renderer=renderer: renderer.draw(case.text.decode())
    for kind, rows in (("rays", renderer_by_rays.MISTAKES), ("held out", renderer_by_rays.HELD_OUT)):
        for name, renderer in rows.items():
            word = renderer_by_rays.CAUSES.get(name)
            yield kind, name, word, lambda case, renderer=renderer: renderer.draw(case.text.decode())
    for name, (word, renderer) in mistakes_later.LATER.items():
        yield "later", name, word, lambda case, renderer=renderer: renderer.draw(case.text.decode())


def main(words):
    counts = {}
    for kind, name, word, draw in planted():
        if words and not any(each in kind + " " + name for each in words):
            continue
        said, found = outcome(draw, word)
        key = kind, "with a cause" if word else "without", said
        counts[key] = counts.get(key, 0) + 1
        print("%-8s %-42s %-14s %s" % (kind, name, said, "; ".join(found)), flush=True)
    for key, count in sorted(counts.items()):
        print("%-8s %-12s %-14s %d" % (*key, count))


if __name__ == "__main__":
    main(sys.argv[1:])
