"""Asks the module what the cases of the program ask it, and compares the answers. With the word `plain`, as without NumPy."""
import gzip
import os
import sys

if sys.argv[1:] == ["plain"]:
    sys.modules["numpy"] = None
sys.path[:0] = [os.path.realpath(folder) for folder in ("python/tests", "python")]
import pxplanes
from pxplanes.scene import scenes
import run_cases as cases


def note_of(call):
    """What a call answers, and the program's status and note for it."""
    try:
        return call(), 0, b""
    except pxplanes.Malformed as refusal:
        return b"", 3, b"%s\n" % str(refusal).encode()
    except pxplanes.Limit as refusal:
        return b"", 4, b"%s\n" % str(refusal).encode()


def coloured(rgb):
    return b"P6\n%d %d\n255\n" % (rgb.shape[1], rgb.shape[0]) + bytes(memoryview(rgb).cast("B"))


def cost(text):
    found = pxplanes.check(text)
    return b"macros %d\nclocks %d\n" % (found.operations, found.clocks)


def plan(text):
    """The kept products as `plan` prints them; its first line counts what is not kept too, and is taken over."""
    names = [solid.name for solid in scenes.read(text).solids]
    lines = []
    for product in pxplanes.products(text):
        words = [("- " if literal < 0 else "* " if at else "") + names[abs(literal) - 1] for at, literal in enumerate(product)]
        lines.append(" ".join(words) + "\n")
    return "".join(lines).encode()


def lit(text):
    """The image of `shadow`, which has its numbers as three bytes."""
    numbers = pxplanes.shadow(text)
    flat = b"".join(number.to_bytes(3, "big") for row in numbers.tolist() for number in row)
    return b"P6\n%d %d\n255\n" % (numbers.shape[1], numbers.shape[0]) + flat


ASKED = {"render": lambda text: pxplanes.render(text).maps(), "colour": lambda text: coloured(pxplanes.colour(text)), "cost": cost,
         "plan": plan, "tidy": lambda text: pxplanes.tidy(text).encode(), "list": lambda text: pxplanes.listing(text).encode(),
         "tile": lambda text, width, height: pxplanes.tile(text, int(width), int(height)).maps(), "shadow": lit,
         "refine": lambda text, factor: coloured(pxplanes.refine(text, int(factor))),
         "play": lambda text: pxplanes.play(text).memory().encode()}


def wrong_answer(word, others, text, wanted):
    output, status, note = note_of(lambda: ASKED[word](text, *others))
    status_wanted, output_wanted, note_wanted = wanted
    if word == "plan":
        output_wanted = output_wanted.partition(b"\n")[2]
    return None if (status, output, note) == (status_wanted, output_wanted, note_wanted) else "status %d, note %r" % (status, note)


def ran(text, words):
    """What a command writes, and the program's status and note for it."""
    try:
        return 0, pxplanes.run(text, words), b""
    except pxplanes.Refused as refusal:
        return refusal.status, b"", refusal.said.encode()


def is_plain(word):
    return bool(word) and not set(word) & set(b" \t\r")


def wrong_run(words, text, wanted):
    """Of words that can be written with spaces between them; what is answered before the limit of a text is not given."""
    status, output, note = wanted
    got = ran(text, b" ".join(words).decode("latin-1"))
    return None if got == (status, b"" if status else output, note) else "a run with status %d, note %r" % (got[0], got[2])


counts, runs = dict.fromkeys(ASKED, 0), 0
for name in cases.names():
    words, text, wanted = cases.read_case(os.path.join(cases.CASES, name))
    word, *others = [each.decode("latin-1") for each in words] or ["render"]
    if word in ASKED and wanted[0] in (0, 3, 4):
        wrong = wrong_answer(word, others, text, wanted)
        counts[word] += 1
        if wrong:
            print("%s: %s" % (name, wrong))
    if all(map(is_plain, words)):
        wrong, runs = wrong_run(words, text, wanted), runs + 1
        if wrong:
            print("%s: %s" % (name, wrong))
for word, count in counts.items():
    print("%s: %s" % (word, "some" if count > 3 else count))
print("runs: %s" % ("some" if runs > 400 else runs))
