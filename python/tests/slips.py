"""Slips of the hand in scenes, drawn at random from a seed: one key, a line lost, two lines swapped. What the tests of mending count."""
import random
import string

from pxplanes.explain import after_end, kinds, readings
from pxplanes.scene import scenes

KEYS = string.ascii_letters + string.digits + "-+*^(),;._#= "


def one(lines, at, chance):
    """The lines with one slip at a line with words, what the slip is, and the lines that it took part in."""
    what, line = chance.choice(("other", "other", "more", "less", "swapped", "lost line", "swapped lines", "far lines")), lines[at]
    if what == "lost line":
        return lines[:at] + [""] + lines[at + 1:], what, {at}
    if what in ("swapped lines", "far lines"):
        other = min(at + 1, len(lines) - 1) if what == "swapped lines" else chance.randrange(len(lines))
        out = list(lines)
        out[at], out[other] = lines[other], lines[at]
        return out, what, {at, other}
    key, place = chance.choice(KEYS), chance.randrange(len(line.split("#")[0].rstrip()))
    slipped = {"other": line[:place] + key + line[place + 1:], "more": line[:place] + key + line[place:],
               "less": line[:place] + line[place + 1:],
               "swapped": line[:place] + line[place:place + 2][::-1] + line[place + 2:]}[what]
    return lines[:at] + [slipped] + lines[at + 1:], what, {at}


def is_mended(text, meant):
    """Whether a refused text is mended, as it was meant."""
    mending = readings.mended(text)
    return mending.is_whole and not kinds.cure(text) and drawn(mending.text) == drawn(meant)


def slipped(text, count, chance, plain=False):
    """A text with so many slips, in lines of their own, each of which alone has it refused, or, if `plain`, is
    mended alone as meant; and what they are. None if one has not."""
    lines, whats, taken = text.split("\n")[:-1], [], set()
    own = [place for place, line in enumerate(lines) if line.split("#")[0].strip()]
    out = list(lines)
    for at in chance.sample(own, count):
        state = chance.getstate()
        alone, what, touched = one(lines, at, chance)
        alone = "\n".join(alone).encode() + b"\n"
        if touched & taken or drawn(alone) is not None or plain and not is_mended(alone, text.encode()):
            return None
        chance.setstate(state)
        out = one(out, at, chance)[0]
        taken |= touched
        whats.append(what)
    return "\n".join(out) + "\n", whats


def drawn(text):
    """What a scene draws: all but the names of its solids; None for a refused one."""
    try:
        scene = scenes.read(text)
        scenes.pixel_memory(scene)
    except scenes.Refusal:
        return None
    planes = [[[(face.plane, face.colour) for face in kind] for kind in (solid.fronts, solid.backs, solid.sides)] for solid in scene.solids]
    return scene.width, scene.height, scene.depth_bits, scene.fraction_bits, [each.colour for each in scene.solids], planes, scene.show


def counted(texts, count, most, seed, plain=False):
    """Of so many refused texts with one slip, or with two up to `most`: how many have one reading at each mistake,
    are mended as meant, and otherwise; those mended otherwise, and those not mended."""
    chance = random.Random(seed)
    counts, wrong, left = {"refused": 0, "one reading": 0, "as meant": 0, "otherwise": 0}, [], []
    while counts["refused"] < count:
        text = chance.choice(texts)
        found = slipped(text, 1 if most == 1 else chance.randint(2, most), chance, plain)
        if found is None or drawn(found[0].encode()) is not None:
            continue
        new, whats = found
        counts["refused"] += 1
        mending = readings.mended(new.encode())
        is_whole = mending.is_whole and not kinds.cure(new.encode())
        counts["one reading"] += is_whole or all(len(each.candidates) == 1 for each in mending.mistakes)
        if not is_whole:
            left.append((whats, [(each.number, str(each.refusal.note), len(each.candidates)) for each in mending.mistakes], new, text))
        elif drawn(mending.text) == drawn(text.encode()):
            counts["as meant"] += 1
        else:
            counts["otherwise"] += 1
            wrong.append((whats, mending.changes, new))
    return counts, wrong, left


def of_tail(text, word):
    """What the lines after a scene mean, and what the scene draws; None if one of them is not taken by this command."""
    tail = after_end.cut(text)
    if tail is None or tail.word != word or drawn(tail.scene) is None or list(after_end.refusals(tail, scenes.read(tail.scene))):
        return None
    lines = [line.decode().partition("#" if word == "shadow" else "\n")[0].split() for line in tail.lines]
    return drawn(tail.scene), [frozenset(words) if word == "shadow" else [each if each.isalpha() else int(each) for each in words]
                               for words in lines if words]


def in_tails(text, first, word, count, seed):
    """Texts with one slip in a line from the place `first` on, which are not taken, and still seem to be for this command."""
    chance, lines = random.Random(seed), text.split("\n")[:-1]
    while count:
        new = "\n".join(one(lines, chance.randrange(first, len(lines)), chance)[0]).encode() + b"\n"
        tail = after_end.cut(new)
        if tail and tail.word == word and of_tail(new, word) is None:
            count -= 1
            yield new
