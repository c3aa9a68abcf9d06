"""What there is to say of a scene's text: why it is refused and what to write, or what it looks like.

Whoever judges texts and draws them is a `Judge`: the program, the library, or nobody."""
import re
from typing import Any, NamedTuple, Optional, Sequence

from pxplanes.explain import after_end, cures, kinds, looks, readings
from pxplanes.scene import limits, scenes

WIDE = 76
MOST_SHOWN, MOST_CANDIDATES = 20, 5
OF_PRODUCTS = (
    "no list of products is longer than %d on the way to the shown one" % limits.MAX_PRODUCTS,
    "intersect and subtract first and join by + last, or draw the scene in parts")
# What a mistake is, by its cause: with the word at its place.
SAID = {"not-header": "a scene begins with its header, not with %s", "unexpected": "%s is not expected here",
        "word-count": "wrong number of words, at %s", "bad-name": "%s is not a name", "not-number": "%s is not a whole number",
        "second-name": "a second solid has the name %s", "bad-expression": "the expression is wrong at %s", "unknown-name": "unknown name %s",
        "after-end": "%s comes after the end", "missing-end": "the text stops too early"}


class Judge:
    """One who knows a text by the reading of scenes.py alone, and draws nothing."""

    def note(self, text: bytes) -> str:
        """The refusal of a text, in the program's words; empty for an accepted one."""
        known = own_reading(text)[1]
        return str(known.note) if known else ""

    def faces(self, text: bytes, scene: Any) -> tuple[Optional[Sequence[int]], str]:
        """The face numbers of its picture, by rows; or None, and why it was not drawn."""
        return None, ""

    def faults(self, tail: after_end.Tail, text: bytes) -> Optional[list[str]]:
        """What the command says of the lines after a scene that it does not take, or of the first; None if it is not asked."""
        return None

    def say(self, line: str) -> None:
        """Takes what is to be said of the judge's own reading."""


class Place(NamedTuple):
    """A mistake of a text: its line and column, counted from 1, and the column after it; what it is; the cause in the language's words;
    the lines that the answer has for it; what mends it for sure, if anything, and the candidates otherwise."""

    line: int
    column: int
    end_column: int
    message: str
    cause: str
    shown: tuple[str, ...]
    cure: Optional[str]
    candidates: tuple[str, ...]


class Answer(NamedTuple):
    """The answer about a text: its lines, whether it is accepted, and its mistakes."""

    lines: list[str]
    is_accepted: bool
    places: list[Place]


def marked(line: bytes, span: tuple[int, int]) -> list[str]:
    """A line of the text around a place, and marks below it."""
    shown = "".join(chr(byte) if 32 <= byte < 127 else " " if byte == 9 else "?" for byte in line)
    start, stop = span
    first = max(0, min(start - 8, len(shown) - WIDE)) if len(shown) > WIDE else 0
    last = min(first + WIDE, max(len(shown), start + 1))
    marks = " " * (start - first) + "^" * max(1, min(stop, last) - start)
    return ["    " + (shown[first:last].rstrip() or "(no text)"), "    " + marks]


def meant(old: bytes, changes: list[readings.Change]) -> str:
    """The words that may have been meant, if each change is another word in one place."""
    before, found = re.findall(r"\w+|\S", readings.cut(old)[0]), []
    for change in changes[:2]:
        after = re.findall(r"\w+|\S", change.sentence.partition("write ")[2])
        other = [new for word, new in zip(before, after) if word != new]
        if len(before) != len(after) or len(set(other)) != 1:
            return ""
        found.append("'%s'" % other[0])
    return " (did you mean %s?)" % " or ".join(found) if found and len(changes) <= 2 else ""


def place_of(text: bytes, note: str, known: scenes.Refusal, number: int, mistake: Optional[readings.Mistake], other: Optional[str]) -> Place:
    """A mistake as the answer has it: the program's line, the line of the text with marks, what is expected there, and what to write."""
    is_answer = isinstance(known, after_end.Unanswered)
    cause, own = (note, number) if is_answer else (known.cause, known.number)
    lines = scenes.cut_lines(text)
    line = lines[own - 1] if 0 < own <= len(lines) else b""
    start, stop = known.span or (0, 0)
    column, end = (len(line[:at].decode("utf-8", "replace")) + 1 for at in (start, stop))
    word = "the end of the line" if known.span and start >= len(line.split(b"#")[0].rstrip()) else "'%s'" % line[start:stop].decode("utf-8", "replace")
    changes = ([mistake.change] if mistake.change else mistake.candidates) if mistake else []
    limit = note.rpartition(": ")[2] + " is past a limit"
    said = known.said if isinstance(known, after_end.Unanswered) else SAID.get(cause, limit) if note.startswith("malformed") else limit
    said = (said % word if "%s" in said else said) + (meant(line, changes) if known.span else "")
    cure = mistake.change.sentence if mistake and mistake.change else None
    rest = [("expected", known.due), ("limit", known.limit)]
    if cure:
        rest.append(("cure", cure))
    else:
        rest.append(("hint", cures.of(text, known) or known.cure if other is None else other))
        rest += [("candidate", each.sentence) for each in changes[:MOST_CANDIDATES]]
    shown = [re.sub(r"line \d+", "line %d" % number, note, count=1) if own and not is_answer else note]
    shown += (marked(line, known.span) if known.span else []) + ["%s: %s" % each for each in rest if each[1]]
    return Place(number, column, end, said, cause, tuple(shown), cure, tuple(each.sentence for each in changes if not cure))


def refused(judge: Judge, text: bytes, note: str, known: scenes.Refusal) -> list[Place]:
    """The mistakes of a refused text, each in the text with those before it mended or left out."""
    number, other = known.number, kinds.cure(text)
    mending = None if other else readings.mended(text)
    found = mending.mistakes if mending else []
    places = []
    if mending and mending.changes[:1] and mending.changes[0][0] == 0:
        first = place_of(text, note, known, number, None, None)
        said = [line for line in first.shown if not line.startswith("hint: ")]
        cure = "--fix writes the text anew: %s" % mending.changes[0][1] if mending.is_whole else None
        places.append(first._replace(cure=cure, shown=(*said, "cure: " + cure) if cure else first.shown))
    elif not found or found[0].refusal.note != note:
        return [place_of(text, note, known, number, None, other)]
    for at, mistake in enumerate(found):
        if at and at < MOST_SHOWN and judge.note(mistake.text) != mistake.refusal.note:
            judge.say("the program reads the text with the first mistakes mended in another way")
            break
        places.append(place_of(mistake.text, str(mistake.refusal.note), mistake.refusal, mistake.number, mistake, None))
    return places


def lines_of(places: list[Place], name: str) -> list[str]:
    """The lines about the mistakes of a text of some name."""
    out: list[str] = []
    for place in places[:MOST_SHOWN]:
        out += ["%s:%d:%d: %s [%s]" % (name, place.line, place.column, place.message, place.cause), *place.shown]
    if len(places) == 1:
        return out
    sure = all(place.cure for place in places)
    left = len(places) - MOST_SHOWN
    said = "%d more" % left if left > 0 else looks.plural(len(places), "mistake") + " in all"
    return out + ["%s; %s" % (said, "--fix writes the mended text" if sure else "--fix is not sure of all of them, and writes nothing")]


def accepted(scene: Any, hints: list[tuple[str, str]], notes: list[str], found: Any, shown: Any) -> list[str]:
    """The lines about an accepted scene."""
    bits = looks.plural(scene.depth_bits, "bit")
    bits += " and %s" % looks.plural(scene.fraction_bits, "fraction bit") if scene.fraction_bits else ""
    faces = scene.faces()
    out = ["accepted: %d by %d pixels, depths of %s, far limit %d, %s, %s" % (
        scene.width, scene.height, bits, scene.far(), looks.plural(len(scene.solids), "solid"),
        looks.plural(len(faces), "face"))]
    out += ["%s: %s" % hint for hint in looks.sorted_hints(hints)] + notes
    out += looks.table(scene, found, shown) + [""] if scene.solids else []
    name = max([5] + [len(solid.name) for solid in scene.solids])
    out.append("%5s  %-*s  %-5s  %5s  %-11s  %5s" % (
        "face", name, "solid", "kind", "which", "colour", "line"))
    for number, solid, kind, which, colour, line in faces:
        out.append("%5d  %-*s  %-5s  %5s  %-11s  %5d" % (
            number, name, solid.name, kind, which or "", "%d %d %d" % colour, line))
    return out


def faces_of(scene: Any) -> dict[str, Any]:
    """The size of a scene, and of each face number what it is: docs/COMPARE.md, "Faces and normals"."""
    rows = []
    for number, solid, kind, which, colour, line in scene.faces():
        a, b, c = (0, 0, 0) if which is None else (solid.fronts if kind == "front" else solid.backs)[which - 1].plane
        rows.append({"face": number, "solid": scene.solids.index(solid) + 1, "name": solid.name, "kind": kind, "which": which, "line": line,
                     "colour": colour, "plane": [a, b, c], "normal": [a, b, -(1 << scene.fraction_bits)]})
    return {"picture": [scene.width, scene.height], "depth_bits": scene.depth_bits, "fraction_bits": scene.fraction_bits, "far": scene.far(),
            "faces": rows}


def own_reading(text: bytes) -> tuple[Any, Optional[scenes.Refusal]]:
    """The scene of a text, or its refusal, by the reading of scenes.py."""
    try:
        scene = scenes.read(text)
        scenes.pixel_memory(scene)
        return scene, None
    except scenes.Refusal as refusal:
        return None, refusal


def answer_about(judge: Judge, text: bytes, name: str = "scene") -> Answer:
    """The answer about a text, which messages call by this name: a scene, and what may come after it."""
    tail = after_end.cut(text)
    found = about_scene(judge, tail.scene if tail else text, name)
    return about_tail(judge, text, tail, found, name) if tail else found


def about_tail(judge: Judge, text: bytes, tail: after_end.Tail, found: Answer, name: str) -> Answer:
    """The answer about a text with lines after its scene, of which this has been found."""
    need = after_end.memory(tail) if [place.cause for place in found.places] == ["pixel-memory"] else None
    if need:
        return Answer(["accepted by `pxplanes shadow` alone, whose pixels have %d memory bits: it needs %d" % (after_end.SHADOW_BITS, need)], True, [])
    mistakes = [each for each in after_end.mended(text).mistakes if each.number > tail.scene.count(b"\n")]
    if not found.is_accepted and not (found.places and all(place.cure for place in found.places)):
        return found
    after = [place_of(text, str(each.refusal.note), each.refusal, each.number, each, "") for each in mistakes]
    said = judge.faults(tail, text) if found.is_accepted else None
    if said is not None and said != [place.shown[0] for place in after][:len(said) if tail.word == "shadow" and said else None]:
        judge.say("the program reads the lines after `end` in another way")
    places = found.places + after
    if places:
        return Answer(lines_of(places, name), False, places)
    lines = found.lines[:1] + after_end.notes(tail) + [line for line in found.lines[1:] if line not in after_end.usual(tail)]
    return found._replace(lines=lines)


def about_scene(judge: Judge, text: bytes, name: str) -> Answer:
    """The answer about the text of a scene alone."""
    scene, known = own_reading(text)
    note = judge.note(text)
    if note.startswith("limit line 0: products") and known is None:
        known = scenes.Refusal(note, None, None, *OF_PRODUCTS)
    if note != (known.note if known else ""):
        judge.say("the program reads this text in another way; its answer is below")
        return Answer([note or "accepted"], not note, [])
    if known:
        places = refused(judge, text, note, known)
        return Answer(lines_of(places, name), False, places)
    found = looks.all_looks(scene)
    hints = looks.before_drawing(scene, found)
    faces, why = judge.faces(text, scene)
    hints += [hint for hint in looks.from_picture(scene, faces, found) if not hint[1].endswith(looks.NO_BACK)] if faces else []
    return Answer(accepted(scene, hints, [why] if why else [], found, faces), True, [])
