"""The lines after a scene's `end`: light lines, which `pxplanes shadow` takes, or command lines, which `pxplanes debug` answers.

Each line is judged by itself. It is mended if one line alone that is taken is within one or two keys, and keeps every digit and name."""
import re
from collections import Counter
from itertools import chain
from typing import Any, Callable, Iterator, NamedTuple, Optional

from pxplanes import program
from pxplanes.explain import looks, readings
from pxplanes.machine import sessions
from pxplanes.scene import limits, scenes

NUMBERS = re.compile(r"-|[0-9]+")
# The memory bits of a pixel of `pxplanes shadow`.
SHADOW_BITS = 80
# What a line says, equal for two lines of one meaning; None if it is not taken.
Takes = Callable[[str], Optional[Any]]


class Tail(NamedTuple):
    """A text in two parts: its scene, the lines after that, and the command that takes them."""

    scene: bytes
    lines: list[bytes]
    word: str


class Unanswered(scenes.Refusal):
    """A command line that is answered `? line N`, and why."""

    def __init__(self, number: int, fault: sessions.Fault):
        scenes.Refusal.__init__(self, "? line %d" % number, fault.span, fault.due)
        self.said = fault.said


def cut(text: bytes) -> Optional[Tail]:
    """The parts of a text; None if it has no lines after its `end`, or not most of them begin as those of one command, or one is a scene's."""
    lines = scenes.cut_lines(text)
    words = [readings.words_of(line) for line in lines]
    ends = [at for is_end in (["end"].__eq__, lambda each: len(each) == 1 and readings.is_near(each[0], "end")) for at, each in enumerate(words)
            if is_end(each)]
    after = [each for each in words[ends[0] + 1:] if each] if ends else []
    if any(each[0] in readings.KEYWORDS and (each[0] != "back" or len(each) != 2) for each in after):
        return None
    for word, _, own in scenes.BEHIND_END:
        if after and 2 * sum(begins_with(each[0], own) for each in after) >= len(after):
            return Tail(readings.joined(lines[:ends[0] + 1]), lines[ends[0] + 1:], word)
    return None


def begins_with(first: str, own: tuple[bytes, ...]) -> bool:
    """Whether a line's first word is one of these, near one, or one glued to a number."""
    return any(readings.is_near(first, word) or re.match(word + r"\d", first) for word in map(bytes.decode, own))


def refusals(tail: Tail, scene: scenes.Scene) -> Iterator[tuple[int, scenes.Refusal]]:
    """The places of the lines that are not taken, from 0, with what the command says of each."""
    names, first = [solid.name.encode() for solid in scene.solids], tail.scene.count(b"\n") + 1
    lights = 0
    for at, line in enumerate(tail.lines):
        if tail.word == "shadow":
            refusal: Optional[scenes.Refusal] = of_light(line, first + at, names)
            lights += bool(readings.words_of(line))
            if lights == limits.MAX_LIGHTS + 1 and not refusal:
                refusal = scenes.Refusal("limit line %d: lights %d" % (first + at, lights), (0, len(line)), None,
                                         "a scene has at most %d lights" % limits.MAX_LIGHTS)
        else:
            fault = sessions.fault(line.partition(b"#")[0], *program.grid(scene.width, scene.height))
            refusal = Unanswered(at + 1, fault) if fault else None
        if refusal:
            yield at, refusal
        if lights > limits.MAX_LIGHTS or tail.word == "debug" and sessions.is_quit(line.partition(b"#")[0]):
            return


def of_light(line: bytes, number: int, names: list[bytes]) -> Optional[scenes.Refusal]:
    """What `pxplanes shadow` says of a light line: docs/SCENES.md, "Light lines"."""
    found = [(match.group(), match.span()) for match in scenes.WORD.finditer(line.split(b"#")[0])]
    if not found:
        return None
    wrong = [("unexpected", span) for word, span in found[:1] if word != b"light"]
    wrong += [("word-count", span) for _, span in found if len(found) == 1]
    wrong += [("bad-name", span) for word, span in found[1:] if not scenes.NAME.match(word)]
    unknown = [("unknown-name", span) for word, span in found[1:] if word not in names]
    due = "the name of a solid: %s" % scenes.some(names) if not wrong else "light and one or more names of solids"
    return next((scenes.Refusal("malformed line %d: %s" % (number, cause), span, due) for cause, span in wrong + unknown), None)


def notes(tail: Tail) -> list[str]:
    """What there is to say of lines that are all taken."""
    count = sum(bool(readings.words_of(line)) for line in tail.lines)
    said = ["`pxplanes %s` takes the %d line%s after the scene" % (tail.word, count, "s" * (count != 1))]
    comments = [at for at, line in enumerate(tail.lines, 1) if tail.word == "debug" and b"#" in line]
    return said + ["worth a look: line %d has a comment: `pxplanes trace` drops it, and `pxplanes debug` answers `? line %d`" % (
        tail.scene.count(b"\n") + at, at) for at in comments[:1]]


def usual(tail: Tail) -> list[str]:
    """What is said of a scene, and is usual for the solids of light lines."""
    names = {word for line in tail.lines for word in readings.words_of(line)[1:]} if tail.word == "shadow" else ()
    return ["%s: %s" % (looks.LOOK, looks.NOT_SHOWN % name) for name in names]


def memory(tail: Tail) -> Optional[int]:
    """The memory bits of a scene with lights that has room in the pixels of `shadow` alone."""
    if tail.word != "shadow":
        return None
    need = scenes.read(tail.scene).need() + sum(bool(readings.words_of(line)) for line in tail.lines)
    return need if need <= SHADOW_BITS and not list(refusals(tail, scenes.read(tail.scene))) else None


def mended(text: bytes) -> readings.Mending:
    """Mends a text, and what comes after its scene."""
    tail = cut(text)
    if tail is None:
        return readings.mended(text)
    found = readings.mended(tail.scene)
    mistakes = [each._replace(text=each.text + readings.joined(tail.lines)) for each in found.mistakes]
    if not found.is_whole:
        return found._replace(mistakes=mistakes)
    scene, first = scenes.read(found.text), tail.scene.count(b"\n")
    lines, changes = list(tail.lines), list(found.changes)
    for at, refusal in refusals(tail, scene):
        sure, candidates = readings_of(tail, at, refusal, scene)
        mistakes.append(readings.Mistake(first + at + 1, refusal, sure, candidates, text))
        if sure:
            lines[at:at + 1] = sure.lines
            changes.append((first + at + 1, sure.sentence))
    whole = found.text + readings.joined(lines)
    return readings.Mending(whole if text.endswith(b"\n") else whole[:-1], all(each.change for each in mistakes), changes, mistakes)


def readings_of(tail: Tail, at: int, refusal: scenes.Refusal, scene: scenes.Scene) -> tuple[Optional[readings.Change], list[readings.Change]]:
    """The change of a line that is sure, or None, and the nearest candidates, each of another meaning. What `debug` takes for words, and
    `trace` for a comment, is not sure."""
    old, comment = readings.cut(tail.lines[at])
    if refusal.note.startswith("limit") or len(old) > readings.LONGEST:
        return None, []
    own = [word.decode() for command, _, words in scenes.BEHIND_END if command == tail.word for word in words]
    names = [solid.name for solid in scene.solids] if tail.word == "shadow" else []
    first, plain = (old.split() or [""])[0], readings.plain(readings.bytes_of(old))[0].decode("utf-8", "surrogateescape").rstrip("\n")
    takes, keeps = (takes_light(names), keeps_names(plain, names)) if names else (takes_command(scene), keeps_digits(plain))
    is_whole = names or not comment
    near = (text for text in readings.one_key(old) if "\n" not in text and (first not in own or text.split()[:1] == [first]))
    for texts in ([plain], chain(near, replaced(old, own, names, 1)), replaced(old, own, names, 2)):
        found: dict[Any, str] = {}
        for text in texts:
            meaning = takes(text)
            if meaning is not None and (meaning not in found or keeps(text) and not keeps(found[meaning])):
                found[meaning] = text
        if found:
            place = tail.scene.count(b"\n") + at
            changes = [readings.Change(place, place + 1, (readings.bytes_of(text + comment),), readings.printable("write " + " ".join(text.split())),
                                       keeps(text)) for text in found.values()]
            return changes[0] if len(changes) == 1 and changes[0].is_safe and is_whole else None, changes
    return None, []


def replaced(old: str, own: list[str], names: list[str], keys: int) -> Iterator[str]:
    """The line with its first word, or a name, taken for one that is so many keys away. A word that is one stays."""
    first, *others = old.split() or [""]
    for word in own if first not in own else ():
        if readings.is_near(first, word) and readings.distance(first, word) == keys:
            yield old.replace(first, word, 1)
    for word in dict.fromkeys(others):
        for name in names if word not in names else ():
            if readings.is_near(word, name) and readings.distance(word, name) == keys:
                yield re.sub(r"(?<!\S)%s(?!\S)" % re.escape(word), name, old)


def takes_light(names: list[str]) -> Takes:
    def meaning(text: str) -> Optional[Any]:
        first, *found = text.split() or [""]
        return frozenset(found) if first == "light" and found and set(found) <= set(names) else None

    return meaning


def takes_command(scene: scenes.Scene) -> Takes:
    array = program.grid(scene.width, scene.height)

    def meaning(text: str) -> Optional[Any]:
        words = text.split()
        return (words[0], *map(int, words[1:])) if words and not sessions.fault(readings.bytes_of(text), *array) else None

    return meaning


def keeps_digits(old: str) -> Callable[[str], bool]:
    """Whether a line keeps its numbers, and the digits of its names."""
    return lambda new: NUMBERS.findall(old) == NUMBERS.findall(new)


def keeps_names(old: str, names: list[str]) -> Callable[[str], bool]:
    """Whether a light line keeps its digits and its names, and gets one more at most, which is not there yet and no short one."""
    known = Counter(word for word in old.split() if word in names)

    def keeps(new: str) -> bool:
        found = Counter(new.split()[1:])
        added = found - known
        return keeps_digits(old)(new) and not known - found and sum(added.values()) <= 1 and all(
            len(name) > 2 and name not in known for name in added)

    return keeps
