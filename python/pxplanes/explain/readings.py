"""Finds what a refused scene was meant to say: the texts within one or two keys of it that the reader of scenes accepts.

A reading is the scene that such a text means. A line is mended only if its nearest readings are one and the same scene, and the
mended line keeps every number, sign and name that the written one has. Otherwise they are candidates."""
import copy
import re
import unicodedata
from collections import Counter
from typing import Any, Iterator, NamedTuple, Optional

from pxplanes.scene import scenes

KEYWORDS = ("pxscene", "picture", "depth", "solid", "front", "back", "side", "show", "end")
KEYS = "abcdefghijklmnopqrstuvwxyzABCDEFGHIJKLMNOPQRSTUVWXYZ0123456789_- ()+*^\n"
# No key is tried in a longer line, and no text of more lines is searched.
LONGEST, MOST_LINES, MOST_MISTAKES = 300, 5000, 200
DASHES = re.compile("[\u2010-\u2015\u2212\ufe63\uff0d]")
NUMBER = re.compile(r"-?[0-9]+")
NOTHING = re.compile("[\u200b-\u200d\u2060\ufeff]")
# After these causes the rest of the text can be read on.
OWN_LINE = ("not-number", "word-count", "bad-name", "second-name", "bad-expression", "unknown-name")
DUE = scenes.DUE
Lines = list[bytes]


class Change(NamedTuple):
    """The lines from `first` up to `end`, counted from 0, become `lines`; `sentence` says so. `is_safe` is whether all numbers, signs
    and names stay."""

    first: int
    end: int
    lines: tuple[bytes, ...]
    sentence: str
    is_safe: bool

    def applied(self, lines: Lines) -> Lines:
        """The whole text with this change."""
        return lines[:self.first] + list(self.lines) + lines[self.end:]


class Mistake(NamedTuple):
    """A refused line: its number in the text, the refusal, what mends it for sure, and otherwise the candidates; `text` is the text in
    which it is the first mistake."""

    number: int
    refusal: scenes.Refusal
    change: Optional[Change]
    candidates: list[Change]
    text: bytes


class Mending(NamedTuple):
    """A text as far as it can be mended: `is_whole` is whether that is all of it. `changes` has a line number (0 for the whole text) and
    a sentence for each change."""

    text: bytes
    is_whole: bool
    changes: list[tuple[int, str]]
    mistakes: list[Mistake]


class Judge(scenes.Reader):
    """A reader that judges many lines, and looks for no cure."""

    def cure_of_word(self, word: bytes) -> str:
        return ""

    def after(self, lines: Lines) -> "Judge":
        """The reader after further lines. Raises `Refusal`."""
        new = copy.copy(self)
        new.scene, new.names = copy.copy(self.scene), dict(self.names)
        new.scene.solids = list(self.scene.solids)
        if new.scene.solids:
            last = new.scene.solids[-1] = copy.copy(new.scene.solids[-1])
            last.fronts, last.backs, last.sides = list(last.fronts), list(last.backs), list(last.sides)
        for line in lines:
            new.take(line)
        return new


def meaning(scene: Any, named: bool = False) -> tuple[Any, ...]:
    """What a scene means: equal for two texts of one scene."""
    solids = tuple((solid.name if named else "", solid.colour, *(tuple((face.plane, face.colour) for face in faces) for faces in (
        solid.fronts, solid.backs, solid.sides))) for solid in scene.solids)
    return scene.width, scene.height, scene.depth_bits, scene.fraction_bits, solids, tuple(scene.show)


def joined(lines: Lines) -> bytes:
    return b"".join(line + b"\n" for line in lines)


def first_mistake(lines: Lines) -> tuple[Optional[scenes.Refusal], int]:
    """The first refusal of a text and the place of its line, which is after the last if it has none."""
    try:
        scenes.pixel_memory(scenes.read(joined(lines)))
        return None, len(lines)
    except scenes.Refusal as refusal:
        return refusal, len(lines) if refusal.number == 0 or refusal.cause == "missing-end" else refusal.number - 1


def distance(one: str, other: str) -> int:
    """The keys between two words: letters put in, left out, taken for others or swapped; capitals for all letters are one key."""
    if one.lower() == other.lower():
        return int(one != other)
    rows = [list(range(len(other) + 1))]
    for i, letter in enumerate(one, 1):
        row = [i]
        for k, wanted in enumerate(other, 1):
            row.append(min(rows[-1][k] + 1, row[-1] + 1, rows[-1][k - 1] + (letter != wanted)))
            if i > 1 and k > 1 and letter == other[k - 2] and one[i - 2] == wanted:
                row[-1] = min(row[-1], rows[-2][k - 2] + 1)
        rows.append(row)
    return rows[-1][-1]


def is_near(one: str, other: str) -> bool:
    """Whether a word is another one in capitals, or within one or two keys of one of which it has more than half."""
    return one.lower() == other.lower() or abs(len(one) - len(other)) <= 2 and distance(one, other) <= min(2, (len(other) - 1) // 2)


def cut(line: bytes) -> tuple[str, str]:
    """The statement of a line, and its comment; `bytes_of` gives the bytes back."""
    body, mark, comment = line.decode("utf-8", "surrogateescape").partition("#")
    return body, mark + comment


def bytes_of(text: str) -> bytes:
    return text.encode("utf-8", "surrogateescape")


def printable(text: str) -> str:
    """A text with ? for bytes that are no text."""
    return text.encode("utf-8", "replace").decode()


def words_of(line: bytes) -> list[str]:
    return re.findall(r"[^ \t\r]+", cut(line)[0])


def begins_like_a_scene(first: str) -> bool:
    """Whether the first word of a line is a keyword, or near one, or has one glued to a number."""
    return any(is_near(first, word) or re.match(word + r"[-\d(]", first) is not None for word in KEYWORDS)


def one_key(body: str) -> Iterator[str]:
    """All texts that are one key away."""
    for at in range(len(body) + 1):
        for key in KEYS:
            yield body[:at] + key + body[at:]
        if at < len(body):
            yield body[:at] + body[at + 1:]
            for key in KEYS:
                yield body[:at] + key + body[at + 1:]
            yield body[:at] + body[at:at + 2][::-1] + body[at + 2:]


def expression_of(line: str) -> tuple[list[str], list[str]]:
    """The names and the signs of a show line."""
    tokens = re.findall(r"\w+|[-+*^]", line)[1:]
    return [each for each in tokens if each not in "-+*^"], [each for each in tokens if each in "-+*^"]


def numerals(words: list[str]) -> str:
    """The digits and minus signs of some words, in order."""
    return re.sub(r"[^-\d]", "", "".join(words))


def cuts_number(had: list[str], has: list[str]) -> bool:
    """Whether a number of the old words is more than one of the new."""
    return len(has) > len(had) and bool(Counter(filter(NUMBER.fullmatch, had)) - Counter(has))


def keeps(old: str, new: str, names: Any) -> bool:
    """Whether an edited line has every number and sign of the old one, drops no solid, and takes in none that is there already."""
    had, has = old.split(), new.split()
    if has[0] == "show":
        before, signs = expression_of(old)
        after, new_signs = expression_of(new)
        known, found = (Counter(name for name in each if name.encode() in names) for each in (before, after))
        added = found - known
        return signs == new_signs and not known - found and len(added) <= 1 and all(
            name not in known and len(name) > 2 for name in added)
    own = 2 if has[0] == "solid" else 1
    if has[0] == "pxscene" or len(had) == len(has) and had[own:] == has[own:]:
        return True
    return numerals(had) == numerals(has) and not cuts_number(had, has)


class Search:
    """Finds the readings of one refused line."""

    def __init__(self, lines: Lines, refusal: scenes.Refusal, at: int, has_order: bool):
        self.lines, self.refusal, self.at, self.cause, self.has_order = lines, refusal, at, refusal.cause, has_order
        self.before = Judge().after(lines[:at])
        self.statements = [place for place, line in enumerate(lines) if words_of(line)]

    def edited(self, text: str, first: int, end: int) -> Change:
        """A change of lines to another text, which has their comment too."""
        lines = tuple(map(bytes_of, text.split("\n")))
        old, new = (" ".join(cut(line)[0] for line in each) for each in (self.lines[first:end], lines))
        sentence = "write " + " and ".join(" ".join(words_of(line)) for line in lines)
        return Change(first, end, lines, printable(sentence), keeps(old, new, self.before.names))

    def keyed(self) -> Iterator[Change]:
        """The edits of one key in the refused line, and its line end."""
        at = self.at
        if at == len(self.lines) or self.cause in ("after-end", "unknown-name") or len(self.lines[at]) > LONGEST:
            return
        due = [word.decode() for word in DUE[self.before.step]] or ["pxscene"]
        body, comment = cut(self.lines[at])
        first_word = words_of(self.lines[at])[0]
        texts = dict.fromkeys([*(each + comment for each in one_key(body)), *(body + key + comment[1:] for key in [*KEYS, ""] if comment),
                               *(body.replace(first_word, word, 1) + comment for word in due if distance(first_word, word) == 1)])
        wanted = {name for line in self.lines[at:] if words_of(line)[:1] == ["show"] for name in expression_of(cut(line)[0])[0]}
        for text in texts:
            words = text.partition("#")[0].split()
            if text != body + comment and words and words[0] in due and (words[0] != "show" or self.knows(text)) and (
                    words[0] != "solid" or words[1:2] == words_of(self.lines[at])[1:2] or wanted.issuperset(words[1:2])):
                yield self.edited(text, at, at + 1)
        for first in (at - 1, at):
            if 0 <= first < len(self.lines) - 1 and b"#" not in self.lines[first]:
                for between in ("", " "):
                    yield self.edited(cut(self.lines[first])[0].rstrip("\r") + between + "".join(cut(self.lines[first + 1])), first, first + 2)

    def knows(self, text: str) -> bool:
        """Whether all names of a show line are those of solids."""
        return all(name.encode() in self.before.names for name in expression_of(re.split("[\n#]", text)[0])[0])

    def renamed(self, keys: int) -> Iterator[Change]:
        """The show line with its unknown name read as one that is so many keys away."""
        if self.cause != "unknown-name":
            return
        line = self.lines[self.at]
        word = line[slice(*(self.refusal.span or (0, 0)))].decode()
        for name in map(bytes.decode, self.before.names):
            if is_near(word, name) and distance(word, name) == keys:
                body, comment = cut(line)
                new = re.sub(r"(?<![A-Za-z0-9_])%s(?![A-Za-z0-9_])" % re.escape(word), name, body)
                is_free = name not in expression_of(body)[0] and len(name) > 2
                yield Change(self.at, self.at + 1, (bytes_of(new + comment),), "write " + " ".join(new.split()), is_free)
                yield from self.declared(word, name) if keys == 1 else ()

    def declared(self, word: str, name: str) -> Iterator[Change]:
        """The line of a solid read as that of another name."""
        at = self.before.scene.solids[self.before.names[name.encode()]].line - 1
        body, comment = cut(self.lines[at])
        for text in one_key(body):
            if text.split()[:2] == ["solid", word]:
                yield self.edited(text + comment, at, at + 1)

    def spelled(self, keys: int) -> Iterator[Change]:
        """The refused line with its first word read as a keyword that is so many keys away."""
        if self.at < len(self.lines) and self.cause in ("unexpected", "not-header"):
            body, comment = cut(self.lines[self.at])
            first = words_of(self.lines[self.at])[0]
            for word in [word.decode() for word in DUE[self.before.step]] or ["pxscene"]:
                if is_near(first, word) and distance(first, word) == keys:
                    yield self.edited(body.replace(first, word, 1) + comment, self.at, self.at + 1)

    def versions(self) -> Iterator[Change]:
        """The header with another version, or the header and the end that are missing."""
        at, end = self.at, b"\r" if self.lines and self.lines[0].endswith(b"\r") else b""
        has_header = any(words_of(self.lines[place])[0] == KEYWORDS[0] for place in self.statements)
        if self.cause == "not-header" and not has_header and is_near(words_of(self.lines[at])[0], "picture"):
            for version in (version_of(self.lines), b"1", b"2", b"3"):
                place = self.statements[0] if self.statements else 0
                yield Change(place, place, (b"pxscene " + version + end,), "add a line above this one: pxscene %s" % version.decode(), True)
        if self.cause == "missing-end" and self.refusal.due == "end":
            yield Change(len(self.lines), len(self.lines), (b"end" + end,), "add a last line: end", True)
        if self.before.step > 1 and self.cause in ("word-count", "bad-expression"):
            place = self.statements[0]
            for version in (b"1", b"2", b"3"):
                new = re.sub(rb"(?<=pxscene)([ \t]+)\d", rb"\g<1>" + version, self.lines[place], count=1)
                yield Change(place, place + 1, (new,), "write pxscene %s in the first line" % version.decode(), True)

    def swapped(self) -> Iterator[Change]:
        """The refused line in the place of the one before it or the one after it."""
        if not self.has_order and self.at in self.statements and self.cause in ("unexpected", "after-end", "not-header"):
            here = self.statements.index(self.at)
            for one, other in zip(self.statements[max(0, here - 1):here + 1], self.statements[max(1, here):here + 2]):
                yield self.moved(one, other)

    def moved(self, one: int, other: int) -> Change:
        """Two lines in each other's place."""
        lines = (self.lines[other], *self.lines[one + 1:other], self.lines[one])
        sentence = printable("put line %d above line %d: %s" % (other + 1, one + 1, " ".join(words_of(self.lines[other]))))
        return Change(one, other + 1, lines, sentence, True)

    def placed(self) -> Iterator[Change]:
        """Each line that has one place in a scene alone, put there, or in exchange with what is there."""
        if self.has_order or self.cause not in ("unexpected", "after-end", "not-header", "unknown-name"):
            return
        order = [place for word in KEYWORDS[:3] for place in self.statements if words_of(self.lines[place])[0] == word]
        order += [place for word in ("show", "end") for place in self.statements if words_of(self.lines[place])[0] == word]
        if len(order) != 5:
            return
        for place, due in zip(order, self.statements[:3] + self.statements[-2:]):
            if place != due:
                first, last = sorted((place, due))
                yield self.moved(first, last)
                between = self.lines[first:last + 1]
                between = between[1:] + between[:1] if place == first else between[-1:] + between[:-1]
                sentence = "put line %d %s line %d" % (place + 1, "below" if place == first else "above", due + 1)
                yield Change(first, last + 1, tuple(between), sentence, True)

    def readings(self) -> tuple[Optional[Change], list[Change]]:
        """The change that is sure, or None; and the nearest candidates, each another scene."""
        near = self.judged([*self.keyed(), *self.renamed(1), *self.versions(), *self.swapped()])
        far = ({}, {}) if near[0] else self.judged([*self.spelled(2), *self.renamed(2), *self.placed()])
        found = near[0] or far[0] or near[1] or far[1]
        only = next(iter(found.values())) if len(found) == 1 else None
        return only if only and only.is_safe else None, list(found.values())

    def ordered(self) -> Optional[Change]:
        """The one change of the order of lines after which all other mistakes of the text have one reading; None if there is none, or
        several that are different scenes."""
        found = {}
        for change in [*self.swapped(), *self.placed()]:
            rest = mended(joined(change.applied(self.lines)), has_order=True)
            if rest.is_whole:
                found[meaning(scenes.read(rest.text))] = change
        return next(iter(found.values())) if len(found) == 1 else None

    def judged(self, changes: list[Change]) -> tuple[dict[Any, Change], dict[Any, Change]]:
        """The changes that make the whole text a scene, and those that make one up to this line; one for each meaning."""
        wholes: dict[Any, Change] = {}
        parts: dict[Any, Change] = {}
        for change in changes:
            stop = change.first + len(change.lines)
            passed = max(stop, self.at + len(change.lines) - (change.end - change.first) + 1)
            new = change.applied(self.lines)
            try:
                if change.first == self.at and change.end <= self.at + 1:
                    state = self.before.after(list(change.lines))
                else:
                    state = Judge().after(new[:min(passed, len(new))])
            except scenes.Refusal:
                continue
            if first_mistake(new)[0] is None:
                key, found = meaning(scenes.read(joined(new))), wholes
            else:
                key, found = meaning(state.scene, self.cause != "unknown-name"), parts
            if key not in found or change.is_safe and not found[key].is_safe:
                found[key] = change
        return wholes, parts


def version_of(lines: Lines) -> bytes:
    """The least version whose words a text has."""
    code = b"\n".join(line.split(b"#")[0] for line in lines)
    return b"3" if re.search(rb"(?m)^\s*depth\s+\d+\s+\d+", code) else b"2" if re.search(rb"(?m)^\s*show\b.*\^", code) else b"1"


def stand_in(lines: Lines, refusal: scenes.Refusal, at: int) -> Optional[bytes]:
    """A line that stands for a refused one, so that what follows can be read; None if it does not say what may follow."""
    if at == len(lines) or refusal.cause not in OWN_LINE and not refusal.note.startswith("limit"):
        return None
    before, words = Judge().after(lines[:at]), words_of(lines[at])
    if words[0] == "solid":
        name = words[1] if len(words) > 1 and scenes.NAME.match(words[1].encode()) and words[1].encode() not in before.names else "_%d" % at
        return b"solid %s 0 0 0" % name.encode()
    if words[0] == "depth":
        return b"depth 12 0" if before.scene.version == 3 else b"depth 12"
    if words[0] == "show":
        return b"show " + next(reversed(before.names), b"a")
    return {"picture": b"picture 1 1"}.get(words[0], b"")


def plain(text: bytes) -> tuple[bytes, Optional[str]]:
    """The text in plain letters, line ends and signs, if other ones stand for them; and what was changed."""
    if text[:2] in (b"\xff\xfe", b"\xfe\xff"):
        return text.decode("utf-16", "replace").encode("utf-8"), "the text was UTF-16; it is UTF-8 now"
    if text[:3] == b"\xef\xbb\xbf":
        return text[3:], "the byte-order mark before the text is gone"
    if b"\n" not in text and b"\r" in text:
        return text.replace(b"\r", b"\n"), "its lines ended in carriage returns alone; they end in line feeds now"
    out, sentence = [], None
    for line in scenes.cut_lines(text):
        body, comment = cut(line)
        new = unicodedata.normalize("NFKC", NOTHING.sub("", DASHES.sub("-", body)))
        if not body.isascii() and new.isascii():
            line, sentence = bytes_of(new + comment), "signs and spaces of other alphabets are plain ones now"
        out.append(line)
    return (joined(out), sentence) if sentence else (text, None)


def mended(text: bytes, has_order: bool = False) -> Mending:
    """Mends what is sure, and finds the mistakes of the text in the order of its lines. If it `has_order`, no line is moved."""
    new, sentence = plain(text)
    changes = [(0, sentence)] if sentence else []
    lines = scenes.cut_lines(new)
    mistakes: list[Mistake] = []
    numbers, is_whole = list(range(1, len(lines) + 1)), True
    refusal, at = first_mistake(lines)
    good, shown = list(lines), list(lines)
    while refusal is not None and len(mistakes) < MOST_MISTAKES and len(lines) <= MOST_LINES:
        search = None if refusal.note.startswith("limit") else Search(shown, refusal, at, has_order)
        sure, candidates = search.readings() if search else (None, [])
        if search and not candidates and not has_order:
            sure = search.ordered()
            candidates = [sure] if sure else []
        number = numbers[at] if at < len(numbers) else len(scenes.cut_lines(new))
        mistakes.append(Mistake(number, refusal, sure, candidates, joined(shown)))
        instead = stand_in(shown, refusal, at)
        if sure:
            good, shown = sure.applied(good), sure.applied(shown)
            more = len(sure.lines) - (sure.end - sure.first)
            numbers[sure.first:sure.end] = (numbers[sure.first:sure.end] + [number] * more)[:len(sure.lines)]
            changes.append((number, sure.sentence))
        else:
            is_whole = False
            if instead is None:
                break
            shown = shown[:at] + [instead] + shown[at + 1:]
        refusal, next_at = first_mistake(shown)
        if not sure and next_at <= at:
            break
        at = next_at
    is_whole = is_whole and refusal is None
    result = joined(good)
    if good and not new.endswith(b"\n") and good[-1] == scenes.cut_lines(new)[-1]:
        result = result[:-1]
    return Mending(result, is_whole, changes, mistakes)
