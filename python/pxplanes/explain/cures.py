"""What to write in place of a scene's first bad line, as people come to write it: what `explain`
adds to a refusal. `of` gives a cure, or None where it knows none that is better than the reader's."""
import re
import unicodedata
from typing import Optional

from pxplanes.scene import scenes

SIGNS = {"plus": "+", "or": "+", "union": "+", "and": "*", "intersection": "*", "intersect": "*",
         "times": "*", "minus": "-", "without": "-", "difference": "-", "not": "-", "xor": "^",
         "|": "+", "||": "+", "&": "*", "&&": "*", "\\": "-", "~": "-", "/": "-",
         "\u2013": "-", "\u2014": "-", "\u2212": "-", "\u00d7": "*", "\u2229": "*", "\u222a": "+",
         "+": "+", "*": "*", "-": "-", "^": "^"}
BINDS = {"*": 2, "+": 1, "-": 1, "^": 1}
OPENED, CLOSED = "([{", ")]}"
TOKEN = re.compile(r"[A-Za-z0-9_]+|\|\||&&|\S")
FLOAT = re.compile(r"[-+]?(?:\d+\.?\d*|\.\d+)(?:[eE][-+]?\d+)?\Z")
MOST_FRACTION = 8


def of(text: bytes, refusal: scenes.Refusal) -> Optional[str]:
    """A cure for the first bad line of a text."""
    if refusal.note.startswith("limit line 0") or refusal.span is None:
        return None
    line = scenes.cut_lines(text)[refusal.number - 1]
    word = line[refusal.span[0]:refusal.span[1]]
    found = "a NUL byte stands here: leave it out" if b"\0" in word else of_comment(line, word, refusal.cause)
    maker = MAKERS.get(refusal.cause)
    return found or (maker and maker(text, refusal.number, readable(line), readable(word)))


def readable(word: bytes) -> str:
    """The text of some bytes, as UTF-8 where they are."""
    try:
        return word.decode("utf-8")
    except UnicodeDecodeError:
        return word.decode("latin-1")


def of_comment(line: bytes, word: bytes, cause: str) -> Optional[str]:
    for mark in (b"//", b"/*", b";", b"--", b"%"):
        if word.startswith(mark) and cause in ("unexpected", "not-header", "after-end"):
            said = readable(line[line.index(mark) + len(mark):].replace(b"*/", b"").strip())
            return "comments begin with #: write # %s" % said
    return None


def of_header(text: bytes, number: int, line: str, word: str) -> Optional[str]:
    version = re.match(r"\s*pxscene\s+([123])\.0*\s*(#|\Z)", line)
    return "write pxscene %s" % version.group(1) if version else None


def plain(number: float) -> str:
    """A number as it is written, without needless digits."""
    return "%d" % number if number == int(number) else ("%.10f" % number).rstrip("0")


def of_number(text: bytes, number: int, line: str, word: str) -> Optional[str]:
    """A cure of a word that is no whole number."""
    words = line.split("#")[0].split()
    stripped = [each.rstrip(",;").strip("[](){}") for each in words]
    if stripped != words and all(FLOAT.match(each) for each in stripped[1 + (words[0] == "solid"):]):
        return "words are parted by spaces alone: write %s" % " ".join(stripped)
    if re.match(r"[-+]?0[xX][0-9a-fA-F]+\Z", word):
        return "numbers are decimal: write %d" % int(word, 16)
    if not FLOAT.match(word):
        return None
    value = float(word)
    if abs(value) < 1e12 and value == int(value):
        return "write %d" % int(value)
    if words[0] in ("front", "back", "side") and words.index(word) <= 3:
        return of_plane(text, words)
    numbers = [float(each) for each in words[-3:] if FLOAT.match(each)]
    if len(numbers) == 3 and all(0 <= each <= 1 for each in numbers):
        return "red, green and blue are whole, up to 255: write %s" % " ".join(
            words[:-3] + ["%d" % (255 * each + 0.5) for each in numbers])
    return "numbers are whole: write %d" % round(value)


def of_plane(text: bytes, words: list[str]) -> Optional[str]:
    """A cure of a plane with parts: fraction bits, or for a side a multiple of it."""
    if not all(FLOAT.match(each) for each in words[1:]):
        return None
    numbers = [float(each) for each in words[1:4]]
    bits = next((bits for bits in range(1, MOST_FRACTION + 1)
                 if all(each * 2 ** bits == int(each * 2 ** bits) for each in numbers)), None)
    times = 2 ** (bits or MOST_FRACTION)
    whole = " ".join([words[0]] + ["%d" % round(each * times) for each in numbers] + words[4:])
    if words[0] == "side":
        return "only the sign of a side counts: write %s, %d times as much" % (whole, times)
    depth = re.search(rb"^\s*depth\s+(\d+)", text, re.M)
    return ("numbers are whole: write pxscene 3 and `depth %s %d`, and all fronts and backs in %s of a cell; "
            "this one is %s" % (depth.group(1).decode() if depth else "W", bits or MOST_FRACTION,
                                "halves" if times == 2 else "%dths" % times, whole))


def of_count(text: bytes, number: int, line: str, word: str) -> Optional[str]:
    words = line.split("#")[0].split()
    size = re.match(r"(\d+)\s*[xX*,]\s*(\d+)\Z", "".join(words[1:]))
    if words[0] == "picture" and size:
        return "write picture %s %s" % size.groups()
    if words[0] == "picture" and len(words) == 4:
        return "write picture %s %s; the bits of a depth have a line of their own: depth W" % tuple(words[1:3])
    colour = re.search(r"#([0-9a-fA-F]{6})\b", line)
    if words[0] in ("solid", "front", "back") and colour:
        parts = [str(int(colour.group(1)[i:i + 2], 16)) for i in (0, 2, 4)]
        return "from # on all is comment: write %s" % " ".join(words + parts)
    if words[0] == "solid" and len(words) == 2:
        return "a solid has a colour: write solid %s 200 180 160" % words[1]
    return None


def of_word(text: bytes, number: int, line: str, word: str) -> Optional[str]:
    """A cure of a line that is not due."""
    shows = [own for own in lines_of(text) if own[1][:1] == ["show"]]
    if word == "show" and len(shows) > 1:
        parts = [bracketed(own[2], set(names_in(text))) for own in shows]
        if all(parts):
            whole = parts[0]
            for part in parts[1:]:
                whole = "(%s + %s)" % (whole, part)
            return "a scene has one show line: write show %s" % whole
    if word in ("depth", "solid"):
        wanted = "picture" if word == "depth" else "depth"
        later = [own for own in lines_of(text) if own[0] > number and own[1][:1] == [wanted]]
        if later:
            return "put line %d above this one: %s" % (later[0][0], " ".join(later[0][1]))
    return None


def lines_of(text: bytes) -> list[tuple[int, list[str], str]]:
    """Number, words and text behind the first word of each line that has words."""
    out = []
    for number, line in enumerate(scenes.cut_lines(text), 1):
        words = readable(line.split(b"#")[0]).split()
        if words:
            out.append((number, words, readable(line.split(b"#")[0]).strip()[len(words[0]):]))
    return out


def names_in(text: bytes) -> list[str]:
    return [words[1] for _, words, _ in lines_of(text) if words[0] == "solid" and len(words) > 1]


def of_name(text: bytes, number: int, line: str, word: str) -> Optional[str]:
    """A name of letters, digits and _ that is near to this one."""
    plain_one = unicodedata.normalize("NFKD", word).encode("ascii", "ignore").decode()
    name = re.sub(r"[^A-Za-z0-9_]", "_", plain_one)[:32]
    name = "_" + name[:31] if name[:1].isdigit() else name
    taken = name in names_in(text)
    if not name or taken:
        return None
    why = ("- is a sign" if "-" in word and word.replace("-", "").isalnum() else
           "a name has at most 32" if len(word) > 32 else
           "no digit stands first" if word[0].isdigit() else "letters are A to Z and a to z")
    return "%s: write %s, in the show line too" % (why, name)


def of_expression(text: bytes, number: int, line: str, word: str) -> Optional[str]:
    known = set(names_in(text))
    if "//" in line or "/*" in line:
        mark = "//" if "//" in line else "/*"
        return "comments begin with #: write # %s" % line[line.index(mark) + 2:].strip()
    whole = bracketed(line.strip()[len("show"):], known)
    if not whole:
        return None
    older = "^" in whole and re.search(rb"^\s*pxscene\s+1\b", text, re.M)
    if older and set(names_in(text)) and whole.replace(" ", "") == line.split("#")[0].strip()[4:].replace(" ", ""):
        return "write pxscene 2 in the first line: ^ needs it"
    return "every operation has brackets of its own: write show %s%s" % (
        whole, ", and pxscene 2 in the first line" if older else "")


def bracketed(said: str, known: set[str]) -> Optional[str]:
    """An expression with the names of solids as a scene has it, where it can be understood."""
    tokens = []
    for token in TOKEN.findall(said.split("#")[0]):
        if token in known or token in OPENED or token in CLOSED:
            tokens.append(token)
        elif token.lower() in SIGNS:
            tokens.append(SIGNS[token.lower()])
        else:
            return None
    return joined(tokens)


def joined(tokens: list[str]) -> Optional[str]:
    """The tokens as an expression, its open brackets closed; * binds before + and -. None if they are none, or nest too deep."""
    left = tokens[::-1]

    def operand() -> str:
        token = left.pop()
        if token in OPENED:
            token = whole(1)
            if left and left.pop() not in CLOSED:
                raise IndexError
        elif token in BINDS or token in CLOSED:
            raise IndexError
        return token

    def whole(least: int) -> str:
        found = operand()
        while left and BINDS.get(left[-1], 0) >= least:
            sign = left.pop()
            found = "(%s %s %s)" % (found, sign, whole(BINDS[sign] + 1))
        return found

    try:
        found = whole(1)
        return None if left else found
    except (IndexError, RecursionError):
        return None


def of_picture(text: bytes, number: int, line: str, word: str) -> Optional[str]:
    """A wide picture as tiles of the greatest size."""
    sizes = [int(each) for each in line.split("#")[0].split()[1:3] if each.isdigit()]
    if len(sizes) != 2 or min(sizes) < 1 or max(sizes) > 4096:
        return "a picture has at least one pixel a side; `pxplanes tile W H` draws up to 4096 a side" if sizes else None
    return "write picture %d %d, and draw it with `pxplanes tile %d %d`" % (
        min(sizes[0], 512), min(sizes[1], 512), sizes[0], sizes[1])


def of_colour(text: bytes, number: int, line: str, word: str) -> Optional[str]:
    return "write %d" % max(0, min(255, scenes.number_of(word.encode())))


def of_depth(text: bytes, number: int, line: str, word: str) -> Optional[str]:
    return "write depth 24: its depths go to 16777214" if scenes.number_of(word.encode()) > 24 else None


MAKERS = {"not-header": of_header, "not-number": of_number, "word-count": of_count, "unexpected": of_word,
          "bad-name": of_name, "bad-expression": of_expression, "picture": of_picture, "depth": of_depth,
          "colour": of_colour}
