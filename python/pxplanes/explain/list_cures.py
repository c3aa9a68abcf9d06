"""What was expected in the first bad line of a listing, or what its limit is: what `explain` adds to a refusal. It is no tool itself.
The forms and limits are those of docs/LISTINGS.md."""
import difflib
from typing import Any

from pxplanes.machine import passes, sessions

FORMS = {name: own["form"] for name, own in passes.OPERATIONS.items()}
DUE = {"not-header": "pxlist 1", "after-end": "nothing behind `end`", "missing-end": "a last line: end"}
LIMITS = {"grid": "NX and NY are 1 to 9: the grid has 2^NX columns and 2^NY rows",
          "coefficient": "A and B are at most 2^27 in size, and C at most 2^38",
          "length": "a field has 1 to 40 bits", "place": "the program's pixels have the bits 0 to 71",
          "value": "V is 0 or 1, and N below 2^LEN",
          "overlap": "the fields of a copy share no bit", "text": "a text has at most 1048576 bytes"}


def words_of(line: bytes) -> list[str]:
    return [word.decode("latin-1") for word in sessions.words_of(line.split(b"#")[0])]


def before(text: bytes, number: int) -> list[list[str]]:
    """The lines with words before a line."""
    return [words for words in map(words_of, text.split(b"\n")[:number - 1]) if words]


def form_of(word: str) -> str:
    return " ".join([word, FORMS[word]]).strip()


def due(text: bytes, refusal: Any) -> list[str]:
    """What was expected, by the cause and by how far the text had come."""
    if refusal.cause in DUE:
        return [DUE[refusal.cause]]
    words = words_of(text.split(b"\n")[refusal.line - 1])
    if len(before(text, refusal.line)) == 1:
        return ["grid NX NY"]
    if words[0] in FORMS:
        return [form_of(words[0])]
    close = difflib.get_close_matches(words[0].lower(), [*FORMS, "end"], 1)
    found = ["one of %s, or end" % ", ".join(FORMS)]
    if words[0] == "grid":
        return found + ["a listing has one grid"]
    return found + (["write %s" % (form_of(close[0]) if close[0] in FORMS else "end")] if close else [])


def of(text: bytes, refusal: Any) -> list[str]:
    """The lines after a refusal: what was expected, or the limit."""
    if hasattr(refusal, "kind"):
        return ["limit: " + LIMITS[refusal.kind]] if refusal.kind in LIMITS else []
    expected = due(text, refusal)
    return ["expected: " + expected[0]] + ["cure: " + cure for cure in expected[1:]]
