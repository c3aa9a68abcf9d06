"""Sessions of `pxplanes debug` for the tools: how a text is cut, and which lines answer which command.
It is no tool itself."""
import re
from typing import Callable, NamedTuple, Optional, Sequence

from pxplanes.errors import Trouble
from pxplanes.scene import limits
from pxplanes import program

LONGEST = 255
KEPT = 32
WORDS, NUMBER = re.compile(rb"[^ \t\r]+"), re.compile(rb"[0-9]{1,18}\Z")
# The lines of docs/DEBUGGER.md, each with the names of its numbers.
FORMS = {"step": "n", "macro": "n", "run": "", "until": "n", "back": "n", "at": "", "pixel": "x y", "field": "x y", "tree": "level index", "trace": "",
         "quit": ""}


class Fault(NamedTuple):
    """Why a line is answered `? line N`: the place in it, what is wrong there, and what is expected."""

    span: tuple[int, int]
    said: str
    due: str

    def __str__(self) -> str:
        return "%s; expected: %s" % (self.said, self.due)


def fault(line: bytes, wide: int, high: int, is_listing: bool = False) -> Optional[Fault]:
    """Why a line is answered `? line N` over an array of so many columns and rows; None if it is not."""
    found = [(match.group().decode("latin-1"), match.span()) for match in WORDS.finditer(line)]
    if len(line) > LONGEST:
        return Fault((LONGEST, len(line)), "it has %d bytes" % len(line), "a line of at most %d bytes" % LONGEST)
    if not found:
        return None
    (name, span), *numbers = found
    if name not in FORMS or name == "field" and is_listing:
        return Fault(span, "a listing has no keys" if name == "field" else "'%s' is no command" % name,
                     "one of " + ", ".join(each for each in FORMS if each != "field" or not is_listing))
    form = FORMS[name].split()
    if len(numbers) != len(form):
        more = len(numbers) - len(form)
        return Fault(numbers[-more][1] if more > 0 else found[-1][1], "%s has %s" % (name, "a word too many" if more > 0 else "too few words"),
                     " ".join([name, *form]))
    for (word, span), place in zip(numbers, form):
        if not NUMBER.match(word.encode("latin-1")):
            return Fault(span, "'%s' is no number" % word, "%s of 1 to 18 digits, without a sign" % place)
    for (word, span), place, (least, most) in zip(numbers, form, ranges_of(name, numbers, wide, high)):
        if not least <= int(word) <= most:
            return Fault(span, "there is no %s %s" % (place, word), "%s from %d to %d" % (place, least, most))
    return None


def ranges_of(name: str, numbers: list[tuple[str, tuple[int, int]]], wide: int, high: int) -> list[tuple[int, int]]:
    """The least and the greatest of the numbers of a line that are places."""
    if name == "tree":
        levels = wide.bit_length() + high.bit_length() - 2
        return [(1, levels), (0, (1 << min(int(numbers[0][0]), levels)) - 1)]
    return [(0, wide - 1), (0, high - 1)] if name in ("pixel", "field") else []


def words_of(line: bytes) -> list[bytes]:
    return WORDS.findall(line)


def parted(text: bytes) -> tuple[bytes, list[bytes]]:
    """The scene of a text, up to the line `end`, and the command lines after it."""
    at = 0
    while at < len(text):
        stop = text.find(b"\n", at) + 1 or len(text)
        line = text[at:stop].rstrip(b"\n")
        at = stop
        if words_of(line.split(b"#")[0]) == [b"end"]:
            break
    lines = text[at:].split(b"\n")
    return text[:at], lines[:-1] if lines[-1] == b"" else lines


def answer_lines(command: bytes, now: int) -> int:
    """How many lines answer a command that is given after so many broadcasts."""
    words = words_of(command)
    if len(command) > LONGEST:
        return 1
    if words in ([], [b"quit"]):
        return 0
    return min(KEPT, now) if words == [b"trace"] else 1


def is_quit(command: bytes) -> bool:
    return len(command) <= LONGEST and words_of(command) == [b"quit"]


class Answers:
    """Separates the lines of a session's output: those of each command, one after another."""

    def __init__(self) -> None:
        self.now = 0

    def taken(self, command: bytes, next_line: Callable[[], bytes]) -> list[bytes]:
        """The lines that answer a command; `next_line` gives one at each call."""
        lines = [next_line() for _ in range(answer_lines(command, self.now))]
        moved = re.match(rb"at (\d+)", lines[0]) if lines else None
        if moved:
            self.now = int(moved.group(1))
        return lines


def held(built: str, scene: bytes, commands: Sequence[bytes]) -> list[list[bytes]]:
    """The answers of a session to its commands, each a list of lines; of those after a `quit` none."""
    text = scene + b"".join(command + b"\n" for command in commands)
    if len(text) > limits.MAX_TEXT_BYTES:
        raise Trouble("this takes more command lines than a text of %d bytes has" % limits.MAX_TEXT_BYTES)
    left, answers, found = iter(program.output(built, "debug", text).split(b"\n")), Answers(), []
    for command in commands:
        found.append(answers.taken(command, lambda: next(left, b"")))
        if is_quit(command):
            break
    if list(left) != [b""]:
        raise Trouble("the program answers more than it was asked")
    return found
