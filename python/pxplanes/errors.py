"""What a call raises."""
from typing import Any


class NoLibrary(OSError):
    """There is no libpxplanes.so where one is looked for; or it is another one than this module was made for."""


class Made(Exception):
    """An error that is made of its fields, in the order in which its line says them; pickle makes it again of them."""

    _fields: tuple[str, ...] = ()
    _said = ""

    def __init__(self, *values: Any) -> None:
        super().__init__(self._said % values)
        vars(self).update(zip(self._fields, values))

    def __reduce__(self) -> tuple[type, tuple[object, ...]]:
        return type(self), tuple(getattr(self, field) for field in self._fields)


class Refused(Made, ValueError):
    """A text is not accepted. `line` is the first bad line, counted from 1, and 0 where it has none; `str` of it is
    the program's own note, as `malformed line 7: unknown-name`. The program ends with `status` for it, and writes
    `said` to its standard error."""

    line = 0
    status: int

    @property
    def said(self) -> str:
        return "%s\n" % self


class NoCommand(Refused):
    """Words that name no command of the program."""

    status = 2
    _said = "usage: pxplanes [render|colour|tidy|plan|cost|debug|sample N|shadow|tile W H|refine K|list|play]"


class Malformed(Refused):
    """A line is not of the language. `cause` is the word of docs/SCENES.md, "Refusals", as `unknown-name`. After the
    note `str` of it has a `hint`, where the text seems to be the name of a file."""

    _fields = ("line", "cause", "hint")
    hint = ""
    status = 3

    def __init__(self, line: int, cause: str, hint: str = ""):
        Exception.__init__(self, "malformed line %d: %s" % (line, cause) + (hint and "; " + hint))
        self.line, self.cause = line, cause
        if hint:
            self.hint = hint

    @property
    def said(self) -> str:
        return "malformed line %d: %s\n" % (self.line, self.cause)


class Limit(Refused):
    """More than there may be. `kind` is the word of docs/SCENES.md, "Limits", as `pixel-memory`; `found` how many."""

    _fields, _said = ("line", "kind", "found"), "limit line %d: %s %d"
    status = 4
    kind: str
    found: int


class NoClock(Made, IndexError):
    """A clock lies past the last. `clocks` is how many there are."""

    _fields, _said = ("clocks",), "there are %d clocks"
    clocks: int


class NoOperation(Made, IndexError):
    """An operation lies past the last. `operations` is how many there are."""

    _fields, _said = ("operations",), "there are %d operations"
    operations: int


class OverBudget(Made, RuntimeError):
    """A picture takes more clocks than it may. `clocks` is how many it takes, and `budget` how many it may."""

    _fields, _said = ("clocks", "budget"), "%d clocks are more than %d"
    clocks: int
    budget: int


class NoMicro(Made, ValueError):
    """An element is no microinstruction, or names a place past the memory. `index` is the first such one's."""

    _fields, _said = ("index",), "element %d is no microinstruction"
    index: int


class NoModel(ValueError):
    """A model makes no scene; `str` of it says why, as pxplanes convert does."""


class Trouble(Exception):
    """What keeps a command or a call from an answer, in one line: a file that cannot be read, words that do not fit."""
