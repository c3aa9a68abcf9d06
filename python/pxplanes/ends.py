"""What the tools share: their words, files and standard streams, and one line for a bad file."""
import argparse
import contextlib
import contextvars
import difflib
import errno
import importlib.machinery
import importlib.util
import io
import os
import re
import stat
import sys
import tempfile
import traceback
from collections.abc import Callable, Iterable, Iterator, Sequence
from typing import Any, NoReturn

from pxplanes.errors import NoLibrary, Trouble

HERE = os.path.dirname(os.path.abspath(__file__))
TOP = os.path.dirname(os.path.dirname(HERE))
# The page: next to these modules in a wheel, otherwise in the checkout or where it is installed.
PAGE = next(filter(os.path.isfile, [os.path.join(HERE, "pxplanes.html")]), os.path.join(TOP, "page", "pxplanes.html"))
TROUBLE, INTERRUPTED = 2, 130
# The least share of letters that a word has in common with the one that may have been meant.
NEAR = 0.75
# What the system answers if no more can be written.
NO_ROOM = (errno.ENOSPC, errno.EDQUOT, errno.EFBIG)
HEARD: contextvars.ContextVar[list[str] | None] = contextvars.ContextVar("heard", default=None)


def say(tool: str, line: object) -> None:
    """Prints a line on standard error, or who listens."""
    listener = HEARD.get()
    if listener is None:
        print("%s: %s" % (tool, line), file=sys.stderr)
    else:
        listener.append(str(line))


@contextlib.contextmanager
def heard() -> Iterator[list[str]]:
    """Within it what is said goes to the list that it gives."""
    lines: list[str] = []
    before = HEARD.set(lines)
    try:
        yield lines
    finally:
        HEARD.reset(before)


def content(path: str | os.PathLike[str]) -> bytes:
    """The bytes of a file, or of standard input for `-`."""
    if path == "-":
        if sys.stdin is None:
            raise Trouble("standard input is closed")
        return sys.stdin.buffer.read()
    with open(path, "rb") as file:
        return file.read()


def replaced(path: str, content: bytes) -> None:
    """Writes a file whole or not at all: next to it, down to the disk, and then in its place, with the rights that it had."""
    place, mask = os.path.realpath(path), os.umask(0o077)
    os.umask(mask)
    mode = os.stat(place).st_mode & 0o7777 if os.path.exists(place) else 0o666 & ~mask
    handle, written = tempfile.mkstemp(prefix=".px-", dir=os.path.dirname(place))
    os.close(handle)
    try:
        with open(written, "wb") as file:
            file.write(content)
            file.flush()
            os.fchmod(file.fileno(), mode)
            os.fsync(file.fileno())
        os.replace(written, place)
    except BaseException:
        os.unlink(written)
        raise


def drop_output() -> None:
    """What could not be written is not tried again at the end."""
    os.dup2(os.open(os.devnull, os.O_WRONLY), 1)


def ended(help_text: str, main: Callable[[list[str]], int]) -> int:
    """The status that `main` gives for the words, with all that it printed written."""
    if sys.stdout is None:
        raise Trouble("standard output is closed")
    words = sys.argv[1:]
    if "-h" in words or "--help" in words:
        print(help_text.strip())
        status = 0
    else:
        status = main(words)
    sys.stdout.flush()
    return status


def unwritten(error: OSError) -> str:
    """The file that a failed call meant, as `name: `. A write does not say: then it is the file that the innermost
    function holds, and otherwise standard output, if that is a file or a device."""
    if error.filename is not None or error.errno not in NO_ROOM:
        return "" if error.filename is None else "%s: " % os.fsdecode(error.filename)
    for frame, _ in reversed(list(traceback.walk_tb(error.__traceback__))):
        for each in (*frame.f_locals.values(), *vars(frame.f_locals.get("self", error)).values()):
            name = getattr(each, "name", None) if isinstance(each, io.IOBase) else None
            if isinstance(name, str) and each is not sys.stdout and getattr(each, "mode", "r") not in ("r", "rb"):
                return "%s: " % name
    mode = os.fstat(1).st_mode
    return "standard output: " if stat.S_ISREG(mode) or stat.S_ISCHR(mode) else ""


def status_of(tool: str, work: Callable[[], int]) -> int:
    """The status of some work; trouble is one line and no traceback."""
    try:
        return work()
    except (Trouble, NoLibrary) as trouble:
        say(tool, trouble)
    except BrokenPipeError:
        drop_output()
    except OSError as error:
        file = unwritten(error)
        if error.errno in NO_ROOM:
            drop_output()
        say(tool, "%s%s" % (file, error.strerror or error))
    except KeyboardInterrupt:
        return INTERRUPTED
    return TROUBLE


def run(tool: str, help_text: str | None, main: Callable[[list[str]], int]) -> NoReturn:
    """Ends with what `main` gives for the words."""
    sys.exit(status_of(tool, lambda: ended(help_text or "", main)))


def script(leaf: str) -> Any:
    """A script of tools/, or of tools/dev/, as a module: `package`, or `dev/bench`."""
    loader = importlib.machinery.SourceFileLoader(leaf.replace("/", "_"), os.path.join(TOP, "tools", leaf))
    spec = importlib.util.spec_from_loader(loader.name, loader)
    assert spec is not None
    module = importlib.util.module_from_spec(spec)
    loader.exec_module(module)
    return module


def jobs(word: str | None) -> int:
    """How many things are done side by side: as said, or as many as there are processors."""
    if word is None:
        return os.cpu_count() or 1
    if not word.isdigit() or int(word) == 0:
        raise Trouble("--jobs needs a number from 1 on, and not %s" % word)
    return int(word)


class Words(argparse.ArgumentParser):
    """The words of a tool; bad ones are reported in one line, as everything that goes wrong."""

    meant, more = " (is it %s?)", "; --help says more"

    def error(self, message: str) -> NoReturn:
        unknown = re.match(r"unrecognized arguments: (--\S+)", message)
        known = [option for action in self._actions for option in action.option_strings]
        near = difflib.get_close_matches(unknown.group(1).split("=")[0], known, 1, NEAR) if unknown else []
        raise Trouble(message + (self.meant % near[0] if near else "") + self.more.replace("PROG", self.prog))


def options(words: Iterable[str], flags: Sequence[str], with_word: Sequence[str],
            repeated: Sequence[str] = ()) -> tuple[list[str], dict[str, Any]]:
    """Splits words into the others and what the options say; `with_word` take the word after them, and so do those
    that may be repeated, which give a list."""
    parser = Words(add_help=False, allow_abbrev=False, argument_default=argparse.SUPPRESS)
    for flag in flags:
        parser.add_argument(flag, dest=flag, action="store_true")
    for option in with_word:
        parser.add_argument(option, dest=option, metavar="WORD")
    for option in repeated:
        parser.add_argument(option, dest=option, metavar="WORD", action="append")
    parser.add_argument("others", nargs="*")
    said = vars(parser.parse_intermixed_args(list(words)))
    return said.pop("others", []), said
