"""Runs the words of the command `pxplanes`: their options, their help, and how they end.

A module of this folder that is a word has three things: HELP, one line for the list of words; `add_options`, which gives a
parser its options; and `run`, which does the work and returns the exit status: 0 for success, 1 for "differs" or "refused",
and it raises `Trouble` or `OSError` for anything else, which ends with 2."""
import argparse
import difflib
import importlib
import importlib.util
import os
import re
import shutil
import subprocess
import sys
import tempfile
from typing import IO, Any, Optional, Protocol, Sequence

from pxplanes import ends, errors, program, running
from pxplanes.cli import program_words
from pxplanes.errors import Trouble

WORDS = ("view", "explain", "trace", "convert", "compare", "suite", "batch")
PROGRAM_WORDS = tuple(program_words.OWN)
# Those that write raw pixels, which no terminal shows.
BINARY_WORDS = ("render", "colour", "shadow", "tile", "refine")
# The words whose work is on pixels, which NumPy does.
OF_PIXELS = ("compare", "suite")
# Maps of more bytes than these are shown by NumPy if there is one, in a tenth of the time.
LARGE_MAPS = 1 << 23
DEBIAN_PYTHON = "/usr/bin/python3"
SUCCESS, DIFFERS, TROUBLE = 0, 1, ends.TROUBLE
DESCRIPTION = "Draws scenes of convex solids on Pixel-Planes 4, the graphics machine whose frame buffer computes."
EPILOG = "`pxplanes WORD --help` says what a word does, and lists its options."
# What ./pxplanes takes in a checkout, as its first word.
OF_CHECKOUT = """first words in a checkout:
  --unproved     builds without proofs, once, for a first look
  --as-built     draws with the program that is built, whatever the sources are
  --all          proves and builds the program and the library together, if they have changed
  --build        proves and builds the program, and draws nothing
  --library      proves and builds the library for C and Python, in package/, if it has changed
  --version      the version and the commit that this is

Without a file standard input is read. Images are raw pixel maps; -o FILE.png after a word of the program makes PNG
pictures of them. docs/SCENES.md has the language, man/pxplanes.1 what the words of the program end with."""
FIRST_WORDS = re.findall(r"(?m)^  (--\S+)", OF_CHECKOUT)
# What people write for a word.
MEANT = {**dict.fromkeys(("draw", "image", "picture", "maps", "depth", "depths"), "render"),
         **dict.fromkeys(("step", "debugger"), "debug")}


class Word(Protocol):
    """A module of this folder that is a word."""

    HELP: str

    def add_options(self, parser: argparse.ArgumentParser) -> None:
        """Gives the word's parser its options."""

    def run(self, options: argparse.Namespace) -> int:
        """Does the work, and returns the exit status."""


class Parser(ends.Words):
    """A parser whose messages name the option that may have been meant, and how to list all."""

    meant, more = " (did you mean %s?)", "; `PROG --help` lists the options"

    def _print_message(self, message: str, file: Optional[IO[str]] = None) -> None:
        """Writes a message; a disk that is full is no silence."""
        if message:
            (file or sys.stderr).write(message)


class Help(argparse.ArgumentDefaultsHelpFormatter, argparse.RawDescriptionHelpFormatter):
    """Help with the default of each option that has one."""

    def _get_help_string(self, action: argparse.Action) -> Optional[str]:
        return action.help if action.default in (None, False, []) else super()._get_help_string(action)


def word(name: str) -> Word:
    """The module of a word."""
    module: Any = importlib.import_module("pxplanes.cli." + name)
    found: Word = module
    return found


def parser_of(name: str) -> argparse.ArgumentParser:
    """The parser of one word."""
    parser = Parser(prog="pxplanes " + name, formatter_class=Help, allow_abbrev=False)
    if name in PROGRAM_WORDS:
        program_words.add_options(parser, name)
    else:
        parser.description = word(name).__doc__
        word(name).add_options(parser)
    return parser


def whole_parser() -> argparse.ArgumentParser:
    """The parser of all words, which the list of words and completion are made of."""
    is_checkout = os.path.isfile(os.path.join(ends.TOP, "crates.txt"))
    parser = Parser(prog="pxplanes", description=DESCRIPTION, formatter_class=Help, allow_abbrev=False,
                    epilog="%s\n\n%s" % (EPILOG, OF_CHECKOUT) if is_checkout else EPILOG)
    words = parser.add_subparsers(metavar="WORD", dest="word", title="words")
    for name in WORDS:
        module = word(name)
        module.add_options(words.add_parser(name, help=module.HELP, description=module.__doc__, formatter_class=Help,
                                            allow_abbrev=False))
    for name, own in program_words.OWN.items():
        program_words.add_options(words.add_parser(name, help="writes " + own.writes, formatter_class=Help, allow_abbrev=False), name)
    return parser


def unknown(words: Sequence[str]) -> str:
    """What to say of words that begin with no command: the one that may have been meant, or the right order."""
    first = words[0]
    if os.path.isfile(first):
        if words[1] in PROGRAM_WORDS:
            return "the command comes before the scene: pxplanes %s" % " ".join([*words[1:], first])
        return "%s is a file and no command: write the command first, then one scene" % first
    known = [*WORDS, *PROGRAM_WORDS, *(FIRST_WORDS if first.startswith("-") else ())]
    name = first.lower().lstrip("-")
    near = [MEANT[name]] if name in MEANT else [
        found for each in (first.lower(), name) for found in difflib.get_close_matches(each, known, 1, ends.NEAR)]
    hint = " (is it %s?)" % near[0] if near else ""
    return "%s is no command and no file%s; pxplanes --help lists the commands" % (first, hint)


def whole_number(least: int, most: int) -> type[int]:
    """A type for an option: whole numbers from `least` to `most`."""
    def number(text: str) -> int:
        if not re.fullmatch(r"-?\d{1,12}", text) or not least <= int(text) <= most:
            raise argparse.ArgumentTypeError("a whole number from %d to %d is expected, not %s" % (least, most, text))
        return int(text)

    return number  # type: ignore[return-value]


def draw_into(words: list[str]) -> int:
    """Runs a word of the program, and writes what it draws into the file after `-o`: as PNG where its name ends so. A refused
    scene leaves the file as it was."""
    at = words.index("-o")
    if at + 1 == len(words):
        raise Trouble("a file is expected after -o")
    out, others = words[at + 1], words[:at] + words[at + 2:]
    with tempfile.NamedTemporaryFile(suffix=".ppm") as drawn:
        done = subprocess.run([sys.executable, "-B", "-m", "pxplanes", *others], stdout=drawn)
        if done.returncode != SUCCESS:
            return done.returncode
        if out.lower().endswith(".png"):
            return answered(["view", drawn.name, "-o", out])
        shutil.copyfile(drawn.name, out)
    return SUCCESS


def run_program(words: list[str]) -> int:
    """Runs a word of the program itself, over the file that follows it, or over standard input: by the program that is built, or, if
    there is none, by the library."""
    if "-o" in words:
        return draw_into(words)
    if words and words[-1] not in PROGRAM_WORDS and os.path.isfile(words[-1]):
        with open(words.pop(), "rb") as scene:
            os.dup2(scene.fileno(), sys.stdin.fileno())
    if sys.stdout.isatty() and (words[0] if words else "render") in BINARY_WORDS:
        raise Trouble("no terminal shows raw pixels: send them to a file, or to `pxplanes view -o PNG -`")
    built = program.find(None)
    if built is not None:
        status = subprocess.run([built, *words]).returncode
        if status == TROUBLE and words and sys.stderr.isatty():
            parser_of(words[0]).parse_args(words[1:])
        return status
    try:
        sys.stdout.buffer.write(running.run(sys.stdin.buffer.read(), " ".join(words) or "render"))
        return SUCCESS
    except errors.Refused as refusal:
        sys.stderr.write(refusal.said)
        return refusal.status


def has_numpy(words: Sequence[str], command: Sequence[str] = ("-m", "pxplanes")) -> bool:
    """Whether this Python has NumPy. If only Debian's Python has it, the command goes on in that one."""
    if importlib.util.find_spec("numpy") is not None:
        return True
    if os.path.realpath(sys.executable) != os.path.realpath(DEBIAN_PYTHON) and shutil.which(DEBIAN_PYTHON) and subprocess.run(
            [DEBIAN_PYTHON, "-c", "import numpy"], capture_output=True).returncode == 0:
        os.execv(DEBIAN_PYTHON, [DEBIAN_PYTHON, *command, *words])
    return False


def need_numpy(words: Sequence[str], command: Sequence[str] = ("-m", "pxplanes")) -> None:
    """Goes on in a Python that has NumPy, and raises `Trouble` if there is none."""
    if not has_numpy(words, command):
        raise Trouble("%s needs NumPy: install Debian's python3-numpy, or `pip install numpy`" % words[0])


def is_by_numpy(words: Sequence[str]) -> bool:
    """Whether NumPy alone does what the words ask for: pixels are compared, or a model is drawn undivided."""
    if words[0] == "view":
        from pxplanes.mesh import modelling
        return any(map(modelling.is_model, words[1:]))
    return words[0] in OF_PIXELS or words[0] == "convert" and any(each.partition("=")[0] == "--draw" for each in words)


def complete(parser: argparse.ArgumentParser) -> None:
    """Answers the shell's question for completions, if it asks and argcomplete is installed."""
    if importlib.util.find_spec("argcomplete"):
        importlib.import_module("argcomplete").autocomplete(parser)


def glued(words: Sequence[str]) -> list[str]:
    """The words with numbers such as -1,2,3 joined to the option before them, so that they are no option themselves."""
    out: list[str] = []
    for each in words:
        is_number = re.match(r"-[.\d].*,", each) and out and out[-1].startswith("--") and "=" not in out[-1]
        out[-1:] = [out[-1] + "=" + each] if is_number else [*out[-1:], each]
    return out


def parsed(parser: argparse.ArgumentParser, words: list[str]) -> argparse.Namespace:
    """What the words say; the help, if it is asked, is written out before the parser ends the process."""
    try:
        return parser.parse_args(words)
    except SystemExit:
        sys.stdout.flush()
        raise


def answered(words: list[str]) -> int:
    """The exit status of some words."""
    if sys.stdout is None:
        raise Trouble("standard output is closed")
    if "_ARGCOMPLETE" in os.environ:
        complete(whole_parser())
    is_a_file = words[:1] and os.path.isfile(words[0]) and (len(words) == 1 or words[1] in ("-o", "-h", "--help"))
    if not words or words[0] in PROGRAM_WORDS or is_a_file:
        if words and {"-h", "--help"}.intersection(words[1:]):
            parsed(parser_of(words[0] if words[0] in PROGRAM_WORDS else "render"), ["--help"])
        return run_program(words)
    if words[0] in ("-h", "--help"):
        parsed(whole_parser(), words)
    if words[0] not in WORDS:
        raise Trouble(unknown(words))
    if is_by_numpy(words) and "-h" not in words and "--help" not in words:
        need_numpy(words)
    if words[0] == "view" and any(os.path.isfile(each) and os.path.getsize(each) > LARGE_MAPS for each in words):
        has_numpy(words)
    status = word(words[0]).run(parsed(parser_of(words[0]), glued(words[1:])))
    sys.stdout.flush()
    return status


def main(words: Optional[list[str]] = None) -> int:
    """Runs the command line; trouble is one line on standard error and status 2, and never a traceback."""
    own = sys.argv[1:] if words is None else words
    name = "pxplanes" + (" " + own[0] if own and own[0] in WORDS else "")
    try:
        return ends.status_of(name, lambda: answered(own))
    except SystemExit as ended:
        return int(ended.code or SUCCESS)
