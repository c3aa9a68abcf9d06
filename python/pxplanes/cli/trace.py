"""Steps through the broadcasts of a scene or a listing: the debugger's answers, the machine at one clock, or waveforms.

With command lines after the line `end` of FILE (docs/DEBUGGER.md) it prints each line and its answer. Without command lines in FILE it
takes lines from standard input, on a terminal with a prompt, and says in words where the machine is; `help` there lists them. --vcd and
--chart show pixels over the clocks --from to --to."""
import argparse
import sys

from pxplanes import ends, program
from pxplanes.cli import frame
from pxplanes.errors import Trouble
from pxplanes.machine import debugger, listings, sessions, waves

HELP = "step through the broadcasts: a session's answers, the state at a clock, waveforms"
LAST_CLOCK = 10 ** 18


def add_options(parser: argparse.ArgumentParser) -> None:
    clock = frame.whole_number(0, LAST_CLOCK)
    parser.add_argument("file", metavar="FILE", help="a scene or a listing, with command lines after its `end`; - is standard input")
    parser.add_argument("--at", metavar="CLOCK", type=clock, help="the place and the pixels at this clock, as the debugger answers")
    parser.add_argument("--vcd", metavar="OUT", help="write waveforms for GTKWave; - is standard output")
    parser.add_argument("--chart", action="store_true", help="print the waveforms as a chart")
    parser.add_argument("--from", dest="first", metavar="CLOCK", type=clock, help="the first clock of the waveforms")
    parser.add_argument("--to", dest="last", metavar="CLOCK", type=clock, help="the clock after the last of the waveforms")
    parser.add_argument("--pixel", nargs=2, metavar=("X", "Y"), type=frame.whole_number(0, 511), action="append", default=[],
                        help="a pixel to look at; may be repeated")
    parser.add_argument("--bit", metavar="AT", type=frame.whole_number(0, 71), action="append", default=[],
                        help="a memory bit of each pixel; may be repeated")
    parser.add_argument("--node", nargs=2, metavar=("LEVEL", "INDEX"), type=frame.whole_number(0, 2 ** 18), action="append", default=[],
                        help="a node of the multiplier tree; may be repeated")


def run(options: argparse.Namespace) -> int:
    text, commands = sessions.parted(ends.content(options.file))
    if options.vcd or options.chart:
        return waveforms(text, options)
    if options.at is not None:
        commands = [b"until %d" % options.at, b"at"] + [b"pixel %d %d" % tuple(pixel) for pixel in options.pixel] + [
            b"tree %d %d" % tuple(node) for node in options.node]
    elif not commands and options.file != "-":
        return debug(text)
    print_answers(text, commands)
    return frame.SUCCESS


def debug(text: bytes) -> int:
    """Answers the lines of standard input, each as it comes, in words."""
    is_terminal = sys.stdin is not None and sys.stdin.isatty()
    first = "" if is_terminal or sys.stdin is None else sys.stdin.readline()
    if not is_terminal and not first:
        print_answers(text, [])
        return frame.SUCCESS
    session = debugger.Debugger(text)
    if is_terminal:
        complete_lines()
        print("\n".join([*session.where(), "`help` lists the commands"]))
    try:
        while True:
            line = first or (input("(pxplanes) ") if is_terminal else sys.stdin.readline())
            if not line and not is_terminal:
                return frame.SUCCESS
            for answer in session.obey(line):
                print(answer, flush=True)
            first = ""
    except EOFError:
        return frame.SUCCESS


def complete_lines() -> None:
    """Gives the prompt history and line editing, and completes its commands."""
    try:
        import readline
    except ImportError:
        return
    readline.parse_and_bind("tab: complete")
    readline.set_completer(lambda text, at: [*(word for word in debugger.NUMBERED if word.startswith(text)), None][at])


def print_answers(text: bytes, commands: list[bytes]) -> None:
    """Prints each command line and its answer, and why a line has none; the text after `#` is a comment."""
    bare = [command.partition(b"#")[0] for command in commands]
    answers = listings.held(None, text, bare)
    array = (*listings.grid_of(text), listings.is_listing(text))
    for whole, command, lines in zip(commands, bare, answers):
        is_comment = command != whole and not command.strip()
        for line in [] if is_comment else [b"> " + command, *lines]:
            fault = sessions.fault(command, *array) if line.startswith(b"? line ") else None
            print(line.decode("latin-1").rstrip() + (": " + str(fault) if fault else ""))


def waveforms(text: bytes, options: argparse.Namespace) -> int:
    """Writes or prints the waveforms of some pixels over some clocks."""
    if not options.pixel or options.first is None or options.last is None:
        raise Trouble("waveforms need --pixel X Y, --from CLOCK and --to CLOCK")
    if options.first >= options.last:
        raise Trouble("--to must be a later clock than --from")
    pixels, nodes = (list(dict.fromkeys(map(tuple, each))) for each in (options.pixel, options.node))
    window = waves.Window(pixels, list(dict.fromkeys(options.bit)), nodes, options.first, options.last)
    shown = waves.chart if options.chart else waves.waveforms
    total = listings.Listing(text).clocks if listings.is_listing(text) else program.cost(program.needed(None), text)[1]
    if window.last > total:
        raise Trouble("it has the clocks 0 to %d" % (total - 1) if total else "it has no clock")
    written = shown(text, window)
    if options.vcd and options.vcd != "-":
        with open(options.vcd, "w", encoding="ascii") as file:
            file.write(written)
    else:
        sys.stdout.write(written)
    return frame.SUCCESS
