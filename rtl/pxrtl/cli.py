"""The words of `rtl/rtl`, and what each command does."""
import argparse
import itertools
import re
import shutil
import sys
import tempfile
from typing import Callable, Iterator

from pxrtl import against, directed, marking, ports, programs, proving, reading, simulation, sources, structure, yosys
from pxrtl.shared import RTL, Bad, ends, frame

BITS, RANDOM, FIELD, FEW = 72, 1000, 8, 4
SIZES = ((1, 1), (1, 2), (2, 2), (3, 2)) + tuple((nx, 1) for nx in range(3, 10)) + tuple((1, ny) for ny in range(3, 10))
SKELETONS = ("pixel", "node", "tree", "column", "sequencer")
STATUS = "Ends with 0 if all is right (prove: for every size that docs/PROMISES.md names), 1 if something is wrong,\n" \
    "3 if something is not decided or not asked, 2 for trouble."


def files_of(said: argparse.Namespace, folder: str) -> tuple[dict[str, str], dict[str, str]]:
    """The file of each module, given or ours; and those that were given."""
    given = {module: getattr(said, module) for module in proving.PROOFS if getattr(said, module, None)}
    files = {module: ports.file_of(module) for module in ports.MODULES}
    files.update({module: sources.ready(path, module, folder) for module, path in given.items()})
    return files, given


def row_lines(rows, faults, still=(), width: int = 13) -> Iterator[str]:
    """A line for each row, and under each that differs how."""
    by_row = {fault.row: fault for fault in faults}
    for row in list(rows) + [directed.BETWEEN] * (directed.BETWEEN in by_row):
        if row not in by_row:
            yield "  %-*s %s" % (width, row, "not seen: nothing had to change, in the states that were reached"
                                 if row in still else "right")
        else:
            yield "  %-*s WRONG" % (width, row)
            yield "    clock %d, %s" % (by_row[row].clock, by_row[row].text)


def sizes_for(asked) -> list[tuple[int, int]]:
    """The arrays on which sums are tried, small ones first. A column depends on its height alone; a tree has runs of
    its own at each size."""
    fits = {"tree": lambda nx, ny: max(nx, ny) < FEW, "column": lambda nx, ny: nx == 1, "array": lambda nx, ny: True}
    return sorted((size for size in SIZES if any(module in asked and fit(*size) for module, fit in fits.items())),
                  key=sum)


def directed_runs(asked, files, said, folder) -> Iterator[tuple]:
    """Directed runs of single modules: a title, the rows of its table, the faults, and the rows that were not seen."""
    run = said.simulator, said.seconds
    if "pixel" in asked:
        clocks, faults, still = directed.pixel(folder, files, *run, RANDOM, said.seed, said.waves)
        yield "one pixel, %d clocks, each act at each place" % clocks, directed.ROWS, faults, still
    if "node" in asked:
        clocks, faults = directed.node(folder, files, *run, said.seed, said.waves)
        yield "both nodes, %d clocks" % clocks, directed.NODE_ROWS, faults, directed.unseen(directed.NODE_ROWS, faults)
    if "tree" in asked:
        levels, faults = directed.tree(folder, files, *run, said.seed, said.waves)
        title = ("a tree of %d levels" if faults else "trees of 1 to %d levels") % levels
        yield title, directed.MOVES, faults, directed.unseen(directed.MOVES, faults)


def unfit(files, folder) -> list[str]:
    """Why `prove` would not even ask about a pixel, as for a latch in it; nothing if there is no Yosys."""
    try:
        yosys.alone(folder, "pixel", [files["pixel"]], ports.parameters("pixel"))
    except structure.Refused as why:
        return [str(why)]
    except Bad:
        pass
    return []


def check_modules(files, given, said, folder) -> int:
    """Directed runs of the given modules, or of all; then random microinstructions, and sums. The status."""
    asked = set(given) or set(simulation.MODULES)
    for title, rows, faults, still in directed_runs(asked, files, said, folder):
        if faults:
            print("\n".join([title + ":", *row_lines(rows, faults, still), "waveforms of the clocks around the first, "
                             "found and expected: %s" % said.waves] + unfit(files, folder) * ("pixel" in given)))
            return proving.WRONG
        print("%s: nothing differs" % title)
    count, sizes = said.random or RANDOM, sizes_for(asked)
    runs = itertools.chain(
        [("%d random microinstructions on 4 by 2 pixels" % count, against.at_random(count, said.seed, BITS), 2, 1, BITS,
          1)],
        (("sums on %d by %d pixels" % (1 << nx, 1 << ny), against.sums(nx, ny, said.seed, FIELD), nx, ny, FIELD, 4)
         for nx, ny in sizes))
    for title, made, nx, ny, bits, every in runs:
        lines = against.check_micros(made, nx, ny, bits, files, said, folder, every)
        if lines:
            print("\n".join([title + ":"] + lines))
            return proving.WRONG
        if every == 1:
            print("%s: nothing differs" % title)
    if sizes:
        print("sums on arrays of %d sizes, up to %d pixels wide and %d high: nothing differs" % (
            len(sizes), 1 << max(nx for nx, _ in sizes), 1 << max(ny for _, ny in sizes)))
    return noted(given)


def noted(given) -> int:
    """Prints what tools read differently in the given files: then a run says nothing about what Yosys makes of them."""
    notes = ["%s: not decided: %s" % (module, note) for module, path in given.items() for note in reading.notes(path)]
    print("".join(note + "\n" for note in notes), end="")
    return proving.UNDECIDED if notes else proving.PROVED


def check(said) -> int:
    if said.texts and (said.micros or said.random):
        raise Bad("texts are not run together with --random or --micros; --help says more")
    with tempfile.TemporaryDirectory(prefix="px-rtl-") as folder:
        files, given = files_of(said, folder)
        if said.micros:
            nx, ny, made = against.read_micros(ends.content(said.micros))
            lines = against.check_micros(made, nx, ny, BITS, files, said, folder)
            print("\n".join(lines or ["%s: %d microinstructions on %d by %d pixels, compared after each: "
                                      "nothing differs" % (said.micros, len(made), 1 << nx, 1 << ny)]))
            return int(bool(lines))
        if not said.texts:
            return check_modules(files, given, said, folder)
        statuses = []
        for path in said.texts:
            lines, status = against.check_text(path, ends.content(path), files, said, folder)
            print("\n".join(lines), flush=True)
            statuses.append(status)
        return proving.worst(statuses)


def prove(said) -> int:
    programs.needed("yosys")
    asked = [module for module in proving.PROOFS if getattr(said, module)] or list(proving.PROOFS)
    statuses = []
    with tempfile.TemporaryDirectory(prefix="px-rtl-") as folder:
        files, _ = files_of(said, folder)
        for module in asked:
            for line in proving.proved(module, files, said.seconds, said.simulator,
                                       **({"whole_to": said.levels} if module == "tree" else {})):
                print(line.text, flush=True)
                statuses.append(line.status)
    return proving.worst(statuses)


def draw(said) -> int:
    with tempfile.TemporaryDirectory(prefix="px-rtl-") as folder:
        files, _ = files_of(said, folder)
        print("\n".join(against.drawn(folder, files, ends.content(said.scene), said)))
    return proving.PROVED


def drawings(said, links, named: str) -> int:
    """Draws scenes on boards, compares what comes back, and writes the last picture."""
    frame.need_numpy(sys.argv[1:], sys.argv[:1])
    from pxplanes.image import maps
    from pxrtl import board
    statuses = []
    for path in said.texts:
        drawing = board.Drawing(ends.content(path), *said.size, said.coarser, said.program)
        wrong, picture = drawing.drawn(links(board))
        print("\n  ".join([path + ":"] + wrong if wrong else [drawing.describe(path, named)]), flush=True)
        statuses.append(proving.WRONG if wrong else proving.PROVED)
        if said.output:
            with open(said.output, "wb") as file:
                file.write(maps.png(picture))
    return proving.worst(statuses)


def simulate_board(said) -> int:
    film = [] if said.film else None
    with tempfile.TemporaryDirectory(prefix="px-rtl-") as folder:
        def link(board):
            speed = [] if film is None else [board.CLOCKS_A_BIT_OF_BOARDS]
            return board.Simulated(board.built(*said.size, *speed), folder, film)

        status = drawings(said, lambda board: iter(lambda: link(board), None), "a simulated board")
    if film:
        from pxrtl import board
        with open(said.film, "wb") as file:
            file.write(board.animated(film))
    return status


def send(said) -> int:
    return drawings(said, lambda board: itertools.repeat(board.Port(said.port)), "the board at " + said.port)


def fpga(said) -> int:
    frame.need_numpy(sys.argv[1:], sys.argv[:1])
    from pxrtl import board
    with tempfile.TemporaryDirectory(prefix="px-rtl-") as folder:
        lines, bitstream = board.fitted(folder, said.board, *(said.size or (0, 0)))
        print("\n".join(lines))
        if said.out:
            shutil.copyfile(bitstream, said.out)
    return proving.PROVED


def counted(module, chosen) -> tuple[int, int]:
    """Cells and flip-flops of a module with its parameters, as Yosys makes them."""
    script = "read_verilog %s; %s hierarchy -top %s; synth -flatten; abc -g gates; opt_clean; stat" % (
        ports.file_of(module), "".join("chparam -set %s %d %s; " % (it + (module,)) for it in chosen.items()), module)
    printed = programs.made([programs.needed("yosys"), "-p", script], RTL)
    table = printed[printed.rindex("Number of cells:"):]
    cells = dict((name, int(number)) for name, number in re.findall(r"^\s+(\$_\w+_)\s+(\d+)$", table, re.M))
    return sum(cells.values()), sum(number for name, number in cells.items() if "DFF" in name)


def gates(said) -> int:
    row = "%-22s %7s %11s %8s %9s"
    print(row % ("module", "cells", "flip-flops", "gates", "memory"))
    for bits in said.bits or [16, 32, BITS]:
        cells, stored = counted("pixel", {"N": bits})
        print(row % ("pixel of %d bits" % bits, cells, stored, cells - stored, "%.0f%%" % (100 * bits / stored)))
    for odd in (0, 1):
        cells, stored = counted("node", {"ODD": odd})
        print((row % ("node, %s" % ("odd" if odd else "even"), cells, stored, cells - stored, "")).rstrip())
    cells, stored = counted("multipliers", {})
    print((row % ("two multipliers", cells, stored, cells - stored, "")).rstrip())
    return proving.PROVED


def marks(said) -> int:
    return marking.marked(said.folder, said.module, said.simulator, said.seconds, said.prove, ends.jobs(said.jobs),
                          said.page)


def skeleton(said) -> int:
    print(ports.skeleton(said.module), end="")
    return proving.PROVED


def number_from(least: int) -> Callable[[str], int]:
    def number(word: str) -> int:
        if not word.isdigit() or int(word) < least:
            raise argparse.ArgumentTypeError("%r is no number from %d on" % (word, least))
        return int(word)
    return number


def reader() -> ends.Words:
    """The words of the command, with the help that argparse makes of them."""
    shown = {"formatter_class": argparse.ArgumentDefaultsHelpFormatter, "allow_abbrev": False, "epilog": STATUS}
    words = ends.Words(prog="rtl",
                       description="Checks, proves, draws and measures the machine in Verilog (docs/RTL.md).",
                       epilog=STATUS,
                       formatter_class=argparse.RawDescriptionHelpFormatter)
    commands = words.add_subparsers(dest="command", required=True, parser_class=ends.Words, metavar="COMMAND")

    def command(name: str, says: str, does: Callable[..., int]) -> ends.Words:
        part = commands.add_parser(name, help=says, description=says[0].upper() + says[1:] + ".", **shown)
        part.set_defaults(does=does)
        return part

    checking = command("check",
                       "run modules, scenes or listings in a simulator, and compare them with tables or the program",
                       check)
    checking.add_argument("texts", nargs="*", metavar="TEXT", help="a scene or a listing; - is standard input")
    checking.add_argument("--clocks", type=number_from(1), default=sys.maxsize, metavar="N",
                          help="run only the first N microinstructions")
    checking.add_argument("--every-clock", action="store_true",
                          help="compare after each clock, not after each operation")
    checking.add_argument("--random", type=number_from(1), default=0, metavar="N",
                          help="run N random microinstructions")
    checking.add_argument("--seed", type=number_from(0), default=1, metavar="N", help="the seed of what is random")
    checking.add_argument("--micros", metavar="FILE", help="run the microinstructions of FILE, a line each")
    checking.add_argument("--waves", default="rtl-difference.vcd", metavar="FILE",
                          help="where waveforms of a difference go")
    proofs = command("prove",
                     "show by Yosys that a module is its table's for every state, and compare it in simulators", prove)
    for module in ("sequencer", "word"):
        proofs.add_argument("--" + module, metavar="FILE", help="prove this file instead of rtl/chip/%s.v" % module)
    proofs.add_argument("--levels", type=int, choices=range(1, proving.LEVELS + 1), default=proving.SMALL, metavar="N",
                        help="the largest tree that is proved state by state, 1 to %d levels" % proving.LEVELS)
    beginning = command("skeleton", "print a module to be filled in: its ports are ours, and it does nothing yet",
                        skeleton)
    beginning.add_argument("module", choices=SKELETONS, help="the module")
    grading = command("marks", "check each file of a folder, and print a table of files by acts or moves", marks)
    grading.add_argument("--module", choices=SKELETONS, default="pixel", help="the module that the files have")
    grading.add_argument("folder", metavar="FOLDER", help="the folder of the files (%s)" % ", ".join(sources.KINDS))
    grading.add_argument("--page", metavar="FILE", help="write the table as an HTML page too")
    grading.add_argument("--prove", action="store_true", help="prove each file too")
    grading.add_argument("--jobs", metavar="N", help="files that are looked at side by side")
    drawing = command("draw", "print the picture that the array holds after a scene's last clock", draw)
    drawing.add_argument("scene", metavar="SCENE")
    simulated = command("simulate-board", "draw scenes or listings on a whole board in Verilator, and compare what "
                        "comes back with `play` and `render`", simulate_board)
    sending = command("send", "draw scenes or listings on a board at a serial port, and compare what comes back", send)
    sending.add_argument("--port", required=True, metavar="PORT", help="the serial port, as /dev/ttyUSB1")
    simulated.add_argument("--film", metavar="PICTURE", help="write what the monitor shows as an animated PNG")
    for part in (simulated, sending):
        part.add_argument("texts", nargs="+", metavar="TEXT",
                          help="a scene, drawn in windows if it is larger, or a listing")
        part.add_argument("-o", "--output", metavar="PICTURE", help="write the picture as PNG")
        part.add_argument("--size", type=int, choices=range(1, 6), nargs=2, default=(3, 4), metavar=("NX", "NY"),
                          help="the board has 2^NX by 2^NY pixels")
    fitting = command("fpga", "fit a chip on a board's FPGA, and print what it takes", fpga)
    fitting.add_argument("--board", choices=("hx8k", "icebreaker", "ulx3s"), required=True, help="the board")
    fitting.add_argument("--size", type=number_from(1), nargs=2, metavar=("NX", "NY"),
                         help="the chip has 2^NX by 2^NY pixels")
    fitting.add_argument("--out", metavar="FILE", help="write the bitstream")
    counting = command("gates", "count the gates of a pixel, a node and two multipliers by Yosys", gates)
    counting.add_argument("--bits", type=number_from(1), action="append", metavar="N",
                          help="memory bits of a pixel (16, 32 and 72)")
    for part in (checking, drawing, sending, simulated):
        part.add_argument("--program", metavar="PROGRAM",
                          help="the program to compare with, if not the one that was built")
    for part in (checking, drawing, sending, simulated):
        part.add_argument("--coarser", type=number_from(1), default=1, metavar="K",
                          help="take only each K-th column and row of a scene")
    for part in (checking, drawing, grading):
        part.add_argument("--simulator", choices=("iverilog", "verilator"),
                          help="iverilog, or verilator if only that is installed")
    proofs.add_argument("--simulator", choices=("iverilog", "verilator"),
                        help="compare in this simulator alone, not in all that are installed")
    for part in (checking, drawing, grading, proofs):
        part.add_argument("--seconds", type=number_from(1), default=simulation.SECONDS, metavar="N",
                          help="seconds of a processor for each simulation or question")
    for part in (checking, drawing, proofs):
        for module in simulation.MODULES:
            part.add_argument("--" + module, metavar="FILE", help="use this file instead of rtl/%s.v" % module)
    return words


def main(words: list[str]) -> int:
    """Does what the words say, and gives the status."""
    said = reader().parse_args(words)
    return said.does(said)


def run() -> None:
    """The command: trouble is one line and status 2."""
    if {"-h", "--help"} & set(sys.argv[1:]):
        reader().parse_args(sys.argv[1:])
    ends.run("rtl", "", main)
