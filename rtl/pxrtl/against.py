"""Runs of the array in a simulator, compared with the program and with the tables of docs/MACHINE.md."""
import random
import re
import sys

from pxrtl import simulation
from pxrtl.shared import Bad, listings, micros, program, scenes, sessions, texts

BITS = 72
AROUND = 12
COMMANDS_AT_ONCE = 900000
MEMORY = re.compile(rb"^pixel (\d+) (\d+) m ([01]+) e ([01])$", re.M)
PIXEL = re.compile(rb"^pixel \d+ \d+ m (\d+) e (\d) k (\d) l (\d) t (\d)$")
PROGRAM, TABLE = "by the program", "by the tables"


def coarser(scene, every):
    """A scene's text over each so-many-th column and row alone."""
    try:
        return texts.text_of(texts.coarser(scenes.read(scene), every)).encode() if every > 1 else scene
    except scenes.Refusal as refusal:
        raise Bad(refusal.note)


class Run:
    """The microinstructions of a listing, and where its operations end."""

    def __init__(self, listing, limit):
        self.nx, self.ny, operations = micros.read_listing(listing)
        self.micros, self.ends = [], []
        for name, numbers in operations:
            self.micros += micros.micros_of(name, numbers, self.nx, self.ny)
            self.ends.append(len(self.micros))
            if len(self.micros) >= limit:
                break
        self.operations = len(self.ends)
        self.micros = self.micros[:limit]
        self.ends = [end for end in self.ends if end < len(self.micros)] + [len(self.micros)]

    def states(self, clocks):
        """The states after so many clocks each, by the tables."""
        return tabled(self.micros, self.nx, self.ny, BITS, clocks)


class SceneRun(Run):
    """The microinstructions of a scene, by the listing that the program makes of it."""

    def __init__(self, built, scene, limit):
        self.built, self.scene = built, scene
        status, listing, note = program.answer(built, ["list"], scene)
        if status != 0:
            raise Bad(note)
        super().__init__(listing, limit)

    def states(self, clocks):
        """The states after so many clocks each, as sessions of the program answer."""
        places = [b"pixel %d %d" % (x, y) for x in range(1 << self.nx) for y in range(1 << self.ny)]
        share = max(1, COMMANDS_AT_ONCE // sum(len(place) + 1 for place in places + [b"until 1000000"]))
        clocks = sorted(clocks)
        for first in range(0, len(clocks), share):
            part = clocks[first:first + share]
            answers = sessions.held(self.built, self.scene,
                                    [line for clock in part for line in [b"until %d" % clock] + places])
            for number, clock in enumerate(part):
                at = number * (len(places) + 1) + 1
                yield clock, simulation.State([self.pixel(lines[0]) for lines in answers[at:at + len(places)]])

    @staticmethod
    def pixel(line):
        return tuple(part.decode() for part in PIXEL.match(line).groups())


def tabled(made, nx, ny, bits, clocks):
    """The states of an array by the tables, after these clocks."""
    array, clocks = micros.Array(nx, ny, bits), set(clocks)
    for clock in range(len(made) + 1):
        if clock in clocks:
            pixels = [tuple(map(str, pixel)) for pixel in array.state()]
            yield clock, simulation.State(pixels,
                                          *("".join(map(str, it)) for it in (array.tree.outs, array.tree.carries)))
        if clock < len(made):
            array.take(made[clock])


def first_difference(bench, clocks, wanted):
    """The first of the clocks after which the bench differs, with what differs; None where nothing does."""
    found = bench.run(clocks)
    for clock, state in wanted:
        wrong = simulation.difference(bench.nx, bench.ny, state, found[clock])
        if wrong:
            return clock, wrong
    return None


def comes_late(bench, states, differs):
    """Whether what was expected after a clock is there one clock later, where nothing else is expected."""
    clock, wrong = differs
    if clock >= bench.clocks:
        return False
    found = bench.run([clock + 1])[clock + 1]
    return not simulation.difference(bench.nx, bench.ny, dict(states([clock]))[clock], found)


def report(bench, states, differs, by, waves):
    """The lines of a difference; its waveforms are written, what is expected next to what was found."""
    clock, wrong = differs
    made = bench.micros
    at = "clock %d, `%s`" % (clock - 1, made[clock - 1].text()) if clock else "before the first clock"
    lines = ["%s: %s%s" % (at, wrong.text(by), "; it comes one clock late" if comes_late(bench, states, differs)
                           else "")]
    first, last = max(0, clock - AROUND), min(bench.clocks, clock + 1)
    inside = range(first, last + 1)
    bench.waves(waves, first, last, wrong.pixel, bench.run(inside), dict(states(inside)))
    return lines + ["waveforms of the clocks around it, found and expected: %s" % waves]


def compared(folder, files, run, said, by):
    """Runs a listing on the array; the lines of a difference, or None."""
    bench = simulation.Bench(folder, files, run.nx, run.ny, BITS, run.micros, said.simulator, said.seconds)
    clocks = range(len(run.micros) + 1) if said.every_clock else [0] + run.ends
    differs = first_difference(bench, clocks, run.states(clocks))
    if differs and not said.every_clock:
        before = max([0] + [end for end in run.ends if end < differs[0]])
        inside = range(before, differs[0] + 1)
        differs = first_difference(bench, inside, run.states(inside)) or differs
    return report(bench, run.states, differs, by, said.waves) if differs else None


def drawn(folder, files, text, said):
    """The picture that the array has at a scene's end, read from key B: lines of depths, then of faces, row by row."""
    text = coarser(sessions.parted(text)[0], said.coarser)
    scene, run = scenes.read(text), SceneRun(program.needed(said.program), text, sys.maxsize)
    bench = simulation.Bench(folder, files, run.nx, run.ny, BITS, run.micros, said.simulator, said.seconds)
    (state,) = bench.run([len(run.micros)]).values()
    faces, whole = scene.number_bits(), scene.number_bits() + scene.depth_bits + scene.fraction_bits
    fields = (("depth", faces + scene.fraction_bits, whole), ("face", 0, faces))
    number = lambda bits: "x" if set(bits) - set("01") else "%d" % int(bits[::-1], 2)
    for name, first, last in fields:
        yield name
        for y in range(scene.height):
            yield " ".join(number(state.pixels[(x << run.ny) + y][0][first:last]) for x in range(scene.width))


def same(path, run, every_clock):
    return "%s: %d clocks of %d operations on %d by %d pixels, compared after each %s: nothing differs" % (
        path, len(run.micros), run.operations, 1 << run.nx, 1 << run.ny, "clock" if every_clock else "operation")


def played(built, text, run):
    """What `play` prints differs from the state by the tables: where, or None."""
    status, output, note = program.answer(built, ["play"], text)
    if status != 0:
        raise Bad(note)
    (_, last), = run.states([len(run.micros)])
    for x, y, memory, enable in MEMORY.findall(output):
        pixel = last.pixels[(int(x) << run.ny) + int(y)]
        if (memory.decode(), enable.decode()) != pixel[:2]:
            return "pixel (%d, %d) is played otherwise than by the tables" % (int(x), int(y))
    return None


def check_text(path, text, files, said, folder):
    """The lines and the status of a scene, or of a listing, on the array."""
    built = program.needed(said.program)
    if listings.is_listing(text):
        status, _, note = program.answer(built, ["play"], text)
        if status != 0:
            raise Bad(note)
        run, by = Run(text, said.clocks), TABLE
        other = played(built, text, run) if said.clocks == sys.maxsize else None
        if other:
            return ["%s: %s" % (path, other)], 1
    else:
        run, by = SceneRun(built, coarser(sessions.parted(text)[0], said.coarser), said.clocks), PROGRAM
    lines = compared(folder, files, run, said, by)
    return (["%s:" % path] + lines, 1) if lines else ([same(path, run, said.every_clock)], 0)


def random_micro(draw, bits):
    """A lawful microinstruction; pixels are enabled often enough that something is seen."""
    act = draw.choice(micros.ACTS + ("enable-all",) * 4)
    tree = draw.choice(("hold", "clear", "feed", "feed", "feed", "feed"))
    place = draw.randrange(bits) if act in micros.HAVE_A_PLACE else 0
    value = draw.randrange(2) if act in micros.HAVE_A_VALUE else 0
    opens = draw.randrange(100) == 0
    return micros.Micro(act, place, value, tree, tuple(draw.randrange(2) for _ in "abc") if tree == "feed" else (0, 0,
            0), opens)


def check_micros(made, nx, ny, bits, files, said, folder, every=1):
    """The lines of the first difference of a list of microinstructions from the tables, or None."""
    bench = simulation.Bench(folder, files, nx, ny, bits, made, said.simulator, said.seconds)
    clocks = range(0, len(made) + 1, every)
    states = lambda asked: tabled(made, nx, ny, bits, asked)
    differs = first_difference(bench, clocks, states(clocks))
    if differs and every > 1:
        inside = range(max(0, differs[0] - every), differs[0] + 1)
        differs = first_difference(bench, inside, states(inside)) or differs
    return report(bench, states, differs, TABLE, said.waves) if differs else None


def at_random(count, seed, bits):
    draw = random.Random(seed)
    return [micros.Micro("enable-all")] + [random_micro(draw, bits) for _ in range(count - 1)]


def sums(nx, ny, seed, bits):
    """A form that is loaded into every pixel, and another that is added: odd coefficients, so that all pixels
    differ."""
    draw = random.Random(seed)
    form = lambda: (draw.randrange(1, 1 << bits, 2), draw.randrange(1, 1 << bits, 2), draw.randrange(1 << bits))
    operations = [("all", []), ("load-linear", form() + (0, bits)), ("add-linear", form() + (0, bits))]
    return [micro for name, numbers in operations for micro in micros.micros_of(name, numbers, nx, ny)]


def read_micros(text):
    """The grid and the microinstructions of a file: `grid NX NY` first, where it is not 2 by 2 pixels; a line each."""
    lines = [line.split("#")[0].strip() for line in text.decode("latin-1").split("\n")]
    lines = [line for line in lines if line]
    nx = ny = 1
    if lines and lines[0].split()[0] == "grid":
        match = re.match(r"grid ([1-4]) ([1-4])$", " ".join(lines.pop(0).split()))
        if not match:
            raise Bad("a grid of microinstructions is `grid NX NY`, each from 1 to 4")
        nx, ny = map(int, match.groups())
    made = [micros.micro_of(line) for line in lines]
    if not made:
        raise Bad("there is no microinstruction")
    beyond = next((micro for micro in made if micro.place >= BITS), None)
    if beyond:
        raise Bad("`%s`: a pixel has the places 0 to %d" % (beyond.text(), BITS - 1))
    return nx, ny, made
