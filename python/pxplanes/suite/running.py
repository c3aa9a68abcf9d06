"""Tries a renderer on the scenes of the suite: what it draws of each, whether that is right, and the cause of all that
is not."""
import concurrent.futures
import fnmatch
import os
import shlex
import subprocess
import sys
import tempfile
from dataclasses import dataclass, field
from typing import Any, Callable, Iterator, Optional, Sequence

import numpy as np

from pxplanes import program
from pxplanes.compare import causes, comparing, report
from pxplanes.compare.comparing import Comparison
from pxplanes.compare.picture import RIGHT, grid, picture
from pxplanes.compare.report import Maps
from pxplanes.compare.verdict import FACES, Allowed, Sample, Score, is_whole
from pxplanes.errors import Trouble
from pxplanes.image import maps
from pxplanes.scene import lots
from pxplanes.suite import golden
from pxplanes.suite.golden import Case

ALIKE, DIFFERS, NOT_COMPARED = "alike", "differs", "not compared"
NOT_STARTED = (126, 127)      # what a shell ends with if it finds no program, or may not run it
LONGEST, HALF_A_CELL = 150, 0.5


@dataclass(frozen=True)
class Settings:
    """How a renderer is tried. `scenes` are patterns of KIND/NAME, or levels; `without` what it cannot do, of
    golden.NEEDS."""

    suite: str = golden.SUITE
    golden: bool = False
    scenes: Sequence[str] = ()
    without: Sequence[str] = ()
    random: int = 0
    seed: int = 1000
    only: Optional[str] = None
    colours: bool = False
    allowed: Allowed = field(default_factory=Allowed)
    times: float = 1.0
    channel: Optional[str] = None
    jobs: int = 1
    seconds: float = 600.0


@dataclass
class Row:
    """What came of a scene: their maps, or a note why there are none; and how they compare with ours."""

    case: Case
    ours: Maps
    theirs: Optional[Maps] = None
    note: str = ""
    found: Optional[Comparison] = None
    labels: Optional[Any] = None

    @property
    def status(self) -> str:
        if self.note or self.found is not None and self.found.differ:
            return DIFFERS
        return NOT_COMPARED if self.theirs is not None and self.theirs.faces is None and "faces" in self.case.needs else ALIKE

    @property
    def pixels(self) -> int:
        return 0 if self.found is None else self.found.differ

    @property
    def first(self) -> str:
        """What is wrong first: the note, or the first pixel that differs."""
        if self.note or not self.pixels or self.theirs is None or self.found is None:
            return self.note
        names = [""] + ["%s %s%s" % (solid.name, kind, "" if which is None else " %d" % which)
                        for _, solid, kind, which, _, _ in self.case.named.faces()]
        return report.first(self.ours, self.theirs, self.found, [] if self.labels is not None else names, 1)[0].strip()


@dataclass(frozen=True)
class Outcome:
    """A run: the rows, the cause of all that differs, what else can be said, and the manifest of the suite."""

    renderer: str
    settings: Settings
    rows: list[Row]
    cause: list[str]
    manifest: dict[tuple[str, str], dict[str, Any]]
    version: str
    expected: frozenset[str] = frozenset()

    def count(self, status: str, rows: Optional[Sequence[Row]] = None) -> int:
        return sum(row.status == status for row in (self.rows if rows is None else rows))

    def levels(self) -> list[tuple[str, list[Row]]]:
        """Each level that has scenes, with its rows."""
        found = [(level, [row for row in self.rows if row.case.level == level]) for level in golden.LEVELS]
        return [(level, rows) for level, rows in found if rows]

    def unexpected(self) -> list[str]:
        """Scenes that differ and are not expected to, and those that are expected to differ and do not."""
        titles = {status: {row.case.title for row in self.rows if row.status == status} for status in (ALIKE, DIFFERS)}
        return ["not expected to differ: %s" % title for title in sorted(titles[DIFFERS] - self.expected)] * bool(self.expected) + [
            "expected to differ, and alike: %s" % title for title in sorted(self.expected & titles[ALIKE])]

    @property
    def is_well(self) -> bool:
        differ = {row.case.title for row in self.rows if row.status == DIFFERS}
        return differ <= self.expected and not any(line.startswith("expected") for line in self.unexpected())


def run(renderer: str, settings: Settings = Settings(), expected: Sequence[str] = (), progress: Optional[Callable[[str], None]] = None) -> Outcome:
    """Tries a renderer, a command line in which {scene} is the path of a scene and {out} that of the map to write.

    `expected` has the KIND/NAME of scenes that are known to differ. Raises `Trouble` if no scene is chosen, if the
    renderer cannot be started, or if there is no program that draws ours and `settings.golden` is not set."""
    if "{scene}" not in renderer or "{out}" not in renderer:
        raise Trouble("the renderer is one command line with {scene} and {out}, as './mine {scene} {out}'")
    manifest, version = golden.read_manifest(settings.suite)
    cases = [case for case in all_cases(settings) if is_chosen(case, settings)]
    if not cases:
        raise Trouble("no scene is chosen: --scenes takes KIND/NAME, where * stands for any, or a level (%s)" % ", ".join(golden.LEVELS))
    built = None if settings.golden else program.needed(None)
    rows: list[Row] = []

    def add(row: Row) -> None:
        rows.append(row)
        if progress:
            progress("%d of %d: %s %s" % (len(rows), len(cases), row.case.title, row.note or "drawn"))
    add(tried(renderer, cases[0], settings, built))       # alone, since a renderer that cannot be started is tried once
    with concurrent.futures.ThreadPoolExecutor(settings.jobs) as pool:
        try:
            for task in [pool.submit(tried, renderer, case, settings, built) for case in cases[1:]]:
                add(task.result())
        finally:
            pool.shutdown(wait=True, cancel_futures=True)
    judge(rows, settings)
    return Outcome(renderer, settings, rows, cause_of(rows, settings), manifest, version, frozenset(expected))


def all_cases(settings: Settings) -> Iterator[Case]:
    """The scenes of the suite, and, if the program draws ours, random ones, and those of the gallery next to the suite
    of the repository."""
    yield from golden.scenes_of(settings.suite)
    if settings.golden and settings.random:
        raise Trouble("--random needs the program, which --golden does without")
    if settings.golden:
        return
    if settings.suite == golden.SUITE and os.path.isdir(golden.GALLERY):
        yield from golden.scenes_in(golden.GALLERY, "gallery")
    for seed in range(settings.seed, settings.seed + settings.random):
        yield golden.case("random", "seed_%d" % seed, lots.scene_of(seed).encode())


def is_chosen(case: Case, settings: Settings) -> bool:
    if settings.scenes and not any(pattern == case.level or fnmatch.fnmatchcase(case.title, pattern) for pattern in settings.scenes):
        return False
    return not set(settings.without) & set(case.needs)


def tried(renderer: str, case: Case, settings: Settings, built: Optional[str]) -> Row:
    """What comes of a scene, before it is judged."""
    row = Row(case, ours_of(case, settings, built))
    try:
        row.theirs = theirs_of(drawn(renderer, case, settings), settings)
    except Trouble as trouble:
        row.note = str(trouble)
        return row
    if row.theirs.shape != row.ours.shape:
        row.note = "the sizes differ: %d by %d and %d by %d" % (*row.ours.shape[::-1], *row.theirs.shape[::-1])
    return row


def ours_of(case: Case, settings: Settings, built: Optional[str]) -> Maps:
    """Our maps of a scene: golden, drawn by the program, or, where there is neither, by the definition of the
    picture."""
    if settings.golden:
        return golden.maps_of(settings.suite, case.kind, case.name)
    if built is None:
        shown = picture(case.scene, RIGHT, *grid(case.scene))
        size = case.scene.height, case.scene.width
        return Maps(shown.depths.reshape(size), shown.faces.reshape(size))
    status, output, note = program.answer(built, [], case.text)
    if status != 0:
        raise Trouble("the program does not draw %s: %s" % (case.title, note))
    depths, faces = maps.maps_of(output)
    return Maps(depths.numbers, faces.numbers)


def drawn(renderer: str, case: Case, settings: Settings) -> list[maps.Map]:
    """What the renderer writes for a scene. Raises `Trouble` if it writes no map, and NotStarted if it cannot be
    started."""
    with tempfile.TemporaryDirectory(prefix="px-suite-") as folder:
        scene, out = os.path.join(folder, case.name + ".scene"), os.path.join(folder, "map")
        with open(scene, "wb") as file:
            file.write(case.text)
        line = renderer.replace("{scene}", shlex.quote(scene)).replace("{out}", shlex.quote(out))
        try:
            done = subprocess.run(line, shell=True, capture_output=True, timeout=settings.seconds)
        except subprocess.TimeoutExpired:
            raise Trouble("no answer in %g seconds" % settings.seconds) from None
        last = (done.stderr or done.stdout).decode("latin-1").strip().split("\n")[-1]
        if not os.path.exists(out):
            if done.returncode in NOT_STARTED:
                raise NotStarted("the renderer cannot be started: %s" % last)
            raise Trouble("no map, and status %d%s" % (done.returncode, ": " + last if last else ""))
        found = maps.read(out, (case.scene.width, case.scene.height), settings.channel)
        return [maps.Map(np.array(each.numbers), each.kind) for each in found]


class NotStarted(Exception):
    """The renderer cannot be started: no scene needs to be tried."""


def theirs_of(found: list[maps.Map], settings: Settings) -> Maps:
    """What is compared of their maps."""
    return Maps(None, found[0].numbers) if settings.colours else report.maps_of(found, settings.only, settings.times)


def judge(rows: list[Row], settings: Settings) -> None:
    """Compares all maps of a run: as whole numbers if all are, and as real numbers otherwise."""
    ready = [row for row in rows if row.theirs is not None and not row.note]
    for row in ready:
        if settings.colours:
            row.labels = colours_of(row.case)
            assert row.ours.faces is not None
            row.ours = Maps(None, row.labels[row.ours.faces])
    found = [row.theirs.depths for row in ready if row.theirs is not None and row.theirs.depths is not None]
    compare(ready, settings, whole := is_whole([each[np.isfinite(each)] for each in found]))
    if whole and found and all(each.dtype.kind == "f" for each in found) and any(row.pixels for row in ready):
        wrong = sum(row.pixels for row in ready)
        compare(ready, settings, False)                   # real numbers may all be whole by chance
        if sum(row.pixels for row in ready) >= wrong:
            compare(ready, settings, True)


def compare(rows: list[Row], settings: Settings, whole: bool) -> None:
    for row in rows:
        if row.theirs is not None:
            row.found = comparing.compared((row.ours.depths, row.ours.faces), (row.theirs.depths, row.theirs.faces), settings.allowed,
                                           row.case.scene, whole)


def colours_of(case: Case) -> Any:
    """The colour of each face, three bytes in one number, by the face's number; that of the background is black."""
    table = np.zeros(FACES, np.int64)
    for number, _, _, _, (red, green, blue), _ in case.named.faces():
        table[number] = red << 16 | green << 8 | blue
    return table


def cause_of(rows: list[Row], settings: Settings) -> list[str]:
    """The cause of all that differs with its evidence, or that none was found, with facts."""
    lacking = [row for row in rows if row.note]
    lines = ["%d of %d scenes have no map to compare: %s" % (len(lacking), len(rows), lacking[0].note)] if lacking else []
    if any(row.pixels for row in rows):
        samples = [report.sample_of(row.case.scene, row.theirs, row.found, settings.allowed, row.labels)
                   for row in rows if row.theirs is not None and row.found is not None]
        found = causes.find(samples)
        lines += found.said() + ([] if found.is_sure else ["  " + line for line in causes.facts(samples)])
    return lines


def table(outcome: Outcome) -> list[str]:
    form = "%-11s  %6s  %5s  %7s  %12s  %6s  %s"
    lines = [form % ("level", "scenes", "alike", "differ", "not compared", "pixels", "first difference")]
    for level, rows in outcome.levels():
        first = next((row for row in rows if row.status == DIFFERS), None)
        lines.append((form % (level, len(rows), *(outcome.count(status, rows) for status in (ALIKE, DIFFERS, NOT_COMPARED)),
                              sum(row.pixels for row in rows), "%s: %s" % (first.case.title, first.first) if first else ""))[:LONGEST].rstrip())
    return lines


def score(outcome: Outcome) -> list[str]:
    """Of real numbers: how many pixels are right in which way, and in which scenes single precision has room for half a
    cell."""
    found = [row.found for row in outcome.rows if row.found is not None and not row.found.is_whole]
    if not found:
        return []
    total = Score.of([each.state for each in found])
    lines = ["%d pixels: %d exact, %d within %s, %d near an edge, %d wrong" % (
        total.pixels, total.exact, total.within, report.said(outcome.settings.allowed), total.near_edge, total.wrong)]
    rooms = [(row.case.title, Sample(row.case.scene, *grid(row.case.scene), None, None, False, outcome.settings.allowed).room())
             for row in outcome.rows if row.found is not None and not row.found.is_whole and row.case.kind != "gallery"]
    rooms = [(title, room) for title, room in rooms if room >= HALF_A_CELL]
    return lines + ["an error of half a cell is not seen in %d scenes, where single precision leaves room for it: %s" % (
        len(rooms), ", ".join("%s %.3g" % each for each in rooms))] * bool(rooms)


def summary(outcome: Outcome) -> str:
    line = "%d of %d scenes are alike" % (outcome.count(ALIKE), len(outcome.rows))
    if outcome.count(NOT_COMPARED):
        return line + ", and %d not compared, since the map has no faces" % outcome.count(NOT_COMPARED)
    has_depths_alone = any(row.theirs is not None and row.theirs.faces is None for row in outcome.rows)
    return line + ", in their depths alone" * (has_depths_alone and outcome.count(ALIKE) > 0)


def lines(outcome: Outcome) -> list[str]:
    """What is printed of a run."""
    return table(outcome) + outcome.cause + score(outcome) + outcome.unexpected() + [summary(outcome)]


def show_progress(line: str) -> None:
    """A line on standard error that the next one replaces."""
    sys.stderr.write("\r\x1b[K" + line[:100])
    sys.stderr.flush()
