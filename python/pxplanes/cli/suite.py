"""Tries a renderer on the suite: scenes with exact pictures, which docs/COMPARE.md explains.

RENDERER is a command line: {scene} becomes the path of a scene, and {out} that of the map to write, with depths, or
depths and faces, in any form that `pxplanes compare` reads."""
from __future__ import annotations

import argparse
import sys
from typing import TYPE_CHECKING, Callable, Optional

from pxplanes import ends
from pxplanes.cli import compare
from pxplanes.cli.frame import whole_number
from pxplanes.errors import Trouble

if TYPE_CHECKING:
    from pxplanes.suite.running import Settings

HELP = "try a renderer on the suite, shrink a scene on which it differs, copy the suite"
NEEDS = ("csg", "faces", "fractions", "bits", "perspective")
RUN = """Tries a renderer on the scenes of the suite, and of the gallery, and prints a line for each level, the cause of all that differs, and a score.

Ends with 0 if all that is compared is alike, or differs as expected; with 1 if not; with 2 if the renderer cannot be started."""
SHRINK = """Finds the smallest scene on which a renderer still differs, and writes it. Ends with 1 if nothing differs."""
COPY = """Copies the suite with golden maps into a folder, with a README and examples for CI. There `suite run --golden` needs no program."""


def add_options(parser: argparse.ArgumentParser) -> None:
    words = parser.add_subparsers(metavar="run|shrink|copy", dest="what", required=True, parser_class=type(parser))
    run = words.add_parser("run", help="try a renderer on the suite", description=RUN, formatter_class=parser.formatter_class)
    run.add_argument("renderer", metavar="RENDERER", help="'./mine {scene} {out}'")
    run.add_argument("--golden", action="store_true", help="compare with the suite's golden maps, without the program")
    run.add_argument("--suite", metavar="DIR", help="another suite than that of the repository")
    run.add_argument("--scenes", metavar="WHICH", action="append", default=[], help="try these alone: KIND/NAME, as ties/*, or a level "
                     "(one solid, unions, CSG, ties, fractions, 24 bits, perspective)")
    run.add_argument("--without", metavar="NEED", action="append", default=[], choices=NEEDS,
                     help="leave out the scenes that need csg, faces, fractions, bits or perspective")
    run.add_argument("--random", metavar="N", type=whole_number(0, 10 ** 9), default=0, help="try N random scenes too")
    run.add_argument("--seed", metavar="S", type=whole_number(0, 10 ** 9), default=1000, help="the seed of the first random scene")
    run.add_argument("--colours", action="store_true", help="RENDERER writes a picture of the faces' colours")
    run.add_argument("--expect", metavar="FILE", help="the scenes that are known to differ, KIND/NAME a line; one that does not is reported")
    run.add_argument("--jobs", metavar="N", type=whole_number(1, 999), default=1, help="run N renderers at once")
    compare.add_shared_options(run)
    run.add_argument("-o", "--out", metavar="FILE", action="append", default=[],
                     help="write the outcome as .json, .xml (JUnit) or .html (a page)")
    shrink = words.add_parser("shrink", help="find the smallest scene that differs", description=SHRINK, formatter_class=parser.formatter_class)
    shrink.add_argument("scene", metavar="SCENE", help="a scene on which RENDERER differs; - is standard input")
    shrink.add_argument("renderer", metavar="RENDERER", help="'./mine {scene} {out}'")
    compare.add_shared_options(shrink)
    shrink.add_argument("-o", "--out", metavar="FILE", help="write the scene into a file")
    for each, default, words_of in ((run, 600.0, "how long a scene may take"), (shrink, 60.0, "go on for no more than N seconds")):
        each.add_argument("--seconds", metavar="N", type=compare.number, default=default, help=words_of)
    copy = words.add_parser("copy", help="copy the suite into a repository", description=COPY, formatter_class=parser.formatter_class)
    copy.add_argument("folder", metavar="DIR", help="a new or an empty folder")


def settings_of(options: argparse.Namespace) -> Settings:
    from pxplanes.suite import golden
    from pxplanes.suite.running import Settings
    shared = {"only": options.only, "allowed": compare.allowed_by(options), "times": options.times, "channel": options.channel}
    if options.what == "shrink":
        return Settings(**shared)
    return Settings(suite=options.suite or golden.SUITE, golden=options.golden, scenes=options.scenes, without=options.without,
                    random=options.random, seed=options.seed, colours=options.colours, jobs=options.jobs,
                    seconds=options.seconds, **shared)


def run(options: argparse.Namespace) -> int:
    from pxplanes.suite.running import NotStarted
    works: dict[str, Callable[[argparse.Namespace], int]] = {"run": run_suite, "shrink": run_shrink, "copy": run_copy}
    try:
        return works[options.what](options)
    except NotStarted as trouble:
        raise Trouble(str(trouble)) from None


def run_suite(options: argparse.Namespace) -> int:
    from pxplanes.suite import reports, running
    forms = [(path, reports.form_of(path)) for path in options.out]
    expected: list[str] = []
    if options.expect:
        with open(options.expect) as file:
            expected = [name for name in (line.split("#")[0].strip() for line in file) if name]
    progress: Optional[Callable[[str], None]] = running.show_progress if sys.stderr.isatty() else None
    outcome = running.run(options.renderer, settings_of(options), expected, progress)
    if progress:
        sys.stderr.write("\r\x1b[K")
    print("\n".join(running.lines(outcome)))
    for path, form in forms:
        with open(path, "w") as file:
            file.write(form(outcome))
    return 0 if outcome.is_well else 1


def run_shrink(options: argparse.Namespace) -> int:
    from pxplanes.suite import shrinking
    try:
        found = shrinking.shrink(ends.content(options.scene), options.renderer, settings_of(options), options.seconds, say)
    except Trouble as trouble:
        raise Trouble("%s: %s" % (options.scene, str(trouble).replace("scene/small: ", ""))) from None
    if found is None:
        say("nothing differs")
        return 1
    text, line = found
    if options.out:
        with open(options.out, "w") as file:
            file.write(text)
    else:
        sys.stdout.write(text)
    say(line)
    return 0


def say(line: str) -> None:
    print("pxplanes suite shrink: " + line, file=sys.stderr)


def run_copy(options: argparse.Namespace) -> int:
    from pxplanes.suite import copying
    copying.copy(options.folder)
    print("wrote %s: README.md says how to run it" % options.folder)
    return 0
