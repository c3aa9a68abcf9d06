"""Says why a scene is refused and what to write, or what an accepted one has and what may be wrong with it.

The refusal is the program's own; below it stand the line with the word marked, what is expected there, the limit, and a cure;
then the other mistakes, each found with those before it mended. Of an accepted scene it lists the solids, with their columns,
rows, depths and visible pixels, and the faces. A listing is read too. Without a built program the answer is the tool's own
reading, and it says so. Status: 0 for an accepted text or one that --fix mended, 1 for a refused one, 2 for trouble."""
import argparse
import difflib
import json
import os
import sys
from typing import Any, Optional

from pxplanes import ends, errors, program
from pxplanes.cli import frame
from pxplanes.errors import Trouble
from pxplanes.explain import after_end, explaining, kinds, list_cures, looks, readings
from pxplanes.image import netpbm
from pxplanes.machine import listings, passes, sessions, states
from pxplanes.scene import scenes

HELP = "say why a scene is refused or what it has; mend it; a pixel's ray; what it costs"
# A picture that may take longer is drawn only with --draw.
PATIENCE_SECONDS = 10
IS_A_SCENE = ["this is a scene: `pxplanes render` and its like draw it; `pxplanes list` writes the listing of its passes,",
              "and that is what `pxplanes play` takes"]
IS_A_LISTING = "this is a listing: `pxplanes play` carries it out, and no command for scenes takes it"


def add_options(parser: argparse.ArgumentParser) -> None:
    parser.add_argument("file", metavar="FILE", help="a scene or a listing; - is standard input")
    parser.add_argument("--at", nargs=2, metavar=("X", "Y"), type=frame.whole_number(0, 511), help="the ray of one pixel alone")
    parser.add_argument("--draw", action="store_true", help="draw the picture for the answer, however long that takes")
    parser.add_argument("--fix", action="store_true", help="write the mended text, if it is sure what was meant; otherwise print "
                        "what it may be, and ask at a terminal, or write nothing and end with 1")
    parser.add_argument("--in-place", action="store_true", help="with --fix: write the text into FILE, keep FILE.orig, and print the changes as a diff")
    parser.add_argument("--diff", action="store_true", help="with --fix: print the changes as a diff, and write nothing")
    parser.add_argument("--cost", action="store_true", help="print the operations and the clocks of a scene or a listing alone")
    parser.add_argument("--each", action="store_true", help="with --cost: a line for each operation too")
    parser.add_argument("--play", action="store_true", help="FILE was meant for `pxplanes play`, which takes no scene")
    parser.add_argument("--json", action="store_true", help="print the answer as JSON; of a scene with all of its faces")
    parser.add_argument("--sarif", action="store_true", help="print the mistakes as SARIF, for editors and CI")


def run(options: argparse.Namespace) -> int:
    if (options.in_place or options.diff) and not options.fix:
        raise Trouble("--in-place and --diff go with --fix")
    if options.each and not options.cost:
        raise Trouble("--each goes with --cost")
    text = ends.content(options.file)
    if options.fix:
        return fix(options.file, text, options)
    if options.cost:
        return cost(text, options)
    found = answer_about(text, options)
    if options.json or options.sarif:
        print(json.dumps(as_sarif(found, options.file) if options.sarif else as_json(found, text, options.file), ensure_ascii=False))
    else:
        print("\n".join(found.lines))
    return frame.SUCCESS if found.is_accepted else frame.DIFFERS


def as_json(found: explaining.Answer, text: bytes, path: str) -> dict[str, Any]:
    """The answer for programs; of an accepted scene with its size and its faces."""
    places = [{key: value for key, value in place._asdict().items() if key != "shown"} for place in found.places]
    out = {"accepted": found.is_accepted, "file": name_of(path), "mistakes": places, "lines": found.lines}
    return {**out, **explaining.faces_of(scenes.read(text))} if found.is_accepted and is_scene(text) else out


def as_sarif(found: explaining.Answer, path: str) -> dict[str, Any]:
    """The mistakes as SARIF 2.1.0."""
    results = [{"ruleId": place.cause, "level": "error", "message": {"text": place.message}, "locations": [{"physicalLocation": {
        "artifactLocation": {"uri": name_of(path)},
        "region": {"startLine": max(place.line, 1), "startColumn": place.column, "endColumn": place.end_column}}}]} for place in found.places]
    return {"version": "2.1.0", "$schema": "https://json.schemastore.org/sarif-2.1.0.json",
            "runs": [{"tool": {"driver": {"name": "pxplanes explain"}}, "results": results}]}


def answer_about(text: bytes, options: argparse.Namespace) -> explaining.Answer:
    """The answer about a text."""
    if options.play and is_scene(text):
        return explaining.Answer(IS_A_SCENE, False, [])
    if not listings.is_listing(text):
        return of_scene(text, options.draw, options.at, name_of(options.file))
    if options.at or options.draw:
        raise Trouble("a listing has no picture; `pxplanes play` makes its memory")
    lines, status = of_listing(text)
    return explaining.Answer(lines, status == frame.SUCCESS, [])


class Program(explaining.Judge):
    """The program that is built; it draws what takes no more than some seconds, or anything if asked."""

    def __init__(self, built: str, draw: bool):
        self.built, self.draw, self.clocks = built, draw, 0

    def note(self, text: bytes) -> str:
        status, _, note = program.answer(self.built, ["cost"], text)
        if status not in (0, 3, 4):
            raise Trouble("the program does not judge it: %s" % (note or "status %d" % status))
        self.clocks = 0 if status else program.cost(self.built, text)[1]
        return str(note)

    def faces(self, text: bytes, scene: scenes.Scene) -> tuple[Optional[list[int]], str]:
        if not self.draw and not program.is_quick(self.clocks, scene.width, scene.height, PATIENCE_SECONDS):
            return None, "not drawn: %d clocks on %d by %d pixels take long; --draw draws it" % (self.clocks, scene.width, scene.height)
        status, output, note = program.answer(self.built, ["render"], text)
        if status != 0:
            raise Trouble("the program does not draw it: %s" % note)
        return netpbm.images(output)[1].numbers(), ""

    def faults(self, tail: after_end.Tail, text: bytes) -> Optional[list[str]]:
        scene = scenes.read(tail.scene)
        if not self.draw and not program.is_quick(self.clocks * len(tail.lines), scene.width, scene.height, PATIENCE_SECONDS):
            return None
        if tail.word == "shadow":
            return [note for note in [program.answer(self.built, ["shadow"], text)[2]] if note]
        answers = sessions.held(self.built, tail.scene, [line.partition(b"#")[0] for line in tail.lines])
        return [line.decode() for lines in answers for line in lines if line.startswith(b"? line ")]

    def say(self, line: str) -> None:
        ends.say("pxplanes explain", line)


def of_scene(text: bytes, draw: bool, at: Optional[list[int]], name: str = "scene") -> explaining.Answer:
    """The answer about a scene."""
    built = program.find(None)
    judge = explaining.Judge() if built is None else Program(built, draw)
    if built is None:
        ends.say("pxplanes explain", "no program is built; this is the tool's own reading (./pxplanes builds it)")
    if at and not judge.note(text) and explaining.own_reading(text)[0]:
        return explaining.Answer(ray(text, at), True, [])
    return explaining.answer_about(judge, text, name)


def ray(text: bytes, at: list[int]) -> list[str]:
    """The lines on a pixel's ray."""
    scene = scenes.read(text)
    if at[0] >= scene.width or at[1] >= scene.height:
        raise Trouble("the picture has columns to %d and rows to %d" % (scene.width - 1, scene.height - 1))
    return looks.ray(scene, *at)


def is_scene(text: bytes) -> bool:
    """Whether the first word of a text is that of a scene's header."""
    return listings.first_word(text) == b"pxscene"


def of_listing(text: bytes) -> tuple[list[str], int]:
    """The lines about a listing, and the status."""
    try:
        states.state(text, 0)
    except errors.Refused as refusal:
        shown = []
        if refusal.line:
            line = (scenes.cut_lines(text) + [b""])[refusal.line - 1]
            shown = explaining.marked(line, (len(line) - len(line.lstrip()), len(line.split(b"#")[0].rstrip())))
        return [IS_A_LISTING, str(refusal)] + shown + list_cures.of(text, refusal), frame.DIFFERS
    except errors.NoLibrary as error:
        raise Trouble("%s; %s" % (IS_A_LISTING, error)) from None
    seen = listings.Listing(text)
    return [IS_A_LISTING, "accepted: a grid of %d by %d pixels, %s in %s, %s named" % (
        1 << seen.nx, 1 << seen.ny, looks.plural(len(seen.operations), "operation"), looks.plural(seen.clocks, "clock"),
        looks.plural(seen.bits(), "memory bit"))], frame.SUCCESS


def fix(path: str, text: bytes, options: argparse.Namespace) -> int:
    """Writes the text if it is sure what was meant, and prints each change; otherwise prints the candidates. The status."""
    if options.in_place and path == "-":
        raise Trouble("--in-place needs a file")
    other = kinds.cure(text)
    if other:
        raise Trouble(other)
    name = name_of(path)
    mending = after_end.mended(text)
    if not mending.is_whole:
        print_unsure(text, name)
        chosen = choice(mending, name) if path != "-" and sys.stdin.isatty() and sys.stderr.isatty() else None
        if not chosen:
            print("%s: nothing is written, as it is not sure what was meant" % name, file=sys.stderr)
            return frame.DIFFERS
        mending = chosen if text.endswith(b"\n") else chosen._replace(text=chosen.text[:-1])
    for line, said in mending.changes:
        print("%s:%d: %s" % (name, line, said) if line else "%s: %s" % (name, said), file=sys.stderr)
    if options.diff or options.in_place and mending.text != text:
        sys.stdout.write(diff_of(path, text, mending.text))
    if options.in_place and mending.text != text:
        replace_and_keep(path, text, mending.text)
    elif not options.diff and not options.in_place:
        sys.stdout.buffer.write(mending.text)
    return frame.SUCCESS


def print_unsure(text: bytes, name: str) -> None:
    """Prints each mistake of a text that is not mended, with what it may have been."""
    for place in explaining.answer_about(explaining.Judge(), text, name).places:
        where = "%s:%d:%d: " % (name, place.line, place.column)
        print("%s%s [%s]" % (where, place.message, place.cause), file=sys.stderr)
        for said in [place.cure] if place.cure else place.candidates[:explaining.MOST_CANDIDATES]:
            print(where + ("sure: " if place.cure else "it may be: ") + said, file=sys.stderr)


def choice(mending: readings.Mending, name: str) -> Optional[readings.Mending]:
    """Asks a person at a terminal what is meant by each mistake that is not sure; None if that is none of the candidates."""
    while not mending.is_whole:
        mistake = next(each for each in mending.mistakes if not each.change)
        found = mistake.candidates[:explaining.MOST_CANDIDATES]
        for number, each in enumerate(found, 1):
            print("  %d: %s" % (number, each.sentence), file=sys.stderr)
        print("%s:%d: which one is meant (1 to %d; nothing for none)? " % (name, mistake.number, len(found)) if found else "", end="",
              file=sys.stderr, flush=True)
        said = sys.stdin.readline().strip() if found else ""
        if said not in map(str, range(1, len(found) + 1)):
            return None
        mending = after_end.mended(readings.joined(found[int(said) - 1].applied(scenes.cut_lines(mistake.text))))
    return mending


def replace_and_keep(path: str, old: bytes, new: bytes) -> None:
    """Writes a file, and keeps its old text as FILE.orig. If one of the two has no room, neither is there."""
    with open(path + ".orig", "xb") as original:
        try:
            original.write(old)
            original.flush()
            ends.replaced(path, new)
        except OSError:
            os.remove(path + ".orig")
            raise


def name_of(path: str) -> str:
    """What messages call a file."""
    return "<stdin>" if path == "-" else path


def diff_of(path: str, old: bytes, new: bytes) -> str:
    """The changes as a unified diff."""
    before, after = (part.decode("utf-8", "replace").splitlines(keepends=True) for part in (old, new))
    return "".join(difflib.unified_diff(before, after, path, path + " (mended)"))


def cost(text: bytes, options: argparse.Namespace) -> int:
    """Prints the two lines of `pxplanes cost`; of a listing too, which that command does not take."""
    body, _ = sessions.parted(text)
    seen = listings.Listing(body) if options.each or listings.is_listing(body) else None
    operations, clocks = (len(seen.operations), seen.clocks) if seen else program.cost(program.needed(None), body)
    if options.json:
        print(json.dumps({"operations": operations, "clocks": clocks}))
        return frame.SUCCESS
    if options.each and seen:
        print_each(seen)
    print("macros %d\nclocks %d" % (operations, clocks))
    return frame.SUCCESS


def print_each(listing: listings.Listing) -> None:
    """Prints a line for each operation of a listing, as a table."""
    each = zip(listing.lines, [0, *listing.ends], listing.ends, listing.operations)
    rows = [(line, begin, end - begin, " ".join([name, *map(str, numbers)]), passes.spoken(name, numbers))
            for line, begin, end, (name, numbers) in each]
    wide = max([9] + [len(row[3]) for row in rows])
    print("%5s %9s %6s  %-*s  %s" % ("line", "at clock", "clocks", wide, "operation", "which does"))
    for line, begin, clocks, operation, does in rows:
        print("%5d %9d %6d  %-*s  %s" % (line, begin, clocks, wide, operation, does))
