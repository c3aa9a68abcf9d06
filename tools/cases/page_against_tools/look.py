"""Asks the page what the tools say by their own reading: of each text of the cases and of each mistake that people make the place of its
refusal, or its rays and course; and of maps as renderers write them what differs."""
import base64
import glob
import os
import sys
import tarfile

sys.path[:0] = [os.path.realpath(folder) for folder in ("page/tests", "python/tests", "python")]
from pxplanes.errors import Trouble
from pxplanes import ends
from pxplanes.explain import explaining
from pxplanes.machine import listings
from pxplanes.machine import micros
import pages
from pxplanes.machine import passes
from pxplanes import program
from pxplanes.image import maps as images
from pxplanes.scene import rays, scenes
from browser import Browser
import passes_read
import run_cases as cases
BUILT, CASES, SCENE = os.environ["PROGRAM"], os.path.join("tools", "cases"), "cases/drilled_block_and_post"
# The forms that the page reads, and files of them that it refuses by name: woven, with a palette, of single bits, by columns.
ON_THE_PAGE, NOT_ON_THE_PAGE = (".pgm", ".ppm", ".pfm", ".npy", ".png"), ("woven.png", "palette.png", "one.png", "fortran.npy")
# The page asks for a ray by one more name and bracket than a scene may have at most: of such a scene it shows the solids alone.
FULL = ("leaves_to_their_limit", "nested_64_deep")
FORMS = os.path.join("python", "tests", "data", "formats")
RAYS = ((0, 0), (1, 2), (2, 4), (3, 8))
MOST = 4000
BLANK = b"pxscene 1\npicture 20 12\ndepth 8\nsolid a 9 9 9\nfront 0 0 300\nshow a\nend\n"
REPLIES = """async texts => {
  const out = [];
  for (const text of texts) {
    const drawn = await studio.ask("draw", {}, text);
    if (drawn.refused || drawn.trouble || drawn.kind === "listing") {
      out.push({refused: drawn.refused ?? null, trouble: drawn.trouble ?? null});
      continue;
    }
    const {width, height} = drawn, own = {rays: []};
    for (const [at, over] of %s) {
      const [x, y] = [Math.floor((width - 1) * at / 3), Math.floor((height - 1) * over / 8)];
      const {solids, shown} = await studio.ask("ray", {x, y}, text);
      own.rays.push([solids.map(({run, ends}) => run && [...run, ...ends]), shown]);
    }
    const {operations, passes, trouble} = await studio.ask("program", {}, text);
    if (trouble) throw new Error(trouble);
    out.push({...own, rows: operations.map(([pass, line, words, clock]) => `${pass} ${clock} ${line}: ${words}`), passes: passes.map(({said}) => said)});
  }
  return out;
}""" % [list(each) for each in RAYS]
COMPARED = """async (text, map, tolerance) => {
  const bytes = Uint8Array.from(atob(map), letter => letter.charCodeAt(0)), began = performance.now();
  const answer = await studio.ask("compare", {tolerance, map: bytes}, text);
  return {lines: answer.lines, trouble: answer.trouble, rgb: answer.rgb ? btoa(String.fromCharCode(...answer.rgb.subarray(0, 30000))) : null};
}"""


def columns_of(text, note):
    """The columns of what the tools find wrong in a refused text; None if they name none."""
    known = explaining.own_reading(text)[1]
    if known is None or not known.span:
        return None
    line = scenes.cut_lines(text)[int(note.split(":")[0].split(" ")[-1]) - 1]
    return [len(line[:at].decode("utf-8", "replace").encode("utf-16-le")) // 2 for at in known.span]


def is_right(refused, text, note):
    """Whether the page gives the program's note, marks something of what the tools find wrong, and has no change that the program
    refuses at that line."""
    columns, span, fix = columns_of(text, note), refused["span"], refused["fix"]
    is_beside = columns and span and max(columns[0], span[0]) > min(columns[1], span[1])
    if refused["note"] != note or is_beside or bool(fix) and not is_mended(text, refused["line"], fix):
        return False
    return True


def is_mended(text, line, fix):
    rows = text.decode().split("\n")
    first, end = fix["columns"]
    rows[line - 1] = rows[line - 1][:first] + fix["words"] + rows[line - 1][end:]
    status, _, note = program.answer(BUILT, ["cost"], "\n".join(rows).encode())
    return status == 0 or int(note.split(":")[0].split(" ")[-1]) > line


def end_of(end, is_far=False):
    """The words of an end of a ray."""
    if is_far:
        return "far limit"
    return "%s%s, face %d%s" % (end.kind, " %d" % end.which if end.which else "", end.number, ", line %d" % end.line if end.which else "")


def ray_of(scene, x, y):
    found = rays.crossings(scene, x, y)
    solids = [each and [each.first, each.end, end_of(each.front), end_of(each.back, each.end == scene.far())] for each in found]
    return [solids, [list(run) for run in rays.runs(scene, found)]]


def due_of(text):
    """What is due of an accepted scene."""
    scene = scenes.read(text)
    own = [ray_of(scene, (scene.width - 1) * at // 3, (scene.height - 1) * over // 8) for at, over in RAYS]
    listed = [line for line in program.answer(BUILT, ["list"], text)[1].decode().split("\n")[2:-2]]
    operations, said = passes_read.operations(scene, passes.products_of(scene, program.answer(BUILT, ["plan"], text)[1]))
    assert [passes_read.line(name, numbers) for _, name, numbers, _ in operations] == listed
    clock, rows, (wide, high) = 0, [], program.grid(scene.width, scene.height)
    for number, name, numbers, words in operations:
        rows.append("%d %d %s: %s" % (number, clock, passes_read.line(name, numbers), words))
        clock += micros.clocks_of(name, numbers, (wide * high).bit_length() - 1)
    return {"rays": own, "rows": rows, "passes": said}


def texts():
    """Every text of the cases, every mistake, and the scenes of the gallery and the suite, as far as they are UTF-8 and small."""
    found = {}
    for name in cases.names():
        found[cases.read_case(os.path.join(cases.CASES, name))[1]] = name
    with tarfile.open(os.path.join(CASES, "explain_mistakes", "scenes.tar.gz")) as tar:
        for member in tar.getmembers():
            if member.isfile():
                found[tar.extractfile(member).read()] = member.name
    for folder in ("gallery", "docs/scenes", os.path.join(CASES, "explain_every_cause"), os.path.join(CASES, "explain_every_limit")):
        for path in sorted(glob.glob(os.path.join(folder, "*"))):
            if os.path.isfile(path) and os.path.getsize(path) < MOST:
                found[ends.content(path)] = path
    for text, name in found.items():
        try:
            if len(text) < MOST:
                yield name, text.decode("utf-8")
        except UnicodeDecodeError:
            pass


def looked(page, name, text, reply, counts):
    raw = text.encode()
    if listings.is_listing(raw):
        return
    status, _, note = program.answer(BUILT, ["cost"], raw)
    if reply.get("trouble"):
        print("%s: %s" % (name, reply["trouble"]))
    elif status in (3, 4) and "refused" in reply:
        if not reply["refused"] or not is_right(reply["refused"], raw, note):
            print("%s: %s in place of %s, columns %s" % (name, reply["refused"], note, columns_of(raw, note)))
        counts["refused"] += 1
    elif status == 0 and "rows" in reply:
        due = due_of(raw)
        if name in FULL:
            due["rays"] = [[solids, None] for solids, _ in due["rays"]]
        for key in due:
            if reply[key] != due[key]:
                print("%s: %s: %r in place of %r" % (name, key, str(reply[key])[:300], str(due[key])[:300]))
        counts["accepted"] += 1
    else:
        print("%s: status %d and %s" % (name, status, str(reply)[:200]))


def maps():
    """A scene, a map of whole numbers, and the tolerance."""
    scene = ends.content(os.path.join(SCENE, "stdin"))
    yield scene, ends.content(os.path.join(SCENE, "stdout")), 0
    yield scene, program.answer(BUILT, ["colour"], scene)[1], 0
    yield scene, program.answer(BUILT, ["render"], ends.content("cases/drilled_block/stdin"))[1], 3
    for path in sorted(glob.glob(os.path.join(FORMS, "*.*"))):
        if path.endswith(ON_THE_PAGE) and os.path.basename(path) not in NOT_ON_THE_PAGE:
            yield BLANK, ends.content(path), 0


def compared(page, scene, data, tolerance):
    """Whether the map is of whole numbers, and the page counts as many pixels that differ as NumPy does."""
    ours = images.maps_of(program.answer(BUILT, ["render"], scene)[1])
    try:
        theirs = images.maps_of(data)
    except Trouble:
        return False
    if theirs[0].kind == "real" or theirs[0].numbers.shape != ours[0].numbers.shape:
        return False
    differs = abs(ours[0].numbers.astype(int) - theirs[0].numbers.astype(int)) > tolerance
    if len(theirs) == 2:
        differs |= ours[1].numbers != theirs[1].numbers
    reply = pages.called(page, COMPARED, scene.decode(), base64.b64encode(data).decode(), tolerance)
    due = "%d of %d pixels differ" % (differs.sum(), differs.size)
    if not reply.get("lines") or reply["lines"][0] != due:
        print("compared: %s in place of %s" % (reply, due))
    return True


with Browser() as page:
    pages.alone(page)
    counts, chosen = {"refused": 0, "accepted": 0}, list(texts())
    for at in range(0, len(chosen), 40):
        part = chosen[at:at + 40]
        for (name, text), reply in zip(part, pages.called(page, REPLIES, [text for _, text in part])):
            looked(page, name, text, reply, counts)
    number = sum(compared(page, *each) for each in maps())
    print("texts: %s; maps: %s" % (", ".join("many %s" % word for word in counts if counts[word] > 50), "many" if number > 9 else number))
    print("faults of the page:", page.faults())
