"""Looks at a pixel's life, at stops and at the numbers along the array's edges on the page, compared with a search over all clocks."""
import os
import random
import sys

sys.path[:0] = [os.path.join(os.getcwd(), folder) for folder in ("page/tests", "python/tests", "python")]
from pxplanes import ends
from pxplanes.machine import micros
from pxplanes.image import netpbm
from pxplanes.machine import passes
from pxplanes import program
from pxplanes.scene import scenes
from pxplanes.machine import sessions
from browser import Browser
from pages import alone, asked, called, click, go, link, text_of
import passes_read

BUILT, LOT = os.environ["PROGRAM"], 55
SCENES = (("docs/scenes/triangle.scene", (7, 8)), ("docs/scenes/two_fronts.scene", (1, 1)), ("docs/scenes/first.scene", (24, 16)), ("docs/scenes/first.scene", (50, 3)))
OPERATIONS = ("keep-sign", "set-bit", "copy", "all", "add-linear")
# A strip of bits as numbers, the lowest bit next to the array; a bit is 1 where its colour is light.
NUMBERS = """() => [["columns", (x, at) => [x, at]], ["rows", (y, at) => [at, y]]].map(([name, place]) => {
  const canvas = document.querySelector(".edge." + name), pen = canvas.getContext("2d"), bits = name === "columns" ? canvas.height : canvas.width;
  return Array.from({length: name === "columns" ? canvas.width : canvas.height}, (_, which) => Array.from({length: bits}, (_, at) => {
    const [red, green, blue] = pen.getImageData(...place(which, at), 1, 1).data;
    return [Number(green > 80), Number(red > 2 * blue)];
  }));
})"""


def histories(text, places, clocks):
    """Of each place what it holds after each clock: the words of the debugger's lines."""
    commands = [b"pixel %d %d" % place for place in places]
    for _ in range(clocks):
        commands += [b"step 1"] + [b"pixel %d %d" % place for place in places]
    answers = sessions.held(BUILT, text, commands)
    wide = len(places) + 1
    rows = [answers[:len(places)]] + [answers[len(places) + at * wide + 1:len(places) + (at + 1) * wide] for at in range(clocks)]
    return [[rows[clock][which][0].decode().split() for clock in range(clocks + 1)] for which in range(len(places))]


def operations_of(text):
    """The lines of a scene's listing, each with its first clock."""
    nx, ny, found = micros.read_listing(program.answer(BUILT, ["list"], text)[1])
    clock, out = 0, []
    for name, numbers in found:
        out.append((name, numbers, clock))
        clock += micros.clocks_of(name, numbers, nx + ny)
    return out, clock, nx + ny


def searched(changes, now, back):
    found = [clock for clock in changes if (clock < now if back else clock > now)]
    return (max(found) if back else min(found)) if found else None


def stops(page, path, place, text):
    operations, clocks, _ = operations_of(text)
    history, bits = histories(text, [place], clocks)[0], scenes.read(text).number_bits()
    lot, compared, found = random.Random(LOT), 0, 0
    ways = [({"what": "enable"}, lambda words: words[6]), ({"what": "face"}, lambda words: words[4][:bits])]
    ways += [({"what": "bit", "bit": bit}, lambda words, bit=bit: words[4][bit]) for bit in lot.sample(range(28), 6)]
    for words, of in ways:
        changes = [clock for clock in range(1, clocks + 1) if of(history[clock]) != of(history[clock - 1])]
        # (a face has won where its number is whole: the last bit of the copy that changes)
        changes = list({max(start for _, _, start in operations if start < clock): clock for clock in changes}.values())
        for now in [0, clocks] + lot.sample(changes, min(3, len(changes))) + [lot.randrange(clocks) for _ in range(3)]:
            for back in (False, True):
                due = searched(changes, now, back)
                reply = asked(page, "stop", {**words, "clock": now, "back": back, "x": place[0], "y": place[1]}, text.decode())
                if reply != {"clock": due}:
                    print("%s, %s, from %d%s: %s in place of %s" % (path, words, now, " back" if back else "", reply, due))
                compared, found = compared + 1, found + (due is not None)
    life = asked(page, "life", {"x": place[0], "y": place[1]}, text.decode())
    ended = [0] + [clock for _, _, clock in operations[1:]] + [clocks]
    enable = [life["enable"][str(at)] if isinstance(life["enable"], dict) else life["enable"][at] for at in range(len(operations) + 1)]
    if enable != [int(history[clock][6]) for clock in ended]:
        print("%s: its life is another one" % path)
    return compared, found


def rows(page, path, place, text):
    """What the page tells of a pixel's life, as sentences that the debugger confirms."""
    alone(page, fragment=link(path, "machine", clock=0, pixel=list(place)))
    page.until("document.body.dataset.life === '%d %d'" % place)
    operations, clocks, _ = operations_of(text)
    history, bits = histories(text, [place], clocks)[0], scenes.read(text).number_bits()
    reply = page.run("[...document.querySelectorAll('#lives .event')].map(each => [...each.querySelectorAll('span')].map(part => part.textContent))")
    fallen = [clock for clock in range(1, clocks + 1) if (history[clock - 1][6], history[clock][6]) == ("1", "0")]
    faces = [int(history[start][4][:bits][::-1], 2) for _, _, start in operations] + [int(history[clocks][4][:bits][::-1], 2)]
    won = [face for before, face in zip(faces, faces[1:]) if face != before]
    print("%s: put out %s times: %s; faces that won: %s, %d" % (path, "some" if fallen else "no", [int(clock) for what, _, clock in reply if "wins" not in what] == fallen,
          [(what.split(" ")[1]) for what, _, _ in reply if "wins" in what] == [str(face) for face in won], len(won)))
    page.run("document.querySelector('#lives .event').click()")
    page.until("document.body.dataset.shown === '%s'" % reply[0][2])
    print("the first, and where it leads:", " | ".join(reply[0]), "|", page.run("document.querySelector('.register').textContent"))


def by_keys(page, text):
    print("-- stops by keys")
    alone(page, fragment=link("docs/scenes/first.scene", "machine", clock=100, pixel=[24, 16]))
    page.until("document.body.dataset.shown")
    operations, clocks, _ = operations_of(text)
    enable = [words[6] for words in histories(text, [(24, 16)], clocks)[0]]
    changes = [clock for clock in range(1, clocks + 1) if enable[clock] != enable[clock - 1]]
    now = 100
    for key in "nnnN":
        page.press(key)
        now = searched(changes, now, key == "N")
        page.until("document.body.dataset.shown === '%d'" % now)
    page.press("o")
    page.type("keep-less")
    page.press("Enter", 13)
    now = min(clock for name, _, clock in operations if name == "keep-less" and clock > now)
    page.until("document.body.dataset.shown === '%d'" % now)
    print("on, back, and to an operation: as searched")
    for word in ("never", "bit", "bit x", "bit 72", "enable 3", "toggle-all"):
        page.run("document.getElementById('notice').hidden = true")
        page.run("document.getElementById('stop').value = %r" % word)
        page.press("n")
        page.until("!document.getElementById('notice').hidden")
        print("stop %s: %s" % (word, text_of(page, "#notice")))
    page.run("document.getElementById('stop').value = 'face'")
    page.press("End")
    page.until("document.body.dataset.shown === '%d'" % clocks)
    page.press("n")
    page.until("document.getElementById('notice').textContent.startsWith('face')")
    print("at the end:", text_of(page, "#notice"))


def edges(page, text):
    """The strips' numbers, and their sums against the leaves."""
    print("-- the numbers along the edges")
    alone(page, fragment=link("docs/scenes/first.scene", "machine", clock=0, pixel=[5, 6]))
    page.until("document.body.dataset.shown")
    page.press("x")
    operations, clocks, levels = operations_of(text)
    lot, places, marked, leaves = random.Random(LOT), [(0, 0), (5, 6), (40, 31), (63, 17)], 0, 0
    for clock in sorted(lot.sample(range(clocks), 60)):
        go(page, clock)
        name, numbers, start = [each for each in operations if each[2] <= clock][-1]
        is_shown = page.run("!document.querySelector('.edge.columns').hidden")
        if is_shown != (name in ("keep-sign", "keep-at-most", "load-linear", "add-linear")):
            print("at %d: shown: %s, at %s" % (clock, is_shown, name))
        if not is_shown:
            continue
        columns, beside = called(page, NUMBERS)
        a, b, c = numbers[:3]
        bits = len(columns[0])
        as_bits = lambda number: [number >> bit & 1 for bit in reversed(range(bits))]
        if [[bit for bit, _ in each] for each in columns] != [as_bits(a * x + c) for x in range(64)] or \
                [[bit for bit, _ in each] for each in beside] != [as_bits(b * y) for y in range(32)]:
            print("at %d: other numbers are along the edges" % clock)
        least = max(max(abs(a * x + c) for x in range(64)), max(abs(b * y) for y in range(32)), max(abs(a * x + b * y + c) for x in (0, 63) for y in (0, 31)))
        wanted = 40 if name == "keep-sign" else numbers[4]
        if bits != min(wanted, least.bit_length() + 1):
            print("at %d: %d bits" % (clock, bits))
        step = clock - start - 1 - levels
        own = [[at for at, (_, is_now) in enumerate(reversed(each)) if is_now] for each in columns + beside]
        if any(each != ([min(step, bits - 1)] if step >= 0 else []) for each in own):
            print("at %d: bits %s are marked, and %d is due" % (clock, own[0], step))
        marked += step >= 0
        if step < 0:
            continue
        reply = sessions.held(BUILT, text, [b"until %d" % clock] + [b"pixel %d %d" % place for place in places])[1:]
        number = lambda strip: sum(bit << at for at, (bit, _) in enumerate(reversed(strip)))
        sums = [number(columns[x]) + number(beside[y]) >> min(step, bits - 1) & 1 for x, y in places]
        if sums != [int(lines[0].decode().split()[12]) for lines in reply]:
            print("at %d: the leaf is not the bit of the sum" % clock)
        leaves += 1
    print("marked at some clocks: %s, and the leaves are the sums' bits: %s" % (marked > 5, leaves > 5))
    click(page, "[data-move=start]")
    go(page, [start for name, numbers, start in operations if name == "load-linear" and numbers[1]][0] + levels + 3)
    print(text_of(page, "#sum"))


# What is lit: the face, the line of the text, the pixels of an image, and of each pass whether it is, by the middle of its place in the
# third row of the time line.
LIT = """(image, middles) => {
  const canvas = document.getElementById(image), over = canvas.parentElement.querySelector(".lit"), line = document.getElementById("line-of-passes");
  // (the picture is 48 pixels wide, and the array 64)
  const pixels = over.hidden ? [] : [...over.getContext("2d").getImageData(0, 0, 48, over.height).data].filter((_, at) => at % 4 === 3);
  const ink = getComputedStyle(document.documentElement).getPropertyValue("--ink"), pen = line.getContext("2d");
  return [Number(document.body.dataset.lit), document.querySelector(".lit .CodeMirror-line")?.textContent.trim() ?? "", pixels.map(each => Number(each > 0)),
    middles.map(share => [...pen.getImageData(Math.floor(share * line.width), Math.floor(line.height * 2 / 5) + 2, 1, 1).data.slice(0, 3)].map(each => each.toString(16).padStart(2, "0")).join("") === ink.slice(1))];
}"""


def lights(page, text):
    """A face's line, its passes and its pixels, from whichever of them the pointer is on."""
    print("-- a face lights up")
    scene, lines = scenes.read(text), text.decode().split("\n")
    products = passes.products_of(scene, program.answer(BUILT, ["plan"], text)[1])
    said, (_, clocks, levels) = passes_read.operations(scene, products)[1], operations_of(text)
    starts = passes_read.starts(scene, products, levels)
    middles = [(one + other) / 2 / clocks for one, other in zip(starts, starts[1:])]
    shown = netpbm.images(program.answer(BUILT, ["render"], text)[1])[1].numbers()
    named = {face.number: (solid, face) for solid in scene.solids for faces in passes_read.faces_of(scene, solid) for face in faces if face.number}
    alone(page, fragment=link("docs/scenes/first.scene", "machine", clock=clocks))
    page.until("document.body.dataset.shown")
    page.press("t")
    line_of = {number: line for number, _, _, _, _, line in scene.faces()}
    for number, (solid, face) in named.items():
        due = [number, lines[line_of[number] - 1], [int(each == number) for each in shown],
               [each.startswith("candidate: face %d," % number) or each == "against `%s`: count %s" % (solid.name, face.said) for each in said]]
        ways = {"its line": over_line(page, line_of[number])}
        if number in shown:
            place = shown.index(number)
            ways["a pixel"] = over(page, "array", (place % 48 + 0.5) / 64, (place // 48 + 0.5) / 32)
        if any(due[3]):
            ways["a pass"] = over(page, "line-of-passes", middles[due[3].index(True)], 0.5)
        for what, (x, y) in ways.items():
            page.point(2, 2)
            page.until("document.body.dataset.lit !== '%d'" % number)
            page.point(x, y)
            page.until("document.body.dataset.lit === '%d'" % number)
            if called(page, LIT, "array", middles) != due:
                print("face %d, from %s: other things light up" % (number, what))
    page.point(2, 2)
    print("%d faces, from their lines, pixels and passes; and none:" % len(named), called(page, LIT, "array", [])[:3])


def over(page, canvas, across, down):
    return called(page, "(id, x, y) => { const r = document.getElementById(id).getBoundingClientRect(); return [r.left + r.width * x, r.top + r.height * y] }", canvas, across, down)


def over_line(page, line):
    return called(page, "line => { const r = document.querySelectorAll('.CodeMirror-code .CodeMirror-line')[line - 1].getBoundingClientRect(); return [r.left + 60, r.top + r.height / 2] }", line)


with Browser() as page:
    page.call("Emulation.setFocusEmulationEnabled", enabled=True)
    alone(page)
    compared = found = 0
    for path, place in SCENES:
        one, other = stops(page, path, place, ends.content(path))
        compared, found = compared + one, found + other
    print("%s stops compared with a search over all clocks, %s of them with a clock" % ("many" if compared > 300 else compared, "many" if found > 100 else found))
    rows(page, "docs/scenes/triangle.scene", (7, 8), ends.content("docs/scenes/triangle.scene"))
    rows(page, "docs/scenes/first.scene", (24, 16), ends.content("docs/scenes/first.scene"))
    by_keys(page, ends.content("docs/scenes/first.scene"))
    edges(page, ends.content("docs/scenes/first.scene"))
    lights(page, ends.content("docs/scenes/first.scene"))
    print("faults of the page:", page.faults())
