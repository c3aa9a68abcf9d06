"""Looks at the wall of planes, at the time line, and at how the page opens and plays, in a browser, against the debugger's answers."""
import base64
import os
import random
import re
import sys

sys.path[:0] = [os.path.join(os.getcwd(), folder) for folder in ("page/tests", "python/tests", "python")]
from pxplanes import ends
from pxplanes.image import netpbm
from pxplanes.machine import passes
from pxplanes import program
from pxplanes.image import maps
from pxplanes.scene import scenes
from pxplanes.machine import sessions
from browser import Browser
import pages
from pages import FIRST, PAGE, alone, called, click, go, link, pixels, text_of
import passes_read

BUILT, OPENING = os.environ["PROGRAM"], "gallery/letters.scene"
LOT, CLOCKS, PLACES, WHITE = 55, 200, 12, [255, 255, 255]
REGISTERS = {"enable": 6, "carry": 8, "latch": 10, "leaf": 12}
# Whether the wall is what it is if all of it is drawn again; and of each image its name (as its caption, with the key's letter before it), its words,
# whether it is framed, and the colours of some places.
WALL = """places => {
  const {wall, state} = studio.machine, {sheet} = wall, pixels = new Uint32Array(state.width * state.height);
  const parts = () => sheet.getContext("2d").getImageData(0, 0, sheet.width, sheet.height).data;
  const shown = parts(), now = shown.join();
  // a frame is around an image, and orange
  const isFramed = (x, y) => [240, 136, 62].every((part, at) => shown[4 * (y * sheet.width + x) + at] === part);
  wall.lay();
  return [parts().join() === now, wall.tiles.map(({view, button, box: [x, y, wide, high]}) => {
    const caption = button.querySelector("span").textContent, key = /^key ([BT]) /.exec(button.title);
    view.fill(state, pixels);
    return [key ? `${key[1]} ${caption}` : caption, button.title, isFramed(x - 1, y + (high >> 1)) || isFramed(x + wide, y + (high >> 1)),
      places.map(([x, y]) => [0, 8, 16].map(by => pixels[y * state.width + x] >>> by & 255))];
  })];
}"""
MADE = "document.querySelectorAll('.thumb').length && !document.querySelector('.thumb:not(.made)')"
WATCHED = """globalThis.seen = []; addEventListener("DOMContentLoaded", () => new MutationObserver(() => {
  const {frames, shown} = document.body.dataset;
  if (frames && seen.at(-1)?.[0] !== frames) seen.push([frames, Number(shown), performance.now()]);
}).observe(document.body, {attributes: true}));"""


def held(text, clocks, places):
    """What each place holds at each clock: the words of the debugger's lines."""
    commands = [line for clock in clocks for line in [b"back 9999", b"until %d" % clock] + [b"pixel %d %d" % place for place in places]]
    answers = sessions.held(BUILT, text, commands)
    wide = len(places) + 2
    return [[answers[at * wide + 2 + each][0].decode().split() for each in range(len(places))] for at in range(len(clocks))]


def tile_is_wrong(keys, caption, words, shown, replies):
    """Whether an image of the wall shows some places otherwise than the debugger tells them."""
    bit = re.match(r"bit (\d+)", words)
    if caption in REGISTERS or bit:
        due = [int(each[REGISTERS[caption]] if caption in REGISTERS else each[4][int(bit.group(1))]) for each in replies]
        return due != [int(colour == WHITE) for colour in shown]
    key, what = caption.split(" ")
    numbers = [keys.number(each[4], key, "depth" if what == "depth" else "face") for each in replies]
    if what == "colours":
        return key == "B" and [keys.colours[number] for number in numbers] != shown
    pairs = [(a, b, one, other) for a, one in zip(numbers, shown) for b, other in zip(numbers, shown)]
    if what == "face":
        return any((a == b) != (one == other) for a, b, one, other in pairs)
    return any(one[0] < other[0] for a, b, one, other in pairs if a < b < (1 << keys.depth) - 1)


def walls(page, text):
    lot, keys = random.Random(LOT), passes.Keys(scenes.read(text))
    clocks = [lot.randrange(5397) for _ in range(CLOCKS // 2)]
    clocks = [clock for each in clocks for clock in (each, min(5396, each + 1))]
    places = [(lot.randrange(48), lot.randrange(32)) for _ in range(PLACES - 2)] + [(63, 0), (50, 31)]
    replies, before, framed, wrong = held(text, clocks, places), None, 0, 0
    for clock, now in zip(clocks, replies):
        go(page, clock)
        is_whole, wall = called(page, WALL, places)
        if not is_whole:
            print("at %d: a part of the wall is of another clock" % clock)
        for caption, words, is_framed, shown in wall:
            if tile_is_wrong(keys, caption, words, shown, now):
                print("at %d: %s, %s, is shown otherwise" % (clock, caption, words))
            own = [colour for at, colour in enumerate(shown)]
            if before and own != before[caption] and not is_framed:
                print("at %d: %s changed and is not framed" % (clock, caption))
            framed += is_framed
        planes = sum((keys.face if "fac" in caption or "col" in caption else keys.depth) if " " in caption else 1 for caption, _, is_framed, _ in wall if is_framed)
        words = 76 * 32 * 2 + 2 * 2 * (1 << 12) // 64
        if before and int(page.run("document.body.dataset.read")) != words + planes * 32 * 2:
            wrong += 1
        before = {caption: shown for caption, _, _, shown in wall}
    print("%d clocks, %d images each, framed: %s, read more or less than twice: %d" % (len(clocks), len(wall), "some" if 0 < framed < len(wall) * len(clocks) else framed, wrong))


def starts_of(text):
    """The clocks at which the passes of a scene begin, and its end."""
    scene = scenes.read(text)
    wide, high = program.grid(scene.width, scene.height)
    return passes_read.starts(scene, passes.products_of(scene, program.answer(BUILT, ["plan"], text)[1]), (wide * high).bit_length() - 1)


def timeline(page, text):
    print("-- the time line")
    keys, starts = passes.Keys(scenes.read(text)), starts_of(text)
    page.until(MADE)
    places = [(x, y) for x in (2, 14, 22, 24, 33, 45) for y in (1, 9, 16, 30)]
    shown = called(page, pages.THUMBS, places)
    clocks = [each[0] for each in shown]
    for (_, width, height, colours), now in zip(shown, held(text, clocks, places)):
        if (width, height) != (48, 32) or colours != [keys.colours[keys.number(each[4], "B", "face")] for each in now]:
            print("clock %d has another picture" % clocks[0])
    print("%d pictures, each in its own part of the clocks: %s" % (len(clocks), all(
        at * 5396 / len(clocks) < clock <= (at + 1) * 5396 / len(clocks) + 1 for at, clock in enumerate(clocks))),
        "| those that can be are of the end of a pass:", all(clock in starts or not any(
            at * 5396 / len(clocks) < start <= (at + 1) * 5396 / len(clocks) for start in starts) for at, clock in enumerate(clocks)))
    left, top, wide = page.run("(() => { const r = document.getElementById('line-of-passes').getBoundingClientRect(); return [r.left, r.top + 5, r.width] })()")
    page.point(left + wide * 0.3, top)
    clock = page.until("!document.getElementById('under').hidden && document.body.dataset.under")
    under = pixels(page, "under-picture")
    now = held(text, [int(clock)], places)[0]
    print("under the pointer, at about a third:", 0.28 < int(clock) / 5396 < 0.32, [list(under[2][y * under[0] + x]) for x, y in places] ==
          [keys.colours[keys.number(each[4], "B", "face")] for each in now], "|", text_of(page, "#under-words").split(":")[0] == "clock " + clock)
    page.point(left + wide * 0.5, top, click=True)
    page.until("Math.abs(Number(document.body.dataset.shown) - 2698) < 30")
    page.point(1, 1)
    print("and it goes again:", page.run("document.getElementById('under').hidden"))
    page.press("k")
    for key, due in (("ArrowRight", clocks[1]), ("ArrowRight", clocks[2]), ("End", clocks[-1]), ("ArrowLeft", clocks[-2]), ("Home", clocks[0])):
        page.press(key)
        page.until("document.body.dataset.shown === '%d'" % due)
    print("by keys: five pictures, five clocks")


def large(page):
    print("-- one large, another next to it")
    page.press("w")
    page.until("document.activeElement.className.startsWith('tile')")
    for key, modifiers in (("Home", 0), ("ArrowRight", 0), ("Enter", 0), ("ArrowRight", 0), ("Enter", 8)):
        page.call("Input.dispatchKeyEvent", type="keyDown", key=key, modifiers=modifiers, **({"text": "\r", "windowsVirtualKeyCode": 13} if key == "Enter" else {}))
        page.call("Input.dispatchKeyEvent", type="keyUp", key=key, modifiers=modifiers)
    print("by keys:", page.run("[view.value, beside.value, [...document.querySelectorAll('.tile[aria-pressed=true] span')].map(each => each.textContent).join(' ')].join(', ')"))
    go(page, 3000)
    one, other = pixels(page, "array"), pixels(page, "array-beside")
    replies = held(open(FIRST, "rb").read(), [3000], [(x, 9) for x in range(64)])[0]
    print("both as the debugger has them:", [[int(each[2][9 * 64 + x] == (255, 255, 255)) for x in range(64)] for each in (one, other)] ==
          [[int(each[at]) for each in replies] for at in (8, 10)])
    page.run("document.activeElement.blur()")
    for _ in range(14):
        page.press("z")
    page.run("document.getElementById('array').focus()")
    for key in ["ArrowLeft"] * 3 + ["ArrowUp"] * 2:
        page.press(key)
    print("zoomed:", page.run("""(() => { const c = document.getElementById('array'), s = c.parentElement.getBoundingClientRect(),
      m = c.parentElement.querySelector('.mark').getBoundingClientRect(), scale = c.clientWidth / c.width;
      return [scale, m.left >= s.left - 1 && m.right <= s.right + 1 && m.top >= s.top - 1 && m.bottom <= s.bottom + 1].join(', the pixel in sight: ') })()"""))
    page.run("document.activeElement.blur()")
    scales = set()
    for _ in range(14):
        page.press("Z")
        scales.add(page.run("document.getElementById('array').clientWidth / 64"))
    print("each scale a whole number:", all(abs(each - round(each)) < 0.01 for each in scales), len(scales) > 4)
    page.press("l")
    print("for a class:", page.run("[...document.querySelectorAll('button')].filter(each => each.checkVisibility() && !each.closest('#planes, #strip')).length"),
          "buttons,", page.run("parseFloat(getComputedStyle(document.getElementById('operation')).fontSize)"), "high; a clock on:", end=" ")
    page.press("s")
    page.until("document.body.dataset.shown === '3001'")
    page.press("Escape", 27)
    print(page.run("!document.body.classList.contains('teaching')"))


def opened(page, still):
    """The page as it opens by itself."""
    page.call("Emulation.setEmulatedMedia", features=[{"name": "prefers-reduced-motion", "value": "reduce" if still else "no-preference"}])
    alone(page, PAGE, "")
    return page.until("globalThis.seen.length && document.body.dataset.shown")


def sight(page):
    print("-- as it opens")
    page.run("localStorage.clear()")
    page.call("Page.addScriptToEvaluateOnNewDocument", source=WATCHED)
    page.size(1920, 1080)
    text, starts = open(OPENING, "rb").read(), set(starts_of(open(OPENING, "rb").read()))
    opened(page, False)
    print(page.run("[document.querySelector('main').dataset.tab, play.textContent, pace.value, document.title].join(', ')"))
    first = pixels(page, "array")[2]
    page.until("seen.length > 5")
    seen = page.run("seen")
    print("each place it comes by begins a pass:", all(clock in starts for _, clock, _ in seen), "| one after the other:",
          [clock for _, clock, _ in seen] == sorted(starts)[sorted(starts).index(seen[0][1]):][:len(seen)])
    most = max(sum(1 for _, _, other in seen if 0 <= other - time < 1000) for _, _, time in seen)
    print("more than three in a second:", most > 3)
    clocks = page.run("[...document.querySelectorAll('.thumb')].map(each => parseInt(each.getAttribute('aria-label').slice(6)))")
    print("forty pictures, the last at the end:", len(clocks), len(set(clocks)) == 40, max(clocks) == max(starts))
    print("half empty:", half_empty(page))
    page.press("b")
    page.until("play.textContent === 'play'")
    page.press("r")
    page.until("document.body.dataset.shown === '%d'" % max(starts))
    image = netpbm.images(program.answer(BUILT, ["colour"], text)[1])[0]
    last = pixels(page, "array")
    print("a key stops it, and at the end it is the picture:", last == (256, 256, image.colours()))
    drawn, still_due = sum(1 for colour in first if colour != (0, 0, 0)), sum(1 for one, other in zip(first, last[2]) if one != other)
    print("it opens in the midst:", drawn > 10000, still_due > 3000)
    page.press("1")
    print("half empty:", half_empty(page))
    opened(page, True)
    page.run("new Promise(done => setTimeout(done, 1200))")
    print("where motion is unwelcome:", page.run("[play.textContent, seen.length].join(', ')"))


def half_empty(page):
    """The halves of the page of whose pixels more than half have the colour of bare paper."""
    red, green, blue = map(int, re.findall(r"\d+", page.run("getComputedStyle(document.body).backgroundColor")))
    clip = {"x": 0, "y": 0, "width": 1920, "height": 1080, "scale": 0.25}
    image = maps.maps_of(base64.b64decode(page.call("Page.captureScreenshot", format="png", clip=clip)["data"]))[0].numbers
    bare, (high, wide) = image == red << 16 | green << 8 | blue, image.shape
    halves = {"left": bare[:, :wide // 2], "right": bare[:, wide // 2:], "top": bare[:high // 2], "bottom": bare[high // 2:]}
    return [name for name, half in halves.items() if half.mean() > 0.5]


with Browser() as page:
    text = ends.content(FIRST)
    page.call("Emulation.setFocusEmulationEnabled", enabled=True)
    alone(page, fragment=link(FIRST, "machine", clock=0))
    page.until("document.body.dataset.shown")
    walls(page, text)
    timeline(page, text)
    large(page)
    sight(page)
    print("faults of the page:", page.faults())
