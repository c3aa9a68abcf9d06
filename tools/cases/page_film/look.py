"""Has the page make films of a scene: compares each picture that the browser records with the debugger's answers, and plays the WebM."""
import base64
import os
import sys

sys.path[:0] = [os.path.join(os.getcwd(), folder) for folder in ("page/tests", "python/tests", "python")]
from pxplanes import ends
from pxplanes.machine import passes
from pxplanes import program
from pxplanes.scene import scenes
from pxplanes.machine import sessions
from browser import Browser
from pages import FIRST, alone, called, changed, link, text_of, view
import passes_read

BUILT, WIDE, HIGH, FACTOR = os.environ["PROGRAM"], 48, 32, 10
PLACES = [(x, y) for x in range(0, WIDE, 5) for y in range(0, HIGH, 7)]
TAKEN = """() => { const own = URL.createObjectURL; globalThis.taken = []; URL.createObjectURL = blob => { taken.push(blob); return own(blob); };
  HTMLAnchorElement.prototype.click = function () { taken.push(this.download); }; }"""
BYTES = """async () => { const bytes = new Uint8Array(await taken.at(-2).arrayBuffer()); let out = "";
  for (let at = 0; at < bytes.length; at += 8192) out += String.fromCharCode(...bytes.subarray(at, at + 8192)); return btoa(out); }"""
# Notes the colours of places of each picture that is drawn on the canvas of a film.
RECORDED = """(places, factor, width, height) => {
  globalThis.films = [];
  const draw = CanvasRenderingContext2D.prototype.drawImage;
  CanvasRenderingContext2D.prototype.drawImage = function (...words) {
    draw.apply(this, words);
    if (this.canvas.width === width && this.canvas.height === height)
      films.push(places.map(([x, y]) => [...this.getImageData(factor * x + 4, factor * y + 4, 1, 1).data.slice(0, 3)]));
  };
}"""
# The size of a film, and the colours of places of its last picture, as the browser plays it.
PLAYED = """async (data, places, factor) => {
  const video = Object.assign(document.createElement("video"), {muted: true, src: "data:video/webm;base64," + data}), canvas = document.createElement("canvas");
  const ended = new Promise((done, fail) => { video.onended = done; video.onerror = () => fail(new Error("it does not play")); });
  await video.play();
  await ended;
  Object.assign(canvas, {width: video.videoWidth, height: video.videoHeight});
  const pen = canvas.getContext("2d");
  pen.drawImage(video, 0, 0);
  return [canvas.width, canvas.height, places.map(([x, y]) => [...pen.getImageData((x + .5) * factor, (y + .5) * factor, 1, 1).data.slice(0, 3)])];
}"""


def filmed(page, first, last, pace, speed="3"):
    """The bytes and the name of a film of a stretch."""
    page.run("taken.length = 0; document.getElementById('notice').hidden = true; document.querySelector('[data-take=film]').click()")
    page.until("document.getElementById('film').open")
    for name, value in (("first", first), ("last", last), ("pace", pace), ("speed", speed)):
        changed(page, "film-" + name, value, "change")
    page.run("document.getElementById('film-webm').click()")
    page.until("taken.length > 1 || !document.getElementById('notice').hidden && !/^a film:/.test(document.getElementById('notice').textContent)")
    if not page.run("taken.length"):
        return None, text_of(page, "#notice")
    return base64.b64decode(called(page, BYTES)), page.run("taken.at(-1)")


def held(text, clocks):
    answers = sessions.held(BUILT, text, [line for clock in clocks for line in [b"until %d" % clock] + [b"pixel %d %d" % place for place in PLACES]])
    wide = len(PLACES) + 1
    return [[each[0].decode().split() for each in answers[at * wide + 1:(at + 1) * wide]] for at in range(len(clocks))]


def shown(page):
    """The colours of the places of each picture that was shown to the recorder."""
    return called(page, "() => films.splice(0)")


def compared(page, text, clocks, pace, due):
    """Whether each picture that the browser recorded is as the debugger's answers have it."""
    _, name = filmed(page, clocks[0], clocks[-1], pace, "60")
    found = shown(page)
    for clock, colours, lines in zip(clocks, found, held(text, clocks)):
        if colours != [due(words) for words in lines]:
            print("at %d: another picture" % clock)
    print("%s by each %s: %d pictures of %d" % (name, pace, len(found), len(clocks)))


with Browser() as page:
    text = ends.content(FIRST)
    scene = scenes.read(text)
    keys, starts = passes.Keys(scene), passes_read.starts(scene, passes.products_of(scene, program.answer(BUILT, ["plan"], text)[1]), 11)
    alone(page, fragment=link(FIRST, "machine", clock=0))
    page.until("document.body.dataset.shown")
    called(page, TAKEN)
    picture = lambda words: keys.colours[keys.number(words[4], "B", "face")]
    called(page, RECORDED, PLACES, FACTOR, WIDE * FACTOR, HIGH * FACTOR)
    compared(page, text, starts, "pass", picture)
    view(page, "enable")
    compared(page, text, list(range(1190, 1215)), "clock", lambda words: [255] * 3 if words[6] == "1" else [24, 30, 40])
    view(page, "best colours")
    data, name = filmed(page, starts[-3], starts[-1], "pass", "10")
    print(name, "begins as WebM:", data[:4] == b"\x1a\x45\xdf\xa3")
    for words in ((5, 4, "clock", "3"), (0, 5397, "pass", "3"), (0, 5396, "clock", "3"), (0, 9, "clock", "61")):
        print(*words, "|", filmed(page, *words)[1])
    print("faults of the page:", page.faults())
    page.open("about:blank")
    width, height, shown = called(page, PLAYED, base64.b64encode(data).decode(), PLACES, FACTOR)
    gaps = [abs(one - other) for colour, words in zip(shown, held(text, [starts[-1]])[0]) for one, other in zip(colour, picture(words))]
    print("it plays, %d by %d; the last picture is the picture, as near as the form has it: %s" % (width, height, max(gaps) < 30))
