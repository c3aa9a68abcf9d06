"""Looks at the machine on the page in a browser: clocks forwards and back, planes, a pixel, keys, an exercise."""
import os
import sys

sys.path[:0] = [os.path.join(os.getcwd(), "page", "tests"), os.path.join(os.getcwd(), "python")]
from pxplanes.image import netpbm
from pxplanes import program
from pxplanes.machine import sessions
from browser import Browser
from pages import alone, asked, go, pixels, point, text_of, view

BUILT, FIRST = os.environ["PROGRAM"], "docs/scenes/first.scene"
READ = {"enable": lambda words: int(words[6]), "carry": lambda words: int(words[8]), "latch": lambda words: int(words[10]),
        "leaf": lambda words: int(words[12]), "18": lambda words: int(words[4][18:19])}
WHITE = (255, 255, 255)


def plane_is_the_debuggers(page, text, clock, read):
    """Whether the array is shown at a clock as the debugger answers of each pixel of a coarse grid."""
    width, height, shown = pixels(page, "array")
    places = [(x, y) for y in range(0, height, 3) for x in range(0, width, 5)]
    answers = sessions.held(BUILT, text, [b"until %d" % clock] + [b"pixel %d %d" % each for each in places])[1:]
    return [read(lines[0].split()) for lines in answers] == [int(shown[y * width + x] == WHITE) for x, y in places]


def look(page):
    text = open(FIRST, "rb").read()
    alone(page)
    page.press("2")
    page.until("document.body.dataset.shown")
    clocks = (0, 59, 1200, 3000, 5396)
    for clock in clocks + clocks[::-1]:
        go(page, clock)
        for name, read in READ.items():
            view(page, name)
            if not plane_is_the_debuggers(page, text, clock, read):
                print("at %d: %s differs" % (clock, name))
    print("planes at %d clocks are compared, and back" % len(clocks))
    go(page, 5396)
    view(page, "best face")
    faces = netpbm.images(program.answer(BUILT, ["render"], text)[1])[1].numbers()
    width, _, shown = pixels(page, "array")
    pairs = {(faces[y * 48 + x], shown[y * width + x]) for y in range(32) for x in range(48)}
    print("key B has the picture:", len(pairs) == len(set(faces)) == len({colour for _, colour in pairs}))
    go(page, 3000)
    print(text_of(page, "#operation") + " | " + text_of(page, "#line") + " | " + text_of(page, "#micro"))
    point(page, "array", 24, 16)
    page.until("document.body.dataset.inside === '24 16 3000'")
    print("its bits:", page.run("[...document.querySelectorAll('.memory td')].map(cell => cell.textContent).join('')")[:28])
    page.run("document.querySelector('[data-inside=waveform]').click()")
    page.until("!!document.querySelector('.wave')")
    print("its waveform:", page.run("document.querySelectorAll('.wave path').length"), "lines,",
          page.run("document.querySelectorAll('.wave .clocks').length"), "clocks")
    moves = []
    for key in "smpbMPr":
        before = page.run("document.body.dataset.shown")
        page.press(key)
        page.until("document.body.dataset.shown !== '%s'" % before)
        moves.append("%s %s" % (key, page.run("document.body.dataset.shown")))
    print("keys:", ", ".join(moves))

    page.press("4")
    page.run("delete document.body.dataset.shown")
    print(page.run("document.querySelectorAll('.exercise').length"), "exercises:", text_of(page, ".exercise b"))
    page.run("document.querySelectorAll('.exercise')[1].click()")
    page.until("document.body.dataset.shown === '205'")
    for _ in range(5):
        page.press("s")
    page.until("document.body.dataset.shown === '210'")
    print("nodes of the tree:", page.run("[...document.querySelectorAll('.nodes title')].slice(-16).map(each => each.textContent.match(/output (.)/)[1]).join('')"))
    print("the answer:", page.run("document.querySelector('#exercise-answer div').textContent"))
    for word in ("12.5", "-1", "5397", "none"):
        page.run("(() => { const field = document.getElementById('until'); field.value = %r; field.dispatchEvent(new Event('change')) })()" % word)
        print("until %s: %s, and the clock is %s" % (word, text_of(page, "#notice"), page.run("document.getElementById('until').value")))
    print("played fast:", page.run("(() => { let asked = 0; globalThis.confirm = () => { asked += 1; return false; }; const s = document.getElementById('speed'); "
                                   "s.value = '10'; s.dispatchEvent(new Event('change')); return `asked ${asked}, and ${s.value} a second`; })()"))
    for name, words in (("state", {"clock": 5397}), ("state", {"clock": -1}), ("state", {"clock": 1.5}), ("state", {}),
                        ("wave", {"x": 0, "y": 0, "first": 0, "last": 101}), ("wave", {"x": 0, "y": 0, "first": 9, "last": 8}),
                        ("wave", {"x": 64, "y": 0, "first": 0, "last": 9}), ("ray", {"x": 48, "y": 0})):
        print(name, words, asked(page, name, words, text.decode()).get("trouble"))
    print("faults of the page:", page.faults())


with Browser() as page:
    look(page)
