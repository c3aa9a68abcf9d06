"""Drags numbers of a text, and the lines of its solids over the picture, and compares the text and the picture at each step."""
import os
import sys

sys.path[:0] = [os.path.join(os.getcwd(), "page", "tests"), os.path.join(os.getcwd(), "python")]
from pxplanes.image import netpbm
from pxplanes import program
from browser import Browser
from pages import alone, called, link, pixels

BUILT = os.environ["PROGRAM"]
LINE = "line => studio.editor.text.split('\\n')[line - 1].split('#')[0].trim()"
# The middle of a number of a line, of the grip, and of a place of the picture, on the page.
NUMBER = "(line, at) => { const r = document.querySelectorAll('.CodeMirror-code .CodeMirror-line')[line - 1].querySelectorAll('.cm-number')[at].getBoundingClientRect(); return [r.right - 3, r.top + r.height / 2] }"
GRIP = "() => { const g = document.querySelector('.grip'), r = g.getBoundingClientRect(); return g.hidden ? null : [r.left + r.width / 2, r.top + r.height / 2] }"
PICTURE = "(x, y) => { const c = document.getElementById('picture'), r = c.getBoundingClientRect(), s = c.clientWidth / c.width; return [r.left + 1 + (x + .5) * s, r.top + 1 + (y + .5) * s] }"


def mouse(page, kind, place, down=True):
    page.call("Input.dispatchMouseEvent", type=kind, x=place[0], y=place[1], **({"button": "left", "buttons": 1, "clickCount": 1} if down else {}))


def dragged(page, places, line, due):
    """Drags through places; after each the line is the expected one, and the picture the program's of the whole text."""
    mouse(page, "mouseMoved", places[0], False)
    mouse(page, "mousePressed", places[0])
    for place, words in zip(places[1:], due):
        mouse(page, "mouseMoved", place)
        page.until("(%s)(%d) === %r" % (LINE, line, words), 5)
        page.until("document.body.dataset.drawn === 'yes' && !document.getElementById('write').classList.contains('old')")
        image = netpbm.images(program.answer(BUILT, ["colour"], page.run("studio.editor.text").encode())[1])[0]
        if pixels(page, "picture") != (image.width, image.height, image.colours()):
            print("%s: another picture" % words)
    mouse(page, "mouseReleased", places[-1])


def cursor(page, words, offset=0):
    page.run("(() => { const {code} = studio.editor; code.focus(); code.setCursor(code.posFromIndex(code.getValue().indexOf(%r) + %d)) })()"
             % (words, offset))


def by_grip(page):
    mouse(page, "mouseMoved", called(page, NUMBER, 12, 2), False)
    x, y = page.until("(%s)()" % GRIP)
    dragged(page, [(x + 4 * step, y) for step in (0, 1, 4, -3, -30)], 12, ["side -1 0 %d" % (29 + step) for step in (1, 4, -3, -30)])
    mouse(page, "mouseMoved", called(page, NUMBER, 1, 0), False)
    print("by the grip; of the head's number there is none:", page.run("(%s)()" % GRIP))


def follows(page):
    """Many moves, one after the other, over a scene that takes a while: each text is drawn before the next one comes."""
    alone(page, fragment=link("gallery/pawn.scene"))
    page.run("globalThis.early = globalThis.texts = 0; studio.editor.code.on('beforeChange', () => { texts += 1; early += document.body.dataset.drawn === 'no'; })")
    mouse(page, "mouseMoved", called(page, NUMBER, 6, 2), False)
    x, y = page.until("(%s)()" % GRIP)
    mouse(page, "mousePressed", (x, y))
    for step in range(1, 41):
        mouse(page, "mouseMoved", (x + 4 * step, y))
    page.until("(%s)(6) === 'back 0 -42052 11033745 178 138 85'" % LINE)
    mouse(page, "mouseReleased", (x + 160, y))
    print("the picture follows:", page.run("[texts > 1, early].join(', and before it was drawn: ')"))


def by_lines(page):
    cursor(page, "side 1 0 -19")
    # (they are drawn with the next image)
    print("lines of the shaft's sides:", page.until("document.querySelectorAll('.handles g').length"))
    place = lambda x, y=3: called(page, PICTURE, x, y)
    # (a side at 1 * x - 19 = 0, to x 21, 10 and 25.4)
    dragged(page, [place(19), place(21), place(10), place(25.4)], 11, ["side 1 0 %d" % -x for x in (21, 10, 25)])
    cursor(page, "front 12 0 -188")
    print("where the right slope meets the others:", page.run("document.querySelectorAll('.handles g').length"))
    # (it meets the base where 12 * x - 188 = 268: at x 38; there it is dragged to x 35 and 40, where 12 * 35 - 152 and 12 * 40 - 212 are 268)
    dragged(page, [place(38, 16), place(35, 16), place(40, 16)], 8, ["front 12 0 %d 160 140 120" % c for c in (-152, -212)])
    print("by the lines")


def by_keys(page):
    cursor(page, "front 0 0 320", 10)
    due = 320
    for key, shift, step in (("ArrowUp", 0, 1), ("ArrowUp", 8, 10), ("ArrowDown", 0, -1), ("ArrowDown", 8, -10), ("ArrowDown", 8, -10)):
        page.press(key, {"ArrowUp": 38, "ArrowDown": 40}[key], 1 | shift)
        due += step
        page.until("(%s)(18) === 'front 0 0 %d'" % (LINE, due), 5)
    page.press("z", 90, modifiers=2)
    print("by keys, and undone:", called(page, LINE, 18))
    for words, offset in (("depth 9", 2), ("# its upper", 1), ("pxscene 1", 9)):
        before = page.run("studio.editor.text")
        cursor(page, words, offset)
        page.press("ArrowUp", 38, 1)
        print("no number at %r:" % words, page.run("studio.editor.text") == before)


with Browser() as page:
    page.call("Emulation.setFocusEmulationEnabled", enabled=True)
    alone(page)
    by_grip(page)
    alone(page)
    page.run("localStorage.clear()")
    page.run("document.getElementById('as-it-was').click()")
    by_lines(page)
    by_keys(page)
    follows(page)
    print("faults of the page:", page.faults())
