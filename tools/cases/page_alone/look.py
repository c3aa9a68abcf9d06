"""Looks at the page by itself in a browser, as a file: types and mends a mistake, reads images, compares, goes away and comes back."""
import os
import re
import sys

sys.path[:0] = [os.path.join(os.getcwd(), "page", "tests"), os.path.join(os.getcwd(), "python")]
from pxplanes.image import netpbm
import pages
from pxplanes import program
from browser import Browser
from pages import alone, called, choose, click, give, pixels, point, text_of, written

BUILT, FIRST = os.environ["PROGRAM"], "docs/scenes/first.scene"
SIZES = ((390, 844), (768, 1024), (640, 360), (1280, 720))
KEYS = 1500
DRAWN = "!['no', 'waits'].includes(document.body.dataset.drawn) && document.body.dataset.drawn"
# Pairs of what is shown and lies over another thing; and whether the array is in sight.
OVER = """tab => {
  const shown = [...document.querySelectorAll("header > *, #texts, .editor, #verdict, main > section:not([hidden]) > *, .array > *, .transport > *")]
    .filter(each => each.checkVisibility() && getComputedStyle(each).position !== "sticky" && !each.closest(".transport"));
  const boxes = shown.map(each => [each, each.getBoundingClientRect()]), found = [];
  boxes.forEach(([one, a], at) => boxes.slice(at + 1).forEach(([other, b]) => {
    const wide = Math.min(a.right, b.right) - Math.max(a.left, b.left), high = Math.min(a.bottom, b.bottom) - Math.max(a.top, b.top);
    if (wide > 1 && high > 1 && !one.contains(other) && !other.contains(one)) found.push([one.id || one.className, other.id || other.className]);
  }));
  const canvas = document.getElementById(tab === "machine" ? "array" : "picture").getBoundingClientRect();
  return [found, canvas.width > 100 && canvas.top >= 0 && canvas.top + 100 < innerHeight && canvas.right <= innerWidth + 1
    && document.documentElement.scrollWidth <= innerWidth];
}"""
TAKEN = """() => { const own = URL.createObjectURL; globalThis.taken = []; URL.createObjectURL = blob => { taken.push(blob); return own(blob); };
  HTMLAnchorElement.prototype.click = function () { taken.push(this.download); }; }"""
# What is lacking, put into the page before it begins.
LACKING = {"no WebAssembly": "delete globalThis.WebAssembly", "no SIMD": "WebAssembly.validate = () => false"}


def colours_are_the_programs(page, text):
    image = netpbm.images(program.answer(BUILT, ["colour"], text)[1])[0]
    return pixels(page, "picture") == (image.width, image.height, image.colours())


def maps_are_the_programs(page, text):
    """Whether the image of faces has for each face of `render`'s map one colour, and that of depths is as light as it is near."""
    depths, faces = (image.numbers() for image in netpbm.images(program.answer(BUILT, ["render"], text)[1]))
    click(page, "[data-image=faces]")
    pairs = set(zip(faces, pixels(page, "picture")[2]))
    same = len(pairs) == len(set(faces)) == len({colour for _, colour in pairs})
    click(page, "[data-image=depths]")
    greys = [colour[0] for colour in pixels(page, "picture")[2]]
    order = sorted(zip(depths, greys))
    falling = all(one[1] >= other[1] for one, other in zip(order, order[1:]))
    click(page, "[data-image=colours]")
    return same and falling and greys[0] == 0 and max(greys) > 200


def names(page):
    return page.run("[...document.querySelectorAll('.text-tab')].map(each => each.textContent).join(', ')")


def texts(page):
    return page.run("studio.editor.text")


def put(page, text):
    """Pastes a text in the place of the one there, and waits until it is drawn or refused."""
    return pages.pasted(page, text)


def pick(page, name):
    called(page, "name => [...document.querySelectorAll('#scenes button')].find(each => each.textContent === name).click()", name)


def lines_under_pictures(name):
    """The list below a scene's pictures in docs/GALLERY.md."""
    rest = open("docs/GALLERY.md").read().split("](../gallery/%s.png)" % name)[1].split("```")[0]
    return [line[2:] for line in rest.split("\n") if line.startswith("- ")]


def taught(page):
    """How many scenes of the gallery show the lines of what they teach when they are chosen in the list."""
    names = [leaf[:-len(".scene")] for leaf in sorted(os.listdir("gallery")) if leaf.endswith(".scene")]
    shown = called(page, """names => names.map(name => {
      [...document.querySelectorAll("#scenes button")].find(each => each.textContent === name.replaceAll("_", " ")).focus();
      return [...document.querySelectorAll("#taught li")].map(each => each.textContent);
    })""", names)
    right = [lines != [] and lines == lines_under_pictures(name) for name, lines in zip(names, shown)]
    return "%d of %d" % (sum(right), len(names))


def dropped(page, name, content):
    page.run("document.body.dataset.drawn = 'waits'")
    called(page, "(name, content) => { const files = new DataTransfer(); files.items.add(new File([content], name)); "
           "document.dispatchEvent(new DragEvent('drop', {dataTransfer: files, bubbles: true, cancelable: true})) }", name, content)


def pictures(page, text):
    print("colours as the program's:", colours_are_the_programs(page, text))
    print("maps as the program's:", maps_are_the_programs(page, text))
    point(page, "picture", 24, 16)
    page.until("document.querySelectorAll('.ray-row').length")
    print("a pixel:", text_of(page, "#readout"))
    print("its ray:", page.run("[...document.querySelectorAll('.ray-row, .missed')].slice(1).map(row => row.textContent).join('; ')"))
    print("in words:", page.run("document.getElementById('picture').getAttribute('aria-label')"))


def mistakes(page, text):
    print("-- a mistake")
    choose(page, "- shaft)")
    print("typed:", written(page, "- shafd)"))
    print(page.run("[...document.getElementById('verdict').children].map(each => each.textContent).join(' | ')"))
    print("marked:", text_of(page, ".bad .CodeMirror-linenumber"), text_of(page, ".wrong"))
    print("the picture is pale:", page.run("document.body.classList.contains('refused') && "
                                           "Number(getComputedStyle(document.getElementById('picture')).opacity) < 1"))
    called(page, TAKEN)
    for what in ("png", "maps", "colours"):
        click(page, "[data-take=%s]" % what)
        page.until("!document.getElementById('notice').hidden")
    print("taken away of it:", page.run("taken.length"), text_of(page, "#notice"))
    choose(page, "- shafd)")
    print("mended:", written(page, "+ shaft)"), text_of(page, "#verdict"))
    print("colours as the program's:", colours_are_the_programs(page, text.replace(b"- shaft)", b"+ shaft)")))
    choose(page, "+ shaft)")
    print("as it was:", written(page, "- shaft)"))
    for said in ("# h\u00f6he \u00e4 \U0001d400\nsolid \u00fcber 1 2 3", "pxscene 1 // first", "pxscene\u00a01", "pxscene 1\npicture 4 4 # \u00e4\ndepth\u00a04"):
        put(page, said)
        page.until("document.body.dataset.drawn === 'refused'")
        print(repr(said)[-24:], "|", text_of(page, "#verdict"), "| marked:", page.run(
            "[...document.querySelectorAll('.wrong')].map(each => JSON.stringify(each.textContent)).join(' ')"))
    put(page, text.decode())
    page.until("document.body.dataset.drawn === 'yes'")


def compared(page):
    print("-- comparing")
    page.run("document.activeElement.blur()")
    page.press("3")
    give(page, "#map", "theirs.ppm")
    print(page.until("document.body.dataset.compared"))
    print(page.run("[...document.querySelectorAll('.group')].map(each => each.textContent).join('; ')"))
    with open("theirs.ppm", "r+b") as file:
        file.truncate(100)
    page.until("!document.getElementById('map').value")
    page.run("delete document.body.dataset.compared")
    give(page, "#map", "theirs.ppm")
    print("chosen again:", page.until("document.body.dataset.compared"))
    page.press("1")


def opened(page, text):
    print("-- texts")
    choose(page, "- shaft)")
    written(page, "+ shaft)")
    page.run("document.activeElement.blur()")
    click(page, "#gallery summary")
    page.until("document.activeElement.id === 'search'")
    for _ in range(4):
        page.press("ArrowDown", 40)
    print("the list by arrows:", names(page), "| at entry", page.run(
        "[...document.querySelectorAll('#scenes button')].indexOf(document.activeElement)"))
    print("what they teach:", taught(page))
    pick(page, "die")
    page.until("document.querySelectorAll('.text-tab').length === 2")
    print("opened:", names(page), "| own text untouched:", called(page, """() => { const tabs = document.querySelectorAll(".text-tab"); tabs[0].click(); const text = studio.editor.text;
      document.querySelectorAll(".text-tab")[1].click(); return text; }""") == text.decode().replace("- shaft)", "+ shaft)"))
    page.run("document.body.dataset.drawn = 'waits'")
    click(page, "#scenes button")
    print("a new one:", page.until(DRAWN), names(page), "|", text_of(page, "#verdict"))
    page.run("(studio.editor.focus(), studio.editor.code.execCommand('selectAll'))")
    page.press("Backspace", 8)
    print("an empty one:", page.until("document.body.dataset.drawn === 'refused' && 'refused'"), "|", text_of(page, "#verdict"))
    page.press("z", 90, modifiers=2)
    page.until("document.body.dataset.drawn === 'yes'")
    dropped(page, "bad.scene", "pxscen 1\n")
    page.until("document.body.dataset.drawn === 'refused'")
    print("a bad first line:", names(page), "|", text_of(page, "#verdict .note"))
    dropped(page, "none.txt", "nothing of a scene\n")
    page.until("document.body.dataset.drawn === 'refused'")
    print("none:", names(page), "|", text_of(page, "#verdict .note"))
    dropped(page, "box.csg", "cube(size = [10, 10, 10], center = false);")
    page.until("!document.getElementById('notice').hidden && document.getElementById('notice').textContent.includes('models')")
    print("a model:", text_of(page, "#notice"))


def undone(page):
    print("-- undoing")
    page.run("document.querySelectorAll('.text-tab')[0].click()")
    before = texts(page)
    # (an editor that is not in sight is quicker)
    click(page, "#tab-lesson")
    # (each change has an origin of its own, so that no two of them are one)
    called(page, "count => { for (let at = 0; at < count; at++) studio.editor.write(0, [9, 9], '#', '*' + at); }", KEYS)
    long = texts(page)
    turned = lambda command: called(page, "(count, command) => { for (let at = 0; at < count; at++) studio.editor.code.execCommand(command); }", KEYS, command)
    for way, command, due in (("back", "undo", before), ("on", "redo", long), ("back", "undo", before)):
        turned(command)
        print("%d changes %s:" % (KEYS, way), texts(page) == due)
    click(page, "#tab-write")


def drafts(page):
    print("-- drafts")
    choose(page, "depth 9")
    written(page, "depth 10")
    kept = texts(page)
    page.until("Object.entries(localStorage).some(([key, value]) => / first$/.test(key) && JSON.parse(value).text.includes('depth 10'))")
    alone(page)
    print("loaded again:", texts(page) == kept, "| reported:", page.run("!document.getElementById('draft').hidden"), "|", names(page))
    click(page, "#as-it-was")
    page.until(DRAWN)
    print("as it was:", texts(page) == open(FIRST).read())
    page.run("studio.editor.focus()")
    page.press("z", 90, modifiers=2)
    print("and undone:", texts(page) == kept)


def linked(page, text):
    print("-- a link, and a page with a scene")
    called(page, TAKEN)
    page.run("document.querySelectorAll('.text-tab')[0].click()")
    put(page, text.decode().replace("200", "201"))
    page.run("document.activeElement.blur()")
    page.press("2")
    page.until("document.body.dataset.shown")
    pages.go(page, 1200)
    pages.view(page, "carry")
    point(page, "array", 14, 16)
    click(page, "[data-take=link]")
    link = page.until("document.body.dataset.link")
    click(page, "[data-take=page]")
    content = page.until("taken.length > 1 && taken[0].text()")
    with open("own.html", "w", encoding="utf-8") as file:
        file.write(content)
    print("a link of %s letters" % ("few" if len(link) < 1500 else len(link)))
    for what, path, fragment in (("the link", pages.PAGE, "#" + link.split("#")[1]), ("the page", "own.html", "")):
        alone(page, path, fragment)
        page.until("document.body.dataset.shown === '1200' && document.body.dataset.inside === '14 16 1200'")
        print("%s: %s, %s, the text is there: %s" % (what, page.run("document.querySelector('main').dataset.tab"), page.run(
            "document.getElementById('view').value"), texts(page) == text.decode().replace("200", "201")))
    page.press("1")
    put(page, "#" * 20000)
    click(page, "[data-take=link]")
    page.until("!document.getElementById('notice').hidden && document.getElementById('notice').textContent.includes('16')")
    print("a long one:", text_of(page, "#notice"))


def sizes(page):
    print("-- sizes")
    page.run("localStorage.clear()")
    for width, height in SIZES:
        page.size(width, height)
        alone(page)
        for tab, key in (("write", "1"), ("machine", "2")):
            page.press(key)
            if tab == "machine":
                page.until("document.body.dataset.shown")
                point(page, "array", 3, 3)
                page.until("document.body.dataset.inside")
            over, in_sight = called(page, OVER, tab)
            if over or not in_sight:
                print("%d by %d, %s: over one another %s, in sight %s" % (width, height, tab, over[:4], in_sight))
    print("nothing lies over anything")


def fresh(page):
    """The page with the first scene alone, and no draft of any."""
    page.run("Storage.prototype.setItem = () => {}; localStorage.clear()")
    alone(page)


def waits(page):
    """The bar of a drawing that takes long, by when it is seen; a worker is asked late for it."""
    print("-- a drawing that takes long")
    fresh(page)
    page.run("""globalThis.post = Worker.prototype.postMessage; Worker.prototype.postMessage = function (message, ...more) {
      if (message.name === "draw") setTimeout(() => post.call(this, message, ...more), 3000); else post.call(this, message, ...more); }""")
    found = called(page, """async () => {
      const bar = document.querySelector("#write .working"), seen = () => getComputedStyle(bar).visibility === "visible";
      const pale = () => Number(getComputedStyle(document.getElementById("picture")).opacity) < 1, early = [seen(), pale()], began = performance.now();
      studio.editor.write(0, [9, 9], "#");
      let first = null;
      const paleAtOnce = pale();
      while (document.body.dataset.drawn === "no") {
        if (first === null && seen()) first = performance.now() - began;
        await new Promise(done => setTimeout(done, 5));
      }
      return [early, paleAtOnce, first !== null && first >= 140, seen(), pale()];
    }""")
    page.run("Worker.prototype.postMessage = post")
    print("bar and pale before: %s; pale at once: %s; the bar after 150 ms: %s; both when it is drawn: %s, %s" % tuple(found))


def dialog(page):
    """The browser's own dialog: a file that is chosen once, one that is not, and one that cannot be written."""
    print("-- the browser's dialog")
    fresh(page)
    page.run("""globalThis.names = []; globalThis.kept = []; globalThis.showSaveFilePicker = async ({suggestedName}) => { names.push(suggestedName);
      return {name: "first.scene", getFile: async () => new Blob(kept.slice(-2, -1)), createWritable: async () => ({write: async text => { kept.push(text); }, close: async () => { kept.push("closed"); }})}; }""")
    for words, other in (("- shaft)", "+ shaft)"), ("+ shaft)", "- shaft)")):
        choose(page, words)
        written(page, other)
        page.run("delete document.body.dataset.saved")
        page.press("s", modifiers=2)
        page.until("document.body.dataset.saved === 'first.scene' && kept.at(-1) === 'closed'")
        print("written as it is:", page.run("kept.at(-2) === studio.editor.text"), "| asked:", page.run("names.join()"), "|", names(page))
    dropped(page, "other.scene", open(FIRST).read())
    page.until(DRAWN)
    choose(page, "- shaft)")
    written(page, "+ shaft)")
    for what, error in (("let be", 'new DOMException("", "AbortError")'), ("full", 'new Error("the disk is full")')):
        page.run("document.getElementById('notice').hidden = true; globalThis.showSaveFilePicker = async () => { throw %s; }" % error)
        page.press("s", modifiers=2)
        if what == "full":
            page.until("!document.getElementById('notice').hidden")
        print("%s: %s, reported: %s" % (what, names(page), page.run("document.getElementById('notice').hidden ? '' : document.getElementById('notice').textContent")))
    page.run("delete globalThis.showSaveFilePicker")


def long_text(page):
    """The squares of colour next to the numbers of a long text, which they do not touch."""
    print("-- a long text")
    fresh(page)
    put(page, open(FIRST).read().replace("pxscene 1\n", "pxscene 1\n" + "#\n" * 1200))
    page.until(DRAWN)
    page.run("studio.editor.go(1203)")
    page.until("document.querySelectorAll('.CodeMirror-gutter-elt .chip').length > 5")
    print("squares:", page.run("document.querySelectorAll('.CodeMirror-gutter-elt .chip').length > 5"), "| nearest to a number, in pixels, above 0:", called(page, """() => {
      const numbers = [...document.querySelectorAll(".CodeMirror-linenumber")].filter(each => each.textContent > 1200), range = document.createRange();
      const left = Math.min(...numbers.map(each => { range.selectNodeContents(each); return range.getBoundingClientRect().left; }));
      return left - Math.max(...[...document.querySelectorAll(".CodeMirror-gutter-elt .chip")].map(chip => chip.getBoundingClientRect().right)) > 0; }"""))


def many_keys(page):
    """Five hundred keys, one after the other, over a scene that takes a while, and no other picture than that of the last."""
    print("-- many keys")
    page.run("localStorage.clear()")
    alone(page)
    pick(page, "die")
    page.until(DRAWN)
    last = called(page, """async count => {
      const {editor} = studio, row = editor.rows.findIndex(each => /^solid \\w+ \\d{3} /.test(each)), place = /^solid \\w+ /.exec(editor.rows[row])[0].length;
      for (let at = 0; at < count; at++) {
        editor.write(row, [place, place + 3], String(100 + at % 150));
        if (at % 10 === 0) await new Promise(done => setTimeout(done, 4));
      }
      return editor.text;
    }""", 500)
    page.until(DRAWN)
    print("the last picture:", colours_are_the_programs(page, last.encode()), "| of its text:",
          page.run("!document.getElementById('write').classList.contains('old')"))


def lacking(page):
    print("-- what it lacks")
    content = open(pages.PAGE, encoding="utf-8").read()
    parts = ("library", "offered")
    for part in parts:
        packed = re.search(r'id="%s"[^>]*>\n([A-Za-z0-9+/=]+)' % part, content).group(1)
        with open(part + ".html", "w", encoding="utf-8") as file:
            file.write(content.replace(packed, packed[:60] + ("A" if packed[60] != "A" else "B") + packed[61:]))
    opened = lambda path: page.open("file://" + os.path.abspath(path)) or page.until(
        "document.readyState === 'complete' && document.getElementById('needs').textContent.length > 70 && "
        "document.getElementById('needs').checkVisibility() && document.getElementById('needs').textContent")
    for part in parts:
        print("a byte flipped, %s:" % part, opened(part + ".html"))
    for what, script in LACKING.items():
        number = page.call("Page.addScriptToEvaluateOnNewDocument", source=script)["identifier"]
        print("%s:" % what, opened(pages.PAGE))
        page.call("Page.removeScriptToEvaluateOnNewDocument", identifier=number)


with Browser() as page:
    page.call("Emulation.setFocusEmulationEnabled", enabled=True)
    text = open(FIRST, "rb").read()
    print("drawn:", alone(page))
    pictures(page, text)
    mistakes(page, text)
    compared(page)
    opened(page, text)
    undone(page)
    page.run("localStorage.clear()")
    page.run("document.querySelectorAll('.text-tab')[0].click()")
    put(page, text.decode())
    drafts(page)
    linked(page, text)
    sizes(page)
    waits(page)
    dialog(page)
    long_text(page)
    many_keys(page)
    print("faults of the page:", page.faults())
    lacking(page)
