"""What is done on the page by those who look at it in a browser (browser.py). It is no tool itself."""
import base64
import json
import os
import zlib
from typing import Any

from pxplanes.errors import Trouble
from pxplanes import ends
from browser import Browser
from webdriver import Driven

AnyBrowser = Browser | Driven
PAGE = os.path.join(ends.TOP, "page", "pxplanes.html")
FIRST = os.path.join(ends.TOP, "docs", "scenes", "first.scene")


def link(path: str, tab: str = "write", **more: Any) -> str:
    """The part of an address that opens a scene's file in a part of the page, as the page packs it."""
    scene = {"name": os.path.splitext(os.path.basename(path))[0], "text": ends.content(path).decode(), "tab": tab, **more}
    packing = zlib.compressobj(9, zlib.DEFLATED, -15)
    packed = packing.compress(json.dumps(scene).encode()) + packing.flush()
    return "#" + base64.urlsafe_b64encode(packed).decode().rstrip("=")


def alone(page: AnyBrowser, path: str = PAGE, fragment: str | None = None) -> str:
    """Opens the page as a file, with the first scene of the documents or what its address says, and waits until the
    text is drawn or refused."""
    fragment = link(FIRST) if fragment is None else fragment
    if not os.path.isfile(path):
        raise Trouble("there is no page at %s; tools/package --web makes it" % path)
    # (a page that is open at this address would stay)
    page.open("about:blank")
    page.open("file://" + os.path.abspath(path) + fragment)
    return str(page.until("document.body.dataset.drawn !== 'no' && document.body.dataset.drawn"))


def called(page: AnyBrowser, function: str, *words: Any) -> Any:
    """What a function of JavaScript gives for some words; a promise is awaited."""
    return page.run("(%s)(...%s)" % (function, json.dumps(words)))


def asked(page: AnyBrowser, name: str, words: dict[str, Any], text: str) -> Any:
    """What the page answers to a question of its own."""
    return called(page, "(name, words, text) => studio.ask(name, words, text)", name, words, text)


def click(page: AnyBrowser, selector: str) -> None:
    page.run("document.querySelector(%r).click()" % selector)


def text_of(page: AnyBrowser, selector: str) -> str:
    return str(page.run("document.querySelector(%r).textContent" % selector)).strip()


def pixels(page: AnyBrowser, canvas: str) -> tuple[int, int, list[tuple[int, ...]]]:
    """Width, height, and the colours of the pixels of an image on the page."""
    found = page.run("(() => { const c = document.getElementById(%r); return [c.width, c.height, "
                     "[...c.getContext('2d').getImageData(0, 0, c.width, c.height).data]] })()" % canvas)
    return found[0], found[1], [tuple(found[2][at:at + 3]) for at in range(0, len(found[2]), 4)]


def point(page: Browser, canvas: str, x: int, y: int) -> None:
    """Clicks a pixel of an image, so that it is kept."""
    left, top = page.run("(() => { const c = document.getElementById(%r), r = c.getBoundingClientRect(); return "
                         "[r.left + r.width * (%d + .5) / c.width, r.top + r.height * (%d + .5) / c.height] })()" % (canvas, x, y))
    page.point(left, top, click=True)


def changed(page: AnyBrowser, name: str, value: object, event: str) -> None:
    """Gives a field of the page a value, as its user does."""
    page.run("(() => { const field = document.getElementById(%r); field.value = %r; field.dispatchEvent(new Event(%r)) })()"
             % (name, str(value), event))


def go(page: AnyBrowser, clock: int) -> None:
    """Moves the slider to a clock, and waits until it is shown."""
    changed(page, "clock", clock, "input")
    page.until("document.body.dataset.shown === '%d'" % clock)


def view(page: AnyBrowser, name: str) -> None:
    changed(page, "view", name, "change")


def source(page: AnyBrowser) -> str:
    """The text in the editor."""
    return str(page.run("studio.editor.text"))


def choose(page: AnyBrowser, words: str) -> None:
    """Chooses words in the text, so that what is typed takes their place."""
    page.run("(() => { const {code} = studio.editor, at = code.getValue().indexOf(%r); code.focus(); "
             "code.setSelection(code.posFromIndex(at), code.posFromIndex(at + %d)) })()" % (words, len(words)))


PASTED = """text => {
  const {code} = studio.editor, clipboardData = new DataTransfer();
  code.focus();
  code.execCommand("selectAll");
  clipboardData.setData("text/plain", text);
  document.body.dataset.drawn = "waits";
  code.getInputField().dispatchEvent(new ClipboardEvent("paste", {clipboardData, bubbles: true, cancelable: true}));
}"""
DRAWN = "!['no', 'waits'].includes(document.body.dataset.drawn) && document.body.dataset.drawn"


def pasted(page: AnyBrowser, text: str) -> str:
    """Pastes a text in the place of the one in the editor, and waits until it is drawn or refused: `yes` or
    `refused`."""
    called(page, PASTED, text)
    return str(page.until(DRAWN))


def written(page: Browser, text: str) -> str:
    """Types, and waits until the text is drawn or refused: `yes` or `refused`."""
    page.run("document.body.dataset.drawn = 'waits'")
    page.type(text)
    return str(page.until(DRAWN))


# Of each small picture of the time line its clock, its width, its height, and the colours of some places.
THUMBS = """async places => Promise.all([...document.querySelectorAll(".thumb")].map(async thumb => {
  const image = thumb.querySelector("img"), canvas = document.createElement("canvas"), pen = canvas.getContext("2d");
  await image.decode();
  Object.assign(canvas, {width: image.naturalWidth, height: image.naturalHeight});
  pen.drawImage(image, 0, 0);
  return [parseInt(thumb.getAttribute("aria-label").slice(6)), canvas.width, canvas.height,
    places.map(([x, y]) => [...pen.getImageData(x, y, 1, 1).data.slice(0, 3)])];
}))"""


def give(page: Browser, selector: str, path: str) -> None:
    """Gives a file to an input of the page."""
    root = page.call("DOM.getDocument")["root"]["nodeId"]
    node = page.call("DOM.querySelector", nodeId=root, selector=selector)["nodeId"]
    page.call("DOM.setFileInputFiles", nodeId=node, files=[os.path.abspath(path)])
