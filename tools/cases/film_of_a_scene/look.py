"""Opens films in a browser, and compares what they show after each operation with the debugger's answers, and the end with the picture."""
import os
import re
import subprocess
import sys

sys.path[:0] = [os.path.join(os.getcwd(), "page", "tests"), os.path.join(os.getcwd(), "python")]
from pxplanes.machine import micros
from pxplanes.image import netpbm
from pxplanes import program
from pxplanes.machine import sessions
from browser import Browser
from pages import go, pixels, text_of, view

BUILT = os.environ["PROGRAM"]


def film(name, *words):
    subprocess.run(["./pxplanes", "view", *words, "--page", name], stdout=subprocess.DEVNULL, check=True)
    return "file://" + os.path.abspath(name)


def opened(page, address):
    page.open(address)
    page.until("document.body.dataset.shown")


with Browser() as page:
    text = sessions.parted(open("cases/one_solid/stdin", "rb").read())[0]
    opened(page, film("film.html", "cases/one_solid/stdin"))
    print(page.run("document.title"), "|", page.run("[play.textContent, pace.value].join(', ')"), "| its text is shown:",
          page.run("[...document.querySelectorAll('.CodeMirror, .tabs, #save, #gallery, #show-text, .bar .file')].some(each => each.checkVisibility())"),
          "| a network:", bool(re.search(rb"(src|href)=\"?https?:|fetch\(\"http", open("film.html", "rb").read())))
    page.until("Number(document.body.dataset.frames) > 2")
    for key in "1et3":
        page.press(key)
    print("keys of the text:", page.run("document.querySelector('main').dataset.tab"), page.run("document.querySelector('.CodeMirror').checkVisibility()"))
    nx, ny, operations = micros.read_listing(program.answer(BUILT, ["list"], text)[1])
    clock, places = 0, [(x, y) for y in range(1 << ny) for x in range(1 << nx)]
    view(page, "enable")
    for name, numbers in operations:
        clock += micros.clocks_of(name, numbers, nx + ny)
        go(page, clock)
        answers = sessions.held(BUILT, text, [b"until %d" % clock] + [b"pixel %d %d" % place for place in places])[1:]
        if [int(lines[0].split()[6]) for lines in answers] != [int(colour == (255, 255, 255)) for colour in pixels(page, "array")[2]]:
            print("after clock %d enable is another one" % clock)
    print("%d operations" % len(operations))
    view(page, "best colours")
    image = netpbm.images(program.answer(BUILT, ["colour"], text)[1])[0]
    width, _, shown = pixels(page, "array")
    print("the end is the picture:", [shown[y * width + x] for y in range(image.height) for x in range(image.width)] == image.colours())
    with open("scene", "wb") as file:
        file.write(text)
    with open("scene", "rb") as file:
        subprocess.run(["./pxplanes", "view", "-", "--first", "6", "--page", "later.html"], stdin=file, stdout=subprocess.DEVNULL, check=True)
    page.call("Emulation.setEmulatedMedia", features=[{"name": "prefers-reduced-motion", "value": "reduce"}])
    opened(page, "file://" + os.path.abspath("later.html"))
    print("from operation 6 on:", page.run("document.body.dataset.shown"), text_of(page, "#line code"), "|", page.run("play.textContent"))
    print("faults of the page:", page.faults())
