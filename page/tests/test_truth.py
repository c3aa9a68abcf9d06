"""Whether what the page shows is true at each moment: of the present text, of the pixel under the pointer, of what
was copied and saved."""
import struct
import zlib
from pathlib import Path

import pytest

import pages
from browser import Browser
from pages import alone, called, choose, click, go, link, source, text_of, written

DRAWN = "!['no', 'waits'].includes(document.body.dataset.drawn) && document.body.dataset.drawn"
DROP = """(name, bytes) => {
  const files = new DataTransfer();
  files.items.add(new File([Uint8Array.from(bytes)], name));
  document.dispatchEvent(new DragEvent("drop", {dataTransfer: files, bubbles: true, cancelable: true}));
}"""
HOUSE = pages.FIRST.replace("docs/scenes/first.scene", "gallery/house.scene")
NOTICE = "!document.getElementById('notice').hidden && document.getElementById('notice').textContent"


def machine(page: Browser) -> None:
    page.run("document.activeElement.blur()")
    page.press("2")


def is_pale(page: Browser, part: str) -> bool:
    return bool(page.run("document.getElementById(%r).classList.contains('old')" % part))


def drop(page: Browser, name: str, content: bytes) -> None:
    page.run("document.body.dataset.drawn = 'waits'")
    called(page, DROP, name, list(content))


def refuse(page: Browser) -> None:
    choose(page, "- shaft)")
    assert written(page, "- shafd)") == "refused"


def test_a_refused_texts_machine_is_not_shown_as_valid(page: Browser) -> None:
    refuse(page)
    machine(page)
    page.run("new Promise(done => setTimeout(done, 400))")
    assert is_pale(page, "machine")
    assert "unknown-name" in text_of(page, "#machine .refusal")
    assert page.run("document.querySelector('#machine .refusal').checkVisibility()")


def test_moves_leave_the_machine_of_a_refused_text_pale(page: Browser) -> None:
    machine(page)
    page.until("document.body.dataset.shown === '0'")
    assert not is_pale(page, "machine")
    page.press("t")
    refuse(page)
    page.run("document.activeElement.blur()")
    page.press("s")
    page.until("document.body.dataset.shown === '1'")
    assert is_pale(page, "machine")


@pytest.mark.parametrize("part", ["write", "machine"])
def test_a_refused_file_is_said_on_each_tab(page: Browser, part: str) -> None:
    if part == "machine":
        machine(page)
        page.until("document.body.dataset.shown")
    drop(page, "bad.scene", b"pxscen 1\n")
    page.until("document.body.dataset.drawn === 'refused'")
    assert "not-header" in text_of(page, "#%s .refusal" % part)
    assert page.run("document.querySelector('#%s .refusal').checkVisibility()" % part)
    canvas = {"write": "picture", "machine": "array"}[part]
    assert not page.run("document.getElementById(%r).checkVisibility({checkVisibilityCSS: true})" % canvas)


def test_a_page_that_opens_a_refused_text_says_so(page: Browser, tmp_path: Path) -> None:
    path = tmp_path / "bad.scene"
    path.write_text("pxscen 1\n")
    assert alone(page, fragment=link(str(path))) == "refused"
    assert "not-header" in text_of(page, "#write .refusal")
    assert not page.run("document.getElementById('picture').checkVisibility({checkVisibilityCSS: true})")


@pytest.mark.parametrize("tab, canvas, readout", [("1", "picture", "#readout"), ("2", "array", "#pixel-name")])
def test_the_pixel_under_the_pointer(page: Browser, tab: str, canvas: str, readout: str) -> None:
    """Places at both ends of some pixels (a mouse event has whole numbers); the image begins inside the border of its
    canvas."""
    page.run("document.activeElement.blur()")
    page.press(tab)
    page.until("document.body.dataset.shown" if tab == "2" else "document.body.dataset.drawn === 'yes'")
    left, top, scale = called(page, "id => { const c = document.getElementById(id), r = c.getBoundingClientRect(); "
                              "return [r.left + c.clientLeft, r.top + c.clientTop, c.clientWidth / c.width]; }", canvas)
    assert scale >= 4 and scale == int(scale)
    for x, y in ((1, 1), (7, 3), (20, 30), (31, 17), (47, 31)):
        for inset in (1, scale - 0.1):
            page.point(left + x * scale + inset, top + y * scale + inset)
            page.until("document.querySelector(%r).textContent.includes('%d, %d')" % (readout, x, y), 2)


def test_another_scene_begins_at_its_first_clock(page: Browser) -> None:
    machine(page)
    page.until("document.body.dataset.shown")
    go(page, 1200)
    drop(page, "other.scene", open(HOUSE, "rb").read())
    page.until("document.body.dataset.drawn === 'yes' && document.body.dataset.shown === '0'")
    assert page.run("document.getElementById('clock').value") == "0"


def test_an_edited_scene_stays_at_its_clock(page: Browser) -> None:
    machine(page)
    page.until("document.body.dataset.shown")
    go(page, 1200)
    page.press("t")
    choose(page, "- shaft)")
    assert written(page, "+ shaft)") == "yes"
    page.until("!document.getElementById('machine').classList.contains('old') && document.body.dataset.shown === "
               "'1200'")


DEPTHS = [(7 * x + 3 * y) % 500 for y in range(32) for x in range(48)]


def npy() -> bytes:
    head = "{'descr': '<u2', 'fortran_order': False, 'shape': (32, 48), }".ljust(117) + "\n"
    return b"\x93NUMPY\x01\x00" + struct.pack("<H", len(head)) + head.encode() + struct.pack("<1536H", *DEPTHS)


def pfm() -> bytes:
    rows = [DEPTHS[at:at + 48] for at in range(0, 1536, 48)]
    return b"Pf\n48 32\n-1.0\n" + struct.pack("<1536f", *(depth for row in rows[::-1] for depth in row))


def png(*filters: int) -> bytes:
    """A PNG file of greys of 16 bits, each line by the next of some filters: none, left, above."""
    lines = [struct.pack(">48H", *DEPTHS[at:at + 48]) for at in range(0, 1536, 48)]
    above, body = bytes(96), b""
    for at, line in enumerate(lines):
        kind = filters[at % len(filters)]
        taken = {0: bytes(96), 1: bytes(2) + line[:-2], 2: above}[kind]
        body += bytes([kind]) + bytes((own - other) % 256 for own, other in zip(line, taken))
        above = line
    chunks = ((b"IHDR", struct.pack(">IIBBBBB", 48, 32, 16, 0, 0, 0, 0)), (b"IDAT", zlib.compress(body)), (b"IEND", b""))
    return b"\x89PNG\r\n\x1a\n" + b"".join(struct.pack(">I", len(data)) + kind + data + struct.pack(">I", zlib.crc32(kind + data))
                                            for kind, data in chunks)


def pgm() -> bytes:
    return b"P5 48 32 # a comment\n65535\n" + struct.pack(">1536H", *DEPTHS)


def plain() -> bytes:
    return b"P2\n# a comment\n48 32\n500\n" + " ".join(map(str, DEPTHS)).encode()


MAPS = {"depth.npy": npy(), "depth.pfm": pfm(), "depth.png": png(0, 1, 2), "depth.pgm": pgm(), "plain.pgm": plain()}


@pytest.mark.everywhere
@pytest.mark.parametrize("name", MAPS)
def test_maps_are_dropped_on_compare(page: Browser, name: str) -> None:
    page.run("delete document.body.dataset.compared")
    drop(page, name, MAPS[name])
    ours = called(page, "text => studio.library().then(px => [...px.render(text).depths])", source(page))
    due = sum(own != other for own, other in zip(ours, DEPTHS))
    assert page.until("document.body.dataset.compared") == "%d of 1536 pixels differ" % due
    assert page.run("document.querySelector('main').dataset.tab") == "compare"


def test_two_maps_are_compared_without_a_scene(page: Browser, tmp_path: Path) -> None:
    """Of the depths one is greater by 40, and the text is refused meanwhile."""
    changed = DEPTHS[:100] + [DEPTHS[100] + 40] + DEPTHS[101:]
    (tmp_path / "one.npy").write_bytes(npy())
    (tmp_path / "other.pgm").write_bytes(b"P5 48 32 65535\n" + struct.pack(">1536H", *changed))
    refuse(page)
    page.run("document.activeElement.blur()")
    page.press("3")
    pages.give(page, "#second", str(tmp_path / "other.pgm"))
    pages.give(page, "#map", str(tmp_path / "one.npy"))
    assert page.until("document.body.dataset.compared") == "1 of 1536 pixels differ"
    assert "greatest difference of depths: 40, at 4 2" in text_of(page, "#compare-says")
    assert not is_pale(page, "compare") and not page.run("document.querySelector('#compare .refusal').checkVisibility()")
    choose(page, "- shafd)")
    assert written(page, "- shaft)") == "yes"
    page.run("delete document.body.dataset.compared")
    click(page, "#no-second")
    ours = called(page, "text => studio.library().then(px => [...px.render(text).depths])", source(page))
    differ = "%d of 1536 pixels differ" % sum(own != other for own, other in zip(ours, DEPTHS))
    # (what the text that was mended is compared with for the first time may come behind the click)
    assert page.until("document.body.dataset.compared === '%s' && document.body.dataset.compared" % differ) == differ


@pytest.mark.parametrize("name, content, said", [
    ("a.tif", b"II*\0" + bytes(60), "TIFF"), ("a.exr", b"\x76\x2f\x31\x01" + bytes(60), "EXR"), ("a.txt", b"1 2 3\n4 5 6\n", "numbers as text"),
    ("a.png", MAPS["depth.png"][:24] + b"\x08\x03" + MAPS["depth.png"][26:], "palette")], ids=["tiff", "exr", "text", "palette"])
def test_other_forms_are_refused_by_name(page: Browser, name: str, content: bytes, said: str) -> None:
    page.run("delete document.body.dataset.compared")
    drop(page, name, content)
    reported = page.until("document.body.dataset.compared")
    assert said in reported and "`pxplanes compare` reads it" in reported


@pytest.mark.parametrize("clipboard", ["undefined", "{writeText: () => Promise.reject(new DOMException('no', "
                                                    "'NotAllowedError'))}"])
def test_a_link_that_was_not_copied_is_shown(page: Browser, clipboard: str) -> None:
    page.run("void Object.defineProperty(navigator, 'clipboard', {value: %s, configurable: true})" % clipboard)
    click(page, "[data-take=link]")
    page.until("document.getElementById('copy').open")
    assert page.run("document.getElementById('copy-link').value") == page.run("document.body.dataset.link")
    assert not page.run(NOTICE)


def test_success_does_not_look_like_trouble(page: Browser) -> None:
    page.run("void Object.defineProperty(navigator, 'clipboard', {value: {writeText: async () => {}}, configurable: true})")
    click(page, "[data-take=link]")
    assert page.until(NOTICE) == "The link is copied."
    look = "[document.getElementById('notice').className, document.getElementById('notice').role]"
    assert page.run(look) == ["", "status"]
    page.run("document.getElementById('notice').hidden = true")
    drop(page, "box.csg", b"cube(10);")
    assert "models" in page.until(NOTICE)
    assert page.run(look) == ["bad", "alert"]


def test_an_operations_clocks_are_counted_from_0(page: Browser) -> None:
    """As docs/LESSON.md and the debugger count them: `at NOW of TOTAL macro M micro I`."""
    machine(page)
    page.until("document.body.dataset.shown")
    assert "operation 0 (of 0 to 185), next its clock 0 " in text_of(page, "#line")
    go(page, 1)
    assert "operation 1 (of 0 to 185), next its clock 0 " in text_of(page, "#line")


@pytest.mark.parametrize("more, said", [
    ({"image": "xrays"}, 'image "xrays"'), ({"clock": "soon", "tab": "machine"}, 'clock "soon"'),
    ({"clock": 99999, "tab": "machine"}, "There is no clock 99999"), ({"tab": "moon"}, 'tab "moon"'),
    ({"pixel": [900, 2]}, "There is no pixel 900, 2"), ({"pixel": "x"}, 'pixel "x"'),
    ({"view": "xrays", "tab": "machine"}, "xrays"), ({"text": "pxscene 1", "surprise": 1}, "surprise 1")])
def test_what_a_link_says_wrongly_is_named(page: Browser, more: dict[str, object], said: str) -> None:
    page.open("about:blank")
    tab = str(more.pop("tab", "write"))
    page.open("file://" + pages.PAGE + link(pages.FIRST, tab, **more))
    assert said in page.until("document.getElementById('notice') && " + NOTICE)
    page.until(DRAWN)


@pytest.mark.parametrize("fragment", ["#eJyrVkrOSS0", "#s=nothing", "#e=99"])
def test_a_damaged_link_is_named(page: Browser, fragment: str) -> None:
    page.open("about:blank")
    page.open("file://" + pages.PAGE + fragment)
    assert "wrong" in (said := page.until("document.getElementById('notice') && " + NOTICE)) or "damaged" in said
    assert page.until(DRAWN) == "yes"


@pytest.mark.everywhere
def test_a_readable_link(page: Browser) -> None:
    page.open("about:blank")
    page.open("file://" + pages.PAGE + "#s=house&c=40000&v=enable&p=20,20")
    page.until("document.body.dataset.shown === '40000'")
    assert page.run("document.getElementById('view').value") == "enable"
    assert text_of(page, "#pixel-name") == "20, 20"


def test_a_film_does_not_take_the_pictures_name(page: Browser) -> None:
    page.run("(globalThis.taken = [], HTMLAnchorElement.prototype.click = function () { taken.push(this.download); })")
    click(page, "[data-take=png]")
    page.until("taken.length === 1")
    machine(page)
    page.until("document.body.dataset.shown")
    click(page, "[data-take=film]")
    if page.until("document.getElementById('film').open || " + NOTICE) is not True:
        assert "records no WebM" in page.run(NOTICE) and not isinstance(page, Browser)
        return
    page.run("(document.getElementById('film-first').value = 0, document.getElementById('film-last').value = 2, "
             "document.getElementById('film-pace').value = 'clock', document.getElementById('film-webm').click())")
    page.until("taken.length === 2")
    assert page.run("taken") == ["first.png", "first-film.webm"]


@pytest.mark.everywhere
def test_a_cure_is_an_action(page: Browser, first: str) -> None:
    refuse(page)
    assert text_of(page, ".cure button") == "Write shaft"
    page.run("document.body.dataset.drawn = 'waits'")
    click(page, ".cure button")
    assert page.until(DRAWN) == "yes"
    assert source(page) == first


@pytest.mark.parametrize("typed, marked, says, action", [
    ("fron 0 0 320", "fron", "in this order", "Write front"), ("front 0 0 3.5", "3.5", "whole number", None),
    ("front 0 0", "front 0 0", "front A B C", None), ("front 9999999 0 0", "9999999", "", None),
    ("gont 0 0 320", "gont", "in this order", "Write front"),
    ("fron 0 0 320\nsolid", "fron", "in this order", "Write front"),
    ("xyznt 0 0 320", "xyznt", "in this order", None)])
def test_a_refusal_has_its_place_and_at_most_one_change(page: Browser, typed: str, marked: str, says: str, action: str | None) -> None:
    """There is an action only if exactly one word is near that the library takes there: `gont` is two keys from `front`, `xyznt` three."""
    choose(page, "front 0 0 320")
    # (the text before may still be drawn on a busy machine)
    written(page, typed)
    page.until("document.body.dataset.drawn === 'refused' && [...document.querySelectorAll('.wrong')].map(each => each.textContent).join('') === %r" % marked)
    assert text_of(page, "#verdict .note").startswith(("malformed line 18: ", "limit line 18: "))
    assert says in text_of(page, "#verdict")
    assert page.run("document.querySelector('.cure button')?.textContent ?? null") == action


def test_what_quick_play_hides_is_of_the_clock_that_is_shown_after_it(page: Browser) -> None:
    """While it plays too fast to be read, no word of an earlier clock is in sight; where it stops, all is of that clock: the words, the
    bits of the pixel that is kept, the time line, the images, and the state itself, of which each move brought a part."""
    shown = """(async () => {
      const {machine} = studio, {words} = await studio.ask("state", {clock: machine.state.clock}, machine.text), {sheet} = machine.wall;
      const fields = ["until", "clock", "of", "count", "line", "micro", "operation", "inside"].map(id => document.getElementById(id)).map(each => each.value ?? each.textContent);
      const images = [document.getElementById("array"), sheet].map(canvas => [...canvas.getContext("2d").getImageData(0, 0, canvas.width, canvas.height).data]);
      return [...fields, document.getElementById("now").style.transform, String(words) === String(machine.state.words), images.map(String).join()];
    })()"""
    alone(page, fragment="#s=first&t=machine&c=0&v=enable&p=24,16")
    page.until("document.body.dataset.shown === '0'")
    page.run("(studio.machine.player.isAllowed = true, document.getElementById('speed').value = '30', document.getElementById('play').click())")
    page.until("Number(document.body.dataset.frames) > 6 && document.getElementById('machine').classList.contains('quick')")
    in_sight = """[...['until', 'of', 'count', 'pass', 'line', 'micro', 'operation'].map(id => document.getElementById(id)),
      ...document.querySelectorAll('.quick-words, .register, .memory')].filter(each => getComputedStyle(each).visibility === 'visible').map(each => each.className)"""
    assert page.run(in_sight) == ["quick-words"] * 2
    page.run("document.getElementById('play').click()")
    page.until("studio.machine.isShown")
    clock, found = page.run("Number(document.body.dataset.shown)"), page.run(shown)
    assert "quick-words" not in page.run(in_sight) and clock > 0 and found[:2] == [str(clock)] * 2 and found[9]
    go(page, 0)
    # (so that the same planes are framed)
    go(page, page.run("studio.machine.course.moved('operation-back', %d)" % clock))
    go(page, clock)
    assert page.run(shown) == found


# Shows some clocks, one after the other, where it is quick as if it played, and gives what was wrong: all that is shown against the library,
# each image against the same one drawn again, and by how many pixels the marks are late (none, or below eight where it is quick).
WALK = """async (clocks, isQuick) => {
  const {machine} = studio, {wall, player, strip, parts: {bits}} = machine, px = await studio.library(), {text} = machine, wrong = [], [x, y] = machine.pixel;
  const image = canvas => new Uint32Array(canvas.getContext("2d").getImageData(0, 0, canvas.width, canvas.height).data.buffer), slider = document.getElementById("clock");
  const redrawn = (canvas, draw) => { const seen = image(canvas); draw(); return image(canvas).every((word, at) => word === seen[at]); };
  if (isQuick) { document.getElementById("speed").value = "30"; player.timer = 0; }
  for (const clock of clocks) {
    const {clock: from} = machine.state, [known, due] = [from, clock].map(each => px.state(text, each)), pixel = due.pixel(x, y), {memory, ...registers} = pixel;
    const {frames} = machine;
    machine.goTo(clock);
    while (machine.frames === frames) await new Promise(done => setTimeout(done));
    const {state, before} = machine, [start, end] = machine.course.view, scale = innerWidth / (end - start), late = [strip.clock, Number(slider.value)].map(each => (clock - each) * scale);
    const numbers = key => machine.fields.filter(({name}) => name.startsWith(key)).reverse().map(({name, at, length}) => `${name.split(" ")[1]} ${due.number(at, length, x, y)}`).join(", ");
    const [first, ...rows] = bits.lines.lines, found = selector => [...document.querySelectorAll(selector)].map(each => each.textContent);
    const seen = isQuick ? [...first.match(/\\d/g), ...rows.map(row => row.split(": ")[1])] : [...found(".register b"), ...found(".key b"), found(".memory td").join("")];
    const all = {
      words: String(state.words) === String(due.words) && String(before.words) === String(known.words),
      next: ["clock", "operation", "operationClock"].every(name => state[name] === due[name]) && state.micro === (due.next && String(due.next)),
      marks: late.every(each => isQuick ? each > -1 && each < 9 : each === 0),
      bits: seen.slice(0, 6).join() === [...Object.values(registers), numbers("best"), numbers("candidate")].join() && seen.slice(6).join("") === memory.slice(0, bits.used),
      said: !isQuick || machine.lines.lines[0].startsWith(`clock ${clock}   `) && machine.lines.lines[2] === (due.next ? machine.course.operations[due.operation][2] : "all is done: key B has the picture"),
      sum: document.getElementById("sum").hidden,
      wall: redrawn(wall.sheet, () => wall.lay()),
      array: redrawn(document.getElementById("array"), () => { machine.painted = null; machine.paint(); }),
      quick: !isQuick || [machine.lines, bits.lines].every(each => redrawn(each.canvas, () => each.fit())),
    };
    wrong.push(...Object.keys(all).filter(name => !all[name]).map(name => `${name} from ${from} to ${clock}`));
  }
  if (isQuick) player.stop();
  return wrong;
}"""
# By clocks, by operations, back, past a hundred clocks, to both ends, and to where it is.
WALKED = [1, 2, 3, 4, 60, 160, 161, 262, 261, 262, 300, 20, 21, 1500, 1560, 1620, 1620, 1621, 5390, 5396, 5396, 0, 3001, 3002]


@pytest.mark.parametrize("is_quick, scale", [(False, 1.25), (True, 1)], ids=["step by step", "quick"])
def test_each_move_shows_the_state_that_the_library_makes(page: Browser, is_quick: bool, scale: float) -> None:
    page.call("Emulation.setDeviceMetricsOverride", width=1280, height=720, deviceScaleFactor=scale, mobile=False)
    alone(page, fragment="#s=first&t=machine&c=0&v=enable&p=24,16")
    page.until("document.body.dataset.shown === '0' && studio.machine.pixel")
    assert called(page, WALK, WALKED, is_quick) == []


def quick(page: Browser) -> None:
    """As if it played too fast to be read, with no move under way."""
    page.run("(document.getElementById('speed').value = '30', studio.machine.player.timer = 0, 0)")


def test_words_of_quick_play_have_the_colours_of_the_theme_and_room_for_all_lines(page: Browser) -> None:
    """Where the page is narrow, the last line of the pixel's bits is as high as it is alone."""
    page.size(900, 700)
    alone(page, fragment="#s=triangle&t=machine&c=99&v=enable&p=7,7")
    page.until("document.body.dataset.shown === '99' && studio.machine.pixel")
    quick(page)
    page.run("studio.machine.goOn('clock-on')")
    page.until("document.body.dataset.shown === '100'")
    paper = """[studio.machine.lines, studio.machine.parts.bits.lines].map(({canvas}) =>
      `rgb(${[...canvas.getContext("2d").getImageData(canvas.width - 1, 0, 1, 1).data.slice(0, 3)].join(", ")})` === getComputedStyle(document.querySelector(".says")).backgroundColor)"""
    assert page.run(paper) == [True, True]
    click(page, "#theme")
    page.run("studio.machine.goOn('clock-on')")
    page.until("document.body.dataset.shown === '101'")
    assert page.run(paper) == [True, True]
    inked = """at => {
      const {lines} = studio.machine.parts.bits, {canvas: {width, height}} = lines, all = lines.lines;
      lines.write(all.map((_, row) => row === at ? all.at(-1) : ""));
      const {data} = lines.pen.getImageData(0, 0, width, height), of = Array.from({length: height}, (_, y) => data.slice(4 * y * width, 4 * (y + 1) * width).some((part, place) => part !== data[place % 4 + 4 * width - 4]));
      lines.write(all);
      return of.filter(Boolean).length;
    }"""
    count = page.run("studio.machine.parts.bits.lines.lines.length")
    assert count == 4 and called(page, inked, 0) > 5 and abs(called(page, inked, count - 1) - called(page, inked, 0)) <= 1
    page.run("studio.machine.stop()")


def test_quick_play_writes_only_the_lines_that_change(page: Browser) -> None:
    """Of three lines the second is another one, then none is; and lines that touch each other are written all, as one may lie over the next."""
    machine(page)
    page.until("document.body.dataset.shown")
    quick(page)
    page.run("studio.machine.goOn('clock-on')")
    page.until("document.body.dataset.shown === '1'")
    written = """async lines => {
      const {lines: own} = studio.machine, {pen} = own, known = pen.fillText, said = [];
      pen.fillText = (words, ...more) => { said.push(words); known.call(pen, words, ...more); };
      own.write(lines);
      const {canvas: {width, height}} = own, image = () => String(pen.getImageData(0, 0, width, height).data), seen = image();
      pen.fillText = known;
      own.fit();
      return [said, seen === image()];
    }"""
    for lines, due in ((["a", "b", "c"], None), (["a", "Bjg", "c"], ["Bjg"]), (["a", "Bjg", "c"], []), (["a", "b", "c"], ["b"]), (["jg"] * 5, ["jg"] * 5),
                       (["jg"] * 4 + ["A"], ["jg"] * 4 + ["A"])):
        said, is_whole = called(page, written, lines)
        assert is_whole and due in (None, said)
    page.run("studio.machine.stop()")


def test_quick_play_moves_neither_the_stretch_that_is_shown_nor_where_a_key_goes_on(page: Browser) -> None:
    """At the left end of a stretch of the time line, from 3000 * (1 - 0.8^5) = 2016.96 on, where eight pixels are 12 clocks; a key on the slider, which
    is behind, goes on from the clock that was asked for last."""
    machine(page)
    page.until("document.body.dataset.shown")
    go(page, 3000)
    for _ in range(5):
        page.press("c")
    go(page, 2017)
    view = page.run("studio.machine.course.view")
    quick(page)
    behind = []
    for _ in range(9):
        page.run("studio.machine.goOn('clock-on')")
        page.until("studio.machine.isShown")
        assert page.run("studio.machine.course.view") == view
        behind.append(page.run("studio.machine.state.clock - document.getElementById('clock').value"))
        assert page.run("(studio.machine.goOn('clock-on'), document.getElementById('clock').dispatchEvent(new KeyboardEvent('keydown')), "
                        "studio.machine.wanted - document.getElementById('clock').value)") == 0
        page.until("studio.machine.isShown")
    assert max(behind) > 0
    page.run("studio.machine.stop()")


DOT = """pxscene 1
picture 128 128
depth 9
solid wall 200 0 0
front 0 0 300
back 0 0 350
side 1 0 -3
solid dot 0 200 0
front 0 0 10
back 0 0 20
side 0 1 -1
side 0 -1 1
show (wall + dot)
end
"""


def test_a_small_image_of_depths_has_the_greys_of_the_large_one(page: Browser) -> None:
    """Though the nearest depth is in no row that it shows. Each of its places has the colour of the first pixel there."""
    assert pages.pasted(page, DOT) == "yes"
    machine(page)
    page.until("document.body.dataset.shown")
    go(page, page.run("studio.machine.course.clocks"))
    pages.view(page, "best depth")
    width, height, large = pages.pixels(page, "array")
    columns, rows, data = page.run("""(() => { const {sheet, tiles} = studio.machine.wall, {box} = tiles.find(({view}) => view.name === "best depth");
      return [...box.slice(2), [...sheet.getContext("2d").getImageData(...box).data]] })()""")
    firsts = [y * height // rows for y in range(rows)]
    assert 1 not in firsts and len(set(large)) == 3
    assert [tuple(data[at:at + 3]) for at in range(0, len(data), 4)] == [large[y * width + x * width // columns] for y in firsts for x in range(columns)]


def test_a_small_image_of_a_plane_is_as_light_as_many_of_its_bits_are_1(page: Browser) -> None:
    """Places of the letters' planes, which begin within words and go over their ends: by the bits of the library, counted one by one."""
    alone(page, fragment="#s=letters&t=machine&c=20000&v=enable")
    page.until("document.body.dataset.shown === '20000'")
    found = page.run("""studio.library().then(px => {
      const {wall: {sheet, tiles}, text} = studio.machine, state = px.state(text, 20000), wrong = [];
      for (const name of ["carry", "28", "52", "leaf"]) {
        const {box: [left, top, columns, rows], view: {plane}} = tiles.find(({view}) => view.name === name), {data} = sheet.getContext("2d").getImageData(left, top, columns, rows);
        const ends = (at, count) => [Math.floor(at * 256 / count), Math.floor((at + 1) * 256 / count)];
        for (let y = 0; y < rows; y++) for (let x = 0; x < columns; x++) {
          const [[from, to], [first, last]] = [ends(x, columns), ends(y, rows)];
          let ones = 0;
          for (let row = first; row < last; row++) for (let column = from; column < to; column++) ones += state.bit(plane, column, row);
          const share = Math.floor(255 * ones / (to - from) / (last - first)), due = [24, 30, 40].map(off => Math.round(off + (255 - off) * share / 255));
          if (String(due) !== String([...data.slice(4 * (y * columns + x), 4 * (y * columns + x) + 3)])) wrong.push([name, x, y]);
        }
      }
      return wrong.slice(0, 4);
    })""")
    assert found == []


def test_the_array_ends_with_the_colours_of_the_picture(page: Browser) -> None:
    machine(page)
    page.until("document.body.dataset.shown")
    go(page, page.run("studio.machine.course.clocks"))
    pages.view(page, "best colours")
    width, _, found = pages.pixels(page, "array")
    rgb = called(page, "text => studio.library().then(px => [...px.colour(text).rgb])", source(page))
    assert [found[y * width + x] for y in range(32) for x in range(48)] == [tuple(rgb[at:at + 3]) for at in range(0, len(rgb), 3)]


def test_a_state_that_does_not_come_is_said(page: Browser) -> None:
    machine(page)
    page.until("document.body.dataset.shown === '0'")
    page.run("(studio.machine.course.clocks += 9, studio.machine.goTo(studio.machine.course.clocks), 0)")
    assert "there is no such clock" in page.until(NOTICE)
