"""The library for JavaScript: as an npm package in Node, in a page and in a worker, bundled by esbuild, and called wrongly."""
import functools
import http.server
import json
import os
import re
import shutil
import subprocess
import tarfile
import threading
from pathlib import Path
from typing import Iterator

import pytest

import web
import web_page
from browser import Browser
from conftest import FIRST, TOP

pytestmark = pytest.mark.skipif(shutil.which("node") is None, reason="there is no node")
HOSTILE = os.path.join(TOP, "page", "tests", "hostile.mjs")
# What a caller says of the first scene: the depth and the face at 24, 16 (docs/LIBRARY.md), and how it is refused.
SAID = """
export async function said(source, text) {
  const px = await load(source), {width, depths, faces} = px.render(text), out = [depths[16 * width + 24], faces[16 * width + 24]];
  for (const call of [() => px.render("pxscene 1\\nx\\n"), () => px.render(new Uint16Array(4)), () => px.state(text, 3).pixel(1000, 1000)])
    try { call(); } catch (error) { out.push(`${error.name}: ${error.message}`); }
  return out.join("; ");
}
"""
EXPECTED = ("320; 9; Refused: malformed line 2: unexpected; "
            "TypeError: text is of type Uint16Array; a string, an ArrayBuffer or a Uint8Array is expected; "
            "RangeError: pixel 1000, 1000 is outside of 64 by 32")


def node(*words: str, cwd: Path) -> str:
    run = subprocess.run(["node", *words], cwd=cwd, capture_output=True, text=True)
    assert run.returncode == 0, run.stderr
    return run.stdout.strip()


@pytest.fixture(scope="module")
def wasm() -> bytes:
    return web_page.library_in(web_page.read(web_page.PAGE))[0]


@pytest.fixture(scope="module")
def place(tmp_path_factory: pytest.TempPathFactory, wasm: bytes, first: str) -> Path:
    """A folder with the package installed in it, as npm does it from the tarball."""
    folder = tmp_path_factory.mktemp("npm")
    with tarfile.open(web.npm(wasm, "1.2.3", str(folder))) as tar:
        tar.extractall(folder / "node_modules")
    os.rename(folder / "node_modules" / "package", folder / "node_modules" / "pxplanes")
    (folder / "first.scene").write_text(first)
    return folder


def bundled(place: Path, leaf: str, *words: str) -> str:
    if shutil.which("esbuild") is None:
        pytest.skip("there is no esbuild")
    subprocess.run(["esbuild", leaf, "--bundle", "--outfile=host/" + leaf, "--log-level=error", *words], cwd=place, check=True)
    return (place / "host" / leaf).read_text(encoding="utf-8", errors="replace")


def test_the_tarball_has_what_its_description_names(tmp_path: Path, wasm: bytes) -> None:
    with tarfile.open(web.npm(wasm, "1.2.3", str(tmp_path))) as tar:
        names = {entry.name for entry in tar.getmembers()}
        held = tar.extractfile("package/package.json")
        assert held is not None
        described = json.load(held)
    assert described["version"] == "1.2.3" and described["types"].endswith(".d.mts")
    leaves = [*described["exports"]["."].values(), described["exports"]["./pxplanes.wasm"], described["types"]]
    assert names == {"package/" + leaf[2:] for leaf in leaves} | {"package/package.json", "package/README.md"}


def test_the_types_name_what_the_module_exports(place: Path) -> None:
    names = node("--input-type=module", "-e", 'import * as px from "pxplanes"; console.log(Object.keys(px).join(" "));', cwd=place)
    types = (place / "node_modules" / "pxplanes" / "pxplanes.d.mts").read_text()
    for name in names.split():
        assert any("export %s %s" % (kind, name) in types for kind in ("class", "function", "declare const", "const")), name


# What TypeScript says of each line is worked out by hand; the numbers are its own for an argument of a wrong type, and so on.
TYPED = """import {load, Refused, type Picture, type Text} from "pxplanes";
const px = await load(), scene: Text = "pxscene 1", picture: Picture = px.render(scene);
const floats: Float32Array = px.window(scene, 0n, 1, 2, 3, {isFloat: true}).depths, image: ImageData = px.imageData(scene);
const words: Uint32Array = px.clocks(px.state(scene, 5n), px.packed(scene, 0, 3)), kind: "near" | "front" | "back" = px.face(scene, 3).kind;
for (const text of [new ArrayBuffer(4), new SharedArrayBuffer(4), new Int8Array(4), new Uint8Array(4).buffer]) px.check(text);
try { px.check(scene); } catch (error) { if (error instanceof Refused) floats[0] = error.line; }
"""
WRONG_TYPES = [("px.render(new Uint16Array(4))", 2345), ("px.render(new DataView(new ArrayBuffer(4)))", 2345), ("px.render(5)", 2345),
               ("const name: string = px.check('').width", 2322), ("px.window('', 1, 2)", 2554), ("px.state('', '3')", 2345),
               ("px.render('', {isFloat: 'yes'})", 2769), ("px.paint('')", 2339)]


@pytest.mark.skipif(shutil.which("tsc") is None, reason="there is no tsc; Debian's node-typescript has it")
@pytest.mark.parametrize("words", ["--module nodenext --moduleResolution nodenext", "--module es2022 --moduleResolution node"])
def test_typescript_finds_the_types(place: Path, words: str) -> None:
    def said(lines: str) -> list[tuple[str, str]]:
        (place / "typed.mts").write_text(lines)
        options = "--noEmit --strict --target es2022 --lib es2022 " + words
        run = subprocess.run(["tsc", *options.split(), "typed.mts"], cwd=place, capture_output=True, text=True)
        return re.findall(r"^(\S+)\(.*error TS(\d+)", run.stdout, re.MULTILINE)

    assert said(TYPED) == []
    wrong = "import {load} from 'pxplanes';\nconst px = await load();\n" + ";\n".join(line for line, _ in WRONG_TYPES)
    assert said(wrong) == [("typed.mts", str(number)) for _, number in WRONG_TYPES]


def test_a_package_in_node(place: Path) -> None:
    (place / "in_node.mjs").write_text('import {load} from "pxplanes";\nimport {readFileSync} from "node:fs";' + SAID +
                                       'console.log(await said(undefined, readFileSync("first.scene", "utf8")));')
    assert node("in_node.mjs", cwd=place) == EXPECTED
    bundled(place, "in_node.mjs", "--platform=node", "--format=esm")
    shutil.copy(place / "node_modules" / "pxplanes" / "pxplanes.wasm", place / "host")
    assert node("host/in_node.mjs", cwd=place) == EXPECTED


class Quiet(http.server.SimpleHTTPRequestHandler):
    extensions_map = {**http.server.SimpleHTTPRequestHandler.extensions_map, ".mjs": "text/javascript", ".wasm": "application/wasm"}

    def log_message(self, *words: object) -> None:
        pass


@pytest.fixture
def host(place: Path) -> Iterator[str]:
    (place / "host").mkdir(exist_ok=True)
    shutil.copy(place / "first.scene", place / "host")
    server = http.server.ThreadingHTTPServer(("127.0.0.1", 0), functools.partial(Quiet, directory=str(place / "host")))
    threading.Thread(target=server.serve_forever, daemon=True).start()
    yield "http://127.0.0.1:%d/" % server.server_address[1]
    server.shutdown()


@pytest.mark.parametrize("with_wasm", [True, False], ids=["in the bundle", "next to it"])
def test_a_bundle_in_a_page_and_in_a_worker(opened: Browser, place: Path, host: str, with_wasm: bool) -> None:
    bytes_of = 'import wasm from "pxplanes/pxplanes.wasm";' if with_wasm else "const wasm = undefined;"
    fetched = "said(wasm, await (await fetch('first.scene')).text())"
    (place / "page.mjs").write_text('import {load} from "pxplanes";' + bytes_of + SAID + "document.body.dataset.said = await %s;" % fetched)
    (place / "worker.mjs").write_text('import {load} from "pxplanes";' + bytes_of + SAID + "postMessage(await %s);" % fetched)
    for leaf in ("page.mjs", "worker.mjs"):
        text = bundled(place, leaf, "--format=esm", "--loader:.wasm=binary")
        assert "node:" not in text
    if not with_wasm:
        shutil.copy(place / "node_modules" / "pxplanes" / "pxplanes.wasm", place / "host")
    (place / "host" / "page.html").write_text('<!DOCTYPE html><body><script type="module" src="page.mjs"></script>')
    opened.open(host + "page.html")
    assert opened.until("document.body?.dataset.said") == EXPECTED
    worker = "new Promise(done => { new Worker('worker.mjs', {type: 'module'}).onmessage = event => done(event.data); })"
    assert opened.run(worker) == EXPECTED


THREE = Path("/usr/share/javascript/three/build/three.module.js")


@pytest.mark.skipif(not THREE.exists(), reason="there is no three.js; Debian's libjs-three has it")
def test_a_scene_in_three(opened: Browser, place: Path, host: str) -> None:
    for path in (Path(TOP, "examples", "three", "index.html"), THREE, *(place / "node_modules" / "pxplanes").glob("pxplanes.*")):
        shutil.copy(path, place / "host")
    opened.open(host + "index.html")
    pixel = """(() => {
      const gl = document.querySelector("canvas").getContext("webgl2"), bytes = new Uint8Array(4);
      return [[24, 16], [11, 2], [11, 29]].map(([x, y]) => (gl.readPixels(x, 31 - y, 1, 1, gl.RGBA, gl.UNSIGNED_BYTE, bytes), bytes.join()));
    })()"""
    opened.until("document.querySelector('canvas')?.width === 48 && %s[0] !== '0,0,0,0'" % pixel)
    assert opened.run(pixel) == ["200,60,40,255", "0,0,51,255", "120,105,90,255"] and opened.faults() == []


@pytest.mark.parametrize("seed", [1, 2, 3])
def test_wrong_arguments_are_named_and_change_nothing(tmp_path: Path, wasm: bytes, seed: int) -> None:
    """4,000 calls, each with one wrong argument: an error with a name, the right answers as before; and again, with no more memory."""
    (tmp_path / "pxplanes.wasm").write_bytes(wasm)
    found = json.loads(node(HOSTILE, "pxplanes.wasm", FIRST, str(seed), "4000", cwd=tmp_path))
    assert found["failures"] == []
    assert all(found["outcomes"].get(kind, 0) > 100 for kind in ("TypeError", "RangeError", "Refused"))


def called(place: Path, wasm: bytes, lines: str) -> str:
    """What lines in Node print, where `px` is the library and `text` the first scene."""
    (place / "pxplanes.wasm").write_bytes(wasm)
    head = """import {readFileSync} from "node:fs";
const {load} = await import(%r), px = await load(readFileSync("pxplanes.wasm")), text = readFileSync(%r, "utf8");
"""
    return node("--expose-gc", "--input-type=module", "-e", head % ("file://" + web_page.GLUE, FIRST) + lines, cwd=place)


def test_windows_and_forms(tmp_path: Path, wasm: bytes) -> None:
    lines = """
const whole = px.render(text), part = px.window(text, 10, 5, 8, 5), texture = px.window(text, 10, 5, 8, 5, {isFloat: true, isFromBottom: true});
let differ = 0;
for (let y = 0; y < 5; y++) for (let x = 0; x < 8; x++) for (const map of ["depths", "faces"]) {
  differ += part[map][8 * y + x] !== whole[map][48 * (5 + y) + 10 + x];
  differ += texture[map][8 * (4 - y) + x] !== part[map][8 * y + x];
}
const {data, width} = px.imageData(text), pixel = (x, y) => data.subarray(4 * (y * width + x), 4 * (y * width + x) + 4);
console.log(differ, new Set(part.depths).size > 7, texture.depths.constructor.name, pixel(24, 16).join(), pixel(0, 0).join());
console.log(JSON.stringify(px.face(text, 3)));
for (const call of [() => px.face(text, 11), () => px.window(text, 0, 0, 513, 1), () => px.window(text, 4095, 0, 2, 1), () => px.render(text, 5)])
  try { call(); } catch (error) { console.log(error.name, error.message); }"""
    assert called(tmp_path, wasm, lines).splitlines() == [
        "0 true Float32Array 200,60,40,255 0,0,0,255",
        '{"solid":1,"name":"pyramid","kind":"front","plane":2,"line":6,"colour":[120,105,90]}', "Refused faces are numbered from 1 to 10",
        "RangeError width is 513; a whole number from 0 to 512 is expected",
        "Refused a window has not so many columns or rows", "TypeError form is 5; an object is expected"]


def test_a_hundred_thousand_renders_take_no_more_memory(tmp_path: Path, wasm: bytes) -> None:
    """After 1,000 and after 100,000: the module's memory is the same, the engine's within 1 MiB, and the process's within 8."""
    lines = """
const small = "pxscene 1\\npicture 4 2\\ndepth 4\\nsolid a 1 2 3\\nfront 1 0 0\\nback 0 0 9\\nshow a\\nend\\n";
const held = [];
for (let at = 1; at <= 100000; at++) {
  px.render(at % 100 ? small : text);
  if (at === 1000 || at === 100000) {
    gc();
    const {rss, heapUsed, arrayBuffers} = process.memoryUsage();
    held.push([px.bytes, heapUsed + arrayBuffers, rss]);
  }
}
const [module, engine, whole] = held[1].map((now, at) => now - held[0][at]);
console.log(module, engine < 2 ** 20 || engine, whole < 2 ** 23 || whole);"""
    assert called(tmp_path, wasm, lines) == "0 true true"


def test_a_state_is_made_after_another(tmp_path: Path, wasm: bytes) -> None:
    """Before, at and after the first clock of each operation, to the end: as the library makes it of the text, in words of its own, in those that are
    given, shared ones too, and in those of the state before. A state of another array, a later one, too few words, too many and lost ones are errors."""
    lines = """
const starts = px.course(text).map(({clock}) => clock), machine = px.machine(text, starts), {clocks} = machine, first = machine.state(0), wrong = [];
const shared = new Uint32Array(new SharedArrayBuffer(first.words.byteLength)), own = new Uint32Array(first.words.length);
const fields = ({clock, operation, operationClock, next, words}) => [clock, operation, operationClock, next && String(next), words.join()].join(" ");
const ends = [...new Set(starts.slice(1).flatMap(start => [start - 1, start, start + 1])), clocks - 1, clocks, clocks];
let known = first;
for (const [at, clock] of ends.entries()) {
  const before = fields(known), into = [null, own, shared, known.words][at % 4], made = machine.after(known, clock, into), due = fields(px.state(text, clock));
  if (fields(made) !== due || into && made.words !== into || !into && fields(known) !== before) wrong.push(clock);
  known = made.words === own || made.words === shared ? px.state(text, clock) : made;
}
console.log(wrong.join(), ends.length > 100);
const lost = new Uint32Array(first.words.length), small = px.state("pxscene 1\\npicture 4 2\\ndepth 4\\nsolid a 1 2 3\\nfront 1 0 0\\nback 0 0 9\\nshow a\\nend\\n", 0);
structuredClone(lost.buffer, {transfer: [lost.buffer]});
for (const words of [[small, 5], [machine.state(9), 8], [first, clocks + 1], [first, 5, own.subarray(1)], [first, 5, new Uint32Array(own.length + 1)], [first, 5, lost], [first, 5, new Float32Array(9)]])
  try { machine.after(...words); console.log("made"); } catch (error) { console.log(error.name); }"""
    assert called(tmp_path, wasm, lines).splitlines() == ["true", *["RangeError"] * 5, "TypeError", "TypeError"]
