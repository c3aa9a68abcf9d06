"""Whether the page's modules are clean, the page is what they make, and it needs no newer browser than it says."""
import os
import re
import shutil
import subprocess
from pathlib import Path
from typing import Iterator

import pytest

import pages
import web_page
from browser import Browser
from conftest import FIRST, TOP

NODE_PATH = "/usr/share/nodejs"


@pytest.mark.skipif(shutil.which("eslint") is None, reason="there is no eslint")
def test_eslint_finds_nothing() -> None:
    words = ["eslint", "-f", "unix", "--ext", ".js,.mjs", "page/src", "page/library"]
    run = subprocess.run(words, cwd=TOP, env=dict(os.environ, NODE_PATH=NODE_PATH), capture_output=True, text=True)
    assert run.returncode == 0, run.stdout + run.stderr


def test_the_page_is_what_its_parts_make() -> None:
    text = web_page.read(web_page.PAGE)
    held, crates = web_page.library_in(text)
    assert web_page.opened(text) == web_page.opened(web_page.page(held, crates))


def test_the_page_has_at_most_650_kb() -> None:
    assert os.path.getsize(web_page.PAGE) <= 650_000


@pytest.mark.skipif(shutil.which("esbuild") is None, reason="there is no esbuild")
@pytest.mark.parametrize("part", ["worker", "code"])
def test_the_syntax_is_that_of_the_oldest_browsers(part: str) -> None:
    """esbuild, which writes what these browsers read, finds nothing to warn of, and nothing to write otherwise."""
    found = re.search(r'<script type="[a-z/]+" id="%s">\n(.*?)</script>' % part, web_page.read(web_page.PAGE), re.S)
    assert found
    runs = [subprocess.run(["esbuild", "--minify", "--log-level=warning", "--target=" + target], input=found.group(1), capture_output=True, text=True)
            for target in (",".join(web_page.OLDEST), "esnext")]
    assert [(run.returncode, run.stderr) for run in runs] == [(0, "")] * 2
    assert runs[0].stdout == runs[1].stdout


@pytest.mark.skipif(shutil.which("wasm-validate") is None, reason="there is no wasm-validate")
def test_the_module_needs_no_newer_webassembly(tmp_path: Path) -> None:
    """SIMD, bulk memory and what came before: no reference types, which Chromium 91 lacks, and nothing that wabt has off."""
    module, _ = web_page.library_in(web_page.read(web_page.PAGE))
    (tmp_path / "pxplanes.wasm").write_bytes(module)
    run = subprocess.run(["wasm-validate", "--disable-reference-types", str(tmp_path / "pxplanes.wasm")], capture_output=True, text=True)
    assert (run.returncode, run.stderr) == (0, "")
    without = subprocess.run(["wasm-validate", "--disable-simd", str(tmp_path / "pxplanes.wasm")], capture_output=True)
    assert without.returncode != 0


# What came to Chromium after 91, or to Firefox after 89, is taken away, in the page and in its workers.
OLDER = """(() => {
  const take = () => {
    const typed = [Array, String, Object.getPrototypeOf(Uint8Array)];
    for (const Kind of typed) for (const name of ["at", "findLast", "findLastIndex", "toSorted", "toReversed", "toSpliced", "with", "isWellFormed"])
      delete Kind.prototype[name];
    for (const name of ["CompressionStream", "DecompressionStream", "structuredClone", "scheduler", "reportError", "URLPattern", "OffscreenCanvas"])
      delete globalThis[name];
    for (const [of, names] of [[Object, ["hasOwn", "groupBy"]], [Array, ["fromAsync"]], [Promise, ["withResolvers", "try"]], [AbortSignal, ["timeout", "any"]]])
      for (const name of names) delete of[name];
    for (const name of ["showModal", "show", "close"]) if (globalThis.HTMLDialogElement) delete HTMLDialogElement.prototype[name];
    if (globalThis.Element) delete Element.prototype.checkVisibility;
    if (globalThis.crypto) delete Crypto.prototype.randomUUID;
    if (globalThis.Navigator) delete Navigator.prototype.locks;
  };
  take();
  const Own = Blob;
  globalThis.Blob = class extends Own {
    constructor(parts, options) { super(options?.type === "text/javascript" ? [`(${take})();`, ...parts] : parts, options); }
  };
})()"""


@pytest.fixture
def older() -> Iterator[Browser]:
    with Browser() as browser:
        browser.call("Page.addScriptToEvaluateOnNewDocument", source=OLDER)
        yield browser


def test_the_page_runs_without_what_the_oldest_browsers_lack(older: Browser) -> None:
    assert pages.alone(older) == "yes"
    older.run("document.activeElement.blur()")
    older.press("2")
    older.until("document.body.dataset.shown")
    pages.point(older, "array", 24, 16)
    pages.go(older, 3000)
    for part in ("circuit", "way", "waveform", "life", "bits"):
        pages.click(older, "[data-inside=%s]" % part)
    older.press("n")
    older.until("document.body.dataset.shown !== '3000'")
    pages.click(older, "#triangle")
    older.until("document.body.dataset.triangle")
    older.press("?")
    assert older.run("document.getElementById('keys').getBoundingClientRect().height > 100")
    pages.click(older, "#keys form button")
    assert older.run("document.getElementById('keys').getBoundingClientRect().height") == 0
    pages.click(older, "[data-take=link]")
    link = older.until("document.body.dataset.link")
    pages.alone(older, fragment="#" + link.split("#")[1])
    with open(FIRST, encoding="utf-8") as file:
        assert pages.source(older) == file.read()
    assert older.faults() == []


@pytest.mark.parametrize("agent, word", [("Chrome/96.0.1", "'unsafe-eval'"), ("Chrome/97.0.1", "'wasm-unsafe-eval'"), ("Firefox/89.0", "'wasm-unsafe-eval'")])
def test_the_policy_lets_each_browser_compile_and_nothing_load(older: Browser, agent: str, word: str) -> None:
    older.call("Network.setUserAgentOverride", userAgent="Mozilla/5.0 " + agent)
    assert pages.alone(older) == "yes"
    policy = older.run("document.querySelector('meta[http-equiv]').content")
    assert policy.split("script-src ")[1].split(" ")[0] == word
    blocked = """new Promise(done => {
      document.addEventListener("securitypolicyviolation", event => done(event.violatedDirective));
      fetch("http://127.0.0.1:9/").catch(() => {});
    })"""
    assert older.run(blocked) == "connect-src"
