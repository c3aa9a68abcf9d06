"""The page as one file: esbuild bundles page/src/ into one script for the page and one for its workers, and both are
in page/src/index.html with the style, what the page offers, and the library. The last two are packed."""
import base64
import hashlib
import json
import os
import re
import shutil
import zlib
from typing import Any

import building
from pxplanes import ends
import installing
import lessons
from pxplanes.errors import Trouble

SOURCES = os.path.join(ends.TOP, "page", "src")
GLUE = os.path.join(ends.TOP, "page", "library", "pxplanes.mjs")
PAGE = os.path.join(ends.TOP, "page", "pxplanes.html")
LARGEST = 650000
# Where Debian's libjs-codemirror is.
LIBRARIES = "/usr/share/javascript"
# The browsers whose syntax is written: those that have SIMD (page/library/README.md).
OLDEST = ("chrome91", "firefox89", "safari16.4")
ESBUILD = ("esbuild", "--bundle", "--minify", "--log-level=error", "--target=" + ",".join(OLDEST),
           "--define:import.meta.url=location.href")
# The scenes that the page offers, by folders.
OFFERED = (("gallery", "gallery"), ("docs/scenes", "of the documents"), ("suite", "the suite"))
GALLERY = os.path.join(ends.TOP, "docs", "GALLERY.md")
TAUGHT = re.compile(r"(?m)^!\[its colours\]\(\.\./gallery/(\w+)\.png\).*\n\n((?:- .+\n)+)$")
POLICY = ("default-src 'none'; script-src 'wasm-unsafe-eval' blob: '%s'; style-src %s; img-src blob: data:; worker-src blob:; "
          "connect-src 'self'")
# (a Chromium before 97 knows no word for WebAssembly alone; Safari does from 16 on, and Firefox from 102 on, before
# which it asks for none)
POLICED = ("document.write(`<meta http-equiv=\"Content-Security-Policy\" content=\"%s\">`"
           ".replace('wasm-', /Chrom\\w+\\/9[1-6]\\./.test(navigator.userAgent) ? '' : 'wasm-'))")
LIBRARY = re.compile(r'<script type="text/plain" id="library" data-of="(\w+)">\n([A-Za-z0-9+/=\n]*)</script>')
PACKED = re.compile(r'(<script type="text/plain" id="(?:library|offered)"[^>]*>\n)([A-Za-z0-9+/=\n]*)(?=</script>)')
LINE = 120


def read(path: str) -> str:
    return str(ends.content(path), "utf-8")


def bundled(leaf: str, *words: str) -> str:
    """A source file with all that it imports, as one."""
    if shutil.which(ESBUILD[0]) is None:
        raise Trouble("there is no esbuild; Debian's package esbuild has it")
    if not os.path.isdir(os.path.join(LIBRARIES, "codemirror")):
        raise Trouble("there is no CodeMirror; Debian's package libjs-codemirror has it")
    environment = dict(os.environ, NODE_PATH=LIBRARIES)
    return "\n%s" % building.done([*ESBUILD, *words, os.path.join(SOURCES, leaf)], "esbuild", env=environment)


def offered() -> list[list[Any]]:
    """Group, name and text of each scene that the page offers, and the lines of what one of the gallery
    teaches."""
    out, taught = [], {name: re.findall("- (.+)", lines) for name, lines in TAUGHT.findall(read(GALLERY))}
    for folder, group in OFFERED:
        for place, folders, leaves in os.walk(os.path.join(ends.TOP, folder)):
            folders.sort()
            for leaf in sorted(leaves):
                name, kind = os.path.splitext(leaf)
                if kind != ".scene":
                    continue
                if folder == "gallery" and name not in taught:
                    raise Trouble("docs/GALLERY.md does not say what %s teaches" % name)
                own = os.path.relpath(place, os.path.join(ends.TOP, folder))
                out.append([group if own == "." else "%s: %s" % (group, own), name, read(os.path.join(place, leaf)),
                            taught[name] if folder == "gallery" else []])
    return out


def data(value: object) -> str:
    """JSON that may be in a page."""
    return json.dumps(value, ensure_ascii=True, separators=(",", ":")).replace("<", "\\u003c")


def packed(content: bytes) -> str:
    """Bytes as the page holds them: in lines of base64, by zlib, with its checksum."""
    encoded = base64.b64encode(zlib.compress(content, 9)).decode("ascii")
    return "".join(encoded[at:at + LINE] + "\n" for at in range(0, len(encoded), LINE))


def unpacked(letters: str) -> bytes:
    try:
        return zlib.decompress(base64.b64decode(letters))
    except (ValueError, zlib.error) as error:
        raise Trouble("the page is damaged") from error


def opened(text: str) -> str:
    """A page with what its packed parts hold in their place: another release of zlib packs the same into other
    bytes."""
    return PACKED.sub(lambda match: match.group(1) + unpacked(match.group(2)).decode("latin-1"), text)


def sum_of(text: str) -> str:
    return "sha256-" + base64.b64encode(hashlib.sha256(text.encode("utf-8")).digest()).decode("ascii")


def page(wasm: bytes, crates: str) -> str:
    """The page that holds a module of WebAssembly, which was made of crates with that checksum."""
    style, script = bundled("studio.css"), bundled("main.js", "--format=esm")
    given = {"version": installing.version(), "gallery": offered(), "lesson": lessons.exercises()}
    parts = {
        '<link rel="stylesheet" href="studio.css">': "<style>%s</style>" % style,
        '<meta charset="utf-8">': '<meta charset="utf-8">\n<script>%s</script>' % (
            POLICED % (POLICY % (sum_of(script), "'%s'" % sum_of(style)))),
        '<script type="module" src="main.js"></script>\n': "",
        "</body>": '<script type="text/plain" id="offered">\n%s</script>\n<script type="application/json" id="own">null</script>\n'
                   '<script type="text/plain" id="library" data-of="%s">\n%s</script>\n<script type="text/plain" id="worker">%s</script>\n'
                   '<script type="module" id="code">%s</script>\n</body>' % (
                       packed(data(given).encode("ascii")), crates, packed(wasm), bundled("answers.js", "--format=iife"), script)}
    text = read(os.path.join(SOURCES, "index.html"))
    for mark, part in parts.items():
        if text.count(mark) != 1:
            raise Trouble("index.html has not one place for the page's part %s" % mark)
        text = text.replace(mark, part)
    if len(text.encode("utf-8")) > LARGEST:
        raise Trouble("the page has more than %d bytes" % LARGEST)
    return text


def library_in(text: str) -> tuple[bytes, str]:
    """The module of WebAssembly that a page holds, and the checksum of the crates that it was made of."""
    found = LIBRARY.search(text)
    if found is None:
        raise Trouble("the page holds no library")
    return unpacked(found.group(2)), found.group(1)
