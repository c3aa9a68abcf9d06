"""The same scenes drawn from C, C++, Python, Rust, JavaScript and by the program: all write the same bytes."""
import os
import shutil
import subprocess
import sys
from pathlib import Path

import pytest

import support
import pxplanes

pytestmark = pytest.mark.after_build
SCENES = [os.path.join(support.TOP, path) for path in (
    "docs/scenes/first.scene", "gallery/house.scene", "gallery/tie.scene", "gallery/three_lights.scene",
    "suite/perspective/cornell_box.scene")]
# Programs that write the depths and the faces of a file's scene as numbers of 32 bits, the lowest byte first.
IN_C = r"""
#include <stdio.h>
#include <stdlib.h>
#include "pxplanes.h"
int main(int count, char **words)
{
    static uint8_t text[PXPLANES_MAX_TEXT];
    FILE *file = count > 1 ? fopen(words[1], "rb") : NULL;
    size_t len = file == NULL ? 0 : fread(text, 1, sizeof text, file);
    struct pxplanes_found found;
    if (pxplanes_check(text, len, &found) != PXPLANES_OK)
        return 1;
    size_t pixels = (size_t) found.width * found.height;
    uint32_t *maps = malloc(2 * pixels * sizeof *maps);
    if (maps == NULL || pxplanes_render(text, len, maps, pixels, maps + pixels, pixels, &found) != PXPLANES_OK)
        return 1;
    return fwrite(maps, sizeof *maps, 2 * pixels, stdout) != 2 * pixels;
}
"""
IN_CPP = r"""
#include <cstdio>
#include <fstream>
#include <iterator>
#include <pxplanes.hpp>
int main(int, char **words)
{
    std::ifstream file(words[1], std::ios::binary);
    const pxplanes::picture drawn = pxplanes::render(std::string(std::istreambuf_iterator<char>(file), {}));
    for (const auto &map : {drawn.depths, drawn.faces})
        std::fwrite(map.data(), sizeof map[0], map.size(), stdout);
}
"""
IN_RUST = r"""
use std::io::Write;
fn main() {
    let text = std::fs::read(std::env::args().nth(1).unwrap()).unwrap();
    let drawn = pxplanes::render(text).unwrap();
    for number in drawn.depths.iter().chain(&drawn.faces) {
        std::io::stdout().write_all(&number.to_le_bytes()).unwrap();
    }
}
"""
IN_JAVASCRIPT = r"""
import {readFileSync, writeSync} from "node:fs";
const {load} = await import(process.argv[2]), px = await load(readFileSync(process.argv[3]));
const {depths, faces} = px.render(readFileSync(process.argv[4]));
for (const map of [depths, faces]) writeSync(1, new Uint8Array(map.buffer, map.byteOffset, map.byteLength));
"""
CARGO = """[package]
name = "one_picture"
version = "0.0.0"
edition = "2021"
[dependencies]
pxplanes = { path = "%s" }
[workspace]
"""


def need(name: str) -> None:
    if shutil.which(name) is None:
        pytest.skip("there is no " + name)


@pytest.fixture
def place(tmp_path: Path, library: object) -> Path:
    """A folder with the shared library, for linkers as libpxplanes.so and for the loader by its own name."""
    if not os.environ.get(support.SHARED):
        pytest.skip(support.NO_LIBRARY)
    own = os.path.basename(os.environ[support.SHARED]).partition(".so")[0] + ".so.0"
    shutil.copy(os.environ[support.SHARED], tmp_path / own)
    os.symlink(own, tmp_path / "libpxplanes.so")
    return tmp_path


def compiled(place: Path, compiler: str, leaf: str, text: str) -> list[str]:
    need(compiler)
    (place / leaf).write_text(text)
    subprocess.run([compiler, "-I" + os.path.join(support.TOP, "include"), leaf, "libpxplanes.so", "-Wl,-rpath," + str(place),
                    "-o", "draw"], cwd=place, check=True)
    return [str(place / "draw")]


def by_cargo(place: Path) -> list[str]:
    need("cargo")
    need("pkg-config")
    (place / "src").mkdir()
    (place / "src" / "main.rs").write_text(IN_RUST)
    shutil.copytree(os.path.join(support.TOP, "rust"), place / "crates", ignore=shutil.ignore_patterns("target"))
    (place / "Cargo.toml").write_text(CARGO % "crates/pxplanes")
    (place / "pxplanes.pc").write_text("Name: pxplanes\nDescription: it\nVersion: 1.0.0\nLibs: -L%s -lpxplanes\n" % place)
    environment = {**os.environ, "PKG_CONFIG_PATH": str(place), "RUSTFLAGS": "-C link-arg=-Wl,-rpath,%s" % place,
                   "CARGO_TARGET_DIR": str(place / "target")}
    subprocess.run(["cargo", "build", "--offline", "-q"], cwd=place, env=environment, check=True)
    return [str(place / "target" / "debug" / "one_picture")]


def by_node(place: Path) -> list[str]:
    need("node")
    import web_page
    (place / "draw.mjs").write_text(IN_JAVASCRIPT)
    (place / "pxplanes.wasm").write_bytes(web_page.library_in(web_page.read(web_page.PAGE))[0])
    return ["node", str(place / "draw.mjs"), "file://" + web_page.GLUE, str(place / "pxplanes.wasm")]


DRAWN = {"C": lambda place: compiled(place, "gcc", "draw.c", IN_C), "C++": lambda place: compiled(place, "g++", "draw.cc", IN_CPP),
         "Rust": by_cargo, "JavaScript": by_node}


def maps(path: str, built: str) -> bytes:
    """The numbers that the program writes."""
    with open(path, "rb") as file:
        written = subprocess.run([built, "render"], stdin=file, capture_output=True, check=True).stdout
    images = list(support.netpbm.images(written))
    assert len(images) == 2
    samples = b"".join(bytes(image.samples) for image in images)
    return b"".join(samples[at:at + 3][::-1] + b"\0" for at in range(0, len(samples), 3))


@pytest.mark.parametrize("language", DRAWN)
def test_the_same_picture(place, built, language):
    words = DRAWN[language](place)
    for path in SCENES:
        drawn = subprocess.run([*words, path], capture_output=True, check=True).stdout
        assert drawn == maps(path, built) and len(set(drawn)) > 10, path


def test_the_same_picture_from_python(place, built):
    assert sys.byteorder == "little" and len(SCENES) > 3
    for path in SCENES:
        picture = pxplanes.render(pxplanes.from_file(path))
        assert b"".join(bytes(memoryview(each).cast("B")) for each in picture[:2]) == maps(path, built), path
