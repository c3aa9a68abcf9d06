"""No file of rtl/ has anything that Verilator warns of."""
import pathlib
import re
import shutil
import subprocess

import pytest
from conftest import RTL

from pxrtl import ports

FILES = sorted(path for folder in (".", "proof", "chip", "boards", "tinytapeout", "bench") for path in (RTL / folder).glob("*.v"))


@pytest.mark.skipif(not shutil.which("verilator"), reason="there is no verilator")
@pytest.mark.parametrize("path", FILES, ids=lambda path: path.name)
def test_file_has_no_warning(path: pathlib.Path, tmp_path: pathlib.Path) -> None:
    top = path.stem.removesuffix("_student")
    kind = re.sub("px_same_|px_|_bench", "", top)
    if kind in ports.MODULES:
        (tmp_path / "px_dut.v").write_text(ports.wrapper("px_dut", kind, ports.parameters(kind)))
    folders = [word for folder in (tmp_path, RTL, *(RTL / leaf for leaf in ("proof", "chip", "boards", "tinytapeout"))) for word in ("-y", str(folder))]
    done = subprocess.run(["verilator", "--lint-only", "-Wall", "--timing", *folders, "--top-module", top, str(path)],
                          capture_output=True, text=True)
    assert (done.returncode, done.stderr) == (0, "")


@pytest.mark.parametrize("path", FILES, ids=lambda path: path.name)
def test_no_warning_is_off_for_a_whole_file(path: pathlib.Path) -> None:
    found = re.findall(r"verilator lint_(on|off) (\w+)", path.read_text())
    assert all(rule == off for (_, off), (_, rule) in zip(found[::2], found[1::2]))
    assert [way for way, _ in found].count("on") == [way for way, _ in found].count("off")
