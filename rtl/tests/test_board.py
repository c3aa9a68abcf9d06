"""A board in Verilator: what it must do, each a check that the right board passes and that kills the mutants named
in mutants.txt. Then the same over a pseudo-terminal, what is refused, and bitstreams."""
import os
import pathlib
import pty
import re
import shutil
import subprocess
import tty
import zlib
from typing import Callable

import pytest
from conftest import RTL, TESTS, Edited, run

pytest.importorskip("numpy")
from pxrtl import board, programs, yosys  # noqa: E402
from pxrtl.shared import TOP, program  # noqa: E402

NX, NY = 4, 2  # a row of 16 pixels is read in more clocks than a monitor waits
SCENE = pathlib.Path(TOP, "cases/lesson_comparison/stdin")
LISTING = pathlib.Path(TOP, "cases/play_an_adder/stdin")
needs = pytest.mark.skipif(not (shutil.which("verilator") and program.find(None)), reason="there is no verilator or program")
Board = Callable[[type[board.Simulated]], board.Simulated]


class Losing(board.Simulated):
    """A board over a line that loses a byte of some frames, and some echoes."""

    sent = lost = 0

    def write(self, sent: bytes) -> None:
        self.sent += 1
        if self.sent % 5 == 0:
            self.lost += 1
            super().write(sent[:7] + sent[8:])
        else:
            super().write(sent)
            if self.sent % 7 == 0:
                self.lost += 1
                self.read(1)


def drawn(text: pathlib.Path, link: board.Simulated) -> board.Pixels:
    wrong, picture = board.Drawing(text.read_bytes(), NX, NY, 1, None).drawn(iter([link]))
    assert wrong == []
    return picture


def holds_what_is_played(opened: Board) -> None:
    """By hand: the wall shows where x + 2y + 5 is at most its depth, 6, the slope elsewhere, and nothing past depth
    15. Of a colour four bits are shown. Squares are 38 lines high."""
    drawn(LISTING, opened(board.Simulated))
    picture = drawn(SCENE, opened(board.Simulated))
    top, side = (480 - 38 * 4) // 2, 38
    wall, slope, black = (12 * 17, 11 * 17, 10 * 17), (5 * 17, 7 * 17, 12 * 17), (0, 0, 0)
    for x, y, colour in ((0, 0, wall), (1, 0, wall), (2, 0, slope), (0, 1, slope), (0, 2, slope), (3, 2, slope), (15, 3, black)):
        for at in (0, side - 1):
            assert tuple(picture[top + side * y + at, side * x + at]) == colour, (x, y)
    assert not picture[:top].any() and not picture[top + 4 * side:].any() and not picture[:, 16 * side:].any()


def survives_lost_bytes(opened: Board) -> None:
    link = opened(Losing)
    drawn(SCENE, link)
    assert isinstance(link, Losing) and link.lost > 30


def drops_bytes_while_busy(opened: Board) -> None:
    link = opened(board.Simulated)
    link.begin({}, 0)
    link.send("all", [])
    link.send("load-const", [0, 8, 0xa5])
    held = link.scan(NX, NY)
    link.write(board.frame("scan", 0) + 15 * board.frame("load-const", 1, 0, 8, form=(0, 0, 0)))
    link.read(1 << 16)
    assert link.scan(NX, NY) == held and held[0] == ("10100101" + 64 * "0", "1")
    link.close()


def does_a_frame_once(opened: Board) -> None:
    link = opened(board.Simulated)
    link.begin({}, 0)
    link.echoed(board.frame("all", 1))
    for turn, count in ((0, 2), (1, 1), (0, 1)):
        for _ in range(count):
            link.echoed(board.frame("toggle", turn, 4))
    assert link.scan(NX, NY)[0][0][4] == "1"
    link.close()


def takes_no_broken_frame(opened: Board) -> None:
    link = opened(board.Simulated)
    link.begin({}, 0)
    link.echoed(board.frame("all", 1))
    link.write(board.frame("toggle", 0, 5)[:-1] + b"\0")
    assert link.read(1) == b"" and link.scan(NX, NY)[0][0][5] == "0"
    link.close()


def loses_one_frame_by_a_lost_byte(opened: Board) -> None:
    link = opened(board.Simulated)
    link.begin({}, 0)
    whole = board.frame("all", 1)
    link.write(whole[:7] + whole[8:])
    link.write(whole)
    assert link.read(2) == whole[-1:] and link.scan(NX, NY)[0][1] == "1"
    link.close()


def sends_a_scan_that_can_be_checked(opened: Board) -> None:
    """By hand: x + y is at least 18 at one pixel of 64 only, (15, 3), which is bit 7 of a place's byte 7."""
    link = opened(board.Simulated)
    link.begin({}, 0)
    link.send("all", [])
    link.send("keep-sign", [1, 1, -18])
    link.write(board.frame("scan", 0))
    found = link.read(1 << 10)
    assert found[1:] == bytes(8 * 72) + bytes(7) + b"\x80" + b"\x80"
    link.close()


CHECKS = {check.__name__: check for check in (
    holds_what_is_played, survives_lost_bytes, drops_bytes_while_busy, does_a_frame_once, takes_no_broken_frame,
    loses_one_frame_by_a_lost_byte, sends_a_scan_that_can_be_checked)}


def opened_in(folder: pathlib.Path) -> Board:
    path = board.built(NX, NY)
    return lambda kind: kind(path, str(folder))


@needs
@pytest.mark.parametrize("check", CHECKS.values())
def test_board(check: Callable[[Board], None], tmp_path: pathlib.Path, monkeypatch: pytest.MonkeyPatch) -> None:
    monkeypatch.setattr(board, "SECONDS", 0.1)
    check(opened_in(tmp_path))


def mutants() -> list[tuple[str, Edited]]:
    """The mutants, each with what kills it: `sat`, a proof by Yosys, or a check above."""
    lines = (line.split(" ", 3) for line in (TESTS / "mutants.txt").read_text().splitlines())
    return [(killer, Edited(name, module, edit)) for killer, name, module, edit in lines]


@needs
@pytest.mark.parametrize("killer, mutant", mutants(), ids=lambda it: getattr(it, "name", it))
def test_mutant_dies(killer: str, mutant: Edited, tmp_path: pathlib.Path, monkeypatch: pytest.MonkeyPatch,
                     request: pytest.FixtureRequest) -> None:
    if not request.config.getoption("--all-files"):
        pytest.skip("a long run: --all-files tries it")
    path = str(mutant.written(tmp_path))
    if killer == "sat":
        status, printed = run("prove", mutant.option, path, "--simulator", "iverilog", folder=tmp_path)
        assert status == 1 and re.search(r"(every clock of every operation|every act at every place): WRONG", printed)
        return
    leaf = mutant.module + ".v"
    monkeypatch.setattr(board, "SOURCES", [path if own.endswith(leaf) else own for own in board.SOURCES])
    monkeypatch.setattr(board, "SECONDS", 0.1)
    with pytest.raises((AssertionError, programs.Bad)):
        CHECKS[killer](opened_in(tmp_path))


@needs
def test_send_over_a_pseudo_terminal(tmp_path: pathlib.Path) -> None:
    ours, theirs = pty.openpty()
    tty.setraw(theirs)
    served = subprocess.Popen([board.built(NX, NY), str(board.CLOCKS_A_BIT), str(tmp_path / "picture.ppm")], stdin=ours,
                              stdout=ours)
    try:
        status, printed = run("send", "--port", os.ttyname(theirs), "--size", NX, NY, SCENE, "-o", "sent.png",
                              folder=tmp_path)
    finally:
        served.kill()
        served.wait()
    assert status == 0 and "it holds what `play` prints, and `render` draws the same" in printed
    assert (tmp_path / "sent.png").read_bytes()[:4] == b"\x89PNG"


@needs
def test_film(tmp_path: pathlib.Path) -> None:
    """The picture is empty first and ends as `-o` has it; each frame is a picture of its own."""
    words = ("simulate-board", "--size", NX, NY, SCENE, "-o", "last.png", "--film", "film.png")
    status, printed = run(*words, folder=tmp_path)
    assert status == 0, printed
    film, last = (tmp_path / "film.png").read_bytes(), (tmp_path / "last.png").read_bytes()
    chunks, at = [], 8
    while at < len(film):
        size = int.from_bytes(film[at:at + 4], "big")
        chunks.append((film[at + 4:at + 8], film[at + 8:at + 8 + size]))
        at += 12 + size
    frames = [zlib.decompress(body[4:]) for name, body in chunks if name == b"fdAT"]
    still = next(body for name, body in chunks if name == b"IDAT")
    assert len(frames) > 2 and not any(frames[0]) and all(a != b for a, b in zip(frames, frames[1:]))
    assert zlib.decompress(still) == frames[-1] and still in last
    numbers = [int.from_bytes(body[:4], "big") for name, body in chunks if name in (b"fcTL", b"fdAT")]
    assert numbers == list(range(2 * len(frames)))


@needs
def test_a_wrong_chip_is_reported(tmp_path: pathlib.Path, monkeypatch: pytest.MonkeyPatch) -> None:
    wrong = Edited("wrong", "chip/word", "s/enables & taken | ~enables & stored/taken/").written(tmp_path)
    monkeypatch.setattr(board, "SOURCES", [str(wrong) if path.endswith("word.v") else path for path in board.SOURCES])
    link = board.Simulated(board.built(NX, NY), str(tmp_path))
    found, _ = board.Drawing(SCENE.read_bytes(), NX, NY, 1, None).drawn(iter([link]))
    assert "`play` prints" in found[0] and "is rendered" in found[-1]


@pytest.mark.skipif(not shutil.which("yosys"), reason="there is no yosys")
def test_more_than_128_bits_are_refused(tmp_path: pathlib.Path) -> None:
    script = yosys.read_of(board.SOURCES) + "hierarchy -check -top chip -chparam N 129\n"
    with pytest.raises(programs.Bad, match="this_chip_has_at_most_128_memory_bits"):
        yosys.run(str(tmp_path), script)


@pytest.mark.skipif(not shutil.which("yosys"), reason="there is no yosys")
@pytest.mark.parametrize("module, without", [
    ("sequencer", set()), ("serial", set()), ("chip", set()), ("video", {"number_shown", "painted"}),
    ("word", {"read", "video", "was_there", "written_last"}), ("node", set()), ("pixel", set()), ("board", {"pressed"})])
def test_registers_have_a_reset(module: str, without: set[str], tmp_path: pathlib.Path) -> None:
    """But for what a RAM answers, the two that say whether that answer is old and what is right then (0 in a wipe), and the button's."""
    path = next(path for path in RTL.rglob(module + ".v"))
    yosys.run(str(tmp_path), "read_verilog %s\nhierarchy -top %s\nproc\nopt_dff\nwrite_json out.json\n" % (path, module))
    design = yosys.top_of(str(tmp_path), "out.json")
    names = {bit: name for name, net in design["netnames"].items() if not net["hide_name"] for bit in net["bits"]}
    found = {names.get(cell["connections"]["Q"][0]) for cell in design["cells"].values()
             if cell["type"] in ("$dff", "$dffe")}
    assert found - {None} == without  # None are parts of a RAM's port


@pytest.mark.skipif(not all(map(shutil.which, ("yosys", "nextpnr-ice40", "icepack"))), reason="there is no nextpnr-ice40")
@pytest.mark.parametrize("name", ["icebreaker", "hx8k"])
def test_bitstream_is_built(name: str, tmp_path: pathlib.Path) -> None:
    status, printed = run("fpga", "--board", name, "--size", 1, 2, "--out", "board.bin", folder=tmp_path)
    assert status == 0 and "MHz" in printed, printed
    assert (tmp_path / "board.bin").stat().st_size > 100000
