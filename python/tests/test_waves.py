"""The waveforms of `pxplanes trace`, clock by clock, against the answers of a session that goes back through the same clocks."""
import os
import re

import pytest
import vcd_read
from support import TOP, content

from pxplanes import program
from pxplanes.errors import Trouble
from pxplanes.machine import sessions
from pxplanes.machine.waves import Window, waveforms

WAVES = (("one_solid", ((0, 0),), (8, 9, 71), ((1, 0), (1, 1), (2, 3)), 0, 317),
         ("drilled_block", ((20, 20), (21, 20), (0, 63)), (0, 15), ((12, 1300), (6, 20)), 1850, 1950),
         ("one_solid_in_sixteenths", ((1, 1),), (), (), 100, 180))


def waved(waves, time, pixel, bits):
    """What a session would answer of a pixel at a time, by its waveforms."""
    of_pixel = "pixel_%d_%d" % pixel
    at = lambda names: [waves.at("%s.%s" % (of_pixel, name), time) for name in names]
    shown = at(("key_b_depth", "key_b_face", "key_t_depth", "key_t_face", "alive", "par"))
    found = {"field": "field %s %s b %s %s t %s %s alive %s par %s" % (*pixel, *shown),
             "registers": "e %s k %s l %s t %s" % tuple(at(("enable", "carry", "latch", "leaf"))),
             "bits": at(["bit_%d" % bit for bit in bits])}
    for key, first in (("key_b", 0), ("key_t", 1)):
        width = waves.widths["%s.%s" % (of_pixel, key)]
        key = format(at([key])[0] or 0, "0%db" % width)[::-1]
        found["memory %d" % first] = (first * width, key)
    return found


def answered(found, bits, field, memory):
    """The same by a session's answers, with the parts of the memory that the waveforms have."""
    digits = memory.split()[4]
    wanted = {"field": field, "registers": memory.split(" ", 5)[5], "bits": [int(digits[bit]) for bit in bits]}
    for part in ("memory 0", "memory 1"):
        at, key = found[part]
        wanted[part] = (at, digits[at:at + len(key)])
    return wanted


def broadcast_of(waves, time):
    """A line of a trace without its clock, by the waveforms."""
    tree, act, a, b, c = (waves.at("machine." + name, time)
                          for name in ("tree", "act", "line_a", "line_b", "line_c"))
    fed = " %s%s%s" % (a, b, c) if tree == "feed" else ""
    return "%s%s %s" % (tree, fed, re.sub("[(,)]", " ", str(act)).rstrip())


def wrong_wave(wave, built):
    """Where a waveform is not what a session answers that goes back through its clocks, or None."""
    name, pixels, bits, nodes, first, last = wave
    scene = content(os.path.join(TOP, "cases", name), "stdin")
    asked = ["at"] + [word + " %d %d" % pixel for pixel in pixels for word in ("field", "pixel")]
    asked += ["tree %d %d" % node for node in nodes]
    commands = ["until %d" % last] + (asked + ["trace", "back 1"]) * (last - first + 1)
    try:
        waves = vcd_read.Waves(waveforms(scene, Window(pixels, bits, nodes, first, last)))
        listing = program.answer(built, ["list"], scene)[1].decode().split("\n")
        answers = sessions.held(built, scene, [command.encode() for command in commands])[1:]
        for turn, clock in enumerate(range(last, first - 1, -1)):
            step = len(asked) + 2
            answered_lines = [[line.decode() for line in lines] for lines in answers[turn * step:(turn + 1) * step]]
            wrong = wrong_clock(waves, clock, wave, answered_lines) or wrong_place(waves, clock, answered_lines[0][0], listing)
            if wrong:
                return "clock %d: %s" % (clock, wrong)
    except Trouble as bad:
        return str(bad)
    return None if waves.end == 10 * last else "it ends at %d" % waves.end


def wrong_clock(waves, clock, wave, answered_lines):
    """What is wrong with a clock's waveforms by a session's answers there, or None."""
    name, pixels, bits, nodes, first, last = wave
    for time in (10 * clock, 10 * clock + 9) if clock < last else (10 * clock,):
        for at, pixel in enumerate(pixels):
            found = waved(waves, time, pixel, bits)
            wanted = answered(found, bits, *(lines[0] for lines in answered_lines[1 + 2 * at:3 + 2 * at]))
            wrong = [key for key in wanted if wanted[key] != found[key]]
            if wrong:
                return "%r in place of %r" % (found[wrong[0]], wanted[wrong[0]])
        for node, lines in zip(nodes, answered_lines[1 + 2 * len(pixels):]):
            found = [waves.at("node_%d_%d.%s" % (*node, name), time) for name in ("output", "carry")]
            if lines[0] != "tree %d %d out %s carry %s" % (*node, *found):
                return "%r in place of %r" % (found, lines[0])
        if waves.at("machine.clock", time) != clock:
            return "it is called %r" % waves.at("machine.clock", time)
    if first < clock:
        line = "%d: %s" % (clock - 1, broadcast_of(waves, 10 * (clock - 1) + 5))
        if answered_lines[-2][-1] != line:
            return "%r in place of %r" % (line, answered_lines[-2][-1])
    high = [waves.at("machine.clk", 10 * clock + part) for part in (0, 4, 5, 9)]
    return None if high == [1, 1, 0, 0] or clock == last else "its clock is %r" % high


def wrong_place(waves, clock, place, listing):
    """What is wrong with the operation of a clock, by a session's `at` and the scene's listing, or None."""
    found = [waves.at("machine." + name, 10 * clock) for name in ("macro", "micro", "list_line", "operation")]
    moved = re.search(r"macro (\d+) micro (\d+)", place)
    if moved is None:
        return None if found == [None] * 4 else "%r at its end" % found
    macro, micro = map(int, moved.groups())
    word, _, rest = listing[macro + 2].partition(" ")
    text = "%s(%s)" % (word, rest.replace(" ", ",")) if rest else word
    return None if found == [macro, micro, macro + 3, text] else "%r where its place is %r, %s" % (found, place, text)


@pytest.mark.parametrize("wave", WAVES, ids=lambda wave: wave[0])
def test_waveforms(wave, built, monkeypatch):
    monkeypatch.setenv("PXPLANES_PROGRAM", built)
    wrong = wrong_wave(wave, built)
    assert wrong is None, wrong
