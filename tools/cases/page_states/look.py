"""Asks the page for states at random clocks, and the debugger for the same: pixels, nodes, the place, and what was broadcast."""
import os
import random
import sys

sys.path[:0] = [os.path.realpath(folder) for folder in ("page/tests", "python/tests", "python")]
import pages
from pxplanes import program
from pxplanes.scene import scenes
from pxplanes.machine import sessions
from browser import Browser
import run_cases as cases
BUILT, LOT, PAIRS, OF_A_SCENE, MOST = os.environ["PROGRAM"], 54, 1000, 40, 6000
# The lines of the debugger to some questions at some clocks, by the states of the page.
REPLIES = """async (text, asked) => {
  const px = globalThis.px ??= await studio.library(), course = await studio.ask("program", {}, text);
  const machine = px.machine(text, course.operations.map(([, , , clock]) => clock)), out = [];
  for (const [clock, x, y, level, index] of asked) {
    const state = machine.state(clock), {memory, enable, carry, latch, leaf} = state.pixel(x, y), [one, other] = state.node(level, index);
    const answer = await studio.ask("state", {clock}, text);
    if (answer.words.some((word, at) => word !== state.words[at]) || answer.operation !== state.operation) throw new Error(`at ${clock}`);
    const first = Math.max(0, clock - 4), place = clock === state.clocks ? "done" : `macro ${state.operation} micro ${state.operationClock}`;
    out.push([`at ${clock} of ${state.clocks} ${place}`], [`pixel ${x} ${y} m ${memory} e ${enable} k ${carry} l ${latch} t ${leaf}`],
      [`tree ${level} ${index} out ${one} carry ${other}`], px.micros(text, first, clock - first).map((micro, at) => `${first + at}: ${micro}`));
  }
  return out;
}"""


def scenes_of_cases():
    """Texts of accepted scenes, each once, that are quickly drawn clock by clock."""
    found = {}
    for name in cases.names():
        words, text, wanted = cases.read_case(os.path.join(cases.CASES, name))
        if not text.endswith(b"\n"):
            continue
        if words == [b"cost"] and wanted[0] == 0 and int(wanted[1].split()[3]) < MOST:
            found[text] = int(wanted[1].split()[3])
        if words in ([], [b"render"]) and wanted[0] == 0 and len(wanted[1]) < 30000 and len(text) < MOST and text not in found:
            found[text] = None
    return found


def asked_at(lot, text, clocks):
    """Questions at random clocks: clock, pixel and node."""
    scene = scenes.read(text)
    wide, high = program.grid(scene.width, scene.height)
    levels = (wide * high).bit_length() - 1
    out = []
    for clock in lot.sample(range(clocks + 1), min(OF_A_SCENE, clocks + 1)):
        level = lot.randint(1, levels)
        out.append([clock, lot.randrange(wide), lot.randrange(high), level, lot.randrange(1 << level)])
    return out


lot, compared = random.Random(LOT), 0
with Browser() as page:
    pages.alone(page)
    texts = scenes_of_cases()
    for text in lot.sample(sorted(texts), len(texts)):
        clocks = texts[text] or program.cost(BUILT, text)[1]
        if clocks > MOST or compared >= PAIRS:
            continue
        asked = asked_at(lot, text, clocks)
        commands = []
        for clock, x, y, level, index in asked:
            commands += [b"back %d" % MOST, b"until %d" % clock, b"at", b"pixel %d %d" % (x, y), b"tree %d %d" % (level, index), b"trace"]
        answers = sessions.held(BUILT, text, commands)
        replies = pages.called(page, REPLIES, text.decode("latin-1"), asked)
        for at, question in enumerate(asked):
            due = [[line.decode() for line in each] for each in answers[6 * at + 2:6 * at + 6]]
            due[3] = due[3][-4:]
            if due != replies[4 * at:4 * at + 4]:
                print("at %s: %r in place of %r" % (question, replies[4 * at:4 * at + 4], due))
            compared += 1
    print("%d states compared with the debugger's" % compared if compared < PAIRS else "as many as were wanted")
    print("faults of the page:", page.faults())
