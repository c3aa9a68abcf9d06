"""Compares the states and microinstructions of the module with what the debugger answers in the cases. With the word `plain`, as
without NumPy."""
import os
import sys

if sys.argv[1:] == ["plain"]:
    sys.modules["numpy"] = None
sys.path[:0] = [os.path.realpath(folder) for folder in ("python/tests", "python")]
import pxplanes
from pxplanes.machine import sessions
import run_cases as cases
BUILT = os.environ["PROGRAM"]
MOST = 40000


def asked_of(state, words):
    """The answer of the debugger to a question, from a state; None where it is no question to a state."""
    numbers = [int(word) for word in words[1:]]
    if words[0] == b"pixel":
        pixel = state.pixel(*numbers)
        return "pixel %d %d m %s e %d k %d l %d t %d" % (*numbers, *pixel)
    if words[0] == b"tree":
        return "tree %d %d out %d carry %d" % (*numbers, *state.node(*numbers))
    return None


def wrong_session(text):
    """What is wrong with the states that a session goes through, and how many answers were compared."""
    scene, commands = sessions.parted(text)
    commands = commands[:next((at for at, command in enumerate(commands) if sessions.is_quit(command)), len(commands))]
    now, count = 0, 0
    for command, lines in zip(commands, sessions.held(BUILT, scene, commands)):
        words = sessions.words_of(command)
        if lines and lines[0].startswith(b"at "):
            now = int(lines[0].split()[1])
        if not words or not lines or lines[0].startswith(b"?"):
            continue
        state = pxplanes.state(scene, now)
        reply = asked_of(state, words)
        if words[0] == b"at":
            reply = ("at %d of %d macro %d micro %d" % (now, state.clocks, state.operation, state.operation_clock)
                    if now < state.clocks else "at %d of %d done" % (now, now))
        if words[0] == b"trace":
            first = now - len(lines)
            reply = "\n".join("%d: %s" % (first + at, micro) for at, micro in enumerate(pxplanes.micros(scene, first, len(lines))))
        if reply is not None:
            count += 1
            if reply.encode() != b"\n".join(lines):
                return "%r at %d: %r in place of %r" % (command, now, reply[:90], lines[0][:90]), count
    return None, count


def wrong_listing(text, listing):
    """Whether a scene and its listing differ in a microinstruction, or in the last state; None where that takes too long."""
    clocks = pxplanes.check(text).clocks
    if clocks >= MOST:
        return None
    same = pxplanes.micros(text, 0, clocks) == pxplanes.micros(listing, 0, clocks)
    same = same and bytes(pxplanes.state(text, clocks).words) == bytes(pxplanes.state(listing, clocks).words)
    return None if same else "the scene and its listing differ"


answers = listings = 0
for name in cases.names():
    words, text, wanted = cases.read_case(os.path.join(cases.CASES, name))
    if wanted[0] != 0 or len(text) >= MOST or words not in ([b"debug"], [b"list"]):
        continue
    if words == [b"debug"]:
        wrong, count = wrong_session(text)
        answers += count
    else:
        wrong = wrong_listing(text, wanted[1])
        listings += 1
    if wrong:
        print("%s: %s" % (name, wrong))
print("answers of sessions: %s" % ("many" if answers > 50 else answers))
print("listings: %s" % ("some" if listings > 3 else listings))
