"""The reader of scenes, and the grammars of editors, against the answers of the program's cases."""
import os
import re

import pytest
from support import TOP

import run_cases
import textmate
from pxplanes.machine import sessions
from pxplanes.scene import scenes

SHORT = 20000
GRAMMARS = {"debug": "source.pxsession", "play": "source.pxlist"}
OF_FORM = ("not-number", "bad-byte", "bad-name")


def own_note(words, text):
    """What the tools' reader says of a text where the program is given these words."""
    try:
        scene = scenes.read(text)
        if words[:1] not in ([b"tidy"], [b"plan"], [b"shadow"], [b"tile"]):
            scenes.pixel_memory(scene)
    except scenes.Refusal as refusal:
        return refusal.note
    return ""


def own_faces(text):
    """The planes with their colours in the order of their numbers, as canonical texts have them."""
    lines = []
    for number, solid, kind, which, colour, line in scenes.read(text).faces():
        if which is not None:
            face = (solid.fronts if kind == "front" else solid.backs)[which - 1]
            lines.append("%s %d %d %d %d %d %d" % ((kind,) + face.plane + colour))
    return lines


def is_beyond_the_text(command, text, note):
    """Whether a refusal comes of something that the tools' reader does not ask of a scene's text."""
    line = re.match(r"(?:malformed|limit) line (\d+): (\S+)", note)
    if line is None:
        return False
    if line.group(2) == "products" or command in ([b"refine"], [b"tile"]):
        return line.group(1) == "0"
    is_after = int(line.group(1)) > text.count(b"\n") or line.group(2) == "pixel-memory"
    return command == [b"shadow"] and is_after


def wrong_reading(name, words, text, wanted):
    """What the tools' reader gets wrong of a case of the program."""
    status, output, note = wanted
    if status not in (0, 3, 4) or words[:1] in ([b"sample"], [b"play"]):
        return None
    if words[:1] in ([b"debug"], [b"shadow"]):
        if note.startswith(b"limit line 0: text"):
            return None
        text, _ = sessions.parted(text)
    known, note = own_note(words, text), note.decode().strip("\n")
    if known != note and not (known == "" and is_beyond_the_text(words[:1], text, note)):
        return "%r is said of its text, and not %r" % (known, note)
    if status == 0 and words[:1] == [b"tidy"]:
        planes = [line for line in output.decode().split("\n")
                  if line.startswith(("front", "back"))]
        if own_faces(text) != planes:
            return "its faces are other than tidy writes them"
    return None


def wrong_colours(words, text, wanted):
    """What an editor would show wrongly of a case: an error in an accepted text, or none in a line of bad form."""
    status, output, note = wanted
    words = words[0].decode("latin-1") if words else "render"
    if status not in (0, 3) or words == "sample" or len(text) > SHORT or b"\0" in text:
        return None
    note = re.match(r"malformed line (\d+): (\S+)", note.decode())
    grammar = textmate.Grammar(GRAMMARS.get(words, "source.pxscene"))
    scene = sessions.parted(text)[0].count(b"\n") if words == "debug" else len(text)
    for number, scopes in enumerate(grammar.lines(text.decode("latin-1").split("\n")), 1):
        errors = [scope for scope in scopes if scope is None or scope.startswith("invalid")]
        if status == 0 and number <= scene and errors:
            return "line %d of an accepted text has an error" % number
        if note and note.group(2) in OF_FORM and int(note.group(1)) == number and not errors:
            return "line %d, refused as %s, has none" % (number, note.group(2))
    return None


@pytest.mark.parametrize("name", run_cases.names())
def test_reading(name):
    wrong = wrong_reading(name, *run_cases.read_case(os.path.join(TOP, "cases", name)))
    assert wrong is None, wrong


@pytest.mark.parametrize("name", run_cases.names())
def test_colours(name):
    wrong = wrong_colours(*run_cases.read_case(os.path.join(TOP, "cases", name)))
    assert wrong is None, wrong
