"""Mistakes as people make them in docs/scenes/first.scene: those of which `pxplanes explain --fix` gives the scene that was meant, and
those of which it writes nothing."""
import os
import re
import subprocess
import sys

sys.path[:0] = [os.path.join(os.getcwd(), "tools", "lib"), os.path.join(os.getcwd(), "python")]
from pxplanes.scene import scenes

FIRST = open("docs/scenes/first.scene").read()
BAR = "solid bar 200 60 40 "


def put(old, new, text=FIRST):
    assert old in text, old
    return text.replace(old, new)


def every(pattern, new, text=FIRST):
    assert re.search(pattern, text, re.M), pattern
    return re.sub(pattern, new, text, flags=re.M)


MISTAKES = {
    "no header": put("pxscene 1\n", ""),
    "a header in capitals": put("pxscene 1", "PXSCENE 1"),
    "a version with a point": put("pxscene 1", "pxscene 1.0"),
    "a glued header": put("pxscene 1", "pxscene1"),
    "another version": put("pxscene 1", "pxscene 4"),
    "no depth": put("depth 9 ", "# depth 9 "),
    "no show": every("^show.*\n", "show pyramid - shaft + bar\n"),
    "no end": put("\nend\n", "\n"),
    "neither header nor end": put("pxscene 1\n", "", put("\nend\n", "\n")),
    "a size with x": put("picture 48 32", "picture 48x32"),
    "a size with a comma": put("picture 48 32", "picture 48, 32"),
    "a size with a star": put("picture 48 32", "picture 48*32"),
    "size for picture": put("picture 48 32", "size 48 32"),
    "a third number of a picture": put("picture 48 32", "picture 48 32 9"),
    "glued numbers": put("front 0 0 320", "front0 0 320"),
    "glued negatives": put("side 0 1 -13", "side0 1 -13"),
    "two statements a line": put("front 0 0 320\nback 0 0 400", "front 0 0 320 back 0 0 400"),
    "statements with semicolons": put("front 0 0 320\nback 0 0 400", "front 0 0 320; back 0 0 400;"),
    "braces": put("side 0 1 -13", "{ side 0 1 -13", put("back 0 0 400", "back 0 0 400 }")),
    "commas": every(r"^(front|back|side) (\S+) (\S+) (\S+)", r"\1 \2, \3, \4"),
    "commas without spaces": every(r"^(front|back|side) (\S+) (\S+) (\S+)", r"\1 \2,\3,\4"),
    "brackets round numbers": every(r"^side (\S+) (\S+) (\S+)", r"side (\1 \2 \3)"),
    "a colour as rgb": put(BAR, "solid bar rgb(200, 60, 40) "),
    "a colour in hexadecimal": put(BAR, "solid bar #c83c28 "),
    "colours of a hundred": put(BAR, "solid bar 78.5% 23.6% 15.7% ").replace("78.5% 23.6% 15.7%", "78.4314% 23.5294% 15.6863%"),
    "a minus of typography": FIRST.replace("-", "\u2212"),
    "a dash": put("(pyramid - shaft)", "(pyramid \u2013 shaft)"),
    "no-break spaces": put("picture 48 32", "picture\u00a048\u00a032"),
    "full-width digits": put("depth 9", "depth \uff19"),
    "a zero-width space": put("show ", "\u200bshow "),
    "slashes": every(r"#(.*)$", r"//\1"),
    "slashes alone": put("solid shaft", "// the shaft\nsolid shaft"),
    "a comment of C": put("solid shaft", "/* the shaft,\n   from the eye */\nsolid shaft"),
    "a comment with a semicolon": put("solid shaft", "; the shaft\nsolid shaft"),
    "UTF-16": FIRST.encode("utf-16"),
    "a byte-order mark": b"\xef\xbb\xbf" + FIRST.encode(),
    "carriage returns": FIRST.replace("\n", "\r"),
    "capitals": every(r"^(solid|front|back|side|show|end|depth|picture)", lambda found: found.group().title()),
    "plurals": every(r"^(front|back|side)", r"\1s"),
    "no brackets": every("^show.*$", "show pyramid - shaft + bar"),
    "an open bracket": every("^show.*$", "show ((pyramid - shaft) + bar"),
    "a bracket too many": every("^show.*$", "show ((pyramid - shaft) + bar))"),
    "square brackets": every("^show.*$", "show [[pyramid - shaft] + bar]"),
    "words for signs": every("^show.*$", "show (pyramid minus shaft) union bar"),
    "functions": every("^show.*$", "show union(difference(pyramid, shaft), bar)"),
    "functions without show": every("^show.*$", "union(difference(pyramid, shaft), bar)"),
    "and not": every("^show.*$", "show (pyramid & !shaft) | bar"),
    "and not in words": every("^show.*$", "show pyramid and not shaft or bar"),
    "another case of a name": every("^show.*$", "show ((Pyramid - Shaft) + Bar)"),
    "a wrong letter": every("^show.*$", "show ((pyramid - shafd) + bar)"),
    "two shows": every("^show.*$", "show (pyramid - shaft)\nshow bar"),
    "a name in quotes": put(BAR, 'solid "bar" 200 60 40 '),
    "a name with a sign": FIRST.replace("shaft", "the-shaft"),
    "a name with a letter of another language": FIRST.replace("shaft", "sch\u00e4ft"),
    "a name that begins with a digit": FIRST.replace("bar", "2bar"),
    "a long name": FIRST.replace("bar", "b" * 40),
    "a name twice": put(BAR, "solid shaft 200 60 40 "),
    "no colour": put("solid pyramid 200 180 160", "solid pyramid"),
    "no name of a solid": put("solid pyramid 200 180 160\n", ""),
    "plus before a number": put("front 0 0 320", "front 0 0 +320"),
    "points behind numbers": every(r"^(front|back) (\S+) (\S+) (\d+)", r"\1 \2.0 \3.0 \4."),
    "exponents": put("front 0 0 320", "front 0 0 3.2e2"),
    "hexadecimal": put("front 0 0 320", "front 0 0 0x140"),
    "a side with parts": put("side 1 0 -19", "side 0.5 0 -9.5"),
    "a side with thirds": put("side 1 0 -19", "side 1/3 0 -19/3"),
    "C alone": put("front 0 0 320", "front 320"),
    "picture last": put("picture 48 32\n", "").replace("\nend\n", "\npicture 48 32\nend\n"),
    "depth before picture": put("picture 48 32\n", "", FIRST).replace("\nsolid pyramid", "\npicture 48 32\nsolid pyramid"),
    "show first": every("^show.*\n", "", FIRST).replace("solid pyramid", "show ((pyramid - shaft) + bar)\nsolid pyramid"),
    "lines behind end": put("back 0 0 400\n", "").replace("\nend\n", "\nend\nback 0 0 400\n"),
    "fraction bits of whole planes": put("depth 9 ", "depth 9 4 "),
    "light lines": FIRST + "light l0 10 10 10\n",
    "a line that is none": put("solid shaft", "material wood\nsolid shaft"),
    "everything at once": every("^show.*$", "Show pyramid minus shaft plus bar", put(
        "picture 48 32", "picture 48x32", put("pxscene 1\n", "", put("\nend\n", "\n", FIRST.replace("-", "\u2212"))))),
}


def meaning(text):
    """What a scene draws, without the names of its solids and the colours, which are guessed."""
    scene = scenes.read(text)
    planes = [[[face.plane for face in kind] for kind in (solid.fronts, solid.backs, solid.sides)] for solid in scene.solids]
    return scene.width, scene.height, scene.depth_bits, scene.fraction_bits, planes, scene.show


def colours(text):
    return [face[4] for face in scenes.read(text).faces()]


MEANT, LEFT = [], []
for name, text in MISTAKES.items():
    text = text if isinstance(text, bytes) else text.encode()
    with open("wrong.scene", "wb") as out:
        out.write(text)
    done = subprocess.run(["./pxplanes", "explain", "--fix", "wrong.scene"], capture_output=True)
    if open("wrong.scene", "rb").read() != text or not done.stderr:
        print("%s: the file is changed, or nothing is said" % name)
    if done.returncode == 0 and (meaning(done.stdout), colours(done.stdout)) == (meaning(FIRST.encode()), colours(FIRST.encode())):
        MEANT.append(name)
    elif done.returncode == 1 and not done.stdout:
        LEFT.append(name)
    else:
        print("%s: status %d, another scene or none" % (name, done.returncode))
print("%d of %d mistakes are mended as meant: %s" % (len(MEANT), len(MISTAKES), ", ".join(MEANT)))
print("not sure: %s" % ", ".join(LEFT))
