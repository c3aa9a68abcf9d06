"""A renderer that needs nothing of this repository: it writes depths and faces by floats, as text of two maps'
first, or with a mistake. Use: renderer.py SCENE OUT [above | depths | text | stops]."""
import math
import re
import sys

scene, out, how = sys.argv[1], sys.argv[2], (sys.argv[3:] or [""])[0]
solids, show, unit = [], "", 1
for line in open(scene):
    words = line.split("#")[0].split()
    numbers = [int(word) for word in words[1:] if re.fullmatch(r"-?\d+", word)]
    if words[:1] == ["picture"]:
        width, height = numbers
    elif words[:1] == ["depth"]:
        far, unit = 2 ** numbers[0] - 1, 2 ** (numbers + [0])[1]
    elif words[:1] == ["solid"]:
        solids.append((words[1], []))
    elif words[:1] == ["show"]:
        show = " ".join(words[1:])
    elif words and words[0] in ("front", "back", "side"):
        solids[-1][1].append((words[0], *numbers[:3]))
if how == "stops" and "^" in show:
    sys.exit("no words for ^")
names = {name: "has(%d)" % at for at, (name, _) in enumerate(solids)}
sign = {"+": " or ", "*": " and ", "-": " and not ", "^": " != "}
member = compile(re.sub(r"\w+|[-+*^]", lambda word: names.get(word.group()) or sign[word.group()], show).replace(
    " and not (", " and not ("), "show", "eval")
first, number = [], 1
for _, planes in solids:
    first.append(number)
    number += 1 + sum(kind != "side" for kind, *_ in planes)


def span(at, x, y):
    low, high, low_face, high_face, face = 0.0, float(far), first[at], 0, first[at]
    for kind, a, b, c in solids[at][1]:
        value = float(a * x + b * y + c) / (1 if kind == "side" else unit)
        face += kind != "side"
        if kind == "side" and value < 0:
            return None
        if kind == "front" and value > low:
            low, low_face = value, face
        if kind == "front" and value == low == 0:
            low_face = min(low_face, face)
        if kind == "back" and value < high:
            high, high_face = value, face
    low, high = math.ceil(low), math.ceil(high)
    return (low, high, low_face, high_face) if low < high else None


depths, faces = [], []
for y in range(height):
    for x in range(width):
        spans = [span(at, x, y) for at in range(len(solids))]
        shown = far, 0
        for depth in sorted({end for each in spans if each for end in each[:2] if end < far}):
            has = lambda at: spans[at] is not None and spans[at][0] <= depth < spans[at][1]
            if eval(member):
                touching = [each[2] if each[0] == depth else each[3] for each in spans if each and depth in each[:2]]
                shown = depth, min(face for face in touching if face) if any(touching) else 0
                break
        depths.append(shown[0])
        faces.append(shown[1])
if how == "above":
    depths, faces = ([each[y * width + x] for y in range(height - 1, -1, -1) for x in range(width)] for each in (depths, faces))
with open(out, "wb") as file:
    if how == "text":
        file.write("".join(" ".join(map(str, depths[y * width:(y + 1) * width])) + "\n" for y in range(height)).encode())
    else:
        for numbers in (depths, faces)[:1 if how == "depths" else 2]:
            file.write(b"P6\n%d %d\n255\n" % (width, height) + b"".join(each.to_bytes(3, "big") for each in numbers))
