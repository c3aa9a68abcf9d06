"""A renderer that errs: it draws by the program named, and then takes the higher of two face numbers
for none (faces), has its rows from the bottom (rows), or stops at the first scene without a `cut` (stops)."""
import subprocess
import sys

program, scene, out, how = sys.argv[1:5]
maps = subprocess.run([program], stdin=open(scene), capture_output=True).stdout
if how == "stops" and "cut" not in open(scene).read():
    sys.exit("wrong.py: no cut")
start, width, height = (13, 32, 24)
rows = [maps[start + 3 * width * y:start + 3 * width * (y + 1)] for y in range(height)]
if how == "rows":
    rows = rows[::-1]
behind = maps[start + 3 * width * height:]
if how == "rows":
    own = behind[start:]
    behind = behind[:start] + b"".join(own[3 * width * y:3 * width * (y + 1)] for y in reversed(range(height)))
if how == "faces":
    behind = behind[:start] + bytes(min(byte, 2) for byte in behind[start:])
if how == "depths":
    behind = b""
open(out, "wb").write(maps[:start] + b"".join(rows) + behind)
