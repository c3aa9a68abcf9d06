"""Of a map of faces a number for each pixel, 1 where a face shows."""
import sys

data = open(sys.argv[1], "rb").read()
faces = data[len(data) - 3 * 80 * 64:]
for y in range(64):
    print(*[int(any(faces[3 * (80 * y + x):3 * (80 * y + x) + 3])) for x in range(80)])
