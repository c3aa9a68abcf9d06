"""Does what a cure says: the marked word, or the whole line, becomes what is to be written, here or in
the first line; or the text is made again. Prints whether the program then takes the scene."""
import re
import subprocess
import sys

program, path, said = sys.argv[1:4]
text = open(path, "rb").read()
cure = next((line[6:] for line in said.split("\n") if line.startswith(("cure: ", "hint: "))), "")
number = int(re.search(r"^(?:malformed|limit) line (\d+)", said, re.M).group(1))
marks = [line for line in said.split("\n") if line.strip() and not line.strip("^ ")]
shown = said.split("\n")[said.split("\n").index(marks[0]) - 1] if marks else ""
word = shown[marks[0].index("^"):len(marks[0])] if marks else ""


def texts():
    """The texts that a reader of the cure would try."""
    yield text.decode("utf-16").encode() if "UTF-16" in cure else text
    yield text.replace(b"\xef\xbb\xbf", b"").replace(b"\xc2\xa0", b" ").replace(b"\0", b"")
    yield text.replace(b"\r", b"\n")
    yield text + b"end\n"
    lines = text.split(b"\n")
    for written in re.findall(r"write ([^:]*?)(?:, in the show line too| in the first line|, and |[:;]|\Z)", cure):
        new = written.encode()
        yield b"\n".join(lines[:number - 1] + [new] + lines[number:])
        yield b"\n".join(lines[:number - 1] + [lines[number - 1].replace(word.encode(), new, 1)] + lines[number:])
        marked = re.search(rb"(?<=^solid )\S+", lines[number - 1])
        yield text.replace(marked.group(), new) if marked else text
        shows = [line for line in lines if not line.startswith(b"show")]
        yield b"\n".join(shows[:-2] + [new] + shows[-2:])
        yield b"\n".join([new] + lines[1:])
        yield b"\n".join(lines[:number - 1] + [b"solid pyramid 200 180 160"] + lines[number - 1:])
    above = re.match(r"put line (\d+) above", cure)
    if above:
        moved = lines.pop(int(above.group(1)) - 1)
        yield b"\n".join(lines[:number - 1] + [moved] + lines[number - 1:])
    if "begin a solid above it" in cure:
        yield b"\n".join(lines[:number - 1] + [b"solid pyramid 200 180 160"] + lines[number - 1:])
    if "choose another" in cure:
        yield b"\n".join(lines[:number - 1] + [lines[number - 1].replace(word.encode(), b"other")] + lines[number:]).replace(b"+ bar", b"+ other")
    if "halves of a cell" in cure:
        first = re.sub(rb"(?m)^(front|back) (\S+) (\S+) (\S+)", lambda plane: b"%s %d %d %d" % (
            (plane.group(1),) + tuple(int(2 * float(plane.group(i))) for i in (2, 3, 4))), text)
        yield first.replace(b"pxscene 1", b"pxscene 3").replace(b"depth 9 ", b"depth 9 1 ")


tried = (subprocess.run([program, "plan"], input=each, capture_output=True).returncode for each in texts())
print("taken then" if 0 in tried else "not taken then")
