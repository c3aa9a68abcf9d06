"""`debug` over real streams, which no proof sees: each answer comes before the next line is written, by a pipe and by a terminal."""
import os
import pty
import select
import subprocess
import termios

import pytest
from support import TOP, content

from pxplanes.machine import sessions

SECONDS = 60
LINES = [b"step 2", b"", b"at", b"macro 1", b"field 0 0", b"back 3", b"step " + b"0" * 250, b"no such line", b"run", b"pixel 0 0", b"at"] * 20


def pipe():
    """Both ends of a pipe for input and for output: the program's two, and ours."""
    (theirs, ours), (output, written) = os.pipe(), os.pipe()
    return theirs, written, ours, output


def terminal():
    """The same of a terminal that shows nothing of what is typed and changes no byte."""
    ours, theirs = pty.openpty()
    mode = termios.tcgetattr(theirs)
    mode[0] &= ~termios.ICRNL
    mode[1] &= ~termios.OPOST
    mode[3] &= ~termios.ECHO
    termios.tcsetattr(theirs, termios.TCSANOW, mode)
    return theirs, os.dup(theirs), ours, os.dup(ours)


def read(output, length, seconds):
    """So many bytes; fewer at the end, or if no more come in time."""
    found = b""
    while len(found) < length and select.select([output], [], [], seconds)[0]:
        try:
            piece = os.read(output, length - len(found))
        except OSError:
            break
        if not piece:
            break
        found += piece
    return found


def talked(words, built, ends, seconds=SECONDS):
    """What a program answers to each line, with what is expected; each line is written after the answer before is whole."""
    scene = content(TOP, "cases/one_solid/stdin")
    expected = [b"".join(line + b"\n" for line in lines) for lines in sessions.held(built, scene, LINES)]
    theirs, written, ours, output = ends()
    child = subprocess.Popen(words, stdin=theirs, stdout=written, stderr=subprocess.DEVNULL)
    os.close(theirs)
    os.close(written)
    try:
        os.write(ours, scene)
        for line, answer in zip(LINES, expected):
            os.write(ours, line + b"\n")
            yield read(output, len(answer), seconds), answer
        os.write(ours, b"quit\n")
        yield (child.wait(seconds), read(output, 1, seconds)), (0, b"")
    finally:
        child.kill()
        child.wait()
        os.close(ours)
        os.close(output)


@pytest.mark.parametrize("ends", (pipe, terminal))
def test_each_line_is_answered_before_the_next(built, ends):
    for found, expected in talked([built, "debug"], built, ends):
        assert found == expected


def test_a_late_answer_is_found(built, tmp_path):
    late = ["bash", "-c", 'cat > "$1" && "$0" debug < "$1"', built, str(tmp_path / "all")]
    assert next(talked(late, built, pipe, seconds=1)) == (b"", b"at 2\n")
