#!/usr/bin/env python3
"""Runs the cases of cases/ over the built program, and compares what it answers byte for byte.

Use: python/tests/run_cases.py [--jobs N] [PROGRAM]   (default: crates/px_program/out/px_program)

A case is a folder cases/NAME with these files; one that is not there is empty, and `status` then 0:
  args    the program's words, one a line, any bytes
  stdin   its input; NAME.gz holds any of these files packed by gzip
  stdout  what it must write, to the byte; stderr the same
  status  its exit status
N cases go side by side, as many as there are processors where it is not said. Prints a line for each
case that fails, and last 'N passed, M failed'. Ends with 0 where none failed
and at least one passed, with 1 otherwise, and with 2 where there is no program.
"""
import concurrent.futures
import gzip
import os
import subprocess
import sys

sys.dont_write_bytecode = True
sys.path[:0] = [os.path.join(os.path.dirname(os.path.realpath(__file__)), folder) for folder in ("../../tools/lib", "..")]
from pxplanes.errors import Trouble
from pxplanes import ends
from pxplanes import program

CASES = os.path.join(ends.TOP, "cases")
SECONDS = 60


def content(folder, leaf):
    path = os.path.join(folder, leaf)
    if os.path.exists(path + ".gz"):
        with gzip.open(path + ".gz") as file:
            return file.read()
    if not os.path.exists(path):
        return b""
    with open(path, "rb") as file:
        return file.read()


def read_case(folder):
    """The words, the input, and the wanted status, output and note of a case."""
    words = content(folder, "args").splitlines()
    status = int(content(folder, "status") or b"0")
    wanted = (status, content(folder, "stdout"), content(folder, "stderr"))
    return words, content(folder, "stdin"), wanted


def answer(command, words, stdin):
    """The status, output and note of one run; None where it does not end in time."""
    try:
        done = subprocess.run(command + words, input=stdin, capture_output=True, timeout=SECONDS)
    except subprocess.TimeoutExpired:
        return None
    return done.returncode, done.stdout, done.stderr


def difference(wanted, got):
    """What is wrong with an answer, in one line; None where nothing is."""
    if got is None:
        return "no answer in %d seconds" % SECONDS
    if wanted[0] != got[0]:
        return "status %d in place of %d; note %r" % (got[0], wanted[0], got[2][:80])
    for what, want, have in (("output", wanted[1], got[1]), ("note", wanted[2], got[2])):
        if want != have:
            at = len(os.path.commonprefix([want, have]))
            return "%s differs at byte %d: %r in place of %r (%d bytes in place of %d)" % (
                what, at, have[at:at + 16], want[at:at + 16], len(have), len(want))
    return None


def names():
    return sorted(name for name in os.listdir(CASES) if os.path.isdir(os.path.join(CASES, name)))


def wrong(built, name):
    """What is wrong with what the program answers to a case, in one line; None where nothing is."""
    words, stdin, wanted = read_case(os.path.join(CASES, name))
    return difference(wanted, answer([built], words, stdin))


def main(words):
    others, said = ends.options(words, (), ("--jobs",))
    if len(others) > 1:
        raise Trouble("one program is enough; --help says more")
    built = program.needed(others[0] if others else None)
    passed = failed = 0
    with concurrent.futures.ThreadPoolExecutor(ends.jobs(said.get("--jobs"))) as pool:
        for name, line in zip(names(), pool.map(lambda name: wrong(built, name), names())):
            passed += not line
            failed += bool(line)
            if line:
                print("FAIL %s: %s" % (name, line), flush=True)
    print("%d passed, %d failed" % (passed, failed))
    return 0 if passed and not failed else 1


if __name__ == "__main__":
    ends.run("run_cases", __doc__, main)
