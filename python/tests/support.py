"""What the tests share: cases in folders, the runs that documents show, and what must be installed for them.

A case is a folder of tools/cases. It is copied to an empty folder, with links to the repository's folders next to it,
and its `run` is given to bash there, with PROGRAM set. If root runs it, it cannot write into the repository.

  run     the command lines
  stdin   their input
  stdout  what they must write, to the byte; stderr the same (one that is not there is empty)
  status  the exit status of the last (0)
  wanted/ the files that they must leave; PNG files are compared unpacked
  needs   commands that must be there, one a line; the case is skipped if one is not. `built` is a proved program; `page` is
          page/pxplanes.html; `archive` is the library for C, which tools/dev/build makes, `aarch64` and `windows` those for other
          systems; `shared` is the same as PXPLANES_LIBRARY names it; `states` is one with the calls for states; `venv` is Python's own; `chroot` is a place to lay out a system,
          from an archive of Debian that answers"""
import ctypes
import functools
import importlib.util
import os
import re
import resource
import shutil
import subprocess
import sys
import tempfile

import pytest

TOP = os.path.dirname(os.path.dirname(os.path.dirname(os.path.abspath(__file__))))
sys.path[:0] = [os.path.join(TOP, "tools", "lib"), os.path.join(TOP, "python")]
from pxplanes import ends
from pxplanes.image import netpbm
import sessions_of_tests

CASES = os.path.join(TOP, "tools", "cases")
SHARED = "PXPLANES_LIBRARY"
PAGE = os.path.join(TOP, "page", "pxplanes.html")
ARCHIVES = {need: os.path.join(TOP, "crates", "px_c", "out", "libpx_c%s.a" % end)
            for need, end in (("archive", ""), ("aarch64", "-aarch64"), ("windows", "-windows"))}
ARCHIVE = ARCHIVES["archive"]
NO_LIBRARY = "there is no library for C; .ci/run builds it"
SKIPPED = {"built": "it needs a program that is proved", "archive": NO_LIBRARY, "shared": NO_LIBRARY,
           "aarch64": NO_LIBRARY + " where its cross compiler is installed", "windows": NO_LIBRARY + " where its cross compiler is installed",
           "page": "there is no page; tools/package --web --page makes it",
           "kept": "the page was made of other crates; tools/package --web --page, after a gate, makes it of these",
           "venv": "this Python makes no venv; Debian's python3-venv has it",
           "chroot": "only root lays out a system, and from an archive of Debian that answers",
           "states": "there is no library for C with the calls for states; .ci/run builds it"}
# The needs that tools/dev/build makes.
OF_BUILDS = {*ARCHIVES, "shared", "states"}
RUNNING = sessions_of_tests.Groups()
# What runs of documents need, by what is in them.
NEEDS = (("rtl/rtl ", ("iverilog", "yosys")), ("simulate-board", ("verilator", "numpy")), ("pxplanes compare", ("numpy",)),
         ("pxplanes suite", ("numpy",)), ("play_two_sums/stdin; printf", ("states",)))
# A process of a test that takes more of a processor is ended; so is a test that hangs for so long.
SECONDS_OF_PROCESSOR, SECONDS_OF_WAITING = 600, 3600
LINKED = ("tools", "cases", "docs", "gallery", "suite", "man", "pxplanes", "python", "rtl", "editors", "include", "page")
# The wrapper as documents call it: the program is the one that is tried, whatever is asked first.
AS_BUILT = """#!/usr/bin/env bash
[ "$1" = --unproved ] && shift
case ${1-} in view | explain | trace | convert | compare | suite | batch) exec "${0%/*}/built/pxplanes" "$@" ;; esac
exec "${0%/*}/built/pxplanes" --as-built "$@"
"""
OWN = ("run", "stdin", "stdout", "stderr", "status", "wanted", "needs")


def content(folder, leaf):
    path = os.path.join(folder, leaf)
    return ends.content(path) if os.path.exists(path) else b""


def difference(what, want, got):
    if want == got:
        return None
    at = len(os.path.commonprefix([want, got]))
    return "%s differs at byte %d: %r in place of %r" % (what, at, got[at:at + 60], want[at:at + 60])


def file_difference(wanted, folder, leaf):
    path = os.path.join(folder, leaf)
    if not os.path.exists(path):
        return "%s was not written" % leaf
    want, got = content(wanted, leaf), content(folder, leaf)
    if leaf.endswith(".png"):
        want, got = b"".join(netpbm.png_content(want)), b"".join(netpbm.png_content(got))
    return difference(leaf, want, got)


def prepare(folder):
    for leaf in LINKED:
        os.symlink(os.path.join(TOP, leaf), os.path.join(folder, leaf))


def limit():
    """Bounds the processor time of a process."""
    resource.setrlimit(resource.RLIMIT_CPU, (SECONDS_OF_PROCESSOR, SECONDS_OF_PROCESSOR))


@functools.lru_cache(None)
def unwritable():
    """The words before a command to which the repository can't be written, though its folder has links to it; none
    if that needs rights that this process has not."""
    words = ["unshare", "--mount", "sh", "-c", 'mount --bind "$0" "$0" && mount -o remount,bind,ro "$0" && exec "$@"', TOP]
    return words if shutil.which("unshare") and subprocess.run([*words, "true"], capture_output=True).returncode == 0 else []


def answer(lines, folder, built, stdin=b"", **ends_of_run):
    words = [*unwritable(), "bash", "-c", lines]
    environment = dict(os.environ, PROGRAM=built, PXPLANES_PROGRAM=built, LC_ALL="C",
                       PYTHONDONTWRITEBYTECODE="1")
    environment.pop("PYTHONPATH", None)
    return RUNNING.run(words, SECONDS_OF_WAITING, stdin, cwd=folder, env=environment, preexec_fn=limit, stdout=subprocess.PIPE, **ends_of_run)


def run_in(folder, case, built):
    """The status, the output and the note of a case's lines."""
    prepare(folder)
    for leaf in os.listdir(case):
        if leaf not in OWN:
            shutil.copy(os.path.join(case, leaf), os.path.join(folder, leaf))
    done = answer(content(case, "run").decode(), folder, built, content(case, "stdin"),
                  stderr=subprocess.PIPE)
    return done.returncode, done.stdout, done.stderr


def wrong_in(case, built):
    """What is wrong with what a case does, in one line; None where nothing is."""
    wanted = os.path.join(case, "wanted")
    with tempfile.TemporaryDirectory(prefix="px-case-") as folder:
        try:
            status, output, note = run_in(folder, case, built)
        except subprocess.TimeoutExpired:
            return "it hangs: no answer in %d seconds" % SECONDS_OF_WAITING
        want = int(content(case, "status") or b"0")
        if status != want:
            return "status %d in place of %d; note %r" % (status, want, note[-200:])
        out = [difference("output", content(case, "stdout"), output),
               difference("note", content(case, "stderr"), note)]
        out += [file_difference(wanted, folder, leaf)
                for leaf in (os.listdir(wanted) if os.path.isdir(wanted) else ())]
    return next((line for line in out if line), None)


def has_calls(need):
    """Whether the shared library is there, with the calls that a case needs."""
    path = os.environ.get(SHARED, "")
    return os.path.isfile(path) and (need == "shared" or hasattr(ctypes.CDLL(path), "pxplanes_state"))


def lays_out_systems():
    """Whether this may mount, as root does, and an archive of Debian answers of those that apt knows."""
    if subprocess.run(["unshare", "--mount", "true"], capture_output=True).returncode != 0:
        return False
    asked = ["apt-get", "indextargets", "--format", "$(SITE)/dists/$(CODENAME)/InRelease", "Created-By: Packages", "Origin: Debian"]
    found = subprocess.run(asked, capture_output=True, text=True).stdout.split()
    with tempfile.TemporaryDirectory(prefix="px-archive-") as folder:
        words = ["/usr/lib/apt/apt-helper", "-oAcquire::Retries=0", "download-file", *found[:1], os.path.join(folder, "release")]
        return bool(found) and subprocess.run(words, capture_output=True).returncode == 0


def is_lacking(need):
    """Whether a command is not there; `built` is a program with no checks at run time, which costs memory and time."""
    if need in ("shared", "states"):
        return not has_calls(need)
    if need in ("numpy", "yaml"):
        return importlib.util.find_spec(need) is None
    if need in ARCHIVES or need == "page":
        return not os.path.isfile(ARCHIVES.get(need, PAGE))
    if need == "chroot":
        return not lays_out_systems()
    if need == "venv":
        return not all(map(importlib.util.find_spec, ("venv", "ensurepip")))
    return "PXPLANES_UNPROVED" in os.environ if need == "built" else shutil.which(need) is None


@functools.lru_cache(None)
def has(need):
    """Whether what a case needs is there."""
    return not is_lacking(need)


def skip_without(needs):
    """Skips the test if one of these needs is not there."""
    for need in needs:
        if not has(need):
            pytest.skip(why_skipped(need))


def why_skipped(need):
    return SKIPPED.get(need, "no %s; tools/dev/peers installs it" % need)


def needs_of_case(case):
    return content(case, "needs").decode().split()


def steps(block):
    """The commands of a block, each with what it is to write."""
    found = []
    for line in block.split("\n")[:-1]:
        if line.startswith("$ "):
            found.append([line[2:], ""])
        else:
            found[-1][1] += line + "\n"
    return found


def needs_of(command):
    """What must be there for a command line: the command that it begins with, and what NEEDS says."""
    return re.findall(r"\A[\w.-]+(?= |$)", command) + [need for part, needs in NEEDS if part in command for need in needs]


def wrong_in_block(block, folder, built):
    """What is wrong with a block's runs, or None; and a command that is not there, or None."""
    for command, wanted in steps(block):
        lacking = next(filter(is_lacking, needs_of(command)), None)
        if lacking:
            return None, lacking
        done = answer(command, folder, built, stderr=subprocess.STDOUT)
        wrong = difference("what `%s` writes" % command, wanted.encode(), done.stdout)
        if wrong:
            return wrong, None
    return None, None


def prepare_built(folder, built):
    """Has `pxplanes` in a folder call the wrapper over the program as it is built, whatever is asked first."""
    whole = os.path.join(folder, "built", "crates", "px_program", "out")
    os.makedirs(whole)
    os.symlink(built, os.path.join(whole, "px_program"))
    shutil.copy(os.path.join(TOP, "pxplanes"), os.path.join(folder, "built"))
    for leaf in ("python", "page", "suite"):
        os.symlink(os.path.join(TOP, leaf), os.path.join(folder, "built", leaf))
    os.mkdir(os.path.join(folder, "pictures"))
    os.symlink(os.path.join(TOP, "examples"), os.path.join(folder, "examples"))
    path = os.path.join(folder, "pxplanes")
    os.remove(path)
    with open(path, "w") as file:
        file.write(AS_BUILT)
    os.chmod(path, 0o755)
