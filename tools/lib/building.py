"""Builds of the crates that `rt ci` has proved here what `rt ci` does not build. It is no tool itself.

`rt ci` leaves in each library's folder what the crates above it may cite, its statements, and proves all crates over those. So
does `rattle build`, by which this proves the library for C, or the program, once more over them, and compiles it. `rt lib` knows no
such way: it proves every crate below again."""
import contextlib
import hashlib
import os
import re
import shutil
import signal
import subprocess
import tempfile
import time

from builds import FIRST
from pxplanes import ends
import gate
from pxplanes.errors import Trouble
LIBRARY, PROGRAM = "px_c", "px_program"
LINE = re.compile(r"(?m)^([a-z]\w*)( staticlib)?:(.*)$")
PROVED = re.compile(r"(?m)^logic=proved .*\bstatements=trusted\b.*$")
# The words of such a line with which `rt ci` refuses a crate.
REFUSED = re.compile(r"\b(foreign|hides|partial|may-abort|may-serve|may-wait|bugs)\b")
# The lines of what rattle says that say nothing of what is not proved.
TOLD_ANYWAY = re.compile(r": proved$|^(statements |logic|empty contracts:|by-macro:|rattle build:)")
# The kit has what a program asks of the system for its own alone.
SYSTEM = os.path.join(ends.TOP, "tools", "lib", "system.c")
SYSTEM_PARTS = ("libos_c.a", "liblibc_c.a")
MODULE = "module.bc"
# What was built last, outside the crates' own folders, which rt ci empties: each file, and next to it what it was built of.
STORE = os.path.join(ends.TOP, "built")
KEPT = os.path.join(STORE, MODULE)
# How a folder begins in which what is built for one processor is kept for another.
KEEPS = "px-build-"
# What says of which sources the libraries in crates/*/out are. The next `rt ci` removes it, since it may put back older ones.
PROVED_OF = os.path.join(ends.TOP, "crates", PROGRAM, "out", "proved-of")
# The module is compiled for some seconds.
LOOKED_AFTER = 0.2
RUNNING = set()
# Which of Debian's packages has a command.
PACKAGES = {command: "; Debian's %s has it" % package for command, package in (
    ("dpkg-source", "dpkg-dev"), ("dpkg-buildpackage", "dpkg-dev"), ("dh", "debhelper"), ("dh_python3", "dh-python"), ("doxygen", "doxygen"))}


def need(command):
    """Refuses to go on without a command."""
    if shutil.which(command) is None:
        raise Trouble("there is no command %s%s" % (command, PACKAGES.get(command, "")))


def done(words, name=None, **more):
    """What a command writes; its trouble is the tool's, under a name."""
    need(more.get("executable", words[0]))
    run = subprocess.run(words, capture_output=True, text=True, errors="replace", **more)
    if run.returncode != 0:
        lines = (run.stderr.strip() or run.stdout.strip()).split("\n")
        raise Trouble("%s: %s" % (name or words[0], lines[-1][:200] or "status %d" % run.returncode))
    return run.stdout


def kit():
    """The folder of the kit, by its command."""
    found = shutil.which("rt")
    if found is None:
        raise Trouble("there is no command rt; README.md says what is needed")
    return os.path.dirname(os.path.dirname(os.path.realpath(found)))


def in_kit(*leaves):
    return os.path.join(kit(), *leaves)


def descendants(pid):
    """The processes below one, by their numbers."""
    parents, found = {}, {pid}
    for leaf in filter(str.isdigit, os.listdir("/proc")):
        with contextlib.suppress(OSError), open("/proc/%s/stat" % leaf) as file:
            parents[int(leaf)] = int(file.read().rsplit(")", 1)[1].split()[1])
    while more := {child for child, parent in parents.items() if parent in found} - found:
        found |= more
    return found - {pid}


def handed(words, folder, word=MODULE):
    """The module that the words of a compiler name, called with a word in a folder."""
    return os.path.join(folder, MODULE) if os.path.basename(words[0]) == "clang" and {MODULE, word} <= set(words) else None


def tried(words, _):
    """The program that `rt try` built, where words run it."""
    return next((word for word in words if os.path.basename(word) == "program" and os.path.isfile(word)), None)


def copied(pid, find, copy):
    """Whether a process below one names a file that is looked for; it is copied then."""
    for child in descendants(pid):
        with contextlib.suppress(OSError), open("/proc/%d/cmdline" % child, errors="replace") as file:
            path = find(file.read().split("\0"), os.readlink("/proc/%d/cwd" % child))
            if path:
                shutil.copy(path, copy)
                return True
    return False


def of_crates():
    """What builds are made of: the crates as they stand, and the kit. In one line."""
    return "%s %s" % (gate.sum_crates(), ends.content(in_kit("KIT-ID")).decode("utf-8").strip())


def kept_of(leaf):
    """What a file that is kept was built of, and the line of its proof; none where it is not there, or is not as it was kept."""
    path = os.path.join(STORE, leaf)
    if not os.path.isfile(path) or not os.path.isfile(path + ".of"):
        return None, None
    of, line, summed = ends.content(path + ".of").decode("utf-8").splitlines()
    return (of, line) if summed == hashlib.sha256(ends.content(path)).hexdigest() else (None, None)


def touched(top):
    """The crates of a folder whose statements `rt check` has touched."""
    return [name for name in lines_of(top) if os.path.exists(os.path.join(top, "crates", name, "out", "rlib", "stamp"))]


def note_proved(sum_of):
    """Notes that `rt ci` made the libraries in crates/*/out of crates with this checksum, where none was before it."""
    if sum_of != gate.sum_crates():
        raise Trouble("the crates have another checksum than those that were proved")
    ends.replaced(PROVED_OF, sum_of.encode())


def need_proved():
    """Refuses libraries in crates/*/out of which nobody knows that they are of these sources."""
    if not os.path.isfile(PROVED_OF) or ends.content(PROVED_OF).decode("ascii") != gate.sum_crates() or touched(ends.TOP):
        raise Trouble("the libraries in crates/*/out may be of other sources; .ci/run proves them")


def is_kept():
    """Whether the module that is kept is of the crates as they stand."""
    return (kept_of(MODULE)[0] or "").partition(" ")[0] == gate.sum_crates()


def keep(path, leaf, of, line):
    """Keeps a file by a name, with what it was built of and the line of its proof."""
    os.makedirs(STORE, exist_ok=True)
    kept = os.path.join(STORE, leaf)
    shutil.copy(path, kept)
    ends.replaced(kept + ".of", ("%s\n%s\n%s\n" % (of, line, hashlib.sha256(ends.content(kept)).hexdigest())).encode())


def lines_of(top):
    """The crates of a folder, each with the libraries that it names: by crates.txt."""
    text = ends.content(os.path.join(top, "crates.txt")).decode("utf-8")
    return {name: rest.split() for name, _, rest in LINE.findall(text)}


def with_below(lines, aims):
    """The names of these crates and all below them, sorted; `lines` as `lines_of` gives it."""
    found, left = set(), list(aims)
    while left:
        name = left.pop()
        if name in lines and name not in found:
            found.add(name)
            left += lines[name]
    return sorted(found)


@contextlib.contextmanager
def started(words, **how):
    """A command in a session of its own. If it still runs at the end of this, it is ended with all that it started."""
    running = subprocess.Popen(words, **{"stdin": subprocess.DEVNULL, **how}, start_new_session=True)
    RUNNING.add(running)
    try:
        yield running
    finally:
        RUNNING.discard(running)
        end(running)


def end(running):
    if running.poll() is None:
        # (rt runs a program in a session of its own)
        below = descendants(running.pid)
        with contextlib.suppress(ProcessLookupError):
            os.killpg(running.pid, signal.SIGTERM)
        for pid in below:
            with contextlib.suppress(ProcessLookupError):
                os.kill(pid, signal.SIGTERM)
        running.wait()


def end_all():
    """Ends what was started and still runs, of whatever thread."""
    for running in tuple(RUNNING):
        end(running)


def ran(words, folder, copy=None, find=handed, is_copy_enough=False, **how):
    """Runs a command of the kit in a folder: its status, what it says, and whether a copy was made, if one is asked for, of the file
    that is found in the words of a process below it. If the copy is enough, the command is ended then."""
    kept = copy is None
    with tempfile.TemporaryFile() as notes, started(words, cwd=folder, stdout=notes, stderr=notes, **how) as running:
        while not kept and running.poll() is None:
            time.sleep(LOOKED_AFTER)
            kept = copied(running.pid, find, copy)
        if is_copy_enough and kept:
            end(running)
        status = running.wait()
        notes.seek(0)
        return status, notes.read().decode("utf-8", "replace"), kept


def unproved(folder):
    """The program as `rt try` builds it, without proofs and with checks at run time, copied into a folder.

    `rt try` keeps no file: it is copied while it draws a picture that takes it some seconds."""
    kit()
    copy = os.path.join(folder, "program")
    words = ["rt", "try", "--steps", "1000", "--seconds", "600", "--", "tile", "4096", "4096"]
    with open(os.path.join(ends.TOP, "gallery", "house.scene"), "rb") as scene:
        _, said, is_copied = ran(words, os.path.join(ends.TOP, "crates", PROGRAM), copy, tried, True, stdin=scene)
    if not is_copied:
        raise Trouble("not built: %s" % said.strip().split("\n")[0])
    return copy


def run(words, folder, copy):
    """What a command of the kit says, as `ran`; where it fails, or makes no copy, that is the tool's trouble."""
    status, said, kept = ran(words, folder, copy)
    if status != 0:
        raise Trouble("%s: %s" % (os.path.basename(words[0]), (said.strip() or "status %d" % status).split("\n")[-1][:200]))
    if not kept:
        raise Trouble("rattle handed no module to clang; this is not the kit that page/library/README.md describes")
    return said


def link(build, part, to):
    """Links the program."""
    if build.system == FIRST.system:
        words = [in_kit("bin", "rattle-link"), "--target", build.target, "--toolchain", in_kit("toolchain"), "-o", to, part]
        done([*words, *(in_kit("c", leaf) for leaf in SYSTEM_PARTS)], "rattle-link")
    else:
        done([build.compiler, "-O2", "-DPROGRAM", SYSTEM, part, "-o", to, "-Wl,--gc-sections,-z,relro,-z,now", "-s"])


def calls_of(path):
    """What a program calls of the system."""
    clang = in_kit("toolchain", "bin", "clang")
    said = done(["llvm-nm", "-D", "--undefined-only", "-j", path], "llvm-nm", executable=clang)
    return {name.partition("@")[0] for name in said.split()}


class Proved:
    """A folder of crates in which `rt ci` has proved all that crates.txt names. What was proved for one processor is kept, where a
    folder is given for it, and is not proved again for another."""

    def __init__(self, top, jobs, kept=None):
        self.top, self.jobs, self.kept = os.path.abspath(top), str(jobs), kept
        self.lines = lines_of(self.top)

    def folder(self, crate):
        return os.path.join(self.top, "crates", crate)

    def statements(self, crate):
        """The folder of what the crates above one may cite."""
        found = os.path.join(self.folder(crate), "out", "rlib", crate + ".rlib")
        if not os.path.isdir(found):
            raise Trouble("crates/%s is not proved in %s; rt ci proves all" % (crate, self.top))
        return found

    def below(self, crate):
        """The libraries of this folder below a crate."""
        return with_below(self.lines, self.lines[crate])

    def above(self, crate):
        """The crates of this folder above one, by their names."""
        return sorted(name for name in self.lines if crate in self.below(name))

    def words(self, crate):
        """What is said to `rattle` of a crate, of whatever kind."""
        kept, every = in_kit("rlibs"), self.below(crate)
        yield from ("--crate-name", crate, os.path.join("src", "main.rt" if crate == PROGRAM else "lib.rt"))
        for name in ("std", *self.lines[crate]):
            yield from ("--extern", "%s=%s" % (name, self.statements(name) if name in every else os.path.join(kept, name + ".rlib")))
        for place in (kept, *(os.path.dirname(self.statements(name)) for name in every)):
            yield from ("-L", "dependency=" + place)
        yield from ("--antt-project", in_kit("rattle", "logic", "antt-project.json"), "--logic-built", in_kit("logic_built"))
        yield from ("--links", crate + "=", "--empty-contracts", "--jobs", self.jobs)

    def prove(self, crate, to):
        """Proves a crate over the statements below it, as `rt ci` does, and writes what crates above a library may cite: the line of
        its proof, or None; and what rattle says of what is not proved."""
        is_last = crate in (LIBRARY, PROGRAM)
        words = [in_kit("bin", "rattle"), "check" if is_last else "build", *self.words(crate), *(() if is_last else ("--statements", "-o", to))]
        status, said, _ = ran(words, self.folder(crate))
        found = PROVED.search(said)
        if status == 1:
            return None, "\n".join(line for line in said.splitlines() if not TOLD_ANYWAY.search(line))
        if status != 0 or found is None:
            trouble = next((line for line in said.splitlines() if "error" in line), None)
            raise Trouble(trouble[:300] if trouble else "%s: rattle prints no line that says that it is proved" % crate)
        return self.accepted(crate, found[0]), ""

    @staticmethod
    def accepted(crate, line):
        """The line of a proof, unless `rt ci` refuses a word of it."""
        refused = REFUSED.search(line)
        if refused:
            raise Trouble("%s: its proof says %s, which rt ci refuses" % (crate, refused[0]))
        return line

    def compiling(self, crate, build):
        """What is said besides where a crate is compiled."""
        yield from ("--target", build.target, "--cpu", build.processor, "--backend", "llvm", "--toolchain", in_kit("toolchain"))
        yield from ("--incremental", os.path.join(self.kept, crate)) if self.kept else ()
        yield from () if crate == PROGRAM else ("--crate-type", "staticlib")

    def compile(self, crate, build, to, copy=None):
        """Proves a crate over the statements below it, and compiles it to a file; the line of its proof."""
        words = [*self.words(crate), *self.compiling(crate, build)]
        said = run([in_kit("bin", "rattle"), "build", *words, "-o", to], self.folder(crate), copy)
        found = PROVED.search(said)
        if found is None:
            raise Trouble("%s: no line of what was built says that it is proved" % crate)
        return self.accepted(crate, found[0])

    def once(self, made, make, *beside):
        """A file, the line of its proof, and whether it was kept of these very crates and this kit; otherwise `make` makes it now, and
        it is kept with the files next to it that `make` leaves. Of another folder than this repository nothing is kept."""
        leaf, of = os.path.basename(made), of_crates() if self.top == ends.TOP else None
        found, line = (None, None) if of is None else kept_of(leaf)
        if found == of != None and all(kept_of(each)[0] == of for each in beside):
            shutil.copy(os.path.join(STORE, leaf), made)
            return made, line, True
        if of is not None:
            need_proved()
        with tempfile.TemporaryDirectory(prefix=KEEPS) as place:
            whole, line = make(place)
            if of is not None and of == of_crates():
                for path, name in ((whole, leaf), *((os.path.join(place, each), each) for each in beside)):
                    keep(path, name, of, line)
            shutil.move(whole, made)
        return made, line, False

    def make_library(self, build):
        """Builds the library for C, and of the first build keeps the module too; as `once`."""
        def make(place):
            archive, module = (os.path.join(place, leaf) for leaf in ("library.a", MODULE))
            return archive, self.compile(LIBRARY, build, archive, module if build is FIRST else None)

        made = build.of(os.path.join(self.folder(LIBRARY), "out", "libpx_c.a"))
        return self.once(made, make, *[MODULE][:build is FIRST])

    def make_program(self, build):
        """Builds the program, which may call nothing that the one of `rt ci` does not; as `once`."""
        first = os.path.join(self.folder(PROGRAM), "out", PROGRAM)
        if not os.path.isfile(first):
            raise Trouble("no program at %s; rt ci builds it" % first)

        def make(place):
            part, whole = (os.path.join(place, leaf) for leaf in ("program.o", "program"))
            line = self.compile(PROGRAM, build, part)
            link(build, part, whole)
            more = sorted(calls_of(whole) - calls_of(first) - build.calls)
            if more:
                raise Trouble("the program for %s calls %s, which the other does not" % (build.end[1:], ", ".join(more)))
            return whole, line

        return self.once(build.of(first), make)
