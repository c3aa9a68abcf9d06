"""What `./pxplanes` proves, builds and keeps. It is not a tool itself; tools/dev/build runs it.

One run at a time proves, on a copy of the crates: a repository of its own, without the must-fail edits and wrong
bodies, which only the gate tries. After a proof that copy is kept with its statements, outside the checkout, and
tools/dev/prove builds on it."""
import concurrent.futures
import contextlib
import fcntl
import hashlib
import os
import re
import shutil
import subprocess
import sys
import tempfile
import time
from collections.abc import Iterable, Iterator
from dataclasses import dataclass

import building
from building import LIBRARY, PROGRAM
import builds
from pxplanes import ends, program
from pxplanes.errors import Trouble

OUT = os.path.join(ends.TOP, "crates", PROGRAM, "out")
LIBRARIES = os.path.join(ends.TOP, "crates", LIBRARY, "out")
LOCK, LOG, LAST = (os.path.join(OUT, "pxplanes." + end) for end in ("lock", "log", "seconds"))
# What `rt ci` says of a crate that is proved; one that an earlier run on this machine proved is kept.
PROVED, IS_KEPT = re.compile(rb"(?m)^rt: (\w+) (?:proved|is kept)\b"), re.compile(rb"(?m)^rt: \w+ is kept\b")
NOTHING_KEPT = b"nothing is kept"
# What only the gate reads, and what is made.
NOT_LAID_OUT = ("out", "must-fail", "wrong")
# Code and contracts decide what a program does. Proofs may change, and it stays proved.
DECIDING = ("src", "specs")
LOOKED_AFTER = 0.2
# Files that were changed within one tick of the clock have the same time.
TICK = 0.02


def say(line: str) -> None:
    print("pxplanes: " + line, file=sys.stderr, flush=True)


def spoken(seconds: float) -> str:
    """A time that was measured, in seconds below two minutes."""
    return "%d minutes" % round(seconds / 60) if seconds >= 120 else "%d seconds" % seconds


def with_below(aims: Iterable[str]) -> list[str]:
    """The names of these crates and all below them, sorted."""
    return building.with_below(building.lines_of(ends.TOP), aims)


def sources(aim: str) -> tuple[list[str], list[str]]:
    """What decides what a crate does, by names below the top: the files, and the folders that hold them."""
    files, folders = ["crates.txt"], []
    for name in with_below([aim]):
        folders.append(os.path.join("crates", name))
        for part in DECIDING:
            for place, _, leaves in os.walk(os.path.join(ends.TOP, "crates", name, part), followlinks=True):
                at = os.path.relpath(place, ends.TOP)
                folders.append(at)
                files += [os.path.join(at, leaf) for leaf in leaves]
    return sorted(files), folders


def summed(aim: str) -> str:
    """One checksum of the names and contents of a crate's sources."""
    each = ((hashlib.sha256(ends.content(os.path.join(ends.TOP, name))).hexdigest(), name) for name in sources(aim)[0])
    return hashlib.sha256("".join("%s  ./%s\n" % pair for pair in each).encode()).hexdigest()


@dataclass(frozen=True)
class Stamped:
    """A build that is kept while its sources are the same by their contents."""
    aim: str
    # The files of the build, the first for any processor; another that is not there counts as empty.
    built: tuple[str, ...]
    # How the names of the stamp and of the list of sources begin.
    base: str

    def sum_of_build(self) -> str:
        return hashlib.sha256(b"".join(ends.content(path) for path in self.built if os.path.isfile(path))).hexdigest()

    def is_current(self) -> bool:
        """Whether the build is that of the sources; its list is then made again, so that the next look is quick."""
        if not os.path.isfile(self.built[0]) or not os.path.isfile(self.base + ".stamp"):
            return False
        sum_of = summed(self.aim)
        if ends.content(self.base + ".stamp").decode() != "%s %s\n" % (sum_of, self.sum_of_build()):
            return False
        with contextlib.suppress(OSError):
            self.stamp(sum_of)
        return True

    def stamp(self, sum_of: str) -> bool:
        """Says that the build is of the sources with this checksum, if they still have it. The list of the sources has
        the time before they are read once more: whatever is changed from then on is newer."""
        with tempfile.TemporaryDirectory(prefix="stamp.", dir=os.path.dirname(self.base)) as place:
            paths, stamp = os.path.join(place, "paths"), os.path.join(place, "stamp")
            files, folders = sources(self.aim)
            built = [os.path.relpath(path, ends.TOP) for path in self.built if os.path.isfile(path)]
            with open(paths, "w", encoding="utf-8") as file:
                file.writelines(name + "\0" for name in (*files, *folders, *built))
            since = os.stat(paths).st_mtime_ns
            time.sleep(TICK)
            with open(stamp, "w", encoding="ascii") as file:
                file.write("%s %s\n" % (sum_of, self.sum_of_build()))
            if summed(self.aim) != sum_of:
                return False
            os.utime(paths, ns=(since, since))
            os.replace(stamp, self.base + ".stamp")
            os.replace(paths, self.base + ".paths")
        return True


THE_PROGRAM = Stamped(PROGRAM, (program.DEFAULT, program.NEWER), os.path.join(OUT, "pxplanes"))
UNPROVED = Stamped(PROGRAM, (os.path.join(building.STORE, "unproved"),), os.path.join(building.STORE, "unproved"))
THE_LIBRARY = Stamped(LIBRARY, tuple(os.path.join(LIBRARIES, leaf) for leaf in ("libpx_c.a", "libpx_c-x86-64-v3.a")),
                      os.path.join(LIBRARIES, "pxplanes"))


@contextlib.contextmanager
def turn() -> Iterator[int]:
    """Waits until no other run proves or builds here. The file of the lock stays; `rt ci` holds the lock too."""
    try:
        os.makedirs(OUT, exist_ok=True)
        lock = os.open(LOCK, os.O_WRONLY | os.O_CREAT | os.O_APPEND, 0o666)
    except OSError:
        raise Trouble("nothing can be written in %s" % OUT) from None
    try:
        try:
            fcntl.flock(lock, fcntl.LOCK_EX | fcntl.LOCK_NB)
        except BlockingIOError:
            say("another run is proving here; this one waits for its end")
            fcntl.flock(lock, fcntl.LOCK_EX)
        yield lock
    finally:
        os.close(lock)


def lay_out(to: str, names: list[str]) -> None:
    """Lays these crates out in a folder, as a repository of their own."""
    os.makedirs(os.path.join(to, ".git"))
    shutil.copy(os.path.join(ends.TOP, "HANDLES"), to)
    for name in names:
        copy_crate(name, os.path.join(to, "crates", name))
    list_crates(to, names)


def copy_crate(name: str, to: str) -> None:
    own = os.path.join(ends.TOP, "crates", name)
    shutil.copytree(own, to, ignore=lambda place, found: NOT_LAID_OUT if place == own else ())


def list_crates(to: str, names: Iterable[str]) -> None:
    """Writes crates.txt with the lines of these crates."""
    lines = building.LINE.findall(ends.content(os.path.join(ends.TOP, "crates.txt")).decode())
    with open(os.path.join(to, "crates.txt"), "w", encoding="utf-8") as file:
        file.writelines("%s%s:%s\n" % line for line in lines if line[0] in names)


class Apart(building.Proved):
    """px_c in a folder of its own, over the crates that are proved in another."""

    def __init__(self, room: str, apart: str, kept: str) -> None:
        super().__init__(room, 2, kept)
        self.apart, self.lines = apart, building.lines_of(ends.TOP)

    def folder(self, crate: str) -> str:
        return self.apart if crate == LIBRARY else os.path.join(self.top, "crates", crate)


class Proof:
    """A proof of crates by `rt ci`, on a copy of them, and meanwhile one of the library for C by `rattle build`:
    `rt ci` would check px_c and not build it, so that it would be proved twice."""

    def __init__(self, parts: set[str], place: str, log: str) -> None:
        self.log, self.names, self.below = log, with_below(parts), set(with_below([LIBRARY])) - {LIBRARY}
        self.room, self.apart = os.path.join(place, "proved"), os.path.join(place, LIBRARY)
        self.has_library, self.told, self.began = LIBRARY in parts, 0, time.monotonic()
        lay_out(self.room, [name for name in self.names if name != LIBRARY])
        if self.has_library:
            copy_crate(LIBRARY, self.apart)
            os.mkdir(self.built(LIBRARY))

    def built(self, aim: str) -> str:
        """The folder in which a crate is built."""
        return os.path.join(self.apart if aim == LIBRARY else os.path.join(self.room, "crates", aim), "out")

    def proved(self) -> list[str]:
        """The crates that are proved, in the order in which they were; px_c is if it is built."""
        found = [name.decode() for name in PROVED.findall(ends.content(self.log))]
        return [*dict.fromkeys(found), *[LIBRARY] * os.path.isfile(os.path.join(self.built(LIBRARY), "libpx_c.a"))]

    def tell(self) -> None:
        """Says how far it is, if it is further than before."""
        found = self.proved()
        if len(found) > self.told:
            self.told = len(found)
            so_far = spoken(time.monotonic() - self.began)
            line = "%s is proved, %d of %d; %s so far" % (found[-1], self.told, len(self.names), so_far)
            if sys.stderr.isatty():
                end = "" if self.told < len(self.names) else "\n"
                print("\r\033[Kpxplanes: %s " % line, end=end, file=sys.stderr, flush=True)
            else:
                say(line)

    def build_library(self) -> None:
        """Proves px_c over the crates below, which are proved by then, and builds it; also for a newer processor, if
        this is one."""
        with tempfile.TemporaryDirectory(prefix=building.KEEPS) as kept:
            made = Apart(self.room, self.apart, kept)
            for build in (builds.FIRST, builds.SECOND)[:1 + program.is_newer()]:
                made.make_library(build)

    def run(self, lock: int) -> None:
        """Proves everything; trouble if anything is not proved."""
        with contextlib.ExitStack() as stack:
            pool = stack.enter_context(concurrent.futures.ThreadPoolExecutor(1))
            stack.callback(building.end_all)
            output = stack.enter_context(open(self.log, "ab"))
            how = {"cwd": self.room, "stdout": output, "stderr": output, "pass_fds": [lock]}
            ci = stack.enter_context(building.started(["rt", "ci"], **how))
            library: list[concurrent.futures.Future[None]] = []
            while ci.poll() is None or ci.returncode == 0 and not all(each.done() for each in library):
                time.sleep(LOOKED_AFTER)
                self.tell()
                if self.has_library and not library and self.below <= set(self.proved()):
                    library.append(pool.submit(self.build_library))
            self.tell()
            if ci.returncode != 0:
                raise Trouble("rt ci ended with status %d" % ci.returncode)
            for each in library or [pool.submit(self.build_library)] * self.has_library:
                each.result()
            self.tell()

    def build_newer(self) -> None:
        """Builds the program for a newer processor, if this is one. If that fails, the log says so, and the other one
        is used."""
        try:
            if program.is_newer():
                building.Proved(self.room, 2).make_program(builds.SECOND)
        except (Trouble, OSError) as why:
            self.note(why)

    def note(self, why: Exception) -> None:
        with open(self.log, "a", encoding="utf-8") as file:
            file.write("%s\n" % why)

    def broken_off(self) -> str:
        kept = "what was proved is lost, since rt can keep nothing" if NOTHING_KEPT in ends.content(self.log) \
            else "which is kept: the next run goes on from there"
        return "broken off; %d of %d proved, %s" % (len(self.proved()), len(self.names), kept)


def state() -> str:
    """The folder in which the crates stay as they were proved last, with their statements. It is outside the checkout,
    since `rt ci` refuses files there that it does not read."""
    caches = os.environ.get("XDG_CACHE_HOME") or os.path.join(os.path.expanduser("~"), ".cache")
    return os.path.join(caches, "pxplanes", hashlib.sha256(os.fsencode(os.path.realpath(ends.TOP))).hexdigest()[:16])


@contextlib.contextmanager
def room() -> Iterator[str]:
    """An empty folder to prove in, next to that of the state."""
    place = state() + ".new"
    shutil.rmtree(place, ignore_errors=True)
    try:
        os.makedirs(place)
        yield place
    finally:
        shutil.rmtree(place, ignore_errors=True)


def take(built: Stamped, place: str, sum_of: str) -> None:
    """Takes a build from a folder, in place of the one that was here, and stamps it."""
    os.makedirs(os.path.dirname(built.base), exist_ok=True)
    for path in built.built:
        made = os.path.join(place, os.path.basename(path))
        if os.path.isfile(made):
            shutil.copy2(made, path + ".new")
            os.replace(path + ".new", path)
        else:
            with contextlib.suppress(FileNotFoundError):
                os.remove(path)
    if not os.path.isfile(built.built[0]):
        raise Trouble("%s was not built" % os.path.basename(built.built[0]))
    built.stamp(sum_of)


def keep_state(place: str) -> None:
    shutil.rmtree(state(), ignore_errors=True)
    os.replace(place, state())


def last_time(count: int) -> str:
    """How long a proof of so many crates took here, if one was measured in which no crate was kept from before."""
    with contextlib.suppress(OSError, ValueError):
        crates, seconds = map(int, ends.content(LAST).split())
        return "; proving all of them took %s here" % spoken(seconds) if crates == count else ""
    return ""


def prove(parts: set[str], lock: int) -> None:
    """Proves and builds the program, the library, or both, and keeps how they were proved."""
    builds = [each for each in (THE_PROGRAM, THE_LIBRARY) if each.aim in parts]
    sums = [summed(each.aim) for each in builds]
    log = os.path.join(OUT, "pxplanes.%d.log" % os.getpid())
    with open(log, "wb"), room() as place:
        proof = Proof(parts, place, log)
        say("proving %d crates%s; log in %s" % (len(proof.names), last_time(len(proof.names)), log))
        try:
            proof.run(lock)
            if PROGRAM in parts:
                proof.build_newer()
            for built, sum_of in zip(builds, sums):
                take(built, proof.built(built.aim), sum_of)
        except KeyboardInterrupt:
            say(proof.broken_off())
            raise
        except (Trouble, OSError) as why:
            proof.note(why)
            raise Trouble("not proved or not built; the end of %s says why" % log) from None
        if not IS_KEPT.search(ends.content(log)):
            ends.replaced(LAST, ("%d %d\n" % (len(proof.names), time.monotonic() - proof.began)).encode())
        if proof.has_library:
            os.replace(proof.apart, os.path.join(proof.room, "crates", LIBRARY))
        list_crates(proof.room, proof.names)
        keep_state(proof.room)
    os.replace(log, LOG)
    for leaf in os.listdir(OUT):
        if re.fullmatch(r"pxplanes\.\d+\.log", leaf):
            os.remove(os.path.join(OUT, leaf))


def made(parts: set[str], changed: bool) -> None:
    """Proves and builds parts in its turn, or only those whose sources have changed; then package/ of the library."""
    with turn() as lock:
        builds = [each for each in (THE_PROGRAM, THE_LIBRARY) if each.aim in parts]
        due = {each.aim for each in builds if not (changed and each.is_current())}
        if due:
            building.kit()
            prove(due, lock)
        if LIBRARY in parts:
            tool = os.path.join(ends.TOP, "tools", "package")
            package = subprocess.run([tool], capture_output=True, text=True)
            if package.returncode != 0:
                raise Trouble(package.stderr.strip() or "tools/package ended with status %d" % package.returncode)


def made_unproved() -> None:
    """Builds the program without proofs, unless it is kept of these sources."""
    with turn():
        if UNPROVED.is_current():
            return
        building.kit()
        say("building the program without proofs, once for these sources: that takes about a minute")
        sum_of = summed(PROGRAM)
        os.makedirs(building.STORE, exist_ok=True)
        with tempfile.TemporaryDirectory(prefix="unproved.", dir=building.STORE) as place:
            os.replace(building.unproved(place), os.path.join(place, "unproved"))
            take(UNPROVED, place, sum_of)


def take_built() -> None:
    """Takes what `rt ci` left here and tools/dev/build built as the program of these sources, and keeps their statements."""
    building.need_proved()
    if not os.access(program.DEFAULT, os.X_OK) or not THE_PROGRAM.stamp(summed(PROGRAM)):
        raise Trouble("there is no program at %s, or the crates have just changed" % program.DEFAULT)
    names = sorted(building.lines_of(ends.TOP))
    with room() as place:
        lay_out(os.path.join(place, "proved"), names)
        for made_of in (os.path.join("crates", name, "out", "rlib") for name in names):
            here = os.path.join(ends.TOP, made_of)
            if os.path.isdir(here):
                shutil.copytree(here, os.path.join(place, "proved", made_of), copy_function=linked)
        keep_state(os.path.join(place, "proved"))


def linked(path: str, to: str) -> None:
    """A file under one more name; its copy on another disk."""
    try:
        os.link(path, to)
    except OSError:
        shutil.copy2(path, to)
