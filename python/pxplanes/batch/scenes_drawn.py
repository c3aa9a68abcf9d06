"""Draws many scenes into a folder, and goes on where it was broken off.

The folder gets NAME.ppm, NAME.png of view, or NAME.txt of a word that writes text. A picture is there whole or not at all. `many.tsv`
keeps what came of each scene: one of the same text, command and program that is there already, and compared with the
same picture or with none, is not drawn again. One run at a time works in the folder."""
import collections
import hashlib
import os
import subprocess
import sys
from typing import Iterator, NamedTuple, Optional, Sequence

from pxplanes import ends
from pxplanes.batch import engine
from pxplanes.errors import Trouble

ENDINGS = {"render": ".ppm", "colour": ".ppm", "compare": ".ppm", "shadow": ".ppm", "tile": ".ppm", "refine": ".ppm", "view": ".png",
           "plan": ".txt", "cost": ".txt", "tidy": ".txt", "list": ".txt", "debug": ".txt", "play": ".txt"}
# What `view --show` shows, by the word that draws it.
VIEWED = {"colours": "colour", "depths": "render", "faces": "render", "lights": "shadow"}
REFUSALS, WRITE_FAULT, LEAST_ROOM = (3, 4), 6, 1 << 16
NO_SPACE = "No space left on device"
Came = tuple[str, str]     # what came of a scene: drawn, refused, differs or failed, and a note


class Scene(NamedTuple):
    """A scene that is to be drawn. The sum of one that cannot be read is empty."""

    name: str
    path: str
    sum: str


def found(words: Sequence[str]) -> Iterator[str]:
    """The files that the words name, each once."""
    for word in words:
        if word == "-":
            yield from ends.content("-").decode("utf-8", "surrogateescape").splitlines()
        elif os.path.isdir(word):
            for folder, folders, leaves in os.walk(word):
                folders.sort()
                yield from (os.path.join(folder, leaf) for leaf in sorted(leaves) if leaf.endswith(".scene"))
        else:
            os.stat(word)
            yield word


def scenes_of(words: Sequence[str], command: str, built: str, against: Optional[str]) -> list[Scene]:
    """The scenes; two of one name have one place, which is trouble."""
    scenes: dict[str, Scene] = {}
    made = content_of(built)
    for path in dict.fromkeys(found(words)):
        name = os.path.splitext(os.path.basename(path))[0]
        if name in scenes:
            raise Trouble("%s and %s would both be written as %s" % (scenes[name].path, path, name))
        text = content_of(path)
        other = content_of(os.path.join(against, name + ending_of(command))) if against else None
        scenes[name] = Scene(name, path, "" if text is None else sum_of(command.encode(), made, text, other))
    if not scenes:
        raise Trouble("there is no scene; --help says more")
    return [scenes[name] for name in sorted(scenes)]


def ending_of(command: str) -> str:
    """The ending of what a word writes; numbers may follow the word."""
    return ENDINGS[command.split()[0]]


def content_of(path: str) -> Optional[bytes]:
    """The bytes of a file, or None where it cannot be read."""
    try:
        return ends.content(path)
    except OSError:
        return None


def sum_of(*parts: Optional[bytes]) -> str:
    """A checksum of what one picture hangs on; an absent part has one of its own."""
    return hashlib.sha256(b"".join(hashlib.sha256(part or b"").digest() + bytes([part is None]) for part in parts)).hexdigest()


class Table:
    """What came of each scene, kept in a file as it comes."""

    def __init__(self, folder: str):
        self.path = os.path.join(folder, "many.tsv")
        self.rows: dict[str, tuple[str, str, str]] = {}
        if os.path.exists(self.path):
            with open(self.path, errors="surrogateescape") as file:
                for line in file:
                    if line.endswith("\n") and line.count("\t") == 3:
                        name, total, what, note = line[:-1].split("\t")
                        self.rows[name] = total, what, note

    def add(self, scene: Scene, what: str, note: str) -> None:
        self.rows[scene.name] = scene.sum, what, note
        with open(self.path, "a", errors="surrogateescape") as file:
            file.write("\t".join((scene.name, scene.sum, what, " ".join(note.split()))) + "\n")

    def has(self, scene: Scene, output: str) -> bool:
        """Whether a scene needs no work: it was refused, or its output is there, and its text is the same."""
        total, what, _ = self.rows.get(scene.name, ("", "", ""))
        return scene.sum != "" and total == scene.sum and what != "failed" and (what == "refused" or os.path.exists(output))


class Batch:
    """Draws scenes by one command into a folder."""

    def __init__(self, command: str, folder: str, against: Optional[str], motor: engine.Engine):
        self.command, self.folder, self.against, self.motor = command, folder, against, motor
        words = command.split()
        self.what = words[-1] if words[-1] in VIEWED else "colours"
        self.words = {"compare": ["render"], "view": [VIEWED[self.what]]}.get(words[0], words)

    def place(self, scene: Scene) -> str:
        return os.path.join(self.folder, scene.name + ending_of(self.command))

    def drawn(self, scene: Scene) -> Came:
        """What comes of a scene; its output is put in its place."""
        text, place = content_of(scene.path), self.place(scene)
        if text is None:
            return "failed", "it cannot be read"
        part = os.path.join(self.folder, ".%s.part" % scene.name)
        try:
            with open(part, "wb") as out:
                status, _, note = self.motor.run(self.words, text, out)
            if status == WRITE_FAULT and is_full(self.folder):
                return "failed", NO_SPACE
            if status in REFUSALS:
                drop(place)
                return "refused", note
            if status == 0 and self.command.startswith("view"):
                status, note = converted(part, self.what)
            if status != 0:
                return "failed", note or "it ended with status %d" % status
            os.replace(part, place)
        except OSError as error:
            return "failed", error.strerror or str(error)
        finally:
            drop(part)
        return compared(place, os.path.join(self.against, os.path.basename(place))) if self.against else ("drawn", "")


def converted(part: str, what: str) -> tuple[int, str]:
    """Makes a PNG picture of the maps in a file, in a process of its own; its status and its note."""
    done = subprocess.run([sys.executable, "-m", "pxplanes", "view", part, "-o", part, "--show", what], capture_output=True, text=True)
    return done.returncode, done.stderr.strip().split("\n")[-1]


def is_full(folder: str) -> bool:
    """Whether the disk of a folder has no room."""
    room = os.statvfs(folder)
    return room.f_bavail * room.f_frsize < LEAST_ROOM


def drop(path: str) -> None:
    if os.path.exists(path):
        os.remove(path)


def compared(ours: str, theirs: str) -> Came:
    """What comes of a picture against the reference: equal bytes need no comparison, others have a process of their own."""
    if content_of(ours) == content_of(theirs):
        return "drawn", ""
    done = subprocess.run([sys.executable, "-m", "pxplanes", "compare", ours, theirs], capture_output=True, text=True)
    if done.returncode == 0:
        return "drawn", ""
    if done.returncode == 1:
        return "differs", done.stdout.split("\n")[0]
    return "failed", done.stderr.strip().split("\n")[-1]


def report(scenes: Sequence[Scene], table: Table) -> int:
    """Prints a line for each scene that was not drawn, and how many there are of each; the exit status."""
    counts: collections.Counter[str] = collections.Counter()
    for scene in scenes:
        _, what, note = table.rows[scene.name]
        counts[what] += 1
        if what != "drawn":
            print("%s: %s%s" % (scene.path, what, ": " + note if note else ""))
    print("%d scenes: %d drawn, %d refused, %d differ, %d failed" % (
        len(scenes), *(counts[what] for what in ("drawn", "refused", "differs", "failed"))))
    return 2 if counts["failed"] else int(counts["refused"] + counts["differs"] > 0)


def draw(command: str, words: Sequence[str], folder: str, built: str, jobs: int, against: Optional[str] = None) -> int:
    """Draws the scenes that the words name, and prints what came of them; the exit status."""
    if against is not None and not os.path.isdir(against):
        raise Trouble("%s: there is no such folder to compare with" % against)
    scenes = scenes_of(words, command, built, against)
    os.makedirs(folder, exist_ok=True)
    with open(os.path.join(folder, "many.tsv"), "a") as lock:
        engine.locked(lock, folder)
        table, motor = Table(folder), engine.Engine(built, lock)
        batch = Batch(command, folder, against, motor)
        left = [scene for scene in scenes if not table.has(scene, batch.place(scene))]
        for scene, came in motor.each(jobs, batch.drawn, left):
            table.add(scene, *came)
    return report(scenes, table)
