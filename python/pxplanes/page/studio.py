"""What the studio answers to its page: the file that it was started with, and models as scenes. It is no tool itself.
Everything that remains the page answers by itself (page/pxplanes.html)."""
import hashlib
import os
from typing import Any, Callable, NoReturn

from pxplanes.errors import Trouble
from pxplanes.mesh import csg
from pxplanes import ends
from pxplanes.mesh import mesh_files
from pxplanes.mesh import modelling
from pxplanes.mesh import views
from pxplanes.mesh.solids import joined

# What is asked, by its names, and the answer, which becomes JSON.
Asked = dict[str, str]
Answer = dict[str, Any]
# The checksum of a file that is not there.
NOTHING = "none"


class Unknown(Exception):
    """What is asked is no question of the page's."""


def sum_of(text: bytes | None) -> str:
    return NOTHING if text is None else hashlib.sha256(text).hexdigest()


def read(path: str) -> bytes | None:
    """What a file has; None where it is not there."""
    try:
        return ends.content(path)
    except FileNotFoundError:
        return None


def needed_text(text: bytes | None, path: str) -> str:
    """A text, which the page gives back byte for byte."""
    try:
        return (text or b"").decode("utf-8")
    except UnicodeDecodeError:
        raise Trouble("%s is no text of UTF-8, and the page would change it" % path)


class Alone(csg.Reader):
    """Reads a model by itself: no other file is read, and nothing is run."""

    def by_openscad(self, start: Any, place: Any, line: int, why: str) -> NoReturn:
        raise Trouble("%s (`pxplanes convert` may have OpenSCAD make a mesh of it)" % why)

    def imported(self, found: Any, line: int) -> NoReturn:
        raise Trouble("imports another file, which a page does not read; `pxplanes convert` does")


def modelled(asked: Asked, data: bytes) -> Answer:
    """The scene of a model that was dropped on the page."""
    kind = asked.get("kind", "")
    if kind == "csg":
        tree = joined("+", Alone(data.decode("latin-1"), None).statements("", csg.Place()))
    elif kind in mesh_files.READERS:
        tree = csg.of_mesh_file(kind, data)
    else:
        raise Trouble("a model is a .csg, .off or .stl")
    if tree is None:
        raise Trouble("the model has no solid")
    choices = modelling.Choices()
    view = views.fitted(choices.view, choices.size, None, 2 ** choices.bits[0] - 1, tree)
    text, _ = modelling.scene_of(tree, view, choices)
    modelling.checked(text)
    return {"text": text}


class Studio:
    """What one server answers: the questions, and its own file, which alone is written."""

    def __init__(self, path: str | None) -> None:
        self.path = path
        self.questions: dict[str, Callable[[Asked, bytes], Answer]] = {"begin": self.begin, "save": self.save, "model": modelled}
        if path is not None:
            needed_text(read(path), path)

    def begin(self, asked: Asked, body: bytes) -> Answer:
        if self.path is None:
            return {"studio": True, "name": None}
        text = read(self.path)
        return {"studio": True, "name": os.path.basename(self.path), "text": needed_text(text, self.path), "sum": sum_of(text)}

    def save(self, asked: Asked, text: bytes) -> Answer:
        """Writes the file, where it is as it was when the page read it; otherwise says what it has now."""
        if self.path is None:
            raise Trouble("no scene was named when the studio was started")
        now = read(self.path)
        if sum_of(now) != asked.get("sum"):
            return {"changed": needed_text(now, self.path), "sum": sum_of(now)}
        ends.replaced(self.path, text)
        return {"saved": os.path.basename(self.path), "sum": sum_of(text)}

    def answer(self, name: str, asked: Asked, body: bytes) -> Answer:
        """The answer to a question; `Unknown` where there is none of that name."""
        if name not in self.questions:
            raise Unknown(name)
        try:
            return self.questions[name](asked, body)
        except Trouble as bad:
            return {"trouble": str(bad)}
        except MemoryError:
            return {"trouble": "out of memory"}
