"""What there is to say of a scene's text, and of the ray of a pixel: what pxplanes explain says, judged and drawn by the library."""
import operator
from typing import Any, NamedTuple, Optional

from ..arrays import rows
from ..calls import Text, content
from ..errors import OverBudget, Refused
from ..pictures import check, render
from ..running import Progress
from ..scene import rays, scenes
from . import after_end, explaining, kinds, looks


class Explanation(NamedTuple):
    """`lines` are what pxplanes explain writes: of a refused text each mistake with its line, what was expected there and a
    cure; of an accepted one what looks wrong, and its solids and faces. `mended` is the text that a refused one was
    surely meant to be, otherwise None, and `changes` has the line and a sentence for each change. `mistakes` are those
    of a refused text. It is true if the text is accepted, and `str` of it has the lines."""

    is_accepted: bool
    lines: tuple[str, ...]
    mended: Optional[str]
    changes: tuple[tuple[int, str], ...]
    mistakes: tuple[explaining.Place, ...] = ()

    def __bool__(self) -> bool:
        return self.is_accepted

    def __str__(self) -> str:
        return "\n".join(self.lines)


class Run(NamedTuple):
    """The cells of a ray from `first` to `last`, both of them inside."""

    first: int
    last: int


class Ray(NamedTuple):
    """The `depth` and `face` that a pixel shows; the `cells` of the shown expression, nearest first; and the cells of
    each of the `solids` by its name, None where the ray meets none of it. `lines` are what pxplanes explain writes with
    --at."""

    depth: int
    face: int
    cells: tuple[Run, ...]
    solids: dict[str, Optional[Run]]
    lines: tuple[str, ...]

    def __str__(self) -> str:
        return "\n".join(self.lines)


def explain(text: Text, clocks: Optional[int] = None, progress: Optional[Progress] = None) -> Explanation:
    """Why a scene's text is refused and what to write, or what it looks like.

    Its picture is drawn for that, as `render` draws it; where it takes more than so many clocks it is not, and the
    lines say so.

    >>> pxplanes.explain(text.replace(b"shaft)", b"shafd)")).changes
    ((20, 'write show ((pyramid - shaft) + bar)'),)
    """
    data = content(text)
    found = explaining.answer_about(judge_of(clocks, progress), data)
    lines, places = tuple(found.lines), tuple(found.places)
    if found.is_accepted or kinds.cure(data):
        return Explanation(found.is_accepted, lines, None, (), places)
    mending = after_end.mended(data)
    if not mending.is_whole or note_of(mending.text):
        return Explanation(False, lines, None, (), places)
    return Explanation(False, lines, mending.text.decode("utf-8"), tuple(mending.changes), places)


def note_of(text: bytes) -> str:
    """The refusal of a text; empty where it is accepted."""
    try:
        check(text)
        return ""
    except Refused as refusal:
        return str(refusal)


def judge_of(clocks: Optional[int], progress: Optional[Progress]) -> Any:
    """The library as one who judges texts and draws them."""

    class Library(explaining.Judge):
        def note(self, text: bytes) -> str:
            return note_of(text)

        def faces(self, text: bytes, scene: Any) -> tuple[Any, str]:
            try:
                return [face for row in rows(render(text, clocks, progress).faces) for face in row], ""
            except OverBudget as error:
                return None, "not drawn: %s" % error

    return Library()


def ray(text: Text, x: int, y: int) -> Ray:
    """What the ray of the pixel at column x and row y meets. It is counted by the definition, in docs/PICTURE.md, and
    not drawn.

    Raises as `check` does, and `IndexError` where the picture has no such pixel.

    >>> pxplanes.ray(text, 24, 16).cells
    (Run(first=320, last=399),)
    """
    check(text)
    x, y, scene = operator.index(x), operator.index(y), scenes.read(content(text))
    if not (0 <= x < scene.width and 0 <= y < scene.height):
        raise IndexError("the picture has %d columns and %d rows" % (scene.width, scene.height))
    found = rays.crossings(scene, x, y)
    depth, face = rays.pixel_of(scene, found)
    solids = {solid.name: Run(each.first, each.end - 1) if each else None for solid, each in zip(scene.solids, found)}
    cells = tuple(Run(first, end - 1) for first, end in rays.runs(scene, found))
    return Ray(depth, face, cells, solids, tuple(looks.ray(scene, x, y)))
