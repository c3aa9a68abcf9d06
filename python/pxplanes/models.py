"""Scenes of models: OpenSCAD's .csg and .scad, and solids as OFF, STL, OBJ, PLY, 3MF or glTF, as `pxplanes convert` makes them (docs/MODELLING.md).

Not proved: planes are rounded to whole numbers. Hulls need scipy or OpenSCAD, and .scad OpenSCAD."""
import os
from typing import NamedTuple, Optional, Sequence, Union

from . import ends, pictures
from .errors import NoModel, Trouble
from .mesh import modelling

Numbers = Sequence[float]


class Model(NamedTuple):
    """The `text` of the scene, and what `pxplanes convert` says of it on standard error, line by line: how planes
    were rounded, what is cut off, what was made of several solids."""

    text: str
    notes: tuple[str, ...]

    def render(self) -> pictures.Picture:
        """Its depths and faces."""
        return pictures.render(self.text)


def scene(path: Union[str, "os.PathLike[str]"], *, kind: Optional[str] = None, size: Optional[Sequence[int]] = None,
          depth: Union[int, Sequence[int], None] = None, view: Optional[Numbers] = None, scale: Optional[float] = None,
          camera: Optional[Numbers] = None, eye: Optional[Numbers] = None, at: Optional[Numbers] = None, fov: Optional[float] = None,
          near: Optional[float] = None, far: Optional[float] = None, in_perspective: Optional[bool] = None, flat: bool = False) -> Model:
    """The scene of the model in a file. What is given is what the option of `pxplanes convert` of that name takes, and
    `in_perspective` --projection. `depth` is the bits of a depth, or these and the fraction bits.

    Raises `NoModel` where there is no scene, and `OSError` where the file cannot be read."""
    with ends.heard() as notes:
        try:
            usual = modelling.Choices()
            choices = modelling.Choices(kind=kind, flat=flat, scale=scale, camera=camera, eye=eye, at=at, fov=fov, near=near, far=far,
                                        depth=(depth, 0) if isinstance(depth, int) else depth,
                                        projection=None if in_perspective is None else "p" if in_perspective else "o",
                                        size=usual.size if size is None else size, view=usual.view if view is None else view)
            text, facts = modelling.made(os.path.abspath(os.fspath(path)), choices)
        except Trouble as trouble:
            raise NoModel(str(trouble)) from None
        modelling.tell(*facts)
    return Model(text, tuple(notes))
