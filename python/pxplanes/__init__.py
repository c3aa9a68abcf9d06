"""Pictures of scenes, and the state of the machine that draws them, by the proved library of pxplanes.

    import pxplanes
    picture = pxplanes.render(pxplanes.from_file("docs/scenes/first.scene"))
    picture.depths[16, 24]      # the depth at x 24, y 16: rows from the top come first

A text is `str`, `bytes` or a `Scene`; in examples `text` is that of docs/scenes/first.scene. What is not accepted
raises `Malformed` or `Limit`, with the first bad line. Arrays are those of NumPy where it is there, and
`memoryview`s of the same shape and numbers otherwise. Calls keep nothing, and may be made by several threads at
once. docs/SCENES.md has the language, docs/MACHINE.md the machine."""
from .building import Expression, Scene, Solid
from .calls import from_file
from .commands import listing, play, refine, shadow, tidy, tile
from .compare.comparing import Comparison, compare
from .errors import Limit, Malformed, NoClock, NoCommand, NoLibrary, NoMicro, NoModel, NoOperation, OverBudget, Refused
from .explain.explained import Explanation, Ray, Run, explain, ray
from .machine.states import Micro, Pixel, State, clocked, micros, pixels, state
from .machine.operations import Operation, course
from .pictures import Cost, Face, Picture, check, colour, face, products, render, version, window
from .running import run
from .version_number import VERSION

__all__ = ["Comparison", "Cost", "Explanation", "Expression", "Face", "Limit", "Malformed", "Micro", "NoClock", "NoCommand", "NoLibrary",
           "NoMicro", "NoModel", "NoOperation", "Operation", "OverBudget", "Picture", "Pixel", "Ray", "Refused", "Run", "Scene", "Solid",
           "State", "check", "clocked", "colour", "compare", "course", "explain", "face", "from_file", "listing", "micros", "pixels", "play",
           "products", "ray", "refine", "render", "run", "shadow", "state", "tidy", "tile", "version", "window"]

__version__ = VERSION
