"""What crates above a proved one can name of it, by the library that `rattle build` makes. It is no tool itself.

A library has its interface, its files of specs/ and proofs/, and a list of the modules that rattle makes. The facade among these says
for which modules the names stand that a crate above may write: of a function its contract and its theorem, and neither its code nor
its proof. What is no function's is taken as seen, whether the facade leads there or not: a private type may be in a public one."""
import json
import os
import re

from pxplanes import ends

FACADE, STANDS_FOR = "facade", "StandsFor"
MADE = os.path.join("lang", "antt", "made.json")
# The kinds of modules that a function has, or what links it. One of another kind is seen in any case.
OF_FUNCTIONS = frozenset((
    "Carried", "Close", "Code", "Contract", "Given", "Key", "Kinds", "Layout", "LinkOfCrate", "LinkOfFunction", "LinkPassed", "Lts",
    "MadeProof", "Met", "Mir", "Named", "Needs", "PairOfBody", "Parent", "Parts", "Read", "Statement", "Symbol"))
# The folders whose files are seen as they stand, and of those of proofs/ the ones that are a function's own.
FOLDERS = ("interface", "below", os.path.join("lang", "antt"))
OWN = ("Answers.antt", "Invariants.antt", "Proof.antt")


def modules(library):
    """The modules that were made of a library's crate: each name with its lines."""
    found, name = {}, None
    for line in ends.content(os.path.join(library, MADE)).decode("utf-8").splitlines():
        if line.startswith('"'):
            name = json.loads(line)
            found[name] = []
        elif name is not None:
            found[name].append(line)
    return found


def kind(lines):
    """Of which kind a module is, by its lines."""
    found = re.match(r'{"(\w+)"', lines[0]) if lines else None
    return found and found[1]


def stands_for(lines, crate):
    """The module of the crate that one stands for, by its lines; None where it is of another crate, or stands for none."""
    source = json.loads(lines[0])[STANDS_FOR]["source"] if kind(lines) == STANDS_FOR else ""
    library, _, place = source.partition(".")
    own = "Rattle-%s-" % crate
    return "/".join([library[len(own):], *filter(None, place.split("."))]) if library.startswith(own) else None


def shown(made, crate):
    """The names of the modules that crates above see: the facade, all that its parts stand for, and what is no function's."""
    left, found = [name for name in made if name.split("/")[0] == FACADE or kind(made[name]) not in OF_FUNCTIONS], set()
    while left:
        name = left.pop()
        if name in made and name not in found:
            found.add(name)
            left += filter(None, [stands_for(made[name], crate)])
    return found


def files(library):
    """The paths of the files that crates above see."""
    for folder in FOLDERS:
        for at, _, leaves in os.walk(os.path.join(library, folder)):
            for leaf in leaves:
                path = os.path.relpath(os.path.join(at, leaf), library)
                if path != MADE and leaf not in OWN:
                    yield path


def differing(old, new, crate):
    """What crates above see that differs in two libraries of a crate: names of files and modules, in their order."""
    made = modules(old), modules(new)
    named = [{name: each[name] for name in shown(each, crate)} for each in made]
    stored = [{path: ends.content(os.path.join(library, path)) for path in files(library)} for library in (old, new)]
    return sorted(name for before, after in (named, stored) for name in before.keys() | after.keys()
                  if before.get(name) != after.get(name))
