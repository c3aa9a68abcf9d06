"""What the gate passed, which is all that is packed. It is no tool itself."""
import hashlib
import os

import builds
from pxplanes.errors import Trouble
from pxplanes import ends
import installing
from pxplanes import program
import web_page

# What .ci/run passed last, next to what it built: the checksum of its crates, and a line for each file that packages are made of.
PASSED = os.path.join(ends.TOP, "crates", "px_program", "out", "passed")
HEADERS = ("include/pxplanes.h", "include/pxplanes.hpp", "include/pxplanes_image.h", "include/pxplanes_scene.h")
ARCHIVE = os.path.join("crates", "px_c", "out", "libpx_c.a")
LIBC = "liblibc_c.a"
# They make the libraries, the packages and the page.
MAKERS = ("tools/package", "tools/lib", "MANIFEST.in", "pyproject.toml", "setup.py", "debian", "page/library", "page/src")


def crates():
    """The files that the gate passes."""
    for name in ("HANDLES", "crates.txt"):
        yield name
    for place, folders, leaves in os.walk(os.path.join(ends.TOP, "crates")):
        folders[:] = sorted(name for name in folders if name != "out")
        for leaf in sorted(leaves):
            yield os.path.relpath(os.path.join(place, leaf), ends.TOP)


def sum_crates():
    """One checksum of their names and contents."""
    all_of = hashlib.sha256()
    for name in crates():
        content = ends.content(os.path.join(ends.TOP, name))
        all_of.update(("%s %d\n" % (name, len(content))).encode())
        all_of.update(content)
    return all_of.hexdigest()


def built(archive, libc):
    """What the kit has built, and is packed: a name of each file, and where it is."""
    for name, first in ((os.path.relpath(program.DEFAULT, ends.TOP), program.DEFAULT), (ARCHIVE, archive)):
        yield from ((build.of(name), build.beside(first)) for build in builds.ALL if build.beside(first))
    yield LIBC, libc


def packed(archive, libc):
    """What packages are made of: a name of each file, and where it is."""
    yield from built(archive, libc)
    yield os.path.relpath(web_page.PAGE, ends.TOP), web_page.PAGE
    for name in (*HEADERS, *installing.sources(), *installing.known(name for maker in MAKERS for name in installing.inside(maker))):
        yield name, os.path.join(ends.TOP, name)


def sums(files):
    """The checksum of each file that is there, by its name."""
    found = {}
    for name, path in files:
        if os.path.islink(path):
            found[name] = hashlib.sha256(os.fsencode("link to " + os.readlink(path))).hexdigest()
        elif os.path.isfile(path):
            found[name] = hashlib.sha256(ends.content(path)).hexdigest()
    return found


def note(passed, found):
    """Notes the checksum of crates that the gate passed, and those of files by their names."""
    with open(PASSED, "w", encoding="utf-8") as file:
        file.write("%s\n" % passed)
        file.writelines("%s %s\n" % (one, name) for name, one in found.items())


def noted():
    """The checksum of the crates that the gate passed, and of each file by its name."""
    if not os.path.isfile(PASSED):
        return None, {}
    passed, *lines = ends.content(PASSED).decode("utf-8").splitlines()
    return passed.strip(), {name: one for one, _, name in (line.partition(" ") for line in lines)}


def need_passed():
    """Refuses crates that are not those of a gate that passed."""
    if noted()[0] != sum_crates():
        raise Trouble("the gate has not passed these crates; .ci/run tries them")


def differing(files):
    """The names of files that are not as the gate passed them: other, new, or gone."""
    passed, found = noted()[1], sums(files)
    return [name for name in {**found, **passed} if found.get(name) != passed.get(name)]


def need_packed(files):
    """Refuses to pack anything else than what the gate passed."""
    need_passed()
    if installing.tracked() is None:
        raise Trouble("only files that git tracks are packed, and this is no repository")
    files = dict(files)
    for name in differing(files.items()):
        own = os.path.join(ends.TOP, name)
        path = files.get(name, own)
        raise Trouble("%s is not what the gate passed; .ci/run tries it" % (name if path == own else path))


def note_again(name, files):
    """Notes a file that was made again of what the gate passed: where everything that remains is as it was passed."""
    files = dict(files)
    if differing(files.items()) == [name]:
        note(noted()[0], sums(files.items()))
