"""What an installation has, and where: below DIR of `tools/install --prefix DIR`, and below /usr in the packages for Debian.

    bin/pxplanes, bin/pxplanes-rtl       the command with all its words, and that of the machine in Verilog
    lib/pxplanes/                        what they need, laid out as in the checkout
    lib/python3/dist-packages/pxplanes   the Python package, and its .dist-info
    share/man/man1/                      the manual, with a page for each word
    share/doc/pxplanes, share/doc/libpxplanes-dev    the documents, and the examples
"""
import functools
import os
import re
import shutil
import subprocess

from pxplanes.errors import Trouble
from pxplanes import ends
from pxplanes.cli import frame
import manuals
from pxplanes import program

TREE = os.path.join("lib", "pxplanes")
MODULE = os.path.join("python", "pxplanes")
FOLDERS = ("docs", "editors", "examples", "gallery", "man", os.path.join("page", "pxplanes.html"), MODULE, "rtl", "suite")
FILES = ("CHANGES.md", "README.md", "pxplanes")
# What the examples are built to.
BUILT = ("command", "within")
MANUALS = os.path.join("share", "man", "man1")
# The manual pages that are written by hand.
PAGES = ("pxplanes.1", "pxplanes-rtl.1")
MODULES = os.path.join("lib", "python3", "dist-packages")
# By this pip and importlib.metadata know the Python package.
METADATA = "Metadata-Version: 2.1\nName: pxplanes\nVersion: %s\nRequires-Python: >=3.10\n"
DOCUMENTS = os.path.join("share", "doc", "pxplanes")
EXAMPLES = os.path.join("share", "doc", "libpxplanes-dev")
# Each link, with what it leads to. The documents name some folders as if those were next to them.
LINKS = {os.path.join("bin", "pxplanes"): os.path.join(TREE, "pxplanes"),
         os.path.join("bin", "pxplanes-rtl"): os.path.join(TREE, "rtl", "rtl"),
         os.path.join(TREE, MODULE): os.path.join(MODULES, "pxplanes"),
         **{os.path.join(DOCUMENTS, name): os.path.join(TREE, name) for name in ("editors", "gallery", "page", "rtl", "suite")},
         os.path.join(DOCUMENTS, "examples"): os.path.join(EXAMPLES, "examples")}


def version():
    """The version, as the first heading of CHANGES.md has it."""
    with open(os.path.join(ends.TOP, "CHANGES.md"), encoding="utf-8") as file:
        found = re.search(r"(?m)^## (\d+(?:\.\d+)+)$", file.read())
    if found is None:
        raise Trouble("CHANGES.md has no heading of a version")
    return found.group(1)


def git(*words):
    """What git says of the checkout."""
    here = {name: word for name, word in os.environ.items() if not name.startswith("GIT_")}
    words = ["git", "-C", ends.TOP, "-c", "safe.directory=" + ends.TOP, "-c", "core.fsmonitor=false", *words]
    run = subprocess.run(words, capture_output=True, env=dict(here, GIT_CEILING_DIRECTORIES=os.path.dirname(ends.TOP)))
    if run.returncode != 0:
        raise Trouble("git: %s" % run.stderr.decode("utf-8", "replace").strip().split("\n")[-1])
    return os.fsdecode(run.stdout)


@functools.lru_cache(maxsize=1)
def tracked():
    """The files that git tracks here; None in a copy without its history."""
    if not os.path.exists(os.path.join(ends.TOP, ".git")):
        return None
    return set(git("ls-files", "-z").split("\0"))


def known(names):
    """Those of the files that git tracks; all of them in a copy without its history."""
    return [name for name in names if tracked() is None or name in tracked()]


def inside(folder):
    """The files of a folder of the checkout, or a file itself, but for what Python leaves there."""
    if os.path.isfile(os.path.join(ends.TOP, folder)):
        yield folder
    for place, folders, leaves in os.walk(os.path.join(ends.TOP, folder)):
        folders[:] = sorted(name for name in folders if name != "__pycache__")
        for leaf in sorted(leaves):
            if leaf not in BUILT:
                yield os.path.relpath(os.path.join(place, leaf), ends.TOP)


def sources():
    """The files that are copied, each as it is in the checkout."""
    yield from known(FILES)
    for folder in FOLDERS:
        yield from known(inside(folder))


def made(path):
    os.makedirs(os.path.dirname(path), exist_ok=True)
    return path


def put(source, path):
    """Copies a file, or a link as a link."""
    if os.path.lexists(path):
        os.remove(path)
    shutil.copy(source, made(path), follow_symlinks=False)


def place_of(name):
    """Where a file of the checkout is in an installation; None for the manual, whose pages have their own place."""
    folder, _, rest = name.partition(os.sep)
    if folder == "man":
        return None
    if folder == "python":
        return os.path.join(MODULES, rest)
    if folder in ("docs", "README.md"):
        return os.path.join(DOCUMENTS, name)
    return os.path.join(EXAMPLES if folder == "examples" else TREE, name)


def lay_out(usr, programs):
    """Lays out all but the library below a folder, with the built programs by their file names."""
    for name in filter(place_of, sources()):
        put(os.path.join(ends.TOP, name), os.path.join(usr, place_of(name)))
    for place in (program.DEFAULT, program.NEWER):
        if os.path.basename(place) in programs:
            put(programs[os.path.basename(place)], os.path.join(usr, TREE, os.path.relpath(place, ends.TOP)))
    for name, target in LINKS.items():
        os.symlink(os.path.relpath(target, os.path.dirname(name)), made(os.path.join(usr, name)))
    known_to_pip = os.path.join(usr, MODULES, "pxplanes-%s.dist-info" % version(), "METADATA")
    ends.replaced(made(known_to_pip), (METADATA % version()).encode())
    for page in PAGES:
        put(os.path.join(ends.TOP, "man", page), os.path.join(usr, MANUALS, page))
    for word in frame.WORDS:
        ends.replaced(os.path.join(usr, MANUALS, "pxplanes-%s.1" % word), manuals.page(word, version()).encode())
