"""The source package for Debian, and the packages that dpkg-buildpackage makes of it. It is no tool itself.

debian/ of the checkout says what is in each of them. Its rules have tools/package lay all of it out, of the program and the
library in prebuilt/ or of those that the kit has built, and its *.install divide that."""
import email.utils
import functools
import os
import re
import shutil
import tempfile

import building
import builds
from pxplanes.errors import Trouble
from pxplanes import ends
import gate
import installing

# No package of Debian's own, which would begin at 1, and be newer.
REVISION = "0upstream1"
FOLDER = "debian"
# What the kit has built, where a source package holds it.
PREBUILT = "prebuilt"
# The architectures, each with how its packages are built; those for all are built with the first.
BUILDS = {"amd64": (builds.FIRST, ("-b",)), "arm64": (builds.ARM, ("-B", "-a", "arm64"))}
DOXYFILE = os.path.join("tools", "lib", "Doxyfile")
# A call that a header declares.
DECLARED = re.compile(r"(?m)^\w[\w ]*?\*?(pxplanes_\w*[a-z])\(")
# The same bytes each time: `settle` gives all files their modes and times.
SAME = ("--sort=name", "--owner=root:0", "--group=root:0", "--format=gnu")
CHANGELOG = """pxplanes (%s) unstable; urgency=medium

  * CHANGES.md says what is new.

 -- %s  %s
"""


def done(words, place):
    """Runs a command in a folder; its trouble is the tool's."""
    building.done(words, cwd=place, env=dict(os.environ, LC_ALL="C"))


@functools.lru_cache(maxsize=1)
def when():
    """The time of the commit, in seconds."""
    return int(installing.git("log", "-1", "--format=%ct"))


def control():
    return ends.content(os.path.join(ends.TOP, FOLDER, "control")).decode("utf-8")


def version():
    return "%s-%s" % (installing.version(), REVISION)


def changelog():
    maintainer = re.search(r"(?m)^Maintainer: (.*)$", control()).group(1)
    return CHANGELOG % (version(), maintainer, email.utils.formatdate(when(), usegmt=True).replace("GMT", "+0000"))


def tree(place, names):
    """Lays out files of the checkout in a folder, as the source package has them, and answers where."""
    top = os.path.join(place, "pxplanes-" + installing.version())
    os.umask(0o022)
    for name in names:
        installing.put(os.path.join(ends.TOP, name), os.path.join(top, name))
    ends.replaced(installing.made(os.path.join(top, FOLDER, "changelog")), changelog().encode())
    settle(top)
    return top


def settle(top):
    """Gives all files and folders the modes and the time that a source package says of them: the same bytes each time."""
    for place, _, leaves in os.walk(top):
        for path in (place, *(os.path.join(place, leaf) for leaf in leaves)):
            os.chmod(path, 0o755 if os.stat(path).st_mode & 0o100 else 0o644)
            os.utime(path, (when(), when()))


def add_built(top, built):
    """Puts what the kit has built into the source package."""
    for name, path in built.items():
        installing.put(path, os.path.join(top, PREBUILT, name))


def built(archive, libc):
    """What the kit has built: by the names that it has in a source package."""
    return {os.path.basename(name): path for name, path in gate.built(archive, libc) if name != builds.WINDOWS.of(gate.ARCHIVE)}


def host():
    """What dpkg-buildpackage builds for."""
    return BUILDS[os.environ.get("DEB_HOST_ARCH", "amd64")][0]


def needed(held, build, name):
    """A file of a build among those that the kit has built."""
    own = os.path.basename(build.of(name))
    if own not in held:
        raise Trouble("there is no %s for %s; .ci/run makes it where %s is installed" % (own, build.system, build.compiler))
    return held[own]


def lay_out_calls(to):
    """Writes the manual's pages of the headers, as Doxygen makes them, and one for each call that leads to its header's."""
    with tempfile.TemporaryDirectory(prefix="px-manual-") as place:
        building.done(["doxygen", DOXYFILE], cwd=ends.TOP, env=dict(os.environ, API=place))
        folder = os.path.join(place, "man", "man3")
        for leaf in filter(re.compile("pxplanes").match, os.listdir(folder)):
            installing.put(os.path.join(folder, leaf), os.path.join(to, leaf))
    for header in gate.HEADERS:
        for call in DECLARED.findall(ends.content(os.path.join(ends.TOP, header)).decode("utf-8")):
            ends.replaced(os.path.join(to, call + ".3"), (".so man3/%s.3\n" % os.path.basename(header)).encode())


def prebuilt():
    """The same where this is a source package that holds it; None where it is not."""
    folder = os.path.join(ends.TOP, PREBUILT)
    return {leaf: os.path.join(folder, leaf) for leaf in os.listdir(folder)} if os.path.isdir(folder) else None


def source(out, held):
    """Makes the source package of the files that git tracks, and of what is built where some is held; answers where its files are."""
    names = sorted(filter(None, installing.tracked() or ()))
    if not names:
        raise Trouble("only files that git tracks are packed, and this is no repository")
    with tempfile.TemporaryDirectory(prefix="px-deb-") as place:
        top = tree(place, names)
        path = os.path.join(place, "pxplanes_%s.orig%%s.tar.xz" % installing.version())
        done(["tar", *SAME, "--exclude=%s/%s" % (os.path.basename(top), FOLDER), "-cJf", path % "", os.path.basename(top)], place)
        if held:
            add_built(top, held)
            settle(top)
            done(["tar", *SAME, "-cJf", path % ("-" + PREBUILT), PREBUILT], top)
        done(["dpkg-source", "-b", top], place)
        return taken(place, [leaf for leaf in sorted(os.listdir(place)) if os.path.isfile(os.path.join(place, leaf))], out)


def archived(folder, out):
    """Packs a folder as an archive, the same bytes each time; answers where it is, in a line."""
    name = "pxplanes-%s-%s" % (installing.version(), os.path.basename(folder))
    with tempfile.TemporaryDirectory(prefix="px-package-") as place:
        shutil.copytree(folder, os.path.join(place, name), symlinks=True)
        settle(os.path.join(place, name))
        done(["tar", *SAME, "-cJf", name + ".tar.xz", name], place)
        return taken(place, [name + ".tar.xz"], out)


def taken(place, leaves, out):
    """Moves files to a folder, and answers where they are, a line each."""
    os.makedirs(out, exist_ok=True)
    paths = [os.path.join(out, leaf) for leaf in leaves]
    for leaf, path in zip(leaves, paths):
        shutil.copyfile(os.path.join(place, leaf), path)
    return ["%s: %d KB" % (path, round(os.path.getsize(path) / 1000)) for path in paths]


def package(files, held, out):
    """Makes the packages of files of the checkout and of what is built; answers where they are, a line each."""
    for command in building.PACKAGES:
        building.need(command)
    lines = []
    for build, how in BUILDS.values():
        if build is not builds.FIRST and not (build.is_possible() and os.path.basename(build.of(gate.ARCHIVE)) in held):
            continue
        with tempfile.TemporaryDirectory(prefix="px-deb-") as place:
            top = tree(place, files)
            add_built(top, held)
            done(["dpkg-buildpackage", "-us", "-uc", *how], top)
            lines += taken(place, sorted(leaf for leaf in os.listdir(place) if leaf.endswith(".deb")), out)
    return lines
