"""The library without proofs, as `rt try` compiles its crates, with checks at run time. It is no tool itself.

`rt try` makes programs alone. So the library's crate is laid out once more as a program, whose `main` makes each call once, next to copies
of the crates below it. The module that `rt try` hands to clang has these calls then, with the parameters of C, under names of the
crate: they get those of the header, and the module is compiled again, to an archive as `rt lib` makes it. Nothing of it is proved, and
its version says so."""
import functools
import os
import re

import building
from pxplanes import ends
import installing
import making
import retarget
from building import done
from pxplanes.errors import Trouble

CRATE = "px_c"
# The module with checks is the one that is compiled so.
CHECKED = functools.partial(building.handed, word="-fsanitize=address")
FLAGS = ("--target=x86_64-unknown-linux-gnu", "-fPIC", "-O1", "-ffunction-sections", "-fdata-sections")
NAMES, SAID = os.path.join("src", "names.rt"), 'b"%s"'
MAIN = """
fn main(rt: HostRuntime) {
    let alloc = rt.alloc();
    let text = b"".as_slice();
    let mut found = found::nothing();
    let mut depths = [0u32; 1];
    let mut faces = [0u32; 1];
    let mut rgb = [0u8; 3];
    let mut literals = [0i32; 1];
    let mut words = [0u64; 1];
    let mut micros = [0u64; 1];
    let mut face = NumberedFace {
        solid: 0,
        kind: 0,
        plane: 0,
        line: 0,
        red: 0,
        green: 0,
        blue: 0,
    };
    let mut state = State {
        grid_width: 0,
        grid_height: 0,
        words_per_row: 0,
        bits: 0,
        levels: 0,
        clock: 0,
        clocks: 0,
        operation: 0,
        operation_clock: 0,
        next_micro: 0,
    };
    let _ = pxplanes_check(alloc, text, &mut found);
    let _ = pxplanes_render(alloc, text, &mut depths, &mut faces, &mut found);
    let _ = pxplanes_window(alloc, text, 0, 0, 1, 1, &mut depths, &mut faces, &mut found);
    let _ = pxplanes_face(alloc, text, 1, &mut rgb, &mut face, &mut found);
    let _ = pxplanes_colour(alloc, text, &mut rgb, &mut found);
    let _ = pxplanes_products(alloc, text, &mut literals, &mut found);
    let _ = pxplanes_state(alloc, text, 0, &mut words, &mut state, &mut found);
    let _ = pxplanes_micros(alloc, text, 0, &mut micros, &mut found);
    let _ = pxplanes_course(alloc, text, 0, &mut [], &mut found);
    let _ = pxplanes_clocks(&mut words, 2, 2, &[], &mut found);
    let _ = pxplanes_run(alloc, text, text, &mut rgb, &mut found);
    let _ = pxplanes_cause_name(1, &mut rgb);
    let _ = pxplanes_kind_name(1, &mut rgb);
    let _ = pxplanes_version(&mut rgb);
}
"""


def version():
    return installing.version() + "-unproved"


def lay_out(place):
    """Lays the crates out as a repository of a program, and answers where that crate is."""
    making.lay_out(place, making.with_below([CRATE]))
    listed = os.path.join(place, "crates.txt")
    ends.replaced(listed, ends.content(listed).replace(b" staticlib", b""))
    own = os.path.join(place, "crates", CRATE)
    become_program(own)
    return own


def become_program(own):
    """Makes a program of the crate, with a version that says what it is."""
    library, names = (os.path.join(own, leaf) for leaf in (os.path.join("src", "lib.rt"), NAMES))
    text = ends.content(names).decode("utf-8")
    said = SAID % installing.version()
    if text.count(said) != 1:
        raise Trouble("crates/%s/%s does not say the version %s" % (CRATE, NAMES, installing.version()))
    ends.replaced(names, text.replace(said, SAID % version()).encode())
    ends.replaced(os.path.join(own, "src", "main.rt"), ends.content(library) + MAIN.encode())
    os.remove(library)


def tried(own, copy):
    """Has `rt try` compile the program, and copies its module."""
    words = ["rt", "try", "--steps", "1000", "--seconds", "60"]
    _, said, is_copied = building.ran(words, own, copy, CHECKED, is_copy_enough=True)
    if not is_copied:
        raise Trouble("rt try: %s" % said.strip().split("\n")[0][:200])


def named(text):
    """The text of the module with the calls under the header's names, and nothing else seen from outside."""
    text = re.sub(r'(?m)^define (?!internal )', "define internal ", text)
    calls = sorted(set(re.findall(r'@"%s::\w+::(pxplanes_\w+)"' % CRATE, text)))
    if not calls:
        raise Trouble("rt try handed clang no call of the library; this is not the kit that tools/lib/unproved.py describes")
    for call in calls:
        text = re.sub(r'define internal ([^@\n]*)@"%s::\w+::%s"' % (CRATE, call), r"define \1@%s" % call, text)
        text = re.sub(r'@"%s::\w+::%s"' % (CRATE, call), "@" + call, text)
    return text


def archive(place):
    """Makes the archive of the library in a folder, and answers where it is."""
    path = lambda leaf: os.path.join(place, leaf)
    tried(lay_out(os.path.join(place, "tree")), path("module.bc"))
    ends.replaced(path("named.ll"), named(retarget.text_of(path("module.bc"), path("tried.ll"))).encode())
    retarget.clang(*FLAGS, "-c", "-x", "ir", path("named.ll"), "-o", path("library.o"))
    done(["ar", "rcsD", path("library.a"), path("library.o")], "ar")
    return path("library.a")
