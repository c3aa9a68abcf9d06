"""What the program asks for, under a library that counts and refuses nothing: proofs say that "out of memory" needs a
refusal, and not that a body asks for no more than it needs. And the list of every call of the sources that asks."""
import concurrent.futures
import os
import re
import subprocess
import tempfile
from collections.abc import Callable, Iterable, Iterator
from pathlib import Path

import counted
import pytest
import run_cases
import support
from pxplanes import ends

# A request may be so many times as large as what the input needs.
TIMES = 64
LISTED = os.path.join(support.TOP, "python", "tests", "allocations.txt")
# They are tests and an example, and no part of the program.
APART = ("px_run_tests", "px_machine_tests", "px_example")
WHOLE = re.compile(r"\bvec!\[in |\b(?:with_capacity|from_elem)\(")
ANSWERED = re.compile(r"\.(?:push|push_back|insert|append|resize|reserve\w*|extend_from_slice|clone)\(")
PICTURE = re.compile(rb"(?m)^\s*picture\s+(\d+)\s+(\d+)")
Trial = tuple[str, list[bytes], bytes]


@pytest.fixture(scope="module")
def under(built: str) -> Iterator[counted.Counted]:
    """The program under the library; skipped if its memory is not malloc's, as with checks at run time."""
    with tempfile.TemporaryDirectory(prefix="px-memory-") as folder:
        found = counted.Counted(built, folder)
        if found.run([b"cost"], scene(1)).requests == 0:
            pytest.skip("this program takes no memory of malloc; a proved one does")
        yield found


def scene(solids: int, faces: int = 1, width: int = 16, height: int = 16, depth: int = 8, fraction: int = 0,
          blank: int = 0) -> bytes:
    """A scene of so many solids, each of so many fronts: their union, in balanced parentheses."""
    lines = ["pxscene %d" % (3 if fraction else 1), "picture %d %d" % (width, height),
             "depth %d %d" % (depth, fraction) if fraction else "depth %d" % depth, *[""] * blank]
    for solid in range(solids):
        lines += ["solid s%d 1 2 3" % solid, *["front 0 0 %d" % (face % 2) for face in range(faces)]]
    lines += ["show " + balanced(["s%d" % solid for solid in range(solids)], "+"), "end", ""]
    return "\n".join(lines).encode()


def balanced(leaves: list[str], sign: str) -> str:
    if len(leaves) == 1:
        return leaves[0]
    half = len(leaves) // 2
    return "(%s %s %s)" % (balanced(leaves[:half], sign), sign, balanced(leaves[half:], sign))


def needed(words: list[bytes], text: bytes) -> int:
    """About how many bytes an input needs: its own, and those of an array of the picture's pixels and of the picture."""
    picture = PICTURE.search(text)
    sides = [int(side) for side in picture.groups()] if picture else [2, 2]
    if words[:1] == [b"tile"] and len(words) == 3 and all(word.isdigit() for word in words[1:]):
        sides = [int(word) for word in words[1:]]
    wide, high = (min(4096, max(2, 1 << (side - 1).bit_length())) for side in sides)
    return 4096 + len(text) + 16 * min(wide, 512) * min(high, 512) + 8 * wide * high


def wrong_in(under: counted.Counted, trial: Trial, is_good: bool = False) -> str | None:
    """What is wrong with what a run asked for: in one line. A good scene must also be drawn."""
    name, words, text = trial
    run = under.run(words, text)
    most = TIMES * needed(words, text)
    if run.status is None or run.is_refused_by_system or run.status == counted.STARVED or is_good and run.status != 0:
        return "%s: %s" % (name, run.described())
    return "%s: a request of %d bytes, more than %d" % (name, run.largest, most) if run.largest > most else None


def try_all(under: counted.Counted, trials: Iterable[Trial], is_good: bool = False) -> None:
    with concurrent.futures.ThreadPoolExecutor(2) as pool:
        found = list(pool.map(lambda trial: wrong_in(under, trial, is_good), trials))
    assert len(found) > 0
    assert [line for line in found if line] == []


def files_below(folder: str) -> Iterator[tuple[str, bytes]]:
    for at, _, leaves in os.walk(os.path.join(support.TOP, folder)):
        for leaf in leaves:
            if leaf.endswith(".scene"):
                yield leaf, ends.content(os.path.join(at, leaf))


def test_cases(under: counted.Counted) -> None:
    read_case: Callable[[str], tuple[list[bytes], bytes, object]] = run_cases.read_case
    folders = [entry for entry in os.scandir(os.path.join(support.TOP, "cases")) if entry.is_dir()]
    cases = ((folder.name, read_case(folder.path)) for folder in folders)
    try_all(under, ((name, words, text) for name, (words, text, _) in cases))


@pytest.mark.parametrize("folder", ("gallery", "suite"))
def test_scenes(under: counted.Counted, folder: str) -> None:
    try_all(under, ((name, [word], text) for name, text in files_below(folder) for word in (b"render", b"colour")))


# The cases of which each allocation is refused in turn.
STARVED = ("one_solid", "difference_of_a_difference", "drilled_block", "debug_goes_back", "tidy_of_one_solid", "sample_of_one_block")


def wrong_when_refused(under: counted.Counted, words: list[bytes], text: bytes) -> Iterator[str]:
    """Refuses each request in turn. The program must then end with status 7, no output and at most the line `out of
    memory`; the run in which none is refused must be as the first."""
    whole = under.run(words, text)
    for number in range(1, whole.requests + 2):
        run = under.run(words, text, number)
        refused = counted.STARVED, b"", run.note if run.note in ("", "out of memory\n") else "out of memory\n"
        expected = refused if number <= whole.requests else (whole.status, whole.output, whole.note)
        if run.is_refused != (number <= whole.requests) or (run.status, run.output, run.note) != expected:
            yield "allocation %d: %s" % (number, run.described())


@pytest.mark.parametrize("name", STARVED)
def test_each_refusal_is_said(under: counted.Counted, name: str) -> None:
    words, text, _ = run_cases.read_case(os.path.join(support.TOP, "cases", name))
    assert list(wrong_when_refused(under, words, text)) == []


COMMANDS = ("render", "colour", "tidy", "plan", "cost", "list", "refine 2", "tile 40 20", "shadow", "debug")


def with_lines(words: list[bytes], text: bytes) -> bytes:
    """The input of a command: what it reads after the scene too."""
    return text + {b"shadow": b"light s0\n", b"debug": b"run\nback 1\nquit\n"}.get(words[0], b"")


@pytest.mark.parametrize("command", COMMANDS)
def test_each_number_of_solids(under: counted.Counted, command: str) -> None:
    words = command.encode().split()
    try_all(under, (("%d solids" % count, words, with_lines(words, scene(count))) for count in range(1, 256)), True)


GROWING: tuple[tuple[str, range], ...] = (
    ("faces", range(1, 33)), ("width", range(1, 513)), ("height", range(1, 513)), ("depth", range(1, 25)),
    ("fraction", range(1, 9)), ("blank", range(0, 10000, 97)))


@pytest.mark.parametrize("what,numbers", GROWING, ids=lambda each: each if isinstance(each, str) else "")
def test_each_number(under: counted.Counted, what: str, numbers: range) -> None:
    scenes = ((number, scene(3, **{what: number})) for number in numbers)
    words = ([b"render"], [b"plan"])
    try_all(under, (("%s %d" % (what, number), word, text) for number, text in scenes for word in words), True)


def test_products(under: counted.Counted) -> None:
    """Products of unions of two solids each: two, four, and so on to 2048, which is refused."""
    pairs = [balanced(["s%d" % (2 * pair), "s%d" % (2 * pair + 1)], "+") for pair in range(11)]
    shown = ((count, b"show " + balanced(pairs[:count], "*").encode()) for count in range(1, 12))
    texts = [(count, re.sub(rb"(?m)^show .*$", line, scene(22))) for count, line in shown]
    words = ([b"render"], [b"plan"], [b"list"])
    try_all(under, (("2^%d products" % count, word, text) for count, text in texts for word in words))


def test_listings(under: counted.Counted) -> None:
    """The listing of each scene of few solids, played."""
    listings = ((count, under.run([b"list"], scene(count)).output) for count in (1, 2, 11, 64))
    try_all(under, (("a listing of %d solids" % count, [b"play"], text) for count, text in listings))


def test_samples(under: counted.Counted) -> None:
    try_all(under, (("sample %d" % count, [b"sample", b"%d" % count], b"") for count in range(1, 40)))


def ended_at(text: str, at: int) -> int:
    """Where the parenthesis at a place is closed, after it."""
    depth = 0
    for end in range(at, len(text)):
        depth += {"(": 1, "[": 1, ")": -1, "]": -1}.get(text[end], 0)
        if depth == 0:
            return end + 1
    return len(text)


def asking(text: str) -> Iterator[str]:
    """The calls of a source that ask for memory: those that always do, and those whose answer is looked at. An array
    that asks for none has a `push` without an answer."""
    text = re.sub(r"(?m)^\s*//.*$", "", text)
    for found in re.finditer("%s|%s" % (WHOLE.pattern, ANSWERED.pattern), text):
        end = ended_at(text, found.start() + min(found[0].find(each) % 99 for each in "(["))
        begin = re.search(r"[\w.]*$", text[:found.start()])
        head = begin[0] if begin and found[0][0] == "." else ""
        is_matched = re.search(r"match $", text[:found.start() - len(head)]) is not None
        if not found[0].startswith(".") or is_matched or re.match(r"\s*(\?|\.unwrap\(\)|\.map_err\()", text[end:]):
            yield re.sub(r"\s+", " ", head + text[found.start():end])


def found_calls() -> set[str]:
    crates = os.path.join(support.TOP, "crates")
    files = [os.path.join(at, leaf) for crate in os.listdir(crates) if crate not in APART
             for at, _, leaves in os.walk(os.path.join(crates, crate, "src")) for leaf in leaves if leaf.endswith(".rt")]
    return {"%s: %s" % (os.path.relpath(path, crates), call) for path in files
            for call in asking(ends.content(path).decode("utf-8"))}


def test_every_call_that_asks_is_listed() -> None:
    """Each line of the list is a call and, after two spaces, the bytes that it asks for."""
    lines = [line for line in ends.content(LISTED).decode("utf-8").splitlines() if line and not line.startswith("#")]
    listed = dict(line.split("  ", 1) for line in lines)
    assert len(listed) == len(lines) and all(size.strip() for size in listed.values())
    assert set(listed) == found_calls()


def test_a_new_call_is_found() -> None:
    source = """
        let a = Vec::with_capacity(alloc, room(1, 2))?;   // let b = Vec::with_capacity(alloc, 3)?;
        line.push(1); stack.push(2).unwrap(); list.push(Pair::new(
            3))?;
        let c = vec![in alloc; [0; 4]; 5]?;
        match self.bytes.extend_from_slice(buf) {
    """
    assert list(asking(source)) == [
        "with_capacity(alloc, room(1, 2))", "with_capacity(alloc, 3)", "stack.push(2)", "list.push(Pair::new( 3))",
        "vec![in alloc; [0; 4]; 5]", "self.bytes.extend_from_slice(buf)"]


GREEDY = r"""
#include <stdlib.h>
#include <string.h>
#include <unistd.h>
int main(int words, char **word) {
    char text[65536];
    long bytes = read(0, text, sizeof text - 1), solids = 0;
    text[bytes] = 0;
    for (char *at = text; (at = strstr(at, "\nsolid ")); at++) solids++;
    if (!malloc(solids == 11 ? (size_t)-1 : solids == 12 ? 8 << 20 : 100 * solids)) return 7;
    return solids == 13 ? 7 : 0;
}
"""


def test_a_greedy_program_is_found() -> None:
    """One that asks for too much of 11 solids and of 12, and one that says "out of memory" for 13, though nothing was refused."""
    with tempfile.TemporaryDirectory(prefix="px-greedy-") as folder:
        source, built = os.path.join(folder, "greedy.c"), os.path.join(folder, "greedy")
        with open(source, "w", encoding="ascii") as file:
            file.write(GREEDY)
        subprocess.run(["cc", "-w", "-O0", "-fno-builtin", "-o", built, source], check=True)
        under = counted.Counted(built, folder)
        found = {count: wrong_in(under, ("", [b"render"], scene(count))) for count in range(1, 20)}
    assert [count for count, line in found.items() if line] == [11, 12, 13]


STARVING = r"""
#include <stdlib.h>
#include <unistd.h>
static void starved(int number) {
    if (number == 3 && FAULT == 3) write(1, "P6", 2);
    if (number > 1) write(2, "out of memory\n", 14);
    _exit(number == 4 && FAULT == 4 ? 0 : 7);
}
int main(void) {
    void *memory = 0;
    if (!malloc(10)) starved(1);
    if (!(memory = calloc(3, 3)) && FAULT != 2) starved(2);
    if (!(memory = realloc(memory, 1000))) starved(3);
    if (posix_memalign(&memory, 64, 64)) starved(4);
    return write(1, "P6", 2) != 2;
}
"""


@pytest.mark.parametrize("fault", (0, 2, 3, 4))
def test_a_refusal_that_is_not_said_is_found(fault: int, tmp_path: Path) -> None:
    """One that goes on, one that writes all the same, and one that ends with 0."""
    (tmp_path / "starving.c").write_text(STARVING)
    built = str(tmp_path / "starving")
    subprocess.run(["cc", "-w", "-O0", "-fno-builtin", "-DFAULT=%d" % fault, "-o", built, built + ".c"], check=True)
    found = list(wrong_when_refused(counted.Counted(built, str(tmp_path)), [], b""))
    assert [line.split(":")[0] for line in found] == ["allocation %d" % fault] * (fault > 0)
