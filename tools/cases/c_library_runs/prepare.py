"""Writes what check_runs compares into the folder of its word: the words, the input and the answer of each case of the program whose words
can be written with spaces between them, and of some that no case has."""
import os
import subprocess
import sys

sys.path[:0] = [os.path.realpath(folder) for folder in ("python/tests", "python")]
from pxplanes import ends
import run_cases as cases
FIRST = cases.content(os.path.join(ends.TOP, "docs", "scenes"), "first.scene")
LONG = FIRST + b"# and more\n" * 300000


def is_plain(word):
    return bool(word) and not set(word) & set(b" \t\r")


def put(folder, name, words, text, answer):
    status, output, note = answer
    for end, content in (("words", words), ("text", text), ("output", output), ("note", note), ("status", b"%d" % status)):
        with open(os.path.join(folder, name + "." + end), "wb") as file:
            file.write(content)
    return name


def of_cases(folder):
    for name in cases.names():
        words, text, (status, output, note) = cases.read_case(os.path.join(cases.CASES, name))
        if all(map(is_plain, words)):
            # what is answered before the limit of a text is not given
            yield put(folder, name, b" ".join(words), text, (status, b"" if status else output, note))


def answer(words, text):
    done = subprocess.run([os.environ["PROGRAM"].encode()] + words, input=text, capture_output=True)
    return done.returncode, done.stdout, done.stderr


def others(folder):
    usage = answer([b"x"], b"")
    blanks = b" \t\r" * 300000
    yield put(folder, "own_blanks", b" \t tidy\r ", FIRST, answer([b"tidy"], FIRST))
    yield put(folder, "own_many_blanks", blanks + b"refine" + blanks + b"2" + blanks, FIRST, answer([b"refine", b"2"], FIRST))
    yield put(folder, "own_no_words_but_blanks", blanks, FIRST, answer([], FIRST))
    for number, words in enumerate((b"tidy\n", b"tidy\0", b"\xff", b"tidy\xff", b"sample", b"tile 9", b"tile 9 9 9", b"tidy 1 2 3",
                                    b"x " * 300000, b"y" * 1000000)):
        yield put(folder, "own_usage_%d" % number, words, FIRST, usage)
    for number, words in enumerate(([b"render"], [b"tidy"], [b"shadow"], [b"play"], [b"refine", b"4"], [b"tile", b"9", b"9"], [b"list"])):
        yield put(folder, "own_long_%d" % number, b" ".join(words), LONG, answer(words, LONG))
        yield put(folder, "own_nothing_%d" % number, b" ".join(words), b"", answer(words, b""))
    for side, words in ((512, []), (512, [b"colour"]), (256, [b"refine", b"2"]), (128, [b"refine", b"4"]), (512, [b"tile", b"1024", b"512"])):
        large = FIRST.replace(b"picture 48 32", b"picture %d %d" % (side, side))
        yield put(folder, "own_large_%s" % b"_".join(words or [b"render"]).decode(), b" ".join(words), large, answer(words, large))


with open(os.path.join(sys.argv[1], "list"), "w") as file:
    file.writelines(name + "\n" for make in (of_cases, others) for name in make(sys.argv[1]))
