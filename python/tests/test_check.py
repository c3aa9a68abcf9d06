"""tools/check in a repository of its own: what passed is kept for the very same alone, and an interrupt leaves nothing behind."""
import os
import shutil
import signal
import subprocess
import time

import pytest
from support import TOP
import building
from pxplanes.errors import Trouble

PROGRAM = os.path.join("crates", "px_program", "out", "px_program")
TEST = '''import os
import pytest

def test_before():
    print("before")
    assert "FAIL" not in os.environ

@pytest.mark.after_build
def test_after():
    print("after")
'''
HANGS = '''import subprocess

def test_hangs():
    subprocess.run(["sleep", "%s"])
'''


def git(folder, *words):
    subprocess.run(["git", "-C", folder, "-c", "user.name=a", "-c", "user.email=a@b", *words], check=True, capture_output=True)


@pytest.fixture
def tree(tmp_path, built):
    """A repository with tools/check, one case and two tests, whose program is the one that is tried."""
    for folder in ("tools/lib", "python/pxplanes", "cases/one_solid"):
        shutil.copytree(os.path.join(TOP, folder), tmp_path / folder, ignore=shutil.ignore_patterns("__pycache__"))
    for leaf in ("tools/check", "python/tests/run_cases.py", "pyproject.toml", "conftest.py", "python/tests/conftest.py",
                 "python/tests/support.py", "python/tests/sessions_of_tests.py"):
        os.makedirs((tmp_path / leaf).parent, exist_ok=True)
        shutil.copy(os.path.join(TOP, leaf), tmp_path / leaf)
    (tmp_path / "python/tests/test_one.py").write_text(TEST)
    (tmp_path / PROGRAM).parent.mkdir(parents=True)
    shutil.copy(built, tmp_path / PROGRAM)
    (tmp_path / ".gitignore").write_text("/built/\n/crates/px_program/out/\n__pycache__/\n")
    git(tmp_path, "init", "-q")
    commit(tmp_path)
    return tmp_path


def commit(tree):
    git(tree, "add", ".")
    git(tree, "commit", "-q", "-m", "one")


def check(tree, *words, **settings):
    """The status of a run, and which of its parts were kept."""
    environment = {name: value for name, value in os.environ.items() if name not in ("PXPLANES_PROGRAM", "PYTHONPATH")}
    done = subprocess.run([tree / "tools/check", "--jobs", "1", *words, PROGRAM], cwd=tree, env={**environment, **settings},
                          capture_output=True, text=True)
    return done.returncode, [line.split()[2] for line in done.stdout.split("\n") if line.startswith("kept")]


def test_only_the_very_same_is_kept(tree):
    assert check(tree, FAIL="1") == (1, [])
    assert check(tree) == (0, ["after-build"]), "the half that passed is kept, and not the one that failed"
    assert check(tree) == (0, ["before-build", "after-build"])
    assert check(tree, "--again") == (0, [])
    assert check(tree, PXPLANES_SETTING="1") == (0, [])
    (tree / "a_file").write_text("more\n")
    assert check(tree) == (0, []), "a file that is not committed"
    commit(tree)
    assert check(tree) == (0, [])
    (tree / "crates/px_c/out").mkdir(parents=True)
    with open(tree / ".gitignore", "a", encoding="ascii") as ignored:
        ignored.write("/crates/px_c/out/\n")
    commit(tree)
    assert check(tree) == (0, [])
    (tree / "built").mkdir(exist_ok=True)
    (tree / "crates/px_program/out/px_program").write_bytes((tree / PROGRAM).read_bytes() + b"x")
    assert check(tree) == (0, []), "another program"


@pytest.mark.parametrize("number", (signal.SIGINT, signal.SIGTERM))
def test_an_interrupt_leaves_nothing(tree, number):
    seconds = "%d.5" % (100000 + os.getpid())
    (tree / "python/tests/test_one.py").write_text(HANGS % seconds)
    process = subprocess.Popen([tree / "tools/check", "--jobs", "1", PROGRAM], cwd=tree, stdout=subprocess.DEVNULL)
    while subprocess.run(["pgrep", "-f", "^sleep " + seconds], capture_output=True).returncode != 0:
        assert process.poll() is None
        time.sleep(0.1)
    process.send_signal(number)
    assert process.wait() == 130
    assert subprocess.run(["pgrep", "-f", "^sleep " + seconds], capture_output=True).returncode != 0


def test_libraries_of_other_sources_are_refused(tmp_path, monkeypatch):
    """What `rt ci` made is used only with a note of these very sources, if no `rt check` has touched a crate since."""
    (tmp_path / "crates.txt").write_text("px_low:\npx_top staticlib: px_low\n")
    note, stamp = tmp_path / "proved-of", tmp_path / "crates" / "px_top" / "out" / "rlib" / "stamp"
    stamp.parent.mkdir(parents=True)
    monkeypatch.setattr(building.ends, "TOP", str(tmp_path))
    monkeypatch.setattr(building, "PROVED_OF", str(note))

    def is_refused(sum_of, call, *words):
        monkeypatch.setattr(building.gate, "sum_crates", lambda: sum_of)
        try:
            call(*words)
        except Trouble:
            return True
        return False

    assert is_refused("one", building.need_proved)
    assert is_refused("one", building.note_proved, "two") and not note.exists()
    assert not is_refused("one", building.note_proved, "one") and not is_refused("one", building.need_proved)
    assert is_refused("two", building.need_proved) and is_refused("on", building.need_proved)
    stamp.touch()
    assert is_refused("one", building.need_proved)
    stamp.unlink()
    assert not is_refused("one", building.need_proved)
