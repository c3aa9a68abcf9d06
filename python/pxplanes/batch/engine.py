"""The program on many texts, in so many processes side by side, and how far they are. All of them end with this process."""
import ctypes
import fcntl
import os
import signal
import subprocess
import sys
import threading
import time
from concurrent import futures
from typing import IO, Any, Callable, Iterable, Iterator, TypeVar

from pxplanes.errors import Trouble

TURNS_OF_WAITING = 10
LIBC = ctypes.CDLL(None)
TERMINATE_WITH_PARENT = 1
Item = TypeVar("Item")
Outcome = TypeVar("Outcome")


def locked(file: IO[Any], place: str) -> None:
    """Takes the lock of a file. What a run that was killed had begun ends with it, so a moment is waited for that."""
    for _ in range(TURNS_OF_WAITING):
        try:
            return fcntl.flock(file, fcntl.LOCK_EX | fcntl.LOCK_NB)
        except BlockingIOError:
            time.sleep(0.1)
    raise Trouble("another run works in %s" % place)


class Engine:
    """Runs the program. Each process holds `lock`, an open file that is locked, until it has ended."""

    def __init__(self, built: str, lock: IO[Any]):
        self.built, self.lock, self.is_over = os.path.abspath(built), lock, False
        self.running: set[subprocess.Popen[bytes]] = set()
        self.changed = threading.Lock()

    def run(self, words: list[str], text: bytes, out: int | IO[bytes] = subprocess.PIPE) -> tuple[int, bytes, str]:
        """The status of a run on a text, its output unless that goes into a file, and its note."""
        with self.changed:
            if self.is_over:
                raise Trouble("broken off")
            process = subprocess.Popen([self.built, *words], stdin=subprocess.PIPE, stdout=out, stderr=subprocess.PIPE,
                                       pass_fds=[self.lock.fileno()], preexec_fn=end_with_parent)
            self.running.add(process)
        output, note = process.communicate(text)
        self.running.discard(process)
        return process.returncode, output, note[:200].decode("latin-1").strip("\n")

    def each(self, jobs: int, work: Callable[[Item], Outcome], items: Iterable[Item]) -> Iterator[tuple[Item, Outcome]]:
        """Each item with what came of it, as it ends; so many are at work at once. What is at work ends where this is broken off."""
        with futures.ThreadPoolExecutor(jobs) as pool:
            tasks = {pool.submit(work, item): item for item in items}
            progress = Progress(len(tasks))
            try:
                for task in futures.as_completed(tasks):
                    yield tasks.pop(task), task.result()
                    progress.step()
            finally:
                self.end()
                pool.shutdown(cancel_futures=True)
                progress.end()

    def end(self) -> None:
        with self.changed:
            self.is_over = True
            for process in list(self.running):
                process.terminate()


def end_with_parent() -> None:
    LIBC.prctl(TERMINATE_WITH_PARENT, signal.SIGTERM)


class Progress:
    """A line on a terminal: how many pieces are done, how many are left, and how long they take."""

    def __init__(self, of: int):
        self.of, self.done, self.began, self.printed = of, 0, time.monotonic(), 0.0
        self.shown = sys.stderr is not None and sys.stderr.isatty()

    def step(self) -> None:
        self.done += 1
        now = time.monotonic()
        if self.shown and (now - self.printed > 0.2 or self.done == self.of):
            self.printed = now
            seconds = (now - self.began) / self.done * (self.of - self.done)
            print("\r%d of %d done, %d left, %d:%02d to go " % (
                self.done, self.of, self.of - self.done, seconds // 60, seconds % 60), end="", file=sys.stderr, flush=True)

    def end(self) -> None:
        if self.shown and self.done:
            print(file=sys.stderr)
