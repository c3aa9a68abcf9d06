"""Calls of a text that fill buffers, and the program's commands by one of them. Long calls are made in threads, so that
Ctrl-C and `progress` are heard meanwhile."""
import collections
import contextlib
import os
import queue
import re
import threading
from typing import Any, Callable, Generator, Optional, Sequence, TypeVar

from .arrays import Buffer
from .calls import NO_ROOM, OK, Found, Text, asked

T = TypeVar("T")
# What is called with the share that is done, from 0 to 1, after each part and ten times a second.
Progress = Callable[[float], Any]
# A call of fewer clocks takes milliseconds. Seconds between two looks at the keyboard.
MANY, LOOK = 10000, 0.1
# Room for the output of a command that is no wide picture and no listing's: as many bytes as two pixel maps of 512 by
# 512 have.
ROOM = 2 * (3 * 512 * 512 + 20)
# Commands that draw nothing, and take milliseconds.
QUICK = (["cost"], ["plan"], ["sample"], ["tidy"])
# The buffer of an output that no call uses now. One call at a time takes it, and gives it back, larger if it had to be.
KEPT: dict[str, Optional[Buffer]] = {}


# Threads that have no work, each by the queue where it waits. They are kept for later calls, and end with the process.
IDLE: list[queue.SimpleQueue[Callable[[], None]]] = []
if hasattr(os, "register_at_fork"):
    os.register_at_fork(after_in_child=IDLE.clear)


def begin(work: Callable[[], None]) -> None:
    """Does some work, which raises nothing, in a thread that is kept, or in a new one."""
    try:
        waits = IDLE.pop()
    except IndexError:
        waits = queue.SimpleQueue()
        threading.Thread(target=serve, args=(waits,), daemon=True).start()
    waits.put(work)


def serve(waits: queue.SimpleQueue[Callable[[], None]]) -> None:
    """What a kept thread does."""
    while True:
        waits.get()()
        IDLE.append(waits)


def gathered(calls: Sequence[Callable[[], T]], threads: int) -> Generator[Optional[T], None, None]:
    """What each call gives, made by so many threads, in the order in which they end; and None ten times a second. If
    this is closed no other call begins; those under way end in their threads, or with the process, and nobody gets what
    they give. By 0 threads calls are made here."""
    if threads == 0:
        yield from (call() for call in calls)
        return
    waiting, ended = collections.deque(calls), queue.SimpleQueue[Any]()

    def work() -> None:
        with contextlib.suppress(IndexError):
            while True:
                call = waiting.popleft()
                try:
                    ended.put((call(), None))
                except Exception as error:
                    ended.put((None, error))

    try:
        for _ in range(min(threads, len(calls))):
            begin(work)
        left = len(calls)
        while left:
            try:
                given, error = ended.get(timeout=LOOK)
            except queue.Empty:
                yield None
                continue
            if error is not None:
                raise error
            left -= 1
            yield given
    finally:
        waiting.clear()


def heard(call: Callable[[], T], clocks: int, progress: Optional[Progress] = None) -> T:
    """What a call of so many clocks gives. A long one is made in a thread: Ctrl-C, or what `progress` raises, leaves it
    at once."""
    with contextlib.closing(gathered([call], int(clocks >= MANY or progress is not None))) as answers:
        for answer in answers:
            if progress is not None:
                progress(float(answer is not None))
            if answer is not None:
                break
    assert answer is not None
    return answer


def done(name: str, text: Text, before: tuple[Any, ...], buffers: list[Buffer], after: tuple[Any, ...] = (),
         clocks: int = 0, progress: Optional[Progress] = None) -> tuple[int, Found]:
    """What a call finds, as `asked` gives it, if it makes so many clocks."""
    given = [word for each in buffers for word in each.given()]
    return heard(lambda: asked(name, text, *before, *given, *after), clocks, progress)


def filled(name: str, kind: str, text: Text, *before: Any, after: tuple[Any, ...] = (),
           clocks: int = 0) -> tuple[Buffer, Found]:
    """The buffer of a call that makes so many clocks, which it filled."""
    buffer, (status, found) = Buffer(kind, 0), asked(name, text, *before, None, 0, *after)
    while status != OK:
        buffer = Buffer(kind, found.room)
        status, found = done(name, text, before, [buffer], after, clocks)
    return buffer, found


def run(text: Text, words: str = "render", progress: Optional[Progress] = None) -> bytes:
    """What the program writes for the words of a command, as `tile 1024 768`, with the text as its standard input.

    Raises `Malformed`, `Limit` and `NoCommand`, each a `Refused`: `status` is the one with which the program ends, and
    `said` what it writes to its standard error. Ctrl-C, and what `progress` raises, leave it within a second: its
    thread goes on until the command is done or the process ends. A command that must be killed is one of another
    process, as `python -m pxplanes list`.

    >>> run("", "sample 1")
    b'shown 9\\ndepths 2111\\nproducts 1\\nclocks 3133\\n'
    """
    if not isinstance(words, str):
        raise TypeError("the words of a command are a str, and no %s" % type(words).__name__)
    given, wide = words.encode(), re.fullmatch(r" *tile +([1-9][0-9]{0,3}) +([1-9][0-9]{0,3}) *", words)
    clocks, status = 0 if words.split()[:1] in QUICK else MANY, NO_ROOM
    out = Buffer("B", 6 * int(wide[1]) * int(wide[2]) + 40) if wide else KEPT.pop("out", None) or Buffer("B", ROOM)
    while status == NO_ROOM:
        status, found = done("run", text, (given, len(given)), [out], clocks=clocks, progress=progress)
        if status == NO_ROOM:
            out = Buffer("B", found.room)
    written = bytes(memoryview(out.room)[:found.room])
    if not wide:
        KEPT["out"] = out
    return written
