"""Ends processes with all that they began, each in a session of its own, and breaks a run off once."""
import os
import signal
import time
from typing import Any, Optional

SESSION = 3


def kill_session(number: int) -> None:
    """Kills each process of a session, until none is left: a process that begins another is met in the next round."""
    while True:
        found = [pid for pid in map(int, filter(str.isdigit, os.listdir("/proc"))) if session_of(pid) == number]
        for pid in found:
            try:
                os.kill(pid, signal.SIGKILL)
            except ProcessLookupError:
                pass
        if not found:
            return
        time.sleep(0.01)


def session_of(pid: int) -> Optional[int]:
    """The session of a process that runs; None where there is none, or it has ended and is not waited for."""
    try:
        with open("/proc/%d/stat" % pid) as file:
            words = file.read().rsplit(")", 1)[1].split()
    except OSError:
        return None
    return None if words[0] in "ZX" else int(words[SESSION])


def break_off_once() -> None:
    """Makes the first signal that would end this process a KeyboardInterrupt, and ignores those after it. A run in the
    background ignores Ctrl-C, and would pass that on to what it starts."""
    def broken_off(*_: Any) -> None:
        for number in (signal.SIGINT, signal.SIGTERM):
            signal.signal(number, signal.SIG_IGN)
        raise KeyboardInterrupt

    for number in (signal.SIGINT, signal.SIGTERM):
        signal.signal(number, broken_off)
