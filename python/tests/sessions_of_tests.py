"""Processes that end with all that they began: each runs in a session of its own, which is killed after it, and when all is broken off."""
from __future__ import annotations

import subprocess
import threading
from typing import Any, Optional

from pxplanes.batch.groups import kill_session


class Groups:
    """What runs of them now. `run` is as `subprocess.run`, from any thread; `end` kills all, and nothing is begun after it."""

    def __init__(self) -> None:
        self.running: set[subprocess.Popen[Any]] = set()
        self.lock, self.is_over = threading.Lock(), False

    def run(self, words: list[str], timeout: Optional[float], stdin: bytes = b"", **more: Any) -> subprocess.CompletedProcess[Any]:
        with self.lock:
            if self.is_over:
                raise KeyboardInterrupt
            process = subprocess.Popen(words, stdin=subprocess.PIPE, start_new_session=True, **more)
            self.running.add(process)
        try:
            output, note = process.communicate(stdin, timeout)
            return subprocess.CompletedProcess(words, process.returncode, output, note)
        finally:
            kill_session(process.pid)
            process.wait()
            self.running.discard(process)

    def end(self) -> None:
        with self.lock:
            self.is_over = True
            for process in list(self.running):
                kill_session(process.pid)
