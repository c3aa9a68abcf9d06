"""Runs the built program under a small library that comes before malloc and its kin. Tests use it.

The library counts all requests for memory, and can refuse one of them."""
import os
import shutil
import struct
import subprocess
import tempfile
from dataclasses import dataclass

from pxplanes.errors import Trouble

SECONDS = 600
STARVED = 7
RECORD = struct.Struct("4Q")
# It writes to the file of STARVE_RECORD, at each call: how many requests there were, whether it refused the one of the
# number in STARVE_AT, whether the system refused one, and the bytes of the largest.
LIBRARY = r"""
#include <errno.h>
#include <fcntl.h>
#include <stdint.h>
#include <stdlib.h>
#include <sys/mman.h>
void *__libc_malloc(size_t), *__libc_calloc(size_t, size_t), *__libc_realloc(void *, size_t);
void *__libc_memalign(size_t, size_t);
static uint64_t before[4], *record = before, at;
__attribute__((constructor)) static void start(void) {
    at = strtoul(getenv("STARVE_AT"), 0, 10);
    record = mmap(0, sizeof before, PROT_READ | PROT_WRITE, MAP_SHARED, open(getenv("STARVE_RECORD"), O_RDWR), 0);
    if (record == MAP_FAILED) abort();
}
static int is_refused(size_t n) {
    if (record != before && n > record[3]) record[3] = n;
    if (record == before || ++record[0] != at) return 0;
    record[1] = 1;
    errno = ENOMEM;
    return 1;
}
static void *given(void *p) {
    if (!p) record[2] = 1;
    return p;
}
void *malloc(size_t n) { return is_refused(n) ? 0 : given(__libc_malloc(n)); }
void *calloc(size_t n, size_t m) {
    size_t all;
    return is_refused(__builtin_mul_overflow(n, m, &all) ? SIZE_MAX : all) ? 0 : given(__libc_calloc(n, m));
}
void *realloc(void *p, size_t n) { return is_refused(n) ? 0 : given(__libc_realloc(p, n)); }
void *aligned_alloc(size_t a, size_t n) { return is_refused(n) ? 0 : given(__libc_memalign(a, n)); }
void *memalign(size_t a, size_t n) { return is_refused(n) ? 0 : given(__libc_memalign(a, n)); }
int posix_memalign(void **p, size_t a, size_t n) {
    return is_refused(n) ? ENOMEM : (*p = given(__libc_memalign(a, n))) ? 0 : ENOMEM;
}
"""


@dataclass(frozen=True)
class Run:
    """How a run ended, and what it asked for: how many requests, whether the library or the system refused one, and the
    bytes of the largest. It has no status if there was no answer, and the note then says why."""
    status: int | None
    output: bytes
    note: str
    requests: int
    is_refused: bool
    is_refused_by_system: bool
    largest: int

    def described(self) -> str:
        if self.status is None:
            return "no answer: %s" % self.note
        return "status %d, %d bytes, note %r" % (self.status, len(self.output), self.note[:80])


class Counted:
    """A built program under the library, which is compiled into a folder."""

    def __init__(self, program: str, folder: str) -> None:
        self.program, self.folder = program, folder
        if shutil.which("cc") is None:
            raise Trouble("there is no command cc; --help says more")
        self.library, source = (os.path.join(folder, leaf) for leaf in ("counted.so", "counted.c"))
        with open(source, "w", encoding="ascii") as file:
            file.write(LIBRARY)
        command = ["cc", "-O1", "-fno-builtin-malloc", "-shared", "-fPIC", "-o", self.library, source]
        subprocess.run(command, check=True)

    def run(self, words: list[str] | list[bytes], text: bytes, refused: int = 0) -> Run:
        """Runs it on words and an input; the request of the number `refused` is refused, from 1 on."""
        with tempfile.NamedTemporaryFile(dir=self.folder) as record:
            record.truncate(RECORD.size)
            environment = {"LD_PRELOAD": self.library, "STARVE_AT": str(refused), "STARVE_RECORD": record.name}
            command = [self.program, *words]
            try:
                done = subprocess.run(command, input=text, capture_output=True, env=environment, timeout=SECONDS)
            except subprocess.TimeoutExpired:
                return Run(None, b"", "none in %d seconds" % SECONDS, 0, True, False, 0)
            requests, by_library, by_system, largest = RECORD.unpack(record.read(RECORD.size))
        note = done.stderr.decode("latin-1")
        return Run(done.returncode, done.stdout, note, requests, bool(by_library), bool(by_system), largest)
