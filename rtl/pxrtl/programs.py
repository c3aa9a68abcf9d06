"""Runs other programs, each with a limit of a processor's time."""
import os
import re
import shutil
import signal
import subprocess

from pxrtl.shared import TOP, Bad

INSTALL = {"vvp": "iverilog", "icepack": "fpga-icestorm", "icetime": "fpga-icestorm"}
NOT_IN_DEBIAN = ("nextpnr-ecp5", "ecppack")
ERROR = re.compile(r"error|syntax|unable|unknown|not found", re.I)
SYSTEM_VERILOG = re.compile(r"\b(logic|always_ff|always_comb|always_latch|typedef|enum)\b")


class TooLong(Bad):
    """A program took more seconds of a processor than it may."""

    def __init__(self, seconds: int):
        super().__init__("it has no end within %d seconds: a loop that takes no time, or a simulation that takes long "
                         "(--seconds N gives it more)" % seconds)
        self.seconds = seconds


def needed(command: str) -> str:
    """A command's path. `Bad` says how Debian installs it if it is missing."""
    path = shutil.which(command)
    if path is None:
        raise Bad("there is no %s%s" % (command, ", and Debian 12 has no package of it" if command in NOT_IN_DEBIAN else
                                        "; `apt-get install %s` installs it" % INSTALL.get(command, command)))
    return path


def wrong_line(printed: str, folder: str) -> str:
    """The line of a program's output that says what is wrong: its own ERROR, or the first that has such a word."""
    lines = [line.strip().replace(folder + os.sep, "").replace(TOP + os.sep, "") for line in printed.split("\n")
             if line.strip()]
    return next((line for line in lines if "ERROR:" in line), None) or next(filter(ERROR.search, lines),
            (lines or ["no word"])[0])


def hint(sources: list[str]) -> str:
    """What may help if a program cannot read a file."""
    for path in sources:
        if path.endswith(".v"):
            with open(path, encoding="latin-1") as file:
                found = SYSTEM_VERILOG.search(re.sub(r"//.*|/\*.*?\*/", "", file.read()))
            if found:
                return "; `%s` is a word of SystemVerilog, whose files must end with .sv" % found.group()
    return ""


def made(words: list[str], folder: str, seconds: int | None = None) -> str:
    """What a program prints. `TooLong` if it takes more seconds of a processor; `Bad` with its line of error if it
    fails."""
    limited = words if seconds is None else ["/bin/sh", "-c", 'ulimit -t %d; exec "$@"' % seconds, "sh"] + words
    done = subprocess.run(limited, cwd=folder, stdin=subprocess.DEVNULL, stdout=subprocess.PIPE,
                          stderr=subprocess.STDOUT,
                          text=True, errors="replace")
    if seconds is not None and done.returncode in (-signal.SIGXCPU, -signal.SIGKILL):
        raise TooLong(seconds)
    if done.returncode != 0:
        raise Bad("%s: %s" % (os.path.basename(words[0]), wrong_line(done.stdout, folder)))
    return done.stdout
