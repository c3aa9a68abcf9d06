"""Reads VCD texts: the values of signals at any time."""
from __future__ import annotations

import re

from pxplanes.errors import Trouble
from pxplanes.machine.vcd import NO_NUMBER, NO_VALUE, Value


class Waves:
    """A VCD text that was read: the value of each signal, by its scopes and name, at any time."""

    def __init__(self, text: str):
        self.widths: dict[str, int] = {}
        self.kinds: dict[str, str] = {}
        self.changes: dict[str, list[tuple[int, Value]]] = {}
        codes: dict[str, str] = {}
        scopes: list[str] = []
        self.end, time = 0, -1
        head, _, body = text.partition("$enddefinitions $end\n")
        for word, rest in re.findall(r"\$(\w+)\s+(.*?)\s*\$end", head, re.S):
            if word == "scope":
                scopes.append(rest.split()[1])
            elif word == "upscope":
                scopes.pop()
            elif word == "var":
                kind, width, code, name = rest.split()[:4]
                full = ".".join(scopes + [name])
                codes[code] = full
                self.widths[full], self.kinds[full] = int(width), kind
                self.changes[full] = []
        for line in body.splitlines():
            if line.startswith("#"):
                if int(line[1:]) <= time:
                    raise Trouble("time %s does not grow" % line)
                time = self.end = int(line[1:])
            else:
                value, code = (line[1:].split(" ") if line[0] in "brs" else (line[0], line[1:]))
                self.changes[codes[code]].append((time, self.value(codes[code], value)))

    def value(self, name: str, word: str) -> Value:
        if self.kinds[name] == "string":
            return None if word == NO_VALUE else word
        if self.kinds[name] == "real":
            return None if word == NO_NUMBER else float(word)
        if set(word) & set("xz"):
            return None
        return int(word, 2)

    def at(self, name: str, time: int) -> Value:
        """What a signal is at a time: its last change up to then."""
        if name not in self.changes:
            raise Trouble("no signal is called %s" % name)
        found = None
        for when, value in self.changes[name]:
            if when > time:
                break
            found = value
        return found
