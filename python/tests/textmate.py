"""Separates the words of a text by a TextMate grammar, as an editor does. Tests use it.

What the grammars of editors/textmate use of the form is here, and no more: `match` with `captures`, `begin` without
an end, `patterns` and `include` of another grammar."""
import json
import os
import re

from pxplanes.ends import TOP

FOLDER = os.path.join(TOP, "editors", "textmate", "syntaxes")


class Grammar:
    """The patterns of a grammar; a line is of the first that fits, from left to right."""

    def __init__(self, scope):
        with open(os.path.join(FOLDER, scope.split(".")[1] + ".tmLanguage.json")) as file:
            self.patterns = list(self.flat(json.load(file)["patterns"]))

    def flat(self, patterns):
        for pattern in patterns:
            if "include" in pattern:
                yield from Grammar(pattern["include"]).patterns
            else:
                yield pattern

    def lines(self, lines):
        """Of each line the scope of each of its bytes that is no blank; None where it has none."""
        patterns = self.patterns
        for line in lines:
            scopes, opened = scopes_of(line, patterns)
            patterns = opened or patterns
            yield [scope for scope, letter in zip(scopes, line) if letter not in " \t\r"]


def scopes_of(line, patterns):
    """The scope of each letter of a line, and the patterns that a `begin` in it opens."""
    scopes, at, opened = [None] * len(line), 0, None
    while at < len(line):
        found = [(match, pattern) for pattern in patterns
                 for match in [re.compile(pattern.get("match") or pattern["begin"]).search(line, at)] if match and match.end() > at]
        if not found:
            break
        match, pattern = min(found, key=lambda it: it[0].start())
        fill(scopes, match, 0, pattern)
        for group, capture in (pattern.get("captures") or pattern.get("beginCaptures") or {}).items():
            fill(scopes, match, int(group), capture)
        opened = pattern.get("patterns") if "begin" in pattern else opened
        at = match.end()
    return scopes, opened


def fill(scopes, match, group, pattern):
    """Gives what a group matched the scope of a pattern, or that of its own patterns."""
    first, last = match.span(group)
    if "name" in pattern and first >= 0:
        scopes[first:last] = [pattern["name"]] * (last - first)
    if "patterns" in pattern and "begin" not in pattern and first >= 0:
        inner, _ = scopes_of(match.group(group), pattern["patterns"])
        scopes[first:last] = inner
