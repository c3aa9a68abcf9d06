"""The manual page of each word of the command, made of its parser."""
import os
import re

from pxplanes import ends
from pxplanes.cli import frame

OWN = os.path.join(ends.TOP, "man", "pxplanes.1")
SIGNS = {"\\": "\\e", "-": "\\-", "'": "\\(aq", "`": "\\(ga", "^": "\\(ha", "~": "\\(ti"}


def escaped(text):
    """A text as roff takes it: no sign is one of roff's, and a minus breaks no line."""
    text = " ".join("".join(SIGNS.get(sign, sign) for sign in text).split())
    return "\\&" + text if text.startswith(".") else text


def page(word, version):
    """The manual page of a word, with the date of the program's own page."""
    date = re.search(r"(?m)^\.Dd (.*)", ends.content(OWN).decode("utf-8")).group(1)
    name, parser = "pxplanes-" + word, frame.parser_of(word)
    lines = ['.TH %s 1 "%s" "pxplanes %s" "pxplanes"' % (name.upper(), date, version), ".nh", ".ad l", ".SH NAME",
             "%s \\- %s" % (escaped(name), escaped(frame.word(word).HELP)), ".SH SYNOPSIS",
             escaped(parser.format_usage().removeprefix("usage: ")), ".SH DESCRIPTION"]
    paragraphs = [escaped(each) for each in parser.description.strip().split("\n\n")]
    lines += "\n.PP\n".join(paragraphs).split("\n") + [".SH OPTIONS", *options_of(parser)]
    return "\n".join(lines + [".SH SEE ALSO", "pxplanes(1)", ""])


def options_of(parser):
    """The lines of a parser's options, and of the parsers below it."""
    formatter = parser._get_formatter()
    for action in parser._actions:
        if isinstance(action.choices, dict):
            for name, below in action.choices.items():
                yield from (".SS " + escaped(below.prog), escaped(below.description or name), *options_of(below))
        elif action.help:
            yield from (".TP", escaped(formatter._format_action_invocation(action)), escaped(formatter._expand_help(action)))
