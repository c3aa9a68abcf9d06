"""The outcome of a run in files: JSON for programs, JUnit for CI, and a page with the pictures that differ."""
import base64
import html
import json
import os
from typing import Callable

import numpy as np

from pxplanes.compare import report
from pxplanes.compare.report import Maps, Numbers
from pxplanes.errors import Trouble
from pxplanes.image import maps, show
from pxplanes.suite.running import ALIKE, DIFFERS, NOT_COMPARED, Outcome, Row

SIDE = 256
PAGE = """<!doctype html>
<html lang="en"><meta charset="utf-8"><title>%(title)s</title>
<style>
body { font: 15px/1.45 sans-serif; margin: 2em auto; max-width: 66em; padding: 0 1em; color: #222; background: #fff }
table { border-collapse: collapse; margin: 1em 0 } td, th { padding: .25em .8em; text-align: right; border-bottom: 1px solid #ddd }
td:first-child, th:first-child { text-align: left } figure { display: inline-block; margin: 0 1em 1em 0; vertical-align: top }
img { image-rendering: pixelated; width: 256px; display: block; background: #eee } figcaption { color: #555; font-size: 13px }
code { background: #f3f3f3; padding: 0 .2em } .cause { font-weight: bold } section { border-top: 1px solid #ccc; margin-top: 1.5em }
</style>
<h1>%(title)s</h1>
<p><code>%(renderer)s</code></p>
%(cause)s
<table><tr><th>level</th><th>scenes</th><th>alike</th><th>differ</th><th>not compared</th></tr>
%(levels)s
</table>
%(scenes)s
</html>
"""


def title(outcome: Outcome) -> str:
    without = outcome.settings.without
    return "pxplanes suite %s%s" % (outcome.version, ", without %s" % ", ".join(without) if without else "")


def about(outcome: Outcome, row: Row) -> tuple[str, str]:
    """What a scene asks, and which mistake it is there to find."""
    own = outcome.manifest.get((row.case.kind, row.case.name), {})
    return own.get("asks", ""), own.get("kills", "")


def as_json(outcome: Outcome) -> str:
    return json.dumps({
        "suite": "pxplanes", "version": outcome.version, "renderer": outcome.renderer, "without": list(outcome.settings.without),
        "alike": outcome.count(ALIKE), "scenes_tried": len(outcome.rows), "cause": outcome.cause, "unexpected": outcome.unexpected(),
        "levels": [{"level": level, "scenes": len(rows), "alike": outcome.count(ALIKE, rows), "differ": outcome.count(DIFFERS, rows),
                    "not_compared": outcome.count(NOT_COMPARED, rows)} for level, rows in outcome.levels()],
        "scenes": [{"kind": row.case.kind, "name": row.case.name, "level": row.case.level, "status": row.status, "pixels": row.pixels,
                    "expected": row.case.title in outcome.expected, "first": row.first, "kills": about(outcome, row)[1]}
                   for row in outcome.rows]}, indent=1) + "\n"


def junit_inside(outcome: Outcome, row: Row) -> str:
    """What a test case has of a scene: an expected difference is no failure, and one that no longer occurs is."""
    is_expected = row.case.title in outcome.expected
    if row.status == DIFFERS and is_expected:
        return '<skipped message="%s"/>' % html.escape("expected to differ: " + row.first)
    if row.status == DIFFERS:
        return '<failure message="%s">%s</failure>' % (html.escape(row.first), html.escape("it is there to find: " + about(outcome, row)[1]))
    if row.status == NOT_COMPARED:
        return '<skipped message="the map has no faces"/>'
    return '<failure message="it is expected to differ, and is alike"/>' if is_expected else ""


def as_junit(outcome: Outcome) -> str:
    out = ['<?xml version="1.0" encoding="UTF-8"?>', '<testsuites name="%s">' % html.escape(title(outcome))]
    for level, rows in outcome.levels():
        inside = [junit_inside(outcome, row) for row in rows]
        out.append('  <testsuite name="%s" tests="%d" failures="%d" skipped="%d">' % (
            html.escape(level), len(rows), sum(each.startswith("<failure") for each in inside), sum(each.startswith("<skipped") for each in inside)))
        out += ['    <testcase classname="%s" name="%s">%s</testcase>' % (row.case.kind, html.escape(row.case.name), each)
                for row, each in zip(rows, inside)]
        out.append("  </testsuite>")
    return "\n".join(out + ["</testsuites>", ""])


def figure(pixels: Numbers, said: str) -> str:
    factor = max(1, SIDE // max(pixels.shape[:2]))
    data = base64.b64encode(maps.png(pixels.repeat(factor, 0).repeat(factor, 1))).decode()
    return '<figure><img alt="%s" src="data:image/png;base64,%s"><figcaption>%s</figcaption></figure>' % (said, data, said)


def coloured(found: list[show.Colour], shape: tuple[int, int]) -> Numbers:
    return np.array(found, np.uint8).reshape(*shape, 3)


def pictures(whose: str, own: Maps, far: int) -> list[str]:
    """The maps of one side as pictures."""
    out = []
    if own.depths is not None:
        depths = np.where(np.isfinite(own.depths), own.depths, far).ravel()
        greys = show.greys_of_depths(depths.tolist(), (depths != far).tolist())
        out.append(figure(coloured(greys, own.shape), whose + ", depths"))
    if own.faces is not None:
        out.append(figure(coloured(show.colours_of_faces(own.faces.ravel().tolist()), own.shape), whose + ", faces"))
    return out


def section(outcome: Outcome, row: Row) -> str:
    """What the page says of a scene that differs."""
    asks, kills = (html.escape(text) for text in about(outcome, row))
    shown: list[str] = []
    if row.theirs is not None and row.found is not None:
        shown = pictures("ours", row.ours, row.case.scene.far) + pictures("theirs", row.theirs, row.case.scene.far) + [
            figure(report.differences(row.ours, row.theirs, row.found), "red: depths differ; blue: faces alone")]
    return "<section><h2>%s</h2><p>%s</p>%s<p>%d pixels differ. %s</p>%s</section>" % (
        html.escape(row.case.title), asks, "<p>It is there to find: %s.</p>" % kills if kills else "", row.pixels, html.escape(row.first),
        "\n".join(shown))


def as_page(outcome: Outcome) -> str:
    levels = "\n".join("<tr><td>%s</td><td>%d</td><td>%d</td><td>%d</td><td>%d</td></tr>" % (
        level, len(rows), outcome.count(ALIKE, rows), outcome.count(DIFFERS, rows), outcome.count(NOT_COMPARED, rows))
        for level, rows in outcome.levels())
    cause = "".join('<p class="cause">%s</p>' % html.escape(line) for line in outcome.cause)
    return PAGE % {"title": title(outcome), "renderer": html.escape(outcome.renderer), "levels": levels, "cause": cause,
                   "scenes": "\n".join(section(outcome, row) for row in outcome.rows if row.status == DIFFERS)}


FORMS: dict[str, Callable[[Outcome], str]] = {".json": as_json, ".xml": as_junit, ".html": as_page}


def form_of(path: str) -> Callable[[Outcome], str]:
    """What writes a file, by the end of its name. Raises `Trouble` for another one."""
    end = os.path.splitext(path)[1]
    if end not in FORMS:
        raise Trouble("%s: -o takes .json, .xml (JUnit) or .html (a page)" % path)
    return FORMS[end]
