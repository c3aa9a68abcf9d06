"""Sphinx's configuration: the documents as one site, with a search that needs no server. tools/docs runs it."""
import os
import re
import shutil
import sys

from pygments.lexers.special import TextLexer
from sphinx.highlighting import lexers

TOP = os.path.dirname(os.path.dirname(os.path.abspath(__file__)))
sys.path.insert(0, os.path.join(TOP, "python"))
from pxplanes import version_number

PAGE = "page/pxplanes.html"
LINK = re.compile(r"\[([^\]\[]*)\]\(([^)#? :]+)\)")
# A picture whose link is a state of the page is that state on the site, and the picture on paper.
STATE = re.compile(r"\[!\[([^\]]*)\]\(([^)]+)\)\]\(([^)]*%s\?embed#[^)]+)\)" % re.escape(PAGE))
LIVE = r'<iframe class="live" src="\3" title="\1" loading="lazy"></iframe><img class="still" src="\2" alt="\1"/>'
TO_PAGE = re.compile(r"\[([^\]]*)\]\(([^)]*%s[^)]*)\)" % re.escape(PAGE))
CONTENTS = "\n\n```{toctree}\n:hidden:\n\n%s\n```\n"

project, author = "pxplanes", "the authors of pxplanes"
version = release = version_number.VERSION
extensions = ["myst_parser"]
root_doc = "README"
include_patterns = ["*.md", "docs/**", "**/README.md"]
exclude_patterns = ["built/**", "package/**", "**/node_modules/**", "**/.*/**"]
myst_heading_anchors = 4
html_theme = "alabaster"
html_theme_options = {"page_width": "1100px", "sidebar_width": "240px", "fixed_sidebar": True, "show_powered_by": False}
html_static_path = ["site.css"]
html_css_files = ["site.css"]
html_copy_source = html_show_copyright = html_show_sphinx = False
html_sidebars = {"**": ["about.html", "searchbox.html", "globaltoc.html"]}
# (the language of definitions and theorems)
lexers["antt"] = TextLexer()


def chapters():
    """The documents that docs/README.md names, in its order."""
    with open(os.path.join(TOP, "docs", "README.md"), encoding="utf-8") as file:
        links = [link for _, link in LINK.findall(file.read())]
    return ["docs/README"] + list(dict.fromkeys(os.path.normpath("docs/" + link)[:-3] for link in links))


def prepare(_app, name, source):
    """Makes the links of one document those of the site."""
    def folder(found):
        words, link = found.groups()
        if not os.path.isdir(os.path.join(TOP, os.path.dirname(name), link)):
            return found[0]
        there = os.path.exists(os.path.join(TOP, os.path.dirname(name), link, "README.md"))
        return "[%s](%s/README.md)" % (words, link.rstrip("/")) if there else words

    text = LINK.sub(folder, TO_PAGE.sub(r'<a href="\2">\1</a>', STATE.sub(LIVE, source[0])))
    orphan = name != root_doc and name not in chapters()
    source[0] = ("---\norphan: true\n---\n" if orphan else "") + text + (
        CONTENTS % "\n".join(chapters()) if name == root_doc else "")


def with_page(app, error):
    """Puts the page, and the still pictures of its states, where the documents look for them."""
    for name in () if error else (PAGE, *stills()):
        os.makedirs(os.path.join(app.outdir, os.path.dirname(name)), exist_ok=True)
        shutil.copy(os.path.join(TOP, name), os.path.join(app.outdir, name))


def stills():
    """The pictures that stand for states of the page."""
    for name in chapters():
        with open(os.path.join(TOP, name + ".md"), encoding="utf-8") as file:
            for _, still, _ in STATE.findall(file.read()):
                yield os.path.normpath(os.path.join(os.path.dirname(name), still))


def setup(app):
    app.connect("source-read", prepare)
    app.connect("build-finished", with_page)
