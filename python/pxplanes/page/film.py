"""A film: the page with one scene or listing in it, which plays the machine's broadcasts."""
import json
import re

from pxplanes import ends
from pxplanes.errors import Trouble
from pxplanes.machine import listings

PAGE = ends.PAGE
OWN = re.compile(r'(<script type="application/json" id="own">)null')


def with_scene(page: str, own: dict[str, object]) -> str:
    """The page with a scene of its own, and how it is shown, as the page itself writes it."""
    data = json.dumps(own, ensure_ascii=True, separators=(",", ":")).replace("<", "\\u003c")
    out, count = OWN.subn(lambda match: match.group(1) + data, page)
    if count != 1:
        raise Trouble("the page has no place for a scene of its own")
    return out


def film(name: str, text: bytes, first: int) -> str:
    """The page that plays a scene or a listing of this name from operation `first` on, counted from 0."""
    clocks = [0] + listings.Listing(text).ends[:-1]
    if first >= len(clocks):
        raise Trouble("it has the operations 0 to %d, and no operation %d" % (len(clocks) - 1, first))
    try:
        own = text.decode("utf-8")
    except UnicodeDecodeError:
        raise Trouble("%s is not UTF-8, and the page would change it" % name) from None
    with open(PAGE, encoding="utf-8") as page:
        return with_scene(page.read(), {"name": name, "text": own, "tab": "machine", "isFilm": True, "clock": clocks[first],
                                        "view": "best colours"})
