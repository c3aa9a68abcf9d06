"""The exercises of docs/LESSON_HANDOUT.md with their answers, and at which scene and clock the studio opens each. It is no tool
itself."""
import os
import re
from typing import Any

from pxplanes import ends
from pxplanes.errors import Trouble
from pxplanes.machine import sessions

HANDOUT, ANSWERS = (os.path.join(ends.TOP, "docs", leaf) for leaf in ("LESSON_HANDOUT.md", "LESSON_ANSWERS.md"))
QUESTION = re.compile(r"^\*\*Exercise (\d+)\.\*\* (.*?)(?=\n\n|\n*\Z)", re.M | re.S)
ANSWER = re.compile(r"^(\d+)\. (.*?)(?=^\d+\. |\Z)", re.M | re.S)
HEADING = re.compile(r"^## (.*)$", re.M)
TWO_FRONTS = os.path.join("docs", "scenes", "two_fronts.scene")
TRIANGLE = os.path.join("docs", "scenes", "triangle.scene")


class Place:
    """Where an exercise begins: a text of the repository, a clock, what is shown of the array, and a pixel. `seen` is the
    clock at which its answer is seen, `counts` the one from which the answer counts its clocks, and `asks` what is typed,
    with the numbers that the answer has."""

    def __init__(self, path: str, clock: int, view: str, pixel: tuple[int, int] = (0, 0), seen: int | None = None,
                 counts: int = 0, asks: tuple[tuple[str, int], ...] = ()) -> None:
        self.path, self.shown = path, {"clock": clock, "view": view, "pixel": pixel, "seen": seen, "counts": counts, "asks": asks}
        self.asks = asks


def case(name: str) -> str:
    return os.path.join("cases", name, "stdin")


PLACES = {1: Place(case("lesson_one_line"), 205, "leaf", (2, 1), 209, asks=(("the leaf", 9), ("its sum", 8))),
          2: Place(case("lesson_one_line"), 205, "leaf", asks=(("nodes, if only B changes", 16),)),
          3: Place(case("lesson_one_line"), 205, "leaf", (0, 1), 209),
          4: Place(case("lesson_comparison"), 393, "carry", counts=393),
          5: Place(case("lesson_comparison"), 393, "carry", (1, 0), 401), 6: Place(case("one_solid"), 9, "enable"),
          7: Place(case("one_solid"), 149, "enable", (1, 1), 317),
          8: Place(case("one_solid"), 0, "enable", asks=(("operations", 24), ("clocks", 403))),
          9: Place(case("one_solid"), 0, "enable", asks=(("clocks", 445),)),
          10: Place(case("lesson_solid_without_a_cell"), 0, "best depth", (0, 0), 7,
                    asks=(("operations", 2), ("clocks", 7))),
          11: Place(case("lesson_leaf_9"), 210, "leaf", (2, 1), asks=(("the number of its four bits", 8),)),
          12: Place(case("lesson_two_more_pixels"), 397, "carry", seen=401),
          13: Place(case("lesson_enable_falls"), 52, "enable"),
          14: Place(case("lesson_solid_without_a_cell"), 7, "best depth", seen=7), 15: Place(case("play_an_adder"), 0, "2"),
          16: Place(case("play_a_comparison"), 0, "4"), 17: Place(TWO_FRONTS, 0, "best depth"),
          18: Place(case("play_two_sums"), 1, "carry", (1, 1)),
          19: Place(case("lesson_comparison"), 393, "carry"), 20: Place(case("one_solid"), 0, "enable")}

SIDES = (("after side 1", 207), ("side 2", 143), ("side 3", 112))
OWN = {"number": "", "part": "On this page alone", "question":
       "Draw a triangle with three edges, and watch enable. Its text is open here, and the machine is just before the candidate that "
       "is seen in the end, face 2. Step by whole operations (the key m), and say before each which pixels will stay. How many of "
       "the 256 are enabled after each of the three sides? Why do two more edges follow, and what do they take away? What is "
       "different with face 1, whose candidate comes before? Then turn a side about, by the other sign of its three numbers.",
       "answer":
       "`all` enables 256 pixels, and the three sides leave 207, 143 and 112. Of the two further edges one asks whether the front "
       "is behind the near face, and the other whether it is before the far limit: at 5 both hold everywhere, so they take "
       "nothing away. Face 1 is the near face, at 0. It has the same sides, but it is not at or behind the front: that edge "
       "leaves no pixel, and so nothing of it is written. A side with its three signs turned keeps what it left out, and what lies on "
       "the edge itself, where the form is 0."}


def shown(number: int | str, part: str, question: str, answer: str, place: Place) -> dict[str, Any]:
    text = sessions.parted(ends.content(os.path.join(ends.TOP, place.path)))[0].decode("utf-8")
    for _, asked in place.asks:
        if not re.search(r"\b%d\b" % asked, answer):
            raise Trouble("the answer to exercise %s does not have the number %d" % (number, asked))
    name = os.path.basename(os.path.dirname(place.path)) if place.path.endswith("stdin") else os.path.basename(place.path)
    return {"number": number, "part": part, "question": question, "answer": answer, "name": name, "text": text,
            **place.shown}


def exercises() -> list[dict[str, Any]]:
    """What the page shows of each exercise that has a place; its own one is the first."""
    asked, answered = (ends.content(path).decode() for path in (HANDOUT, ANSWERS))
    answers = {int(number): re.sub(r"^   ", "", said, flags=re.M).strip() for number, said in ANSWER.findall(answered)}
    own = Place(TRIANGLE, 271, "enable", (7, 8), 419, asks=SIDES)
    found = [shown("", OWN["part"], OWN["question"], OWN["answer"], own)]
    for match in QUESTION.finditer(asked):
        number = int(match.group(1))
        if number in PLACES:
            part = HEADING.findall(asked, 0, match.start())[-1]
            found.append(shown(number, part, " ".join(match.group(2).split("\n")), answers[number], PLACES[number]))
    return found
