"""Renderers with planted mistakes, over the suite: a mistake is named by its own cause or by none."""
import numpy as np
import pytest

import mistakes
import renderer_by_products
import renderer_by_rays
import singles
from pxplanes.compare import causes, picture, verdict
from pxplanes.suite import golden

PLANTED = list(mistakes.planted())
# Of each renderer: so many mistakes at least, and so many of them that must be named.
LEAST = {"events": (68, 59), "products": (46, 39), "rays": (55, 53), "held out": (20, 19), "later": (65, 47)}


@pytest.mark.parametrize("kind, name, word, draw", PLANTED, ids=["%s: %s" % row[:2] for row in PLANTED])
def test_a_mistake_is_named_rightly_or_not_at_all(kind, name, word, draw):
    said, found = mistakes.outcome(draw, word)
    assert said == (mistakes.NAMED if word else said if said == mistakes.RIGHT and name in RIGHT else mistakes.NONE), found


# What is right: these must be alike.
RIGHT = ("right", "right, real", "float32, 1e-6 noise")


@pytest.mark.parametrize("kind", LEAST)
def test_so_many_mistakes_have_a_cause(kind):
    words = [word for own, name, word, _ in PLANTED if own == kind and name not in RIGHT]
    assert len(words) >= LEAST[kind][0] and sum(word is not None for word in words) >= LEAST[kind][1]


def test_all_pictures_and_the_golden_maps_are_the_same():
    for case in mistakes.CASES:
        own = golden.maps_of(golden.SUITE, case.kind, case.name)
        shown = picture.picture(case.scene, picture.RIGHT, *picture.grid(case.scene))
        for depths, faces in ((shown.depths, shown.faces), renderer_by_products.Renderer().draw(case.text.decode()),
                              renderer_by_rays.Renderer().draw(case.text.decode())):
            assert np.array_equal(depths.ravel(), own.depths.ravel()), case.title
            assert np.array_equal(faces.ravel(), own.faces.ravel()), case.title


# ---- real renderers in single precision

@pytest.mark.parametrize("way", singles.WAYS)
def test_a_right_renderer_in_single_precision_is_alike_in_all_scenes(way):
    assert not any((each.state == verdict.WRONG).any() for each in singles.samples(way))


@pytest.mark.parametrize("nearer", [0.4, 0.01])
def test_what_is_too_near_is_alike_only_where_single_precision_has_room(nearer):
    for each in singles.samples(singles.plain, lambda depths: depths - nearer):
        assert (each.state == verdict.WRONG).any() or each.room() >= nearer / 2 or not (each.real.faces > 0).any(), each.scene.name


def test_thresholds_are_written_down_once():
    assert (causes.PIXELS, causes.SCENES, causes.ALONE, causes.PAIRS, causes.ERRORS, causes.MARGIN) == (20, 3, 200, 16, 0.005, 10)
