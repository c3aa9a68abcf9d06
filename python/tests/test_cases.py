"""Each folder of tools/cases: what its lines write."""
import os

import pytest
import support


def cases():
    """A parameter for each case; those that need a build are marked."""
    for name in sorted(os.listdir(support.CASES)):
        needs = support.needs_of_case(os.path.join(support.CASES, name))
        yield pytest.param(name, marks=[pytest.mark.after_build] * bool(support.OF_BUILDS & set(needs)))


@pytest.mark.parametrize("name", cases())
def test_case(name, built):
    case = os.path.join(support.CASES, name)
    support.skip_without(support.needs_of_case(case))
    wrong = support.wrong_in(case, built)
    assert wrong is None, wrong
