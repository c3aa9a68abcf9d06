"""Wrong files are refused and right ones are proved. Without --all-files a part of them is tried."""
import pathlib
import shutil

import pytest
from conftest import TESTS, Edited, edited, option_of, run

needs = pytest.mark.skipif(not (shutil.which("yosys") and shutil.which("iverilog")),
                           reason="there is no yosys or no iverilog")
WRONG, FOOLING, RIGHT = edited("wrong.txt"), edited("fooling.txt"), edited("right.txt")
FILES = sorted((TESTS / "right").iterdir())
# Tried in each run: one of each module, and each way to fool a prover.
SHORT = {"a_carry_that_enable_guards", "an_even_node_that_adds", "crossed_at_level_9", "pixels_of_one_leaf",
         "an_array_on_the_other_line",
         "sequencer_all_that_does_nothing_at_length_0", "pixel_ties_tree", "pixel_inverts_value",
         "pixel_drives_value_by_another_helper",
         "pixel_claims_a_constant_on_a_gate", "pixel_outputs_tree", "node_joins_line_and_parent", "tree_ties_feed",
         "column_ties_value",
         "array_ties_feed", "sequencer_ties_start", "pixel_redefines_px_acts",
         "pixel_has_a_helper_called_acts", "node_stores_a_moment_later", "pixel_has_a_bit_line", "a_sum_in_two_bits.v",
         "a_column_from_below.v"}


def chosen(request: pytest.FixtureRequest, name: str) -> None:
    if name not in SHORT and not request.config.getoption("--all-files"):
        pytest.skip("a long run: --all-files tries it")


@needs
@pytest.mark.parametrize("file", WRONG + FOOLING, ids=lambda file: file.name)
def test_wrong_file_is_not_proved(file: Edited, tmp_path: pathlib.Path, request: pytest.FixtureRequest) -> None:
    chosen(request, file.name)
    status, printed = run("prove", "--simulator", "iverilog", file.option, file.written(tmp_path), folder=tmp_path)
    assert status in (1, 2, 3), printed
    words = ("WRONG", "REFUSED", "not decided", "a name that this tool needs")
    assert any(word in printed for word in words), printed


@needs
@pytest.mark.parametrize("file", RIGHT, ids=lambda file: file.name)
def test_right_edit_is_proved(file: Edited, tmp_path: pathlib.Path, request: pytest.FixtureRequest) -> None:
    chosen(request, file.name)
    status, printed = run("prove", "--simulator", "iverilog", file.option, file.written(tmp_path), folder=tmp_path)
    assert status == 0, printed


@needs
@pytest.mark.parametrize("path", FILES, ids=lambda path: path.name)
def test_right_file_is_proved(path: pathlib.Path, tmp_path: pathlib.Path, request: pytest.FixtureRequest) -> None:
    chosen(request, path.name)
    status, printed = run("prove", "--simulator", "iverilog", option_of(path), path, folder=tmp_path)
    # A tree or an array of another shape is not asked about at every size.
    expected = 3 if "not asked" in printed else 0
    assert status == expected, printed
    assert "WRONG" not in printed and "REFUSED" not in printed
