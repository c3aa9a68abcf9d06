"""Copies the suite into a renderer's own repository, with a README and examples for CI."""
import os
import shutil

from pxplanes.errors import Trouble
from pxplanes.suite import golden

COMMAND = "pxplanes suite run --golden --suite suite -o suite.xml './mine {scene} {out}'"
README = """# The pxplanes suite

Scenes with golden maps of their depths and faces, to test a renderer. Nothing here needs the program: install the Python package, with its
libraries, and run

    pip install pxplanes numpy OpenImageIO
    %s

`./mine` stands for your renderer: {scene} becomes the path of a scene, and {out} that of the map to write, in any form that OpenImageIO reads,
or as NPY or text. `pxplanes suite run --help` lists the options. Scenes that are known to differ go into a file, KIND/NAME a line, for --expect.
`.github/workflows/suite.yml` and `.gitlab-ci.yml` are examples for CI; suite/README.md says what the scenes ask.
""" % COMMAND
GITHUB = """name: suite
on: [push, pull_request]
jobs:
  suite:
    runs-on: ubuntu-latest
    steps:
      - uses: actions/checkout@v4
      - run: make                  # builds ./mine
      - run: pip install pxplanes numpy OpenImageIO
      - run: %s
      - uses: actions/upload-artifact@v4
        if: always()
        with: {name: suite, path: suite.xml}
""" % COMMAND
GITLAB = """suite:
  image: python:3
  script:
    - make                         # builds ./mine
    - pip install pxplanes numpy OpenImageIO
    - "%s"
  artifacts:
    when: always
    reports: {junit: suite.xml}
""" % COMMAND


def copy(folder: str, suite: str = golden.SUITE) -> None:
    """Writes a folder with the suite, a README, and workflows for GitHub and GitLab. Raises `Trouble` if it has
    something already."""
    if os.path.exists(folder) and os.listdir(folder):
        raise Trouble("%s is not empty: nothing there is overwritten" % folder)
    shutil.copytree(suite, os.path.join(folder, "suite"))
    for path, text in (("README.md", README), (".github/workflows/suite.yml", GITHUB), (".gitlab-ci.yml", GITLAB)):
        path = os.path.join(folder, path)
        os.makedirs(os.path.dirname(path), exist_ok=True)
        with open(path, "w") as file:
            file.write(text)
