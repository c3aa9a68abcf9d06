"""`python -m pxplanes WORD ..` is the command `pxplanes`."""
import sys

from pxplanes.cli.frame import main

if __name__ == "__main__":
    sys.exit(main())
