"""Compares another renderer's maps with ours, and finds the cause of what differs (docs/COMPARE.md).

The package exports a function of this name too, `pxplanes.compare`: import from here with `from pxplanes.compare import
..`."""
