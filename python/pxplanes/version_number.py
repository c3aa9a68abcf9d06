"""The version of the package, which is that of the program and the library."""
VERSION = "1.0.0"
